//! A text as tokens. Nothing is refused here: what fits nowhere becomes a
//! token of its own, for the parser to tell where it stands in the way.

use crate::mistake::Span;

#[derive(Clone, Copy, Debug, PartialEq, Eq)]
pub enum Kind {
    /// A name or a number: which of them, the place decides.
    Word,
    /// "..." with its quotes; a quote in it is doubled.
    String,
    Op,
    Var,
    Rule,
    Open,
    Close,
    OpenGroup,
    CloseGroup,
    Comma,
    Equals,
    Slash,
    Colon,
    /// A string whose closing quote is not on its line.
    UnclosedString,
    Stray,
    End,
}

#[derive(Clone, Copy, Debug)]
pub struct Token {
    pub kind: Kind,
    pub span: Span,
}

/// Letters and digits of any script, and `_ ' - . & +`.
pub fn is_name_character(character: char) -> bool {
    character.is_alphanumeric() || "_'-.&+".contains(character)
}

/// Editors on Windows begin a file with the mark U+FEFF.
pub fn is_space(character: char) -> bool {
    character.is_whitespace() || character == '\u{feff}'
}

/// Whether there is nothing but space and comments.
pub fn is_blank(source: &str) -> bool {
    tokens(source).len() == 1
}

pub fn tokens(source: &str) -> Vec<Token> {
    let mut tokens = Vec::new();
    let mut at = 0;
    while let Some(first) = source[at..].chars().next() {
        let rest = &source[at..];
        let length = match first {
            '#' => rest.find('\n').unwrap_or(rest.len()),
            _ if is_space(first) => first.len_utf8(),
            _ => {
                let (kind, length) = token(first, rest);
                let span = Span::new(at, at + length);
                tokens.push(Token { kind, span });
                length
            }
        };
        at += length;
    }
    let span = Span::new(source.trim_end().len(), source.trim_end().len());
    tokens.push(Token {
        kind: Kind::End,
        span,
    });
    tokens
}

fn token(first: char, rest: &str) -> (Kind, usize) {
    if is_name_character(first) {
        return word(rest);
    }
    let kind = match first {
        '"' => return string(rest),
        '(' => Kind::Open,
        ')' => Kind::Close,
        '{' => Kind::OpenGroup,
        '}' => Kind::CloseGroup,
        ',' => Kind::Comma,
        '=' => Kind::Equals,
        '/' => Kind::Slash,
        ':' => Kind::Colon,
        _ => Kind::Stray,
    };
    (kind, first.len_utf8())
}

fn word(rest: &str) -> (Kind, usize) {
    let length = rest
        .find(|character| !is_name_character(character))
        .unwrap_or(rest.len());
    let kind = match &rest[..length] {
        "op" => Kind::Op,
        "var" => Kind::Var,
        "rule" => Kind::Rule,
        _ => Kind::Word,
    };
    (kind, length)
}

fn string(rest: &str) -> (Kind, usize) {
    let mut at = 1;
    while let Some(length) = rest[at..].find(['"', '\n']) {
        at += length;
        match &rest[at..] {
            doubled if doubled.starts_with("\"\"") => at += 2,
            closing if closing.starts_with('"') => return (Kind::String, at + 1),
            _ => {
                return (
                    Kind::UnclosedString,
                    rest[..at].trim_end_matches('\r').len(),
                )
            }
        }
    }
    (Kind::UnclosedString, rest.len())
}

/// The characters between a string's quotes, with the place of each.
pub fn inside(string: &str) -> impl Iterator<Item = (usize, char)> + '_ {
    let inner = &string[..string.len() - 1];
    let mut is_first = false;
    inner.char_indices().skip(1).filter(move |(_, character)| {
        is_first = *character == '"' && !is_first;
        *character != '"' || is_first
    })
}

/// A text as it stands in a string.
pub fn escaped(text: &str) -> String {
    text.replace('"', "\"\"")
}
