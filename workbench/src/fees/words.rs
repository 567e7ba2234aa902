//! Tables in text form: a row on each line, of words that end in a rate or a
//! share; `#` begins a comment.

use crate::mistake::{Mistake, Span};
use crate::text::lexer::is_space;
use crate::told::quoted;

/// A word, or what stands between quotes with them, where it stands.
#[derive(Clone, Copy, Debug)]
pub struct Word<'s> {
    pub text: &'s str,
    pub span: Span,
}

/// A line's words but the last, and the last.
pub struct Row<'s> {
    pub names: Vec<Word<'s>>,
    pub share: Word<'s>,
}

/// The rows of a text, and a mistake for each line that is none.
pub fn rows<'s>(source: &'s str, expected: &str) -> (Vec<Row<'s>>, Vec<Mistake>) {
    let (mut rows, mut mistakes) = (Vec::new(), Vec::new());
    let mut start = 0;
    for line in source.split_inclusive('\n') {
        let mut words = words(line, start);
        start += line.len();
        match (words.pop(), words.is_empty()) {
            (None, _) => {}
            (Some(only), true) => {
                let wrong = format!("{} stands alone", quoted(only.text));
                mistakes.push(Mistake::new(only.span, wrong, expected));
            }
            (Some(share), false) => rows.push(Row {
                names: words,
                share,
            }),
        }
    }
    (rows, mistakes)
}

fn words(line: &str, start: usize) -> Vec<Word<'_>> {
    let mut words = Vec::new();
    let mut at = 0;
    while let Some(first) = line[at..].chars().next() {
        if first == '#' {
            break;
        }
        let length = match is_space(first) {
            true => first.len_utf8(),
            false => {
                let length = word_length(&line[at..]);
                words.push(Word {
                    text: &line[at..at + length],
                    span: Span::new(start + at, start + at + length),
                });
                length
            }
        };
        at += length;
    }
    words
}

/// A word ends before a space or a comment; one in quotes behind its quote, if
/// that is there.
fn word_length(rest: &str) -> usize {
    if let Some(inside) = rest.strip_prefix('"') {
        let first = inside.chars().next().map_or(0, char::len_utf8);
        // A quote is doubled.
        let first = if inside.starts_with("\"\"") { 2 } else { first };
        if inside[first..].starts_with('"') {
            return 1 + first + 1;
        }
    }
    let is_end = |character: char| is_space(character) || character == '#';
    rest.find(is_end).unwrap_or(rest.len())
}
