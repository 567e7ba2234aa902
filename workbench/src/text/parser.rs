//! Tokens as statements. A statement with a mistake is told once, and reading
//! goes on at the next word `op`, `var` or `rule`, or at a line that begins with
//! `from` and a day.

use crate::compose::is_loose_accent;
use crate::day;
use crate::letters;
use crate::mistake::{place_from, Mistake, Span};
use crate::names::nearest;
use crate::text::lexer::{inside, tokens, Kind, Token};
use crate::told::{code_point, quoted};

/// A name where it stands.
#[derive(Clone, Debug)]
pub struct Name {
    pub text: String,
    pub span: Span,
}

impl Name {
    fn new(text: &str, span: Span) -> Name {
        let text = text.to_owned();
        Name { text, span }
    }
}

/// A name inside a term, with what was written behind it.
#[derive(Clone, Debug)]
pub struct Word {
    pub name: Name,
    pub arguments: usize,
    /// The number in `X:5`.
    pub number: Option<(u8, Span)>,
    /// It comes from a string, as one of its characters or as its `end`.
    pub spelled: bool,
}

impl Word {
    /// In a book with the letters of payees' texts, a character of a string
    /// that no operator is named by is the letter of its class.
    pub fn to_letter(&mut self, is_known: impl Fn(&str) -> bool) {
        let mut characters = self.name.text.chars();
        if let (true, Some(only), None) = (self.spelled, characters.next(), characters.next()) {
            if let (false, Some(letter)) = (is_known(&self.name.text), letters::letter(only)) {
                self.name.text = letter.to_owned();
            }
        }
    }
}

/// A term's names in preorder; how they nest is for the arities to say.
pub type Words = Vec<Word>;

/// A strategy's items in the book's numbers: 8 opens a group, 9 closes it.
#[derive(Clone, Debug)]
pub struct Strategy {
    pub items: Vec<(u8, Span)>,
    pub close: Span,
}

#[derive(Clone, Debug)]
pub enum Statement {
    /// `op letters`, and where its second word stands.
    Letters(Span),
    Operators {
        names: Vec<Name>,
        arity: u8,
        strategy: Option<Strategy>,
    },
    Variables(Vec<Name>),
    /// `from DAY`: the day of the rules behind it.
    From {
        keyword: Span,
        day: u16,
    },
    /// What a mistaken declaration may have meant to declare.
    Unclear(Vec<Name>),
    Rule {
        keyword: Span,
        left: Words,
        right: Words,
    },
}

/// All statements that could be read, and a mistake for each that could not.
pub fn parse(source: &str) -> (Vec<Statement>, Vec<Mistake>) {
    let mut parser = Parser::new(source);
    let mut statements = Vec::new();
    let mut mistakes = Vec::new();
    while parser.peek().kind != Kind::End {
        let start = parser.at;
        match parser.statement() {
            Ok(statement) => statements.push(statement),
            Err(mistake) => {
                mistakes.push(mistake);
                parser.skip_statement();
                statements.push(parser.unclear(start));
            }
        }
    }
    (statements, mistakes)
}

/// A single term and nothing after it.
pub fn parse_term(source: &str) -> Result<Words, Mistake> {
    let mut parser = Parser::new(source);
    let words = parser.term()?;
    match parser.peek().kind {
        Kind::End => Ok(words),
        _ => Err(parser.unexpected("the end of the line after the term")),
    }
}

/// An application whose parenthesis is still open.
struct Opened {
    word: usize,
    parenthesis: Span,
    arguments: usize,
}

struct Parser<'s> {
    source: &'s str,
    tokens: Vec<Token>,
    at: usize,
}

impl<'s> Parser<'s> {
    fn new(source: &'s str) -> Parser<'s> {
        Parser {
            source,
            tokens: tokens(source),
            at: 0,
        }
    }

    fn peek(&self) -> Token {
        self.tokens[self.at]
    }

    fn take(&mut self) -> Token {
        let token = self.peek();
        if token.kind != Kind::End {
            self.at += 1;
        }
        token
    }

    fn take_if(&mut self, kind: Kind) -> Option<Token> {
        (self.peek().kind == kind).then(|| self.take())
    }

    fn expect(&mut self, kind: Kind, what: &str) -> Result<Token, Mistake> {
        self.take_if(kind).ok_or_else(|| self.unexpected(what))
    }

    fn written(&self, span: Span) -> &'s str {
        &self.source[span.start..span.end]
    }

    fn unexpected(&self, what: &str) -> Mistake {
        let Token { kind, span } = self.peek();
        let (wrong, instead) = found(kind, self.written(span));
        Mistake::new(span, wrong, instead.unwrap_or(what))
    }

    /// On the mistaken statement's own line, `op`, `var` and `rule` are taken
    /// for names that can't be, and not for statements.
    fn skip_statement(&mut self) {
        let here = self.peek().span.start;
        let before = self.at.checked_sub(1).map(|last| self.tokens[last].span);
        if before.is_some_and(|before| !self.source[before.end..here].contains('\n')) {
            self.take();
        }
        while !matches!(
            self.peek().kind,
            Kind::Op | Kind::Var | Kind::Rule | Kind::End
        ) && !self.day_follows(0)
        {
            self.take();
        }
    }

    fn is_from(&self, token: Token) -> bool {
        token.kind == Kind::Word && self.written(token.span) == FROM
    }

    /// Whether `from` and a day begin a line so many tokens ahead. Elsewhere
    /// `from` may be a name.
    fn day_follows(&self, ahead: usize) -> bool {
        let [word, after] = [0, 1].map(|next| self.tokens.get(self.at + ahead + next));
        let (Some(&word), Some(after)) = (word, after) else {
            return false;
        };
        let before = (self.at + ahead).checked_sub(1);
        let before = before.map_or(0, |before| self.tokens[before].span.end);
        let is_first = before == 0 || self.source[before..word.span.start].contains('\n');
        let digits = self
            .written(after.span)
            .starts_with(|one: char| one.is_ascii_digit());
        is_first && self.is_from(word) && after.kind == Kind::Word && digits
    }

    /// All words and characters of the declaration that starts there and ends
    /// here: their uses aren't to be told as mistakes too. `letters` may lack
    /// its `op`.
    fn unclear(&self, start: usize) -> Statement {
        let first = self.tokens[start];
        let mut names = Vec::new();
        if matches!(first.kind, Kind::Op | Kind::Var) {
            for &Token { kind, span } in &self.tokens[start + 1..self.at] {
                let written = self.written(span);
                match kind {
                    Kind::Word => {
                        names.push(Name::new(written, span));
                        names.extend(meant_letters(written, span));
                    }
                    _ => names.extend(written.chars().map(|one| Name::new(&spelled(one), span))),
                }
            }
        } else if first.kind == Kind::Word {
            names.extend(meant_letters(self.written(first.span), first.span));
        }
        Statement::Unclear(names)
    }

    fn statement(&mut self) -> Result<Statement, Mistake> {
        let keyword = self.peek();
        let (statement, next) = match keyword.kind {
            Kind::Op if self.letters_follow() => {
                self.take();
                let next = "'op', 'var', 'rule' or 'from' after 'op letters'";
                (Statement::Letters(self.take().span), next)
            }
            Kind::Op => {
                self.take();
                let next = "a strategy in parentheses, 'op', 'var', 'rule' or 'from'";
                (self.operators()?, next)
            }
            Kind::Var => {
                self.take();
                let names = self.names("a variable's name")?;
                let next = "another name, 'op', 'var', 'rule' or 'from'";
                (Statement::Variables(names), next)
            }
            Kind::Rule => {
                self.take();
                let next = "'op', 'var', 'rule' or 'from' after the rule";
                (self.rule(keyword.span)?, next)
            }
            _ if self.is_from(keyword) => {
                self.take();
                let next = "'op', 'var', 'rule' or 'from' after the day";
                let (keyword, day) = (keyword.span, self.day()?);
                (Statement::From { keyword, day }, next)
            }
            _ => return Err(self.unexpected("'op', 'var', 'rule' or 'from'")),
        };
        match self.peek().kind {
            Kind::Op | Kind::Var | Kind::Rule | Kind::End => Ok(statement),
            _ if self.is_from(self.peek()) => Ok(statement),
            _ => Err(self.unexpected(next)),
        }
    }

    fn day(&mut self) -> Result<u16, Mistake> {
        let token = self.peek();
        if token.kind != Kind::Word {
            return Err(self.unexpected(day::EXPECTED));
        }
        let read = day::read(self.written(token.span));
        let day = read.map_err(|wrong| Mistake::new(token.span, wrong, day::EXPECTED))?;
        self.take();
        Ok(day)
    }

    /// Before an arity or another name, `letters` is a name as any other.
    fn letters_follow(&self) -> bool {
        let [word, after] = [1, 2].map(|ahead| self.tokens.get(self.at + ahead));
        word.is_some_and(|word| self.written(word.span) == letters::KEYWORD)
            && (self.day_follows(2)
                || !after.is_some_and(|after| {
                    matches!(after.kind, Kind::Word | Kind::String | Kind::Slash)
                }))
    }

    fn operators(&mut self) -> Result<Statement, Mistake> {
        let names = self.operator_names()?;
        self.expect(Kind::Slash, "'/' and the arity, as in 'both/2'")?;
        let (arity, _) = self.number("an arity from 0 to 7", 7)?;
        let strategy = match self.take_if(Kind::Open) {
            Some(open) => Some(self.strategy(open.span)?),
            None => None,
        };
        Ok(Statement::Operators {
            names,
            arity,
            strategy,
        })
    }

    /// Names, and characters in quotes for use in strings.
    fn operator_names(&mut self) -> Result<Vec<Name>, Mistake> {
        let mut names = Vec::new();
        loop {
            let token = self.peek();
            match token.kind {
                Kind::String => names.push(self.character()?),
                Kind::Word => names.push(self.name("an operator's name")?),
                _ if names.is_empty() => return Err(self.unexpected("an operator's name")),
                _ => return Ok(names),
            }
        }
    }

    fn character(&mut self) -> Result<Name, Mistake> {
        let span = self.peek().span;
        let mut inside = inside(self.written(span));
        match (inside.next(), inside.next()) {
            (Some((_, character)), None) => {
                self.take();
                Ok(Name::new(&spelled(character), span))
            }
            _ => Err(self.unexpected("a single character in the quotes, or a name without quotes")),
        }
    }

    fn names(&mut self, what: &str) -> Result<Vec<Name>, Mistake> {
        let mut names = vec![self.name(what)?];
        while self.peek().kind == Kind::Word && !self.day_follows(0) {
            names.push(self.name(what)?);
        }
        Ok(names)
    }

    fn name(&mut self, what: &str) -> Result<Name, Mistake> {
        let span = self.expect(Kind::Word, what)?.span;
        Ok(Name::new(self.written(span), span))
    }

    fn number(&mut self, what: &str, most: u8) -> Result<(u8, Span), Mistake> {
        let token = self.peek();
        let written = self.written(token.span);
        let digits = written.bytes().all(|byte| byte.is_ascii_digit());
        match written.parse::<u8>() {
            Ok(number) if token.kind == Kind::Word && digits && number <= most => {
                self.take();
                Ok((number, token.span))
            }
            _ => Err(self.unexpected(what)),
        }
    }

    /// Behind the opening parenthesis. That groups don't nest and the like is
    /// checked later, where the arity is known.
    fn strategy(&mut self, open: Span) -> Result<Strategy, Mistake> {
        let mut items: Vec<(u8, Span)> = Vec::new();
        loop {
            let Token { kind, span } = self.peek();
            match kind {
                Kind::OpenGroup => items.push((8, span)),
                Kind::CloseGroup => items.push((9, span)),
                Kind::Close => {
                    self.take();
                    return Ok(Strategy { items, close: span });
                }
                _ if self.is_over() => {
                    let group = items.iter().rfind(|item| matches!(item.0, 8 | 9));
                    return Err(match group {
                        Some(&(8, group)) => self.unclosed(group, "'}'"),
                        _ => self.unclosed(open, "')'"),
                    });
                }
                _ => {
                    items.push(self.number(STRATEGY_ITEM, 7)?);
                    continue;
                }
            }
            self.take();
        }
    }

    fn rule(&mut self, keyword: Span) -> Result<Statement, Mistake> {
        let left = self.term()?;
        if self.is_over() && self.peek().kind != Kind::Equals {
            return Err(self.without_right_side(keyword, "'=' and a term"));
        }
        self.expect(Kind::Equals, "'=' between the sides of the rule")?;
        if self.is_over() {
            return Err(self.without_right_side(keyword, "a term behind '='"));
        }
        let right = self.term()?;
        Ok(Statement::Rule {
            keyword,
            left,
            right,
        })
    }

    fn without_right_side(&self, keyword: Span, what: &str) -> Mistake {
        let expected = format!("{what} before {}", self.end_from(keyword.start));
        Mistake::new(keyword, "the rule has no right side", expected)
    }

    /// Whether a term or strategy can't go on here, whatever is still open.
    fn is_over(&self) -> bool {
        self.day_follows(0)
            || matches!(
                self.peek().kind,
                Kind::Op | Kind::Var | Kind::Rule | Kind::Equals | Kind::End
            )
    }

    /// What was opened there and isn't closed before the term or strategy ends.
    fn unclosed(&self, open: Span, closing: &str) -> Mistake {
        let wrong = format!("{} isn't closed", quoted(self.written(open)));
        let expected = format!("{closing} before {}", self.end_from(open.start));
        Mistake::new(open, wrong, expected)
    }

    /// The token that is due, as it is told from an earlier place.
    fn end_from(&self, earlier: usize) -> String {
        let Token { kind, span } = self.peek();
        match kind {
            Kind::End => "the text ends".into(),
            _ => {
                let place = place_from(self.source, earlier, span.start);
                format!("{} {place}", quoted(self.written(span)))
            }
        }
    }

    /// The open applications are a list and not calls of this function, so
    /// that no nesting is too deep.
    fn term(&mut self) -> Result<Words, Mistake> {
        let mut words = Vec::new();
        let mut open: Vec<Opened> = Vec::new();
        loop {
            if let (true, Some(innermost)) = (self.is_over(), open.last()) {
                return Err(self.unclosed(innermost.parenthesis, "a term and ')'"));
            }
            if !self.symbol(&mut words)? {
                self.close(&mut words, &mut open)?;
                if open.is_empty() {
                    return Ok(words);
                }
                continue;
            }
            let parenthesis = self.take().span;
            if self.peek().kind == Kind::Close {
                return Err(self.unexpected("a term; a constant stands without parentheses"));
            }
            open.push(Opened {
                word: words.len() - 1,
                parenthesis,
                arguments: 1,
            });
        }
    }

    /// Reads one symbol; answers whether its arguments follow.
    fn symbol(&mut self, words: &mut Words) -> Result<bool, Mistake> {
        if self.peek().kind == Kind::String {
            return self.string(words);
        }
        let name = self.name("a term")?;
        let number = match self.take_if(Kind::Colon) {
            Some(_) => Some(self.number("a variable's number from 0 to 15", 15)?),
            None => None,
        };
        words.push(Word {
            name,
            arguments: 0,
            number,
            spelled: false,
        });
        Ok(self.peek().kind == Kind::Open)
    }

    /// "abc" spells a(b(c(end))), and "abc"(t) spells a(b(c(t))).
    fn string(&mut self, words: &mut Words) -> Result<bool, Mistake> {
        let span = self.take().span;
        let followed = self.peek().kind == Kind::Open;
        for (offset, character) in inside(self.written(span)) {
            let start = span.start + offset;
            let place = Span::new(start, start + character.len_utf8());
            words.push(spelled_word(&spelled(character), place, 1));
        }
        if followed && span.end - span.start == 2 {
            return Err(self.unexpected("at least one character in the string before it"));
        }
        if !followed {
            let quote = Span::new(span.end - 1, span.end);
            words.push(spelled_word("end", quote, 0));
        }
        Ok(followed)
    }

    /// After a whole part: closes what ends here, up to a comma or the end.
    fn close(&mut self, words: &mut Words, open: &mut Vec<Opened>) -> Result<(), Mistake> {
        while let Some(innermost) = open.last_mut() {
            match self.peek().kind {
                Kind::Comma => {
                    innermost.arguments += 1;
                    self.take();
                    return Ok(());
                }
                Kind::Close => {
                    words[innermost.word].arguments = innermost.arguments;
                    self.take();
                    open.pop();
                }
                _ if self.is_over() => {
                    return Err(self.unclosed(innermost.parenthesis, "',' or ')'"));
                }
                _ => {
                    let (here, open) = (self.peek().span, innermost.parenthesis);
                    let place = place_from(self.source, here.start, open.start);
                    let what = format!("',' or ')': still open is the '(' {place}");
                    return Err(self.unexpected(&what));
                }
            }
        }
        Ok(())
    }
}

/// All letters, if the word of a mistaken declaration may mean them.
pub fn meant_letters(word: &str, span: Span) -> Vec<Name> {
    let letters = letters::NAMES.map(|name| Name::new(name, span));
    match nearest([letters::KEYWORD].into_iter(), word) {
        Some(_) => letters.to_vec(),
        None => Vec::new(),
    }
}

/// Before a day.
const FROM: &str = "from";

const STRATEGY_ITEM: &str = "'0' for the whole term, an argument's number, '{', '}' or ')'";

fn spelled_word(text: &str, span: Span, arguments: usize) -> Word {
    Word {
        name: Name::new(text, span),
        arguments,
        number: None,
        spelled: true,
    }
}

/// The operator that a character of a string stands for.
pub fn spelled(character: char) -> String {
    match character {
        ' ' => "_".into(),
        _ => character.into(),
    }
}

/// What is wrong about a token, and what is expected whatever was due there.
fn found(kind: Kind, written: &str) -> (String, Option<&'static str>) {
    match kind {
        Kind::End => ("the text ends".into(), None),
        Kind::UnclosedString => (
            "a string isn't closed".into(),
            Some("'\"' on the same line"),
        ),
        Kind::Op | Kind::Var | Kind::Rule => (format!("'{written}' begins a statement"), None),
        Kind::Stray => stray(written.chars().next().unwrap_or(' ')),
        _ => (format!("found {}", quoted(written)), None),
    }
}

fn stray(character: char) -> (String, Option<&'static str>) {
    if is_loose_accent(character) {
        let (wrong, expected) = loose_accent(character);
        return (wrong, Some(expected));
    }
    if character.is_control() {
        let expected = "a text; a packed book is read by 'kurvneist text' or with --packed";
        let wrong = format!("found {}", quoted(&character.to_string()));
        return (wrong, Some(expected));
    }
    (format!("found {}", quoted(&character.to_string())), None)
}

/// Names that look the same must be the same, so accents don't stand apart.
pub fn loose_accent(character: char) -> (String, &'static str) {
    let code = code_point(character);
    let wrong = format!("an accent stands apart from its letter ({code})");
    (wrong, "letter and accent as one character")
}
