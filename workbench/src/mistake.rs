//! Mistakes in what a person wrote, shown with line, column and a caret.

use std::fmt::Write;

use crate::told::is_zero_width;
use crate::width::{cells, width};

/// Bytes `start..end` of a source.
#[derive(Clone, Copy, Debug, PartialEq, Eq)]
pub struct Span {
    pub start: usize,
    pub end: usize,
}

impl Span {
    pub fn new(start: usize, end: usize) -> Span {
        Span { start, end }
    }
}

/// One mistake: what is wrong at a place, and what was expected there.
#[derive(Clone, Debug, PartialEq, Eq)]
pub struct Mistake {
    pub span: Span,
    pub wrong: String,
    pub expected: String,
    /// The number under which the proved reader refuses it, if it can be asked.
    pub refusal: Option<u8>,
}

impl Mistake {
    pub fn new(span: Span, wrong: impl Into<String>, expected: impl Into<String>) -> Mistake {
        Mistake {
            span,
            wrong: wrong.into(),
            expected: expected.into(),
            refusal: None,
        }
    }

    pub fn refused(self, number: u8) -> Mistake {
        Mistake {
            refusal: Some(number),
            ..self
        }
    }

    /// The message in one line, without the place.
    pub fn message(&self) -> String {
        let mut text = format!("{}; expected {}", self.wrong, self.expected);
        if let Some(number) = self.refusal {
            write!(text, " (refusal {number})").expect("a string takes any text");
        }
        text
    }

    /// Line and column, both from 1; columns count characters.
    pub fn place(&self, source: &str) -> (usize, usize) {
        place_of(source, self.span.start)
    }

    /// `NAME:LINE:COLUMN: MESSAGE`, the line itself and a caret under the place.
    pub fn show(&self, name: &str, source: &str) -> String {
        self.show_with(None, name, source)
    }

    /// The same, with another place and its line before.
    pub fn show_with(&self, other: Option<Span>, name: &str, source: &str) -> String {
        let (line, column) = self.place(source);
        let places = other.into_iter().chain([self.span]);
        let shown: String = places.map(|span| marked(source, span)).collect();
        format!("{name}:{line}:{column}: {}\n{shown}", self.message())
    }
}

/// The line of a place, and carets under it.
fn marked(source: &str, span: Span) -> String {
    let (line, column) = place_of(source, span.start);
    let written = source.lines().nth(line - 1).unwrap_or("");
    let marked = source[span.start..span.end].chars().count();
    let (shown, from) = window(written, column - 1);
    let (before, behind) = shown.split_at(shown.len().min(column - 1 - from));
    // What stands on the character before it is marked there.
    let standing = behind.first().is_some_and(|first| width(*first) == 0);
    let indent = cells(before).saturating_sub(usize::from(standing));
    let carets = cells(&behind[..marked.min(behind.len())]).max(1);
    let shown: String = shown.iter().collect();
    let margin = line.to_string().len().max(4);
    format!(
        "{line:>margin$} | {shown}\n{:>margin$} | {}{}\n",
        "",
        " ".repeat(indent),
        "^".repeat(carets),
    )
}

/// Of a long line, so many cells are shown.
const WIDEST: usize = 120;

/// The characters of a line that are shown around a place, and which is first.
fn window(line: &str, place: usize) -> (Vec<char>, usize) {
    let characters: Vec<char> = line.chars().map(printable).collect();
    if cells(&characters) <= WIDEST {
        return (characters, 0);
    }
    let place = place.min(characters.len());
    let before = fitting(characters[..place].iter().rev(), WIDEST / 2);
    let from = place - before;
    let count = fitting(characters[from..].iter(), WIDEST);
    (characters[from..from + count].to_vec(), from)
}

/// How many of the characters go into so many cells.
fn fitting<'c>(characters: impl Iterator<Item = &'c char>, room: usize) -> usize {
    let mut taken = 0;
    characters
        .take_while(|character| {
            taken += width(**character);
            taken <= room
        })
        .count()
}

/// A character that a line of a terminal can show, for one that it can't.
fn printable(character: char) -> char {
    match character {
        '\t' => ' ',
        _ if character.is_control() || is_zero_width(character) => '\u{fffd}',
        _ => character,
    }
}

/// A byte's place as it is told from another one: its line only if they differ.
pub fn place_from(source: &str, from: usize, offset: usize) -> String {
    let (line, column) = place_of(source, offset);
    match place_of(source, from).0 == line {
        true => format!("in column {column}"),
        false => format!("in line {line}, column {column}"),
    }
}

/// The line and column of a byte.
pub fn place_of(source: &str, offset: usize) -> (usize, usize) {
    let before = &source[..offset];
    let line = before.matches('\n').count() + 1;
    let start = before.rfind('\n').map_or(0, |end| end + 1);
    (line, before[start..].chars().count() + 1)
}
