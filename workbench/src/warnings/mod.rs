//! What a book may not mean: warnings on a text without mistakes.
//!
//! Each says what is so for every line, decided exactly on the book that the
//! engine gets, or calls itself a guess.

mod declarations;
mod patterns;
mod rules;
pub mod strict;

use comparison::model::{self, Book};

use crate::json::{Fields, Json};
use crate::mistake::{Mistake, Span};
use crate::text::check::Named;
use crate::text::parser::{parse, Words};

#[derive(Clone, Copy, Debug, PartialEq, Eq)]
pub enum Kind {
    /// Rules before it match all that the rule matches.
    NeverFirst,
    /// A rule before it has this left side, up to the variables' names.
    EqualLeft,
    /// The strategy of the left side's operator never tries rules.
    NeverTried,
    /// A part of the left side is rewritten before the rule is tried.
    RewrittenBefore,
    /// Another rule of its day, with the same left side, replaces it.
    Replaced,
    SameSides,
    UnusedOperator,
    UnusedVariable,
    SkippedArgument,
}

impl Kind {
    pub const ALL: [Kind; 9] = [
        Kind::NeverFirst,
        Kind::EqualLeft,
        Kind::NeverTried,
        Kind::RewrittenBefore,
        Kind::Replaced,
        Kind::SameSides,
        Kind::UnusedOperator,
        Kind::UnusedVariable,
        Kind::SkippedArgument,
    ];

    pub fn name(self) -> &'static str {
        match self {
            Kind::NeverFirst => "never-first",
            Kind::EqualLeft => "equal-left",
            Kind::NeverTried => "never-tried",
            Kind::RewrittenBefore => "rewritten-before",
            Kind::Replaced => "replaced",
            Kind::SameSides => "same-sides",
            Kind::UnusedOperator => "unused-operator",
            Kind::UnusedVariable => "unused-variable",
            Kind::SkippedArgument => "skipped-argument",
        }
    }

    /// Lines may name what no rule names.
    pub fn is_guess(self) -> bool {
        self == Kind::UnusedOperator
    }
}

#[derive(Clone, Debug)]
pub struct Warning {
    pub kind: Kind,
    pub mistake: Mistake,
}

impl Warning {
    fn new(kind: Kind, span: Span, wrong: impl Into<String>, expected: &str) -> Warning {
        let expected = match kind.is_guess() {
            true => format!("{expected} (a guess)"),
            false => expected.to_owned(),
        };
        Warning {
            kind,
            mistake: Mistake::new(span, wrong, expected),
        }
    }

    /// As a mistake is shown; where it is none, it says so.
    pub fn show(&self, name: &str, source: &str, strict: bool) -> String {
        let mut mistake = self.mistake.clone();
        if !strict {
            mistake.wrong = format!("warning: {}", mistake.wrong);
        }
        mistake.show(name, source)
    }

    pub fn json(&self, source: &str, strict: bool) -> Json {
        let level = match strict {
            true => "error",
            false => "warning",
        };
        let mut fields: Fields = vec![
            ("level", level.into()),
            ("kind", self.kind.name().into()),
            ("certain", (!self.kind.is_guess()).into()),
        ];
        fields.extend(place_and_message(&self.mistake, source));
        fields.into()
    }
}

/// A mistake as a warning's object has it.
pub fn mistake_json(mistake: &Mistake, source: &str) -> Json {
    mistake_fields("mistake", mistake, source).into()
}

fn mistake_fields(kind: &'static str, mistake: &Mistake, source: &str) -> Fields {
    let mut fields: Fields = vec![
        ("level", "error".into()),
        ("kind", kind.into()),
        ("certain", true.into()),
    ];
    fields.extend(place_and_message(mistake, source));
    fields.push(("refusal", mistake.refusal.into()));
    fields
}

fn place_and_message(mistake: &Mistake, source: &str) -> Fields {
    let (line, column) = mistake.place(source);
    vec![
        ("line", line.into()),
        ("column", column.into()),
        ("message", mistake.message().into()),
    ]
}

/// The warnings on a book and the text that it was read from, in the order of
/// the text. Those on rules of a dated book are so on the given day, or on every
/// day.
pub fn of(source: &str, named: &Named, day: Option<u16>) -> Vec<Warning> {
    let (statements, _) = parse(source);
    let book = model::read_book(&named.book).expect("what the proved writer wrote can be read");
    let on = |day| rules::warnings(source, &statements, named, &book.on_day(day));
    let rules = match (&named.days, day) {
        (None, _) => on(0),
        (Some(_), Some(day)) => on(day),
        (Some(days), None) => {
            let mut rules = on_every_day(&book, days, on);
            rules.extend(rules::replaced(source, &statements, named, &book, days));
            rules
        }
    };
    let mut warnings: Vec<Warning> = rules.into_iter().map(|(_, warning)| warning).collect();
    warnings.extend(declarations::warnings(&statements, named, &book));
    warnings.sort_by_key(|warning| warning.mistake.span.start);
    warnings
}

/// Of each kind and rule, what is so on every day on which the rule stands, as
/// it is on the last of them. What stands changes on the rules' own days only.
fn on_every_day(
    book: &Book,
    days: &[u16],
    on: impl Fn(u16) -> Vec<(usize, Warning)>,
) -> Vec<(usize, Warning)> {
    let mut ways: Vec<u16> = days.to_vec();
    ways.sort_unstable();
    ways.dedup();
    let looked: Vec<_> = ways
        .iter()
        .map(|&day| (book.on_day(day), on(day)))
        .collect();
    let is_never = |found: &[(usize, Warning)], rule: usize| {
        let mut found = found.iter().filter(|(place, _)| *place == rule);
        found.any(|(_, warning)| warning.kind != Kind::SameSides)
    };
    let mut kept = Vec::new();
    for rule in 0..book.rules.len() {
        let stands = |(of_day, _): &&(Book, _)| of_day.rules.iter().any(|one| one.place == rule);
        let standing: Vec<_> = looked.iter().filter(stands).collect();
        let always = standing.iter().all(|(_, found)| is_never(found, rule));
        if let Some((_, last)) = standing.last() {
            let last = last.iter().filter(|(place, _)| *place == rule);
            let last = last.filter(|(_, warning)| always || warning.kind == Kind::SameSides);
            kept.extend(last.cloned());
        }
    }
    kept
}

/// Where a side stands, with its quotes and parentheses.
fn side_span(source: &str, words: &Words) -> Span {
    let (first, last) = (&words[0], &words[words.len() - 1]);
    let quote = first.spelled && source[..first.name.span.start].ends_with('"');
    let start = first.name.span.start - usize::from(quote);
    let end = last.name.span.end;
    let behind = &source[end..];
    let closing = behind.find(|next| !matches!(next, ')' | '"' | ' '));
    let closed = end + closing.unwrap_or(behind.len());
    Span::new(start, source[..closed].trim_end().len())
}
