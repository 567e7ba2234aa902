//! The strict profile: whether the order of a book's rules is free, as the
//! proved engine says, and where the text shows that it is not.

use comparison::draft::Symbol;
use comparison::model::{self, refusal, Book};
use comparison::strict::{first_constant, overlap, Overlap};
use kurvneist::{strict_book, NotStrict};

use crate::explain::rule_fields;
use crate::json::{Fields, Json};
use crate::mistake::{Mistake, Span};
use crate::text::check::Named;
use crate::text::parser::{parse, Statement, Words};
use crate::text::printer;
use crate::told::quoted;
use crate::trace::text::rule_name;
use crate::warnings::rules::sides;
use crate::warnings::{mistake_fields, side_span};

/// The kind of these in JSON.
pub const KIND: &str = "strict-profile";

/// Why the profile doesn't admit a book.
#[derive(Clone, Debug)]
pub struct Fault {
    /// At the second rule, if two overlap.
    pub mistake: Mistake,
    /// The first two rules that overlap, and a term that both match.
    pub overlap: Option<Overlap>,
    /// The left side of the first.
    first: Option<Span>,
}

impl Fault {
    fn outside(span: Span, wrong: impl Into<String>, expected: &str) -> Fault {
        let mistake = Mistake::new(span, wrong, expected);
        Fault {
            mistake: mistake.refused(refusal::OUTSIDE_STRICT),
            overlap: None,
            first: None,
        }
    }

    /// As a mistake is shown; two rules that overlap with both their lines.
    pub fn show(&self, name: &str, source: &str) -> String {
        self.mistake.show_with(self.first, name, source)
    }

    pub fn json(&self, source: &str, named: &Named) -> Json {
        let mut fields = mistake_fields(KIND, &self.mistake, source);
        if let Some(overlap) = &self.overlap {
            let book = read(named);
            let rules = [overlap.first, overlap.second].map(|place| {
                let mut fields: Fields = rule_fields(place + 1, named);
                let sides = printer::rule(place, &book.rules[place], &named.names);
                fields.push(("sides", sides.into()));
                Json::from(fields)
            });
            let term = printer::term(&overlap.term.preorder(), &named.names);
            fields.push(("rules", rules.into_iter().collect()));
            fields.push(("term", term.into()));
        }
        fields.into()
    }
}

/// All reasons in the order of the text, and none if the order of the rules is
/// free. What the text doesn't show of the engine's answer is an error.
pub fn faults(source: &str, named: &Named) -> Result<Vec<Fault>, NotStrict> {
    let Err(told) = strict_book(&named.book) else {
        return Ok(Vec::new());
    };
    let (statements, _) = parse(source);
    let faults = match told.pair {
        Some(pair) => overlapping(source, &statements, named, pair)
            .into_iter()
            .collect(),
        None if told.refusal.number() == refusal::OUTSIDE_STRICT => outside(&statements, named),
        None => Vec::new(),
    };
    match faults.is_empty() {
        true => Err(told),
        false => Ok(faults),
    }
}

fn read(named: &Named) -> Book {
    model::read_book(&named.book).expect("what the proved writer wrote can be read")
}

fn overlapping(
    source: &str,
    statements: &[Statement],
    named: &Named,
    [first, second]: [usize; 2],
) -> Option<Fault> {
    let overlap = overlap(&read(named), first, second)?;
    let [one, other] = [first, second].map(|place| side_span(source, sides(statements)[place].0));
    let term = printer::term(&overlap.term.preorder(), &named.names);
    let name = rule_name(first + 1, &named.rule_lines);
    let wrong = format!("{term} is matched by {name} and by this rule");
    let mistake = Mistake::new(other, wrong, "no term that two rules match");
    Some(Fault {
        mistake: mistake.refused(refusal::OVERLAP),
        overlap: Some(overlap),
        first: Some(one),
    })
}

/// Each thing for which it is not decided whether rules overlap.
fn outside(statements: &[Statement], named: &Named) -> Vec<Fault> {
    let book = read(named);
    let mut faults: Vec<Fault> = formless(statements, &book).into_iter().collect();
    let from = statements.iter().find_map(|statement| match statement {
        Statement::From { keyword, .. } => Some(*keyword),
        _ => None,
    });
    let expected = "no day: the strict profile is for undated books";
    faults.extend(from.map(|span| Fault::outside(span, "the book is dated", expected)));
    for ((left, _), rule) in sides(statements).into_iter().zip(&book.rules) {
        faults.extend(repeated(left, &printer::preorder(&rule.left)));
    }
    faults.sort_by_key(|fault| fault.mistake.span.start);
    faults
}

fn formless(statements: &[Statement], book: &Book) -> Option<Fault> {
    if first_constant(book).is_some() {
        return None;
    }
    let first = statements.iter().find_map(|statement| match statement {
        Statement::Operators { names, .. } => names.first(),
        _ => None,
    });
    let expected = "a constant: without one there are no terms";
    Some(Fault::outside(
        first?.span,
        "no operator has arity 0",
        expected,
    ))
}

/// The first variable of a left side that stands there again.
fn repeated(words: &Words, side: &[Symbol]) -> Option<Fault> {
    let is_again = |place: &usize| {
        matches!(side[*place], Symbol::Variable(_)) && side[..*place].contains(&side[*place])
    };
    let name = &words[(0..side.len()).find(is_again)?].name;
    let wrong = format!("the variable {} stands here again", quoted(&name.text));
    let expected = "each variable once in a left side, for the strict profile";
    Some(Fault::outside(name.span, wrong, expected))
}
