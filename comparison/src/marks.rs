//! What marks meant for a run, so that the comparison can tell whether its
//! cases try them.

use std::fmt::{self, Display, Formatter};

use crate::model::{self, Machine, Order, Pattern, Rule, Term};
use crate::subject::Question;

/// What is counted, each an order that a run carried out.
pub const KINDS: [&str; 6] = [
    "that visit a marked part",
    "that fork a marked part",
    "that copy a marked part",
    "that copy one of two equal parts marked differently",
    "that find no match and are not their part's last",
    "that visit a part with an empty strategy",
];

const VISITED: usize = 0;
const FORKED: usize = 1;
const COPIED: usize = 2;
const DIFFERENT: usize = 3;
const EARLY: usize = 4;
const EMPTY: usize = 5;

/// How often each kind was met.
#[derive(Clone, Debug, Default, PartialEq, Eq)]
pub struct Marks {
    pub counts: [u64; KINDS.len()],
}

impl Marks {
    /// Counts the orders of a question's run; nothing if it is refused.
    pub fn count(&mut self, question: &Question) {
        let Ok(book) = model::read_book(question.book) else {
            return;
        };
        let book = book.on_day(question.day);
        let Ok(line) = question.form.read(&book, question.line) else {
            return;
        };
        let mut machine = Machine::new(&book, line, question.units, question.budget);
        for &unit in question.schedule {
            self.look(&machine, unit.into());
            if machine.entry(unit.into()).is_some() {
                break;
            }
        }
    }

    /// Looks at the order of the unit's next entry.
    fn look(&mut self, machine: &Machine, unit: usize) {
        let part = |at: &[u8]| machine.term.part(at).expect("an order names a part");
        let mut met = |kind: usize, is_met: bool| self.counts[kind] += u64::from(is_met);
        match machine.due(unit) {
            Some(Order::Visit(term)) => {
                let part = part(term);
                met(VISITED, part.marked);
                met(EMPTY, machine.book.strategy(part).is_empty());
            }
            Some(Order::Fork { argument, .. }) => met(FORKED, part(argument).marked),
            Some(Order::Whole { term, below }) => match machine.book.first_match(part(term)) {
                None => met(EARLY, machine.units[unit].orders.len() > below + 1),
                Some((rule, _)) => {
                    let copied = copied(rule, part(term));
                    met(COPIED, copied.iter().any(|(_, part)| has_marks(part)));
                    met(DIFFERENT, differ_in_marks(&copied));
                }
            },
            _ => {}
        }
    }
}

fn has_marks(term: &Term) -> bool {
    term.marked || term.arguments.iter().any(has_marks)
}

/// The parts that a rewrite's variables meet, but for those that it drops.
fn copied<'t>(rule: &Rule, term: &'t Term) -> Vec<(u8, &'t Term)> {
    let mut parts = Vec::new();
    collect(&rule.left, term, &mut parts);
    parts.retain(|(variable, _)| has_variable(&rule.right, *variable));
    parts
}

fn collect<'t>(side: &Pattern, term: &'t Term, parts: &mut Vec<(u8, &'t Term)>) {
    match side {
        Pattern::Variable(variable) => parts.push((*variable, term)),
        Pattern::Operator(_, sides) => {
            let arguments = sides.iter().zip(&term.arguments);
            arguments.for_each(|(side, part)| collect(side, part, parts));
        }
    }
}

fn has_variable(side: &Pattern, variable: u8) -> bool {
    match side {
        Pattern::Variable(other) => *other == variable,
        Pattern::Operator(_, sides) => sides.iter().any(|side| has_variable(side, variable)),
    }
}

/// Does a variable that stands again meet parts with other marks?
fn differ_in_marks(parts: &[(u8, &Term)]) -> bool {
    let differ = |(one, part): &(u8, &Term), (other, again): &(u8, &Term)| {
        one == other && !are_marked_alike(part, again)
    };
    parts
        .iter()
        .any(|one| parts.iter().any(|other| differ(one, other)))
}

/// Have two equal terms the same marks?
pub fn are_marked_alike(one: &Term, other: &Term) -> bool {
    let mut arguments = one.arguments.iter().zip(&other.arguments);
    one.marked == other.marked && arguments.all(|(one, other)| are_marked_alike(one, other))
}

impl Display for Marks {
    fn fmt(&self, text: &mut Formatter) -> fmt::Result {
        for (kind, count) in KINDS.iter().zip(self.counts) {
            writeln!(text, "orders {kind}: {count}")?;
        }
        Ok(())
    }
}
