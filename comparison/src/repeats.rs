//! What the variables that stand again in a left side met in a run, so that
//! the comparison can tell whether its cases try them.

use std::fmt::{self, Display, Formatter};

use crate::model::{Book, Item, Machine, Order, Pattern, Rule, Term};
use crate::subject::Question;

/// What is counted, each a comparison of two parts.
pub const KINDS: [&str; 7] = [
    "equal",
    "differ in the first symbol",
    "differ in the last symbol",
    "differ in between",
    "differ in length",
    "of a third occurrence",
    "inside and outside a group",
];

const THIRD: usize = 5;
const ACROSS: usize = 6;

/// How often each kind was met.
#[derive(Clone, Debug, Default, PartialEq, Eq)]
pub struct Repeats {
    pub counts: [u64; KINDS.len()],
    /// Rewrites by rules with such a left side.
    pub rewrites: u64,
}

impl Repeats {
    /// Counts what the run of a question meets; nothing if it is refused.
    pub fn count(&mut self, question: &Question) {
        let Ok(book) = crate::model::read_book(question.book) else {
            return;
        };
        let book = book.on_day(question.day);
        if !book.rules.iter().any(repeats) {
            return;
        }
        let Ok(line) = question.form.read(&book, question.line) else {
            return;
        };
        let mut machine = Machine::new(&book, line, question.units, question.budget);
        for &unit in question.schedule {
            self.look(&machine, unit.into());
            if machine.entry(unit.into()).is_some() {
                break;
            }
        }
    }

    /// Looks at the rules that the unit's next entry tries.
    fn look(&mut self, machine: &Machine, unit: usize) {
        let Some(Order::Whole { term, .. }) = machine.due(unit) else {
            return;
        };
        let Some(part) = machine.term.part(term) else {
            return;
        };
        let used = machine.book.first_match(part).map(|(rule, _)| rule);
        for rule in &machine.book.rules {
            let is_used = used.is_some_and(|used| std::ptr::eq(used, rule));
            if repeats(rule) {
                self.rewrites += u64::from(is_used);
                self.try_side(machine.book, &rule.left, part);
            }
            if is_used {
                return;
            }
        }
    }

    fn try_side(&mut self, book: &Book, left: &Pattern, term: &Term) {
        let (Pattern::Operator(operator, sides), true) = (left, has_root(left, term)) else {
            return;
        };
        let grouped = grouped(&book.operators[usize::from(*operator)].strategy);
        let mut seen = [const { None }; 16];
        for (argument, (side, part)) in (1..).zip(sides.iter().zip(&term.arguments)) {
            let inside = grouped.contains(&argument);
            if !self.walk(side, part, inside, &mut seen) {
                return;
            }
        }
    }

    /// As matching does; answers whether it goes on.
    fn walk<'t>(
        &mut self,
        side: &Pattern,
        term: &'t Term,
        inside: bool,
        seen: &mut [Option<Seen<'t>>; 16],
    ) -> bool {
        match side {
            Pattern::Operator(_, sides) => {
                has_root(side, term)
                    && sides
                        .iter()
                        .zip(&term.arguments)
                        .all(|(side, part)| self.walk(side, part, inside, seen))
            }
            Pattern::Variable(variable) => match &mut seen[usize::from(*variable)] {
                Some(first) => self.compare(first, term, inside),
                none => {
                    *none = Some(Seen {
                        term,
                        inside,
                        times: 1,
                    });
                    true
                }
            },
        }
    }

    fn compare(&mut self, first: &mut Seen, term: &Term, inside: bool) -> bool {
        first.times += 1;
        self.counts[kind(&first.term.preorder(), &term.preorder())] += 1;
        self.counts[THIRD] += u64::from(first.times == 3);
        self.counts[ACROSS] += u64::from(first.inside != inside);
        first.term == term
    }
}

/// A variable's first part.
struct Seen<'t> {
    term: &'t Term,
    /// Is it in an argument of the root that the root's strategy has in a
    /// group?
    inside: bool,
    times: usize,
}

fn repeats(rule: &Rule) -> bool {
    let mut variables = Vec::new();
    collect(&rule.left, &mut variables);
    let count = variables.len();
    variables.sort_unstable();
    variables.dedup();
    variables.len() < count
}

fn collect(side: &Pattern, variables: &mut Vec<u8>) {
    match side {
        Pattern::Variable(variable) => variables.push(*variable),
        Pattern::Operator(_, sides) => sides.iter().for_each(|side| collect(side, variables)),
    }
}

fn has_root(side: &Pattern, term: &Term) -> bool {
    matches!(side, Pattern::Operator(operator, _) if *operator == term.operator)
}

/// The arguments that stand in a group.
fn grouped(strategy: &[Item]) -> Vec<u8> {
    let groups = strategy.iter().filter_map(|item| match item {
        Item::Group(arguments) => Some(arguments),
        _ => None,
    });
    groups.flatten().copied().collect()
}

/// The place of the kind among `KINDS`, by the first difference.
fn kind(one: &[u8], other: &[u8]) -> usize {
    let differs = one.iter().zip(other).position(|(one, other)| one != other);
    match differs {
        _ if one.len() != other.len() => 4,
        None => 0,
        Some(0) => 1,
        Some(place) if place + 1 == one.len() => 2,
        Some(_) => 3,
    }
}

impl Display for Repeats {
    fn fmt(&self, text: &mut Formatter) -> fmt::Result {
        for (kind, count) in KINDS.iter().zip(self.counts) {
            writeln!(text, "parts of a repeated variable {kind}: {count}")?;
        }
        writeln!(text, "rewrites by repeated variables: {}", self.rewrites)
    }
}
