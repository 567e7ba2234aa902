//! Slips in what is marked, and in what marks do.
//!
//! Two more show in no answer, but in the marks alone, which the model's own
//! tests look at: a mark by a WHOLE that isn't its part's last, since nothing
//! visits a part in work, and none for an empty strategy, since VISIT gives
//! nothing there either way.

use crate::broken::Slip;
use crate::marks::are_marked_alike;
use crate::model::{Book, Filling, Machine, Order, Pattern, Term};

/// An entry with this slip. `singles` is a book without rules, and behind it
/// one for each rule alone.
pub fn entry<'b>(
    slip: Slip,
    machine: &mut Machine<'b>,
    unit: usize,
    singles: &'b [Book],
) -> Option<u8> {
    match (slip, machine.due(unit).cloned()) {
        (Slip::Again, Some(Order::Visit(term))) => part_mut(machine, &term).marked = false,
        (Slip::Free, Some(_)) => drop_marked(machine, unit),
        (Slip::Forked, Some(Order::Fork { argument, join }))
            if part_mut(machine, &argument).marked =>
        {
            machine.entries += 1;
            return drop_fork(machine, unit, join);
        }
        (Slip::Fresh | Slip::Lost, Some(Order::Whole { term, .. })) => {
            return whole(slip, machine, unit, &term);
        }
        (Slip::Marks, Some(Order::Whole { term, .. })) => {
            return whole_by_marks(machine, unit, &term, singles);
        }
        _ => {}
    }
    machine.entry(unit)
}

fn part_mut<'m>(machine: &'m mut Machine, at: &[u8]) -> &'m mut Term {
    machine.term.part_mut(at).expect("no order is stray")
}

/// VISITs of marked parts go before the entry.
fn drop_marked(machine: &mut Machine, unit: usize) {
    while let Some(Order::Visit(term)) = machine.due(unit).cloned() {
        if !part_mut(machine, &term).marked {
            return;
        }
        machine.units[unit].orders.pop();
    }
}

fn drop_fork(machine: &mut Machine, unit: usize, join: usize) -> Option<u8> {
    let orders = &mut machine.units[unit].orders;
    orders.pop();
    if let Order::Join { count } = &mut orders[join] {
        *count -= 1;
    }
    None
}

/// A WHOLE that leaves other marks in what it puts in its part's place.
fn whole(slip: Slip, machine: &mut Machine, unit: usize, term: &[u8]) -> Option<u8> {
    let found = machine.book.first_match(part_mut(machine, term));
    let right = found.map(|(rule, _)| &rule.right);
    let ending = machine.entry(unit);
    if let (Some(right), None) = (right, ending) {
        match slip {
            Slip::Fresh => mark_operators(right, part_mut(machine, term)),
            _ => unmark(part_mut(machine, term)),
        }
    }
    ending
}

fn mark_operators(side: &Pattern, term: &mut Term) {
    if let Pattern::Operator(_, sides) = side {
        term.marked = true;
        let arguments = sides.iter().zip(&mut term.arguments);
        arguments.for_each(|(side, part)| mark_operators(side, part));
    }
}

fn unmark(term: &mut Term) {
    term.marked = false;
    term.arguments.iter_mut().for_each(unmark);
}

/// WHOLE has but the rule that matches where marks count, or none.
fn whole_by_marks<'b>(
    machine: &mut Machine<'b>,
    unit: usize,
    term: &[u8],
    singles: &'b [Book],
) -> Option<u8> {
    let book = machine.book;
    let part = part_mut(machine, term);
    let matches = |left: &Pattern| matches_by_marks(left, part, &mut [None; 16]);
    let found = book.rules.iter().position(|rule| matches(&rule.left));
    machine.book = &singles[found.map_or(0, |rule| rule + 1)];
    let ending = machine.entry(unit);
    machine.book = book;
    ending
}

fn matches_by_marks<'t>(side: &Pattern, term: &'t Term, filling: &mut Filling<'t>) -> bool {
    match side {
        Pattern::Variable(variable) => {
            let first = filling[usize::from(*variable)].get_or_insert(term);
            *first == term && are_marked_alike(first, term)
        }
        Pattern::Operator(operator, sides) => {
            *operator == term.operator
                && sides
                    .iter()
                    .zip(&term.arguments)
                    .all(|(side, part)| matches_by_marks(side, part, filling))
        }
    }
}
