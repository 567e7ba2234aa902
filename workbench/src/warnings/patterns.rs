//! Which terms a left side matches, beside others.

use comparison::draft::Symbol;
use comparison::model::{Book, Item, Pattern};

use crate::text::printer::{preorder, variables};

/// Whether one pattern matches all terms that the other does. Exact, since any
/// term can stand at any place.
pub fn covers(general: &Pattern, special: &Pattern) -> bool {
    is_filled(general, special, &mut [None; 16])
}

/// Whether the special pattern is the general one with its variables filled,
/// one that stands again with equal parts.
fn is_filled<'p>(
    general: &Pattern,
    special: &'p Pattern,
    filling: &mut [Option<&'p Pattern>; 16],
) -> bool {
    match (general, special) {
        (Pattern::Variable(variable), _) => {
            *filling[usize::from(*variable)].get_or_insert(special) == special
        }
        (Pattern::Operator(..), Pattern::Variable(_)) => false,
        (Pattern::Operator(one, parts), Pattern::Operator(other, others)) => {
            one == other
                && parts
                    .iter()
                    .zip(others)
                    .all(|(one, other)| is_filled(one, other, filling))
        }
    }
}

/// Steps after which the question whether rules together match all that
/// another does is left open: it may take exponentially many.
const STEPS: usize = 100_000;

/// Whether each term that the last pattern matches is matched by one of the
/// others. It is not said so if that takes too long to find out.
pub fn cover_together(book: &Book, others: &[&Pattern], last: &Pattern) -> bool {
    let mut steps = STEPS;
    has_uncovered(book, others, last, FRESH, &mut steps) == Some(false)
}

/// The first number that no variable of a rule has.
const FRESH: u8 = 16;

/// Whether terms are matched by the pattern and by none of the others: a
/// variable of it, at whose place another has an operator, is filled with each
/// operator that can stand there. `None` if the steps are used up.
///
/// Where none is left to fill, the others that go on ask for equal parts where
/// the pattern has different ones. There are infinitely many terms to fill its
/// variables with, so some keep all those parts apart.
fn has_uncovered(
    book: &Book,
    others: &[&Pattern],
    pattern: &Pattern,
    fresh: u8,
    steps: &mut usize,
) -> Option<bool> {
    *steps = steps.checked_sub(1 + others.len())?;
    let overlaps = |other: &&Pattern| same_operators(other, pattern);
    let others: Vec<&Pattern> = others.iter().copied().filter(overlaps).collect();
    if others.iter().any(|other| covers(other, pattern)) {
        return Some(false);
    }
    let mut open = others.iter().filter_map(|other| open_at(other, pattern));
    let Some(variable) = open.next() else {
        return Some(true);
    };
    let mut named = Vec::new();
    for other in &others {
        collect_operators(other, pattern, variable, &mut named);
    }
    let mut operators: Vec<u8> = (0..book.operators.len() as u8).collect();
    let unnamed = operators.iter().find(|operator| !named.contains(operator));
    if let (Some(unnamed), true) = (unnamed, others.iter().all(|other| is_linear(other))) {
        // What matches with this one matches with any.
        operators = vec![*unnamed];
    }
    for operator in operators {
        let arity = book.operators[usize::from(operator)].arity;
        let more = fresh.checked_add(arity)?;
        let parts = (fresh..more).map(Pattern::Variable).collect();
        let filled = filled(pattern, variable, &Pattern::Operator(operator, parts));
        match has_uncovered(book, &others, &filled, more, steps) {
            Some(false) => {}
            found => return found,
        }
    }
    Some(false)
}

/// Whether no two operators that differ stand at one place.
fn same_operators(one: &Pattern, other: &Pattern) -> bool {
    match (one, other) {
        (Pattern::Operator(one, parts), Pattern::Operator(other, others)) => {
            one == other
                && parts
                    .iter()
                    .zip(others)
                    .all(|(one, other)| same_operators(one, other))
        }
        _ => true,
    }
}

/// The first variable of the pattern at whose place the other has an operator.
fn open_at(other: &Pattern, pattern: &Pattern) -> Option<u8> {
    match (other, pattern) {
        (Pattern::Operator(..), Pattern::Variable(variable)) => Some(*variable),
        (Pattern::Operator(_, others), Pattern::Operator(_, parts)) => others
            .iter()
            .zip(parts)
            .find_map(|(other, part)| open_at(other, part)),
        _ => None,
    }
}

/// The operators that the other has at the places of a variable.
fn collect_operators(other: &Pattern, pattern: &Pattern, variable: u8, named: &mut Vec<u8>) {
    match (other, pattern) {
        (Pattern::Operator(operator, _), Pattern::Variable(at)) if *at == variable => {
            named.push(*operator);
        }
        (Pattern::Operator(_, others), Pattern::Operator(_, parts)) => {
            for (other, part) in others.iter().zip(parts) {
                collect_operators(other, part, variable, named);
            }
        }
        _ => {}
    }
}

fn is_linear(pattern: &Pattern) -> bool {
    let side = preorder(pattern);
    let is_variable = |symbol: &&Symbol| matches!(symbol, Symbol::Variable(_));
    side.iter().filter(is_variable).count() == variables(&side).len()
}

/// The pattern with a part at each place of a variable.
fn filled(pattern: &Pattern, variable: u8, by: &Pattern) -> Pattern {
    match pattern {
        Pattern::Variable(at) if *at == variable => by.clone(),
        Pattern::Variable(_) => pattern.clone(),
        Pattern::Operator(operator, parts) => {
            let parts = parts.iter().map(|part| filled(part, variable, by));
            Pattern::Operator(*operator, parts.collect())
        }
    }
}

/// A part of a left side that is reduced before rules are tried on the whole,
/// and the rule, counted from 0, that matches whatever stands there: where the
/// part starts in preorder, and the part.
///
/// When the whole is tried, such a part has been visited last by its own
/// operator's strategy, whose last item tried all rules in vain, and nothing
/// has changed it since. So the left side can't match.
pub fn rewritten_before<'p>(book: &Book, left: &'p Pattern) -> Option<(usize, &'p Pattern, usize)> {
    let Pattern::Operator(operator, parts) = left else {
        return None;
    };
    let strategy = &book.operators[usize::from(*operator)].strategy;
    let before_rules = strategy.iter().take_while(|item| **item != Item::Whole);
    let visited = arguments(before_rules);
    first_in_parts(book, parts, &visited, 1)
}

/// The same for a part that is visited itself, from its place on.
fn first_within<'p>(
    book: &Book,
    part: &'p Pattern,
    place: usize,
) -> Option<(usize, &'p Pattern, usize)> {
    let Pattern::Operator(operator, parts) = part else {
        return None;
    };
    let strategy = &book.operators[usize::from(*operator)].strategy;
    let mut rules = book.rules.iter();
    match rules.position(|rule| covers(&rule.left, part)) {
        Some(rule) if strategy.contains(&Item::Whole) => Some((place, part, rule)),
        _ => first_in_parts(book, parts, &arguments(strategy.iter()), place + 1),
    }
}

fn first_in_parts<'p>(
    book: &Book,
    parts: &'p [Pattern],
    visited: &[u8],
    start: usize,
) -> Option<(usize, &'p Pattern, usize)> {
    let mut place = start;
    for (argument, part) in (1..).zip(parts) {
        if visited.contains(&argument) {
            if let Some(found) = first_within(book, part, place) {
                return Some(found);
            }
        }
        place += part.size();
    }
    None
}

fn arguments<'i>(items: impl Iterator<Item = &'i Item>) -> Vec<u8> {
    items
        .flat_map(|item| match item {
            Item::Whole => &[],
            Item::Argument(argument) => std::slice::from_ref(argument),
            Item::Group(arguments) => arguments,
        })
        .copied()
        .collect()
}
