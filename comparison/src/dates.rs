//! Days for a random book: rules that replace others, and days about the one
//! that a run names.

use crate::books::{right_side, RuleHabits};
use crate::draft::{Draft, RuleDraft, Symbol};
use crate::random::Random;

/// Dates a draft in about one of two cases. Some of its rules then come again,
/// with other names and another right side.
pub fn date(random: &mut Random, draft: &mut Draft) {
    if random.one_in(2) {
        return;
    }
    draft.dated = true;
    for _ in 0..random.between(0, 2 * draft.rules.len().min(8)) {
        repeat_rule(random, draft);
    }
    let days = days(random);
    for rule in &mut draft.rules {
        rule.day = *random.pick(&days);
    }
    // Books are mostly kept in the order of their days.
    if random.one_in(3) {
        draft.rules.sort_by_key(|rule| rule.day);
    }
}

/// Few days, so that many rules share one, and often neighbours.
fn days(random: &mut Random) -> Vec<u16> {
    let first = match random.below(6) {
        0 => 0,
        1 => u16::MAX,
        2 => 255,
        _ => random.draw() as u16,
    };
    let second = match random.below(3) {
        0 => random.draw() as u16,
        1 => first.swap_bytes(),
        _ => first.wrapping_add(1),
    };
    let third = random.draw() as u16;
    let mut days = vec![first, second, third];
    days.truncate(random.between(1, 3));
    days
}

/// The day of a run: mostly one of the rules' days or beside it.
pub fn day(random: &mut Random, draft: &Draft) -> u16 {
    match (random.below(8), draft.rules.is_empty()) {
        (0, _) | (_, true) => random.draw() as u16,
        (1, _) => u16::MAX,
        (2, _) => random.pick(&draft.rules).day.wrapping_sub(1),
        _ => random.pick(&draft.rules).day,
    }
}

/// A rule whose left side is that of another, renamed. Seldom its variables
/// become one or two of them differ, so that the sides agree no longer.
fn repeat_rule(random: &mut Random, draft: &mut Draft) {
    if draft.rules.len() == 255 {
        return;
    }
    let mut left = random.pick(&draft.rules).left.clone();
    rename(random, &mut left);
    match random.below(6) {
        0 => merge_variables(random, &mut left),
        1 => part_variables(random, &mut left),
        _ => {}
    }
    let Some(Symbol::Operator(root)) = left.first().copied() else {
        return;
    };
    let habits = RuleHabits::new(random);
    if let Some(right) = right_side(random, draft, root, &left, &habits) {
        let place = random.below(draft.rules.len() + 1);
        draft.rules.insert(place, RuleDraft::new(left, right));
    }
}

/// One name for another, one to one; often the names stay.
fn rename(random: &mut Random, side: &mut [Symbol]) {
    let mut names: Vec<u8> = (0..16).collect();
    match random.below(4) {
        0 => {}
        1 => names.swap(0, 1),
        _ => random.shuffle(&mut names),
    }
    for symbol in side {
        if let Symbol::Variable(variable) = symbol {
            *variable = names[usize::from(*variable)];
        }
    }
}

pub fn variable_places(side: &[Symbol]) -> Vec<usize> {
    let is_variable = |place: &usize| matches!(side[*place], Symbol::Variable(_));
    (0..side.len()).filter(is_variable).collect()
}

/// Two occurrences become the same variable.
fn merge_variables(random: &mut Random, side: &mut [Symbol]) {
    let mut places = variable_places(side);
    random.shuffle(&mut places);
    if let [one, other, ..] = places[..] {
        side[one] = side[other];
    }
}

/// One occurrence becomes a variable that stands nowhere else.
fn part_variables(random: &mut Random, side: &mut [Symbol]) {
    let places = variable_places(side);
    let mut unused = (0..16)
        .map(Symbol::Variable)
        .filter(|name| !side.contains(name));
    if let (false, Some(name)) = (places.is_empty(), unused.next()) {
        side[*random.pick(&places)] = name;
    }
}
