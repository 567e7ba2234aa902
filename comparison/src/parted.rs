//! Random books that are strict, or nearly so: left sides are parted again and
//! again, so that no term has two of them, and then perhaps one is spoiled.

use crate::books::{self, right_side, strategy, RuleHabits};
use crate::branching;
use crate::dates::{self, variable_places};
use crate::draft::{Draft, OperatorDraft, RuleDraft, Symbol};
use crate::model::{self, Book, SIDE_LIMIT};
use crate::random::Random;
use crate::strict::have_common;
use crate::texts;

/// A strict book but for what it may lack of constants.
pub fn strict_draft(random: &mut Random) -> Draft {
    match random.below(8) {
        0 => thinned(books::draft(random)),
        1 => thinned(branching::draft(random)),
        _ => parted(random),
    }
}

/// The same with the operators of texts.
pub fn strict_text_draft(random: &mut Random, alphabet: &[u8]) -> Draft {
    thinned(texts::draft(random, alphabet))
}

/// The same rules in another order.
pub fn rearranged(book: &Book, seed: u64) -> Book {
    let mut book = book.clone();
    let random = &mut Random::new(seed);
    match &mut book.days {
        None => random.shuffle(&mut book.rules),
        Some(days) => {
            let mut dated: Vec<_> = book.rules.drain(..).zip(days.drain(..)).collect();
            random.shuffle(&mut dated);
            (book.rules, *days) = dated.into_iter().unzip();
        }
    }
    book
}

// ---------------------------------------------------------------------------
// Books of other kinds, made strict

/// The draft with no variable repeated on the left, and of rules that overlap
/// only the first.
fn thinned(mut draft: Draft) -> Draft {
    draft
        .rules
        .retain_mut(|rule| part_variables(&mut rule.left));
    let Ok(book) = model::read_book(&draft.encode()) else {
        return draft;
    };
    let mut kept: Vec<usize> = Vec::new();
    for place in 0..book.rules.len() {
        if !kept.iter().any(|&before| overlap(&book, before, place)) {
            kept.push(place);
        }
    }
    draft.rules = kept
        .iter()
        .map(|&place| draft.rules[place].clone())
        .collect();
    draft
}

/// Left sides that repeat no variable.
fn overlap(book: &Book, one: usize, other: usize) -> bool {
    have_common(&book.rules[one].left, &book.rules[other].left)
}

/// A new name where a variable stands again; false if all names are used.
fn part_variables(side: &mut [Symbol]) -> bool {
    for place in 1..side.len() {
        let symbol = side[place];
        if matches!(symbol, Symbol::Variable(_)) && side[..place].contains(&symbol) {
            match unused_variable(side) {
                Some(unused) => side[place] = unused,
                None => return false,
            }
        }
    }
    true
}

fn unused_variable(side: &[Symbol]) -> Option<Symbol> {
    let mut names = (0..16).map(Symbol::Variable);
    names.find(|name| !side.contains(name))
}

// ---------------------------------------------------------------------------
// Left sides that are parted

/// Stands for any part, and is numbered when all sides are there.
const HOLE: Symbol = Symbol::Variable(0);

fn parted(random: &mut Random) -> Draft {
    let operators = arities(random).into_iter().map(|arity| OperatorDraft {
        arity,
        strategy: match random.below(4) {
            0 => strategy(random, arity),
            1 => None,
            _ => Some(vec![0]),
        },
    });
    let mut draft = Draft::new(operators.collect(), Vec::new());
    let count = random.from_ranges(&[(2, 4), (2, 12), (10, 40), (200, 255)]);
    let habits = RuleHabits::new(random);
    for left in left_sides(random, &draft, count) {
        let Symbol::Operator(root) = left[0] else {
            unreachable!("a left side is no variable")
        };
        let right = right_side(random, &draft, root, &left, &habits);
        let rule = right.map(|right| RuleDraft::new(left, right));
        draft.rules.extend(rule);
    }
    random.shuffle(&mut draft.rules);
    draft
}

/// Seldom without a constant; often with so many that they alone tell rules
/// apart.
fn arities(random: &mut Random) -> Vec<u8> {
    let mut arities = match random.below(12) {
        0 => return vec![1, 2],
        1 => return vec![2, 1, 1, 3],
        2..=4 => vec![1, 1, 0],
        5..=7 => vec![2, 0, 0],
        8 | 9 => vec![0, 1, 2, 3, 0],
        _ => vec![7, 1, 0, 2, 2],
    };
    let more = random.from_ranges(&[(0, 2), (2, 20), (200, 250)]);
    arities.resize(arities.len() + more, 0);
    arities
}

fn left_sides(random: &mut Random, draft: &Draft, count: usize) -> Vec<Vec<Symbol>> {
    let mut roots = with_arguments(draft);
    random.shuffle(&mut roots);
    roots.truncate(random.between(1, 2));
    let mut sides: Vec<Vec<Symbol>> = roots.iter().map(|&root| branch(draft, root)).collect();
    if random.one_in(2) {
        sides
            .iter_mut()
            .for_each(|side| lengthen(random, draft, side));
    }
    for _ in 0..4 * count {
        if sides.len() >= count {
            break;
        }
        part(random, draft, &mut sides);
    }
    sides.truncate(count);
    sides.iter_mut().for_each(|side| number_holes(side));
    sides
}

fn branch(draft: &Draft, operator: u8) -> Vec<Symbol> {
    let symbol = Symbol::Operator(operator);
    [vec![symbol], vec![HOLE; draft.arity(symbol)]].concat()
}

fn holes(side: &[Symbol]) -> Vec<usize> {
    (0..side.len())
        .filter(|&place| side[place] == HOLE)
        .collect()
}

/// The side with an operator in this hole, if it is still one that a rule may
/// have.
fn filled(draft: &Draft, side: &[Symbol], hole: usize, operator: u8) -> Option<Vec<Symbol>> {
    let side = [&side[..hole], &branch(draft, operator), &side[hole + 1..]].concat();
    (side.len() <= SIDE_LIMIT && holes(&side).len() <= 16).then_some(side)
}

/// Operators in holes, mostly in the last and mostly with arguments; some room
/// is left.
fn lengthen(random: &mut Random, draft: &Draft, side: &mut Vec<Symbol>) {
    let wide = with_arguments(draft);
    let enough = random.between(10, SIDE_LIMIT - 4);
    for _ in 0..200 {
        if side.len() >= enough {
            return;
        }
        let holes = holes(side);
        let hole = any_or_last(random, &holes);
        let operator = match random.one_in(4) && holes.len() > 1 {
            true => random.below(draft.operators.len()) as u8,
            false => *random.pick(&wide),
        };
        *side = filled(draft, side, hole, operator).unwrap_or(side.clone());
    }
}

fn with_arguments(draft: &Draft) -> Vec<u8> {
    let numbers = 0..draft.operators.len() as u8;
    let has_arguments = |operator: &u8| draft.operators[usize::from(*operator)].arity > 0;
    numbers.filter(has_arguments).collect()
}

fn any_or_last(random: &mut Random, holes: &[usize]) -> usize {
    match random.one_in(3) {
        true => *random.pick(holes),
        false => holes[holes.len() - 1],
    }
}

/// One side gives way to several, which have other operators where it had a
/// hole; mostly the last hole, so that they differ late.
fn part(random: &mut Random, draft: &Draft, sides: &mut Vec<Vec<Symbol>>) {
    let open: Vec<usize> = (0..sides.len())
        .filter(|&place| !holes(&sides[place]).is_empty())
        .collect();
    if open.is_empty() {
        return;
    }
    let place = *random.pick(&open);
    let holes = holes(&sides[place]);
    let hole = any_or_last(random, &holes);
    let mut operators: Vec<u8> = (0..draft.operators.len() as u8).collect();
    random.shuffle(&mut operators);
    operators.truncate(random.from_ranges(&[(2, 3), (2, 8), (255, 255)]));
    let side = &sides[place];
    let parts = operators
        .iter()
        .filter_map(|&operator| filled(draft, side, hole, operator));
    let parts: Vec<_> = parts.collect();
    if !parts.is_empty() {
        sides.swap_remove(place);
        sides.extend(parts);
    }
}

fn number_holes(side: &mut [Symbol]) {
    for (hole, number) in holes(side).into_iter().zip(0..) {
        side[hole] = Symbol::Variable(number);
    }
}

// ---------------------------------------------------------------------------
// One thing that a strict book may not have

/// Mostly a book stays as it is.
pub fn spoil(random: &mut Random, draft: &mut Draft) {
    match random.below(16) {
        0 => overlap_somehow(random, draft, repeated),
        1 | 2 => overlap_somehow(random, draft, widened),
        3..=5 => overlap_somehow(random, draft, crossed),
        6 => repeat_variable(random, draft),
        7 => {
            overlap_somehow(random, draft, widened);
            repeat_variable(random, draft);
        }
        8 => dates::date(random, draft),
        9 => {
            overlap_somehow(random, draft, widened);
            draft.dated = true;
        }
        _ => {}
    }
}

/// Two left sides in the place of one.
type Overlapping = fn(&mut Random, &Draft, &[Symbol]) -> Option<[Vec<Symbol>; 2]>;

/// One rule becomes two that overlap: at any places of the book, or its last
/// ones, often with no other rule that overlaps either.
fn overlap_somehow(random: &mut Random, draft: &mut Draft, overlapping: Overlapping) {
    if draft.rules.is_empty() || draft.rules.len() == 255 {
        return;
    }
    let place = random.below(draft.rules.len());
    let left = &draft.rules[place].left;
    let Some(sides) = overlapping(random, draft, left) else {
        return;
    };
    draft.rules.remove(place);
    if random.one_in(2) {
        keep_apart(draft, &sides);
    }
    let last = random.one_in(2);
    for left in sides {
        let right = vec![Symbol::Operator(random.below(draft.operators.len()) as u8)];
        let right = match draft.arity(right[0]) {
            0 => right,
            _ => left.clone(),
        };
        let places = draft.rules.len();
        let place = match last {
            true => places,
            false => random.below(places + 1),
        };
        draft.rules.insert(place, RuleDraft::new(left, right));
    }
}

/// Only the rules that overlap neither side are left.
fn keep_apart(draft: &mut Draft, sides: &[Vec<Symbol>; 2]) {
    let mut all = draft.clone();
    let added = sides
        .iter()
        .map(|left| RuleDraft::new(left.clone(), left.clone()));
    all.rules.extend(added);
    all.dated = false;
    let Ok(book) = model::read_book(&all.encode()) else {
        return;
    };
    let count = draft.rules.len();
    let is_apart = |place: usize| (count..count + 2).all(|side| !overlap(&book, place, side));
    let mut places = 0..count;
    draft.rules.retain(|_| places.next().is_some_and(is_apart));
}

/// The same side again, with other names.
fn repeated(random: &mut Random, _: &Draft, side: &[Symbol]) -> Option<[Vec<Symbol>; 2]> {
    let mut names: Vec<u8> = (0..16).collect();
    random.shuffle(&mut names);
    let renamed = side.iter().map(|symbol| match symbol {
        Symbol::Variable(variable) => Symbol::Variable(names[usize::from(*variable)]),
        Symbol::Operator(_) => *symbol,
    });
    Some([side.to_vec(), renamed.collect()])
}

/// A part inside, often the last, becomes a variable in one of two.
fn widened(random: &mut Random, draft: &Draft, side: &[Symbol]) -> Option<[Vec<Symbol>; 2]> {
    let start = inner_place(random, side)?;
    let mut sides = [side.to_vec(), with_variable(draft, side, start)?];
    if random.one_in(2) {
        sides.reverse();
    }
    Some(sides)
}

/// One of two parts becomes a variable in one side, the other in the other.
fn crossed(random: &mut Random, draft: &Draft, side: &[Symbol]) -> Option<[Vec<Symbol>; 2]> {
    let (one, other) = (inner_place(random, side)?, inner_place(random, side)?);
    let end = draft.part_end(side, one.min(other))?;
    if one.max(other) < end {
        return None;
    }
    Some([
        with_variable(draft, side, one)?,
        with_variable(draft, side, other)?,
    ])
}

/// Where an operator stands, but not the root.
fn inner_place(random: &mut Random, side: &[Symbol]) -> Option<usize> {
    let is_operator = |place: &usize| matches!(side[*place], Symbol::Operator(_));
    let places: Vec<usize> = (1..side.len()).filter(is_operator).collect();
    match (places.last(), random.one_in(3)) {
        (Some(last), true) => Some(*last),
        (Some(_), false) => Some(*random.pick(&places)),
        (None, _) => None,
    }
}

fn with_variable(draft: &Draft, side: &[Symbol], start: usize) -> Option<Vec<Symbol>> {
    let end = draft.part_end(side, start)?;
    let around = [&side[..start], &side[end..]].concat();
    let variable = unused_variable(&around)?;
    Some([&side[..start], &[variable], &side[end..]].concat())
}

/// In a rule that has two variables, one takes the place of another.
fn repeat_variable(random: &mut Random, draft: &mut Draft) {
    let several = |rule: &&mut RuleDraft| variable_places(&rule.left).len() > 1;
    let mut rules: Vec<&mut RuleDraft> = draft.rules.iter_mut().filter(several).collect();
    if rules.is_empty() {
        return;
    }
    let place = random.below(rules.len());
    let rule = &mut rules[place];
    let mut places = variable_places(&rule.left);
    random.shuffle(&mut places);
    let (kept, gone) = (rule.left[places[0]], rule.left[places[1]]);
    for side in [&mut rule.left, &mut rule.right] {
        let symbols = side.iter_mut().filter(|symbol| **symbol == gone);
        symbols.for_each(|symbol| *symbol = kept);
    }
}
