//! Random books: operators, strategies and rules.

use crate::draft::{Draft, OperatorDraft, RuleDraft, Symbol};
use crate::grow::{branch, is_constant, numbers, split_operators, Grower};
use crate::model::SIDE_LIMIT;
use crate::random::Random;

pub fn draft(random: &mut Random) -> Draft {
    match random.below(10) {
        0 | 1 => arithmetic(random),
        2 => matching(random),
        _ => any_draft(random),
    }
}

fn any_draft(random: &mut Random) -> Draft {
    let mut draft = Draft::new(operators(random), Vec::new());
    let count = match random.below(60) {
        0 => 255,
        1 => random.between(40, 254),
        _ => random.from_ranges(&[(0, 3), (1, 6), (1, 6), (4, 15), (10, 30)]),
    };
    let roots = rule_roots(random, &draft);
    let habits = RuleHabits::new(random);
    for place in 1..=count {
        // The last rule often has a root of its own; else the rules before it
        // would mostly act in its stead.
        let root = if place == count && random.one_in(2) {
            random.below(draft.operators.len()) as u8
        } else {
            *random.pick(&roots)
        };
        draft.rules.extend(rule(random, &draft, root, &habits));
    }
    draft
}

// ---------------------------------------------------------------------------
// Operators and strategies

pub fn operators(random: &mut Random) -> Vec<OperatorDraft> {
    let count = match random.below(60) {
        0 => 255,
        _ => random.from_ranges(&[(1, 4), (2, 6), (3, 8), (3, 8), (8, 40)]),
    };
    let widest = *random.pick(&[1, 2, 2, 3, 3, 4, 7]);
    let mut arities: Vec<u8> = (0..count).map(|_| arity(random, widest) as u8).collect();
    // Without a constant there is no term at all; such books are rare here.
    if !random.one_in(50) {
        let place = random.below(count);
        arities[place] = 0;
    }
    let plain = random.one_in(8);
    arities
        .into_iter()
        .map(|arity| {
            let strategy = if plain { None } else { strategy(random, arity) };
            OperatorDraft { arity, strategy }
        })
        .collect()
}

fn arity(random: &mut Random, widest: usize) -> usize {
    if random.one_in(3) {
        widest
    } else {
        random.between(0, widest)
    }
}

pub fn strategy(random: &mut Random, arity: u8) -> Option<Vec<u8>> {
    match random.below(30) {
        0..=6 => None,
        7..=18 => Some(full_group(random, arity)),
        19..=21 => Some(part_group(random, arity)),
        22 => Some(Vec::new()),
        _ => Some(mixed_strategy(random, arity)),
    }
}

fn full_group(random: &mut Random, arity: u8) -> Vec<u8> {
    let mut arguments: Vec<u8> = (1..=arity).collect();
    if random.one_in(3) {
        random.shuffle(&mut arguments);
    }
    [vec![8], arguments, vec![9, 0]].concat()
}

/// Some arguments in a group, and others before and behind it.
fn part_group(random: &mut Random, arity: u8) -> Vec<u8> {
    let mut arguments: Vec<u8> = (1..=arity).collect();
    random.shuffle(&mut arguments);
    let before = arguments.split_off(arguments.len().div_ceil(2));
    let behind = arguments.split_off(arguments.len().min(random.between(2, 3)));
    [before, vec![8], arguments, vec![9], behind, vec![0]].concat()
}

/// Any allowed list: 0s inside, empty groups, groups of one, repeated items.
fn mixed_strategy(random: &mut Random, arity: u8) -> Vec<u8> {
    let length = random.from_ranges(&[(1, 6), (3, 12), (3, 12), (20, 31)]);
    let mut items = Vec::new();
    loop {
        let next = match random.below(5) {
            0 => vec![0],
            1 | 2 => [vec![8], some_arguments(random, arity, 5), vec![9]].concat(),
            _ => some_arguments(random, arity, 2),
        };
        if items.len() + next.len() + 1 > length {
            break;
        }
        items.extend(next);
    }
    items.push(0);
    items
}

fn some_arguments(random: &mut Random, arity: u8, bound: usize) -> Vec<u8> {
    if arity == 0 {
        return Vec::new();
    }
    (0..random.below(bound))
        .map(|_| random.between(1, arity.into()) as u8)
        .collect()
}

// ---------------------------------------------------------------------------
// Rules

/// How right sides are made; the first three mostly lead to an end.
#[derive(Clone, Copy)]
enum Style {
    /// Fewer symbols than the left side, no variable copied.
    Shrinking,
    /// Only operators below the left side's root.
    Descending,
    /// Calls of the root on parts found deeper on the left.
    Recursive,
    Free,
    /// Variables copied wherever there is room.
    Copying,
}

pub struct RuleHabits {
    styles: Vec<Style>,
    left_limit: usize,
    right_limit: usize,
}

impl RuleHabits {
    pub fn new(random: &mut Random) -> RuleHabits {
        let ending = [Style::Shrinking, Style::Descending, Style::Recursive];
        let styles = match random.below(6) {
            0 => vec![Style::Free],
            1 => vec![Style::Copying, Style::Free],
            2 => [&ending[..], &[Style::Copying, Style::Free]].concat(),
            3 => vec![*random.pick(&ending)],
            _ => ending.to_vec(),
        };
        RuleHabits {
            styles,
            left_limit: side_limit(random, &[(1, 3), (2, 5), (2, 5), (4, 12)]),
            right_limit: side_limit(random, &[(1, 4), (3, 10), (3, 10), (8, 20)]),
        }
    }
}

fn side_limit(random: &mut Random, ranges: &[(usize, usize)]) -> usize {
    if random.one_in(15) {
        SIDE_LIMIT
    } else {
        random.from_ranges(ranges)
    }
}

/// Many rules share a root, and roots with arguments are preferred.
fn rule_roots(random: &mut Random, draft: &Draft) -> Vec<u8> {
    let mut roots: Vec<u8> = numbers(draft)
        .filter(|&operator| !is_constant(draft, operator) || random.one_in(6))
        .collect();
    if roots.is_empty() {
        roots = numbers(draft).collect();
    }
    random.shuffle(&mut roots);
    let kept = random.from_ranges(&[(1, 1), (1, 3), (1, roots.len())]);
    roots.truncate(kept);
    roots
}

pub fn rule(
    random: &mut Random,
    draft: &Draft,
    root: u8,
    habits: &RuleHabits,
) -> Option<RuleDraft> {
    let left = left_side(random, draft, root, habits.left_limit)?;
    let right = right_side(random, draft, root, &left, habits)?;
    Some(RuleDraft::new(left, right))
}

fn left_side(random: &mut Random, draft: &Draft, root: u8, limit: usize) -> Option<Vec<Symbol>> {
    let mut variables: Vec<Symbol> = (0..16).map(Symbol::Variable).collect();
    random.shuffle(&mut variables);
    let (branches, constants) = split_operators(draft, |_| true);
    // Constants seldom match, so that they are few among the leaves.
    let few = constants.into_iter().take(random.below(8));
    let leaves = variables.into_iter().chain(few).collect();
    let mut grower = Grower::new(random, branches, leaves);
    grower.linear = true;
    if limit < SIDE_LIMIT {
        grower.stop = 2;
    }
    let root = branch(draft, root);
    let mut room = limit.saturating_sub(root.len());
    let mut symbols = Vec::new();
    grower.grow_branch(random, &root, &mut room, &mut symbols)?;
    if random.one_in(2) {
        repeat_variable(random, &mut symbols);
    }
    Some(symbols)
}

/// Lets one variable of a left side stand in the place of others, mostly of
/// one.
fn repeat_variable(random: &mut Random, side: &mut [Symbol]) {
    let is_variable = |place: &usize| matches!(side[*place], Symbol::Variable(_));
    let mut places: Vec<usize> = (0..side.len()).filter(is_variable).collect();
    random.shuffle(&mut places);
    places.truncate(*random.pick(&[2, 2, 2, 3, 3, 16]));
    if let Some(first) = places.first().map(|place| side[*place]) {
        places.into_iter().for_each(|place| side[place] = first);
    }
}

pub fn right_side(
    random: &mut Random,
    draft: &Draft,
    root: u8,
    left: &[Symbol],
    habits: &RuleHabits,
) -> Option<Vec<Symbol>> {
    let style = *random.pick(&habits.styles);
    let (branches, mut leaves) = split_operators(draft, |operator| match style {
        Style::Shrinking | Style::Free | Style::Copying => true,
        Style::Descending => operator < root,
        Style::Recursive => operator != root,
    });
    let variables = variables_of(left);
    if !variables.is_empty() {
        // One constant in two or three leaves, however many the book has.
        random.shuffle(&mut leaves);
        leaves.truncate(variables.len().div_ceil(2));
    }
    leaves.extend(&variables);
    let mut grower = Grower::new(random, branches, leaves);
    let mut limit = habits.right_limit;
    match style {
        Style::Shrinking => {
            grower.linear = true;
            limit = limit.min(left.len().saturating_sub(1)).max(1);
        }
        Style::Recursive => grower.parts = calls(random, draft, root, left),
        Style::Copying if !variables.is_empty() => {
            grower.leaves = variables;
            grower.stop = 6;
        }
        Style::Copying | Style::Descending | Style::Free => {}
    }
    grower.part(random, limit)
}

fn variables_of(side: &[Symbol]) -> Vec<Symbol> {
    side.iter()
        .copied()
        .filter(|symbol| matches!(symbol, Symbol::Variable(_)))
        .collect()
}

/// Calls of the root that put a deeper part at the place where it was found.
fn calls(random: &mut Random, draft: &Draft, root: u8, left: &[Symbol]) -> Vec<Vec<Symbol>> {
    let variables = variables_of(left);
    let arity = draft.arity(Symbol::Operator(root));
    let mut calls = Vec::new();
    let mut start = 1;
    for place in 0..arity {
        let end = draft
            .part_end(left, start)
            .expect("a left side is complete");
        let deeper = variables_of(&left[start + 1..end]);
        if !deeper.is_empty() {
            let mut call = vec![Symbol::Operator(root)];
            call.extend(
                (0..arity)
                    .map(|other| *random.pick(if other == place { &deeper } else { &variables })),
            );
            calls.push(call);
        }
        start = end;
    }
    calls
}

// ---------------------------------------------------------------------------
// Sums, products and the like: long runs that mostly finish

const ZERO: Symbol = Symbol::Operator(0);
const NEXT: Symbol = Symbol::Operator(1);
const SUM: Symbol = Symbol::Operator(2);
const PRODUCT: Symbol = Symbol::Operator(3);
const FIBONACCI: Symbol = Symbol::Operator(4);
const X: Symbol = Symbol::Variable(0);
const Y: Symbol = Symbol::Variable(15);

fn arithmetic(random: &mut Random) -> Draft {
    let operators = [0, 1, 2, 2, 1]
        .into_iter()
        .map(|arity| OperatorDraft {
            arity,
            strategy: arithmetic_strategy(random, arity),
        })
        .collect();
    let mut draft = Draft::new(operators, arithmetic_rules());
    if random.one_in(4) {
        random.shuffle(&mut draft.rules);
    }
    draft
}

fn arithmetic_strategy(random: &mut Random, arity: u8) -> Option<Vec<u8>> {
    match random.below(6) {
        0 => None,
        1 => Some(mixed_strategy(random, arity)),
        _ => Some(full_group(random, arity)),
    }
}

fn arithmetic_rules() -> Vec<RuleDraft> {
    let rule = |left: &[Symbol], right: &[Symbol]| RuleDraft::new(left.into(), right.into());
    vec![
        rule(&[SUM, ZERO, Y], &[Y]),
        rule(&[SUM, NEXT, X, Y], &[NEXT, SUM, X, Y]),
        rule(&[PRODUCT, ZERO, Y], &[ZERO]),
        rule(&[PRODUCT, NEXT, X, Y], &[SUM, Y, PRODUCT, X, Y]),
        rule(&[FIBONACCI, ZERO], &[ZERO]),
        rule(&[FIBONACCI, NEXT, ZERO], &[NEXT, ZERO]),
        rule(
            &[FIBONACCI, NEXT, NEXT, X],
            &[SUM, FIBONACCI, NEXT, X, FIBONACCI, X],
        ),
    ]
}

// ---------------------------------------------------------------------------
// Entries that match: variables that stand again, also in a group and beside it

const ENTRY: Symbol = Symbol::Operator(2);
const PAIR: Symbol = Symbol::Operator(3);
const TRIPLE: Symbol = Symbol::Operator(4);
const Z: Symbol = Symbol::Variable(7);

/// Two constants, and operators of one to three arguments.
fn matching(random: &mut Random) -> Draft {
    let operators = [0, 0, 1, 2, 3].into_iter().map(|arity| OperatorDraft {
        arity,
        strategy: match random.below(3) {
            0 => strategy(random, arity),
            1 => Some(full_group(random, arity)),
            _ => Some(part_group(random, arity)),
        },
    });
    let operators = operators.collect();
    let mut rules = matching_rules();
    random.shuffle(&mut rules);
    rules.truncate(random.between(1, 4));
    Draft::new(operators, rules)
}

fn matching_rules() -> Vec<RuleDraft> {
    let rule = |left: &[Symbol], right: &[Symbol]| RuleDraft::new(left.into(), right.into());
    vec![
        rule(&[PAIR, X, X], &[ENTRY, X]),
        rule(&[PAIR, ENTRY, X, PAIR, X, Y], &[PAIR, X, Y]),
        rule(&[PAIR, PAIR, X, Y, PAIR, X, Y], &[PAIR, Y, X]),
        rule(&[TRIPLE, X, X, X], &[X]),
        rule(&[TRIPLE, X, Y, X], &[PAIR, X, Y]),
        rule(&[TRIPLE, X, Y, Y], &[PAIR, Y, X]),
        rule(&[TRIPLE, X, PAIR, Y, X, Z], &[TRIPLE, Y, Z, X]),
        rule(&[TRIPLE, PAIR, X, Y, ENTRY, Y, X], &[ENTRY, PAIR, Y, Y]),
    ]
}
