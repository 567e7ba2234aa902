//! Books for nets: many left sides that go along with each other for some
//! symbols, the same ones again, ones for any argument, and long ones.

use crate::books::{right_side, strategy, RuleHabits};
use crate::draft::{Draft, OperatorDraft, RuleDraft, Symbol};
use crate::grow::{branch, is_constant, numbers, split_operators, Grower};
use crate::model::SIDE_LIMIT;
use crate::random::Random;

/// A few operators that left sides are made of, and constants that only say
/// which rule acted.
pub fn draft(random: &mut Random) -> Draft {
    let mut operators: Vec<OperatorDraft> = arities(random)
        .into_iter()
        .map(|arity| OperatorDraft {
            arity,
            strategy: own_strategy(random, arity),
        })
        .collect();
    let inner = operators.len();
    let count = random.from_ranges(&[(2, 12), (2, 12), (10, 40), (30, 120), (200, 255)]);
    let marks = random.from_ranges(&[(1, 4), (20, 60), (200, 255)]);
    operators.resize(255.min(inner + marks), OperatorDraft::default());
    let mut draft = Draft::new(operators, Vec::new());
    let lefts = left_sides(random, &draft, inner, count);
    let habits = RuleHabits::new(random);
    let marked = random.one_in(2);
    for left in lefts {
        let right = match marked || random.one_in(2) {
            true => Some(mark(random, &draft, inner, &left)),
            false => right_side(random, &draft, root_of(&left), &left, &habits),
        };
        let rules = &mut draft.rules;
        rules.extend(right.map(|right| RuleDraft::new(left, right)));
    }
    draft
}

fn arities(random: &mut Random) -> Vec<u8> {
    match random.below(5) {
        0 => vec![0, 1, 1],
        1 => vec![0, 0, 2],
        2 => vec![0, 0, 1, 2, 3],
        3 => vec![0, 1, 1, 1, 2, 2],
        _ => vec![0, 0, 0, 1, 1, 2, 2, 3],
    }
}

/// Mostly the whole term alone: arguments then stay what the line says.
fn own_strategy(random: &mut Random, arity: u8) -> Option<Vec<u8>> {
    match random.below(8) {
        0 => strategy(random, arity),
        1 => None,
        _ => Some(vec![0]),
    }
}

fn root_of(left: &[Symbol]) -> u8 {
    match left[0] {
        Symbol::Operator(root) => root,
        Symbol::Variable(_) => unreachable!("a left side is no variable"),
    }
}

/// A constant that few other rules have, alone or beside a variable's part.
fn mark(random: &mut Random, draft: &Draft, inner: usize, left: &[Symbol]) -> Vec<Symbol> {
    let constant = Symbol::Operator(random.between(inner, draft.operators.len() - 1) as u8);
    let pairs = numbers(draft).map(Symbol::Operator);
    let pair = pairs.into_iter().find(|&pair| draft.arity(pair) == 2);
    let is_variable = |symbol: &&Symbol| matches!(symbol, Symbol::Variable(_));
    let variables: Vec<Symbol> = left.iter().filter(is_variable).copied().collect();
    match (pair, variables.is_empty()) {
        (Some(pair), false) if random.one_in(3) => vec![pair, constant, *random.pick(&variables)],
        _ => vec![constant],
    }
}

// ---------------------------------------------------------------------------
// Left sides

/// Few roots; each side is mostly one of those before it with one part
/// changed, so that the two go along up to there.
fn left_sides(random: &mut Random, draft: &Draft, inner: usize, count: usize) -> Vec<Vec<Symbol>> {
    let mut roots: Vec<u8> = (0..inner as u8)
        .filter(|&operator| !is_constant(draft, operator))
        .collect();
    random.shuffle(&mut roots);
    roots.truncate(random.between(1, 2));
    let long = random.one_in(2);
    let mut sides: Vec<Vec<Symbol>> = Vec::new();
    while sides.len() < count {
        let side = match (random.below(12), sides.is_empty()) {
            (0, _) | (_, true) => {
                let root = *random.pick(&roots);
                any_side(
                    random,
                    draft,
                    inner,
                    root,
                    if long { SIDE_LIMIT } else { 12 },
                )
            }
            (1, _) if !long || random.one_in(4) => catch_all(draft, *random.pick(&roots)),
            (2, _) => random.pick(&sides).clone(),
            (3, _) => {
                let side = random_side(random, &sides);
                renamed(random, side)
            }
            _ => {
                let side = random_side(random, &sides);
                changed(random, draft, inner, side, long)
            }
        };
        sides.push(side);
    }
    if random.one_in(3) {
        random.shuffle(&mut sides);
    }
    sides
}

/// Often the last one, so that chains of changes grow.
fn random_side(random: &mut Random, sides: &[Vec<Symbol>]) -> Vec<Symbol> {
    match random.one_in(3) {
        true => sides[sides.len() - 1].clone(),
        false => random.pick(sides).clone(),
    }
}

fn any_side(
    random: &mut Random,
    draft: &Draft,
    inner: usize,
    root: u8,
    limit: usize,
) -> Vec<Symbol> {
    let (branches, mut leaves) = split_operators(draft, |operator| usize::from(operator) < inner);
    leaves.extend((0..random.between(1, 16) as u8).map(Symbol::Variable));
    let mut grower = Grower::new(random, branches, leaves);
    if limit == SIDE_LIMIT {
        grower.stop = 50;
    }
    let root = branch(draft, root);
    let mut room = limit.saturating_sub(root.len());
    let mut side = Vec::new();
    grower
        .grow_branch(random, &root, &mut room, &mut side)
        .expect("there are leaves");
    if random.one_in(2) {
        number_apart(&mut side);
    }
    side
}

/// No variable stands again, as long as there are 16.
fn number_apart(side: &mut [Symbol]) {
    let variables = side.iter_mut().filter_map(|symbol| match symbol {
        Symbol::Variable(variable) => Some(variable),
        Symbol::Operator(_) => None,
    });
    for (variable, number) in variables.zip((0..16).cycle()) {
        *variable = number;
    }
}

/// The root over a variable for each argument.
fn catch_all(draft: &Draft, root: u8) -> Vec<Symbol> {
    let arguments = draft.arity(Symbol::Operator(root)) as u8;
    let variables = (0..arguments).map(Symbol::Variable);
    [Symbol::Operator(root)]
        .into_iter()
        .chain(variables)
        .collect()
}

/// The same path with other variables, some of them perhaps the same.
fn renamed(random: &mut Random, mut side: Vec<Symbol>) -> Vec<Symbol> {
    let names = *random.pick(&[1, 2, 3, 16]);
    for symbol in &mut side {
        if let Symbol::Variable(variable) = symbol {
            *variable = random.below(names) as u8;
        }
    }
    side
}

/// One part inside becomes a variable, a constant or another part; where sides
/// are long mostly a late one.
fn changed(
    random: &mut Random,
    draft: &Draft,
    inner: usize,
    side: Vec<Symbol>,
    long: bool,
) -> Vec<Symbol> {
    if side.len() == 1 {
        return side;
    }
    let early = if long && !random.one_in(4) {
        side.len() * 3 / 4
    } else {
        0
    };
    let start = random.between(early.max(1), side.len() - 1);
    let end = draft.part_end(&side, start).expect("sides are complete");
    let room = SIDE_LIMIT - (side.len() - (end - start));
    let (branches, constants) = split_operators(draft, |operator| usize::from(operator) < inner);
    let variables = (0..4).map(Symbol::Variable);
    let part = match random.below(4) {
        0 => vec![Symbol::Variable(random.below(16) as u8)],
        1 => vec![*random.pick(&constants)],
        _ => {
            let leaves = constants.into_iter().chain(variables).collect();
            let limit = room.min(if long { 20 } else { 6 });
            let grown = Grower::new(random, branches, leaves).part(random, limit);
            grown.expect("there are leaves")
        }
    };
    [&side[..start], &part, &side[end..]].concat()
}
