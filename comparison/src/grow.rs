//! Grows random sides and lines in preorder within a number of symbols.

use std::ops::Range;

use crate::draft::{Draft, Symbol};
use crate::model::TERM_LIMIT;
use crate::random::Random;

/// What stands at a place of a branch.
#[derive(Clone, Copy, Debug, PartialEq, Eq)]
pub enum Place {
    Is(Symbol),
    /// For a part that is still to grow.
    Hole,
    /// The same, for a variable that stands in other places too.
    Shared(u8),
}

pub type Branch = Vec<Place>;

pub struct Grower {
    pub branches: Vec<Branch>,
    pub leaves: Vec<Symbol>,
    /// Whole parts of several symbols.
    pub parts: Vec<Vec<Symbol>>,
    /// A variable is used once and then taken from the leaves.
    pub linear: bool,
    /// One hole in so many is closed at once.
    pub stop: usize,
    /// Holes share the room evenly; otherwise the first ones take it.
    pub even: bool,
    /// The operators' arities, by which parts are made that nearly equal
    /// others.
    pub arities: Vec<usize>,
}

impl Grower {
    pub fn new(random: &mut Random, branches: Vec<Branch>, leaves: Vec<Symbol>) -> Grower {
        Grower {
            branches,
            leaves,
            parts: Vec::new(),
            linear: false,
            stop: *random.pick(&[2, 3, 6, 50]),
            even: random.one_in(2),
            arities: Vec::new(),
        }
    }

    /// A whole part of at most `limit` symbols, if there are leaves for it.
    pub fn part(&mut self, random: &mut Random, limit: usize) -> Option<Vec<Symbol>> {
        let mut symbols = Vec::new();
        self.grow(random, &mut (limit - 1), &mut symbols)?;
        Some(symbols)
    }

    /// `room` is what may be used beyond one symbol for each open hole.
    fn grow(
        &mut self,
        random: &mut Random,
        room: &mut usize,
        symbols: &mut Vec<Symbol>,
    ) -> Option<()> {
        match self.choose_branch(random, *room) {
            Some(branch) => {
                *room -= branch.len() - 1;
                self.grow_branch(random, &branch, room, symbols)
            }
            None => self.close(random, room, symbols),
        }
    }

    pub fn grow_branch(
        &mut self,
        random: &mut Random,
        branch: &Branch,
        room: &mut usize,
        symbols: &mut Vec<Symbol>,
    ) -> Option<()> {
        let mut holes = branch.iter().filter(|place| place.is_open()).count();
        // Where parts are to be equal, the first one leaves room for the others.
        let even = self.even || branch.iter().any(|place| place.shared().is_some());
        let mut grown: Vec<(u8, Range<usize>)> = Vec::new();
        for place in branch {
            if let Place::Is(symbol) = place {
                symbols.push(*symbol);
                continue;
            }
            let lent = if even { *room / holes } else { *room };
            let mut left = lent;
            let start = symbols.len();
            let before = grown
                .iter()
                .find(|(variable, _)| Some(*variable) == place.shared());
            match before.map(|(_, part)| symbols[part.clone()].to_vec()) {
                Some(first) => self.grow_again(random, first, &mut left, symbols)?,
                None => self.grow(random, &mut left, symbols)?,
            }
            grown.extend(
                place
                    .shared()
                    .map(|variable| (variable, start..symbols.len())),
            );
            *room -= lent - left;
            holes -= 1;
        }
        Some(())
    }

    /// A part where a variable stands again: mostly equal to the first one, or
    /// nearly so.
    fn grow_again(
        &mut self,
        random: &mut Random,
        first: Vec<Symbol>,
        room: &mut usize,
        symbols: &mut Vec<Symbol>,
    ) -> Option<()> {
        let last = first.len() - 1;
        let part = match random.below(12) {
            0..=5 => Some(first),
            6..=8 => self.with_other_symbol(random, first, last),
            9 => self.with_other_symbol(random, first, 0),
            10 => self.of_other_length(random, first),
            _ => None,
        };
        match part.filter(|part| part.len() - 1 <= *room) {
            Some(part) => {
                *room -= part.len() - 1;
                symbols.extend(part);
                Some(())
            }
            None => self.grow(random, room, symbols),
        }
    }

    /// Another operator with as many arguments, if there is one.
    fn with_other_symbol(
        &self,
        random: &mut Random,
        mut part: Vec<Symbol>,
        place: usize,
    ) -> Option<Vec<Symbol>> {
        let others: Vec<Symbol> = (0..self.arities.len())
            .map(|operator| Symbol::Operator(operator as u8))
            .filter(|&other| other != part[place] && self.arity(other) == self.arity(part[place]))
            .collect();
        if others.is_empty() {
            return None;
        }
        part[place] = *random.pick(&others);
        Some(part)
    }

    /// Some argument inside becomes a constant, or a constant becomes longer.
    fn of_other_length(&mut self, random: &mut Random, part: Vec<Symbol>) -> Option<Vec<Symbol>> {
        let start = random.below(part.len());
        let end = self.part_end(&part, start);
        let leaf = self.leaf(random)?;
        let other = match end - start {
            1 => {
                let operator = random.below(self.arities.len());
                let leaves = vec![leaf; self.arities[operator]];
                [vec![Symbol::Operator(operator as u8)], leaves].concat()
            }
            _ => vec![leaf],
        };
        Some([&part[..start], &other, &part[end..]].concat())
    }

    fn arity(&self, symbol: Symbol) -> usize {
        match symbol {
            Symbol::Operator(operator) => self.arities[usize::from(operator)],
            Symbol::Variable(_) => 0,
        }
    }

    fn part_end(&self, part: &[Symbol], start: usize) -> usize {
        let mut due = 1;
        let mut end = start;
        while due > 0 {
            due = due + self.arity(part[end]) - 1;
            end += 1;
        }
        end
    }

    fn choose_branch(&self, random: &mut Random, room: usize) -> Option<Branch> {
        if self.branches.is_empty() || random.one_in(self.stop) {
            return None;
        }
        // A few tries are enough: where little room is left, holes close.
        (0..3)
            .map(|_| random.pick(&self.branches))
            .find(|branch| branch.len() - 1 <= room)
            .cloned()
    }

    fn close(
        &mut self,
        random: &mut Random,
        room: &mut usize,
        symbols: &mut Vec<Symbol>,
    ) -> Option<()> {
        if !self.parts.is_empty() && random.one_in(2) {
            let part = random.pick(&self.parts);
            if part.len() - 1 <= *room {
                *room -= part.len() - 1;
                symbols.extend(part);
                return Some(());
            }
        }
        symbols.push(self.leaf(random)?);
        Some(())
    }

    fn leaf(&mut self, random: &mut Random) -> Option<Symbol> {
        if self.leaves.is_empty() {
            return None;
        }
        let place = random.below(self.leaves.len());
        let leaf = self.leaves[place];
        if self.linear && matches!(leaf, Symbol::Variable(_)) {
            self.leaves.swap_remove(place);
        }
        Some(leaf)
    }
}

impl Place {
    fn is_open(&self) -> bool {
        !matches!(self, Place::Is(_))
    }

    fn shared(&self) -> Option<u8> {
        match self {
            Place::Shared(variable) => Some(*variable),
            _ => None,
        }
    }
}

/// An operator with a hole for each argument.
pub fn branch(draft: &Draft, operator: u8) -> Branch {
    let symbol = Symbol::Operator(operator);
    let holes = draft.arity(symbol);
    [vec![Place::Is(symbol)], vec![Place::Hole; holes]].concat()
}

pub fn numbers(draft: &Draft) -> impl Iterator<Item = u8> + '_ {
    (0..draft.operators.len()).map(|operator| operator as u8)
}

pub fn is_constant(draft: &Draft, operator: u8) -> bool {
    draft.arity(Symbol::Operator(operator)) == 0
}

/// The branches and the constant leaves among the operators that are allowed.
pub fn split_operators(draft: &Draft, allowed: impl Fn(u8) -> bool) -> (Vec<Branch>, Vec<Symbol>) {
    let (constants, others): (Vec<u8>, Vec<u8>) = numbers(draft)
        .filter(|&operator| allowed(operator))
        .partition(|&operator| is_constant(draft, operator));
    let branches = others
        .into_iter()
        .map(|operator| branch(draft, operator))
        .collect();
    (
        branches,
        constants.into_iter().map(Symbol::Operator).collect(),
    )
}

/// Left sides are planted in the line, so that rules find something to do.
/// Without a constant in the book no line can be grown, and it stays empty.
pub fn line(random: &mut Random, draft: &Draft) -> Vec<u8> {
    planted(random, draft, |_, _| {})
}

/// A line in which some left sides are planted with one operator changed: it
/// agrees with them up to there. Often one of them is the whole line, so that
/// long ones have room.
pub fn near_line(random: &mut Random, draft: &Draft) -> Vec<u8> {
    let change = |random: &mut Random, branch: &mut Branch| {
        if random.one_in(3) {
            change_operator(random, draft, branch);
        }
    };
    if draft.rules.is_empty() || random.one_in(3) {
        return planted(random, draft, change);
    }
    let mut branch = holes_for_variables(&random.pick(&draft.rules).left);
    change(random, &mut branch);
    let (branches, constants) = split_operators(draft, |_| true);
    let mut grower = Grower::new(random, branches, constants);
    grower.arities = arities(draft);
    let mut room = random.from_ranges(&[(0, 4), (0, 30), (100, TERM_LIMIT - branch.len())]);
    let mut symbols = Vec::new();
    let grown = grower.grow_branch(random, &branch, &mut room, &mut symbols);
    grown.map_or(Vec::new(), |()| {
        symbols.into_iter().map(operator_number).collect()
    })
}

fn arities(draft: &Draft) -> Vec<usize> {
    numbers(draft)
        .map(|operator| draft.arity(Symbol::Operator(operator)))
        .collect()
}

fn change_operator(random: &mut Random, draft: &Draft, branch: &mut Branch) {
    let place = random.below(branch.len()).max(random.below(branch.len()));
    let Place::Is(symbol) = branch[place] else {
        return;
    };
    let arity = draft.arity(symbol);
    let others: Vec<Symbol> = numbers(draft)
        .map(Symbol::Operator)
        .filter(|&other| other != symbol && draft.arity(other) == arity)
        .collect();
    if !others.is_empty() {
        branch[place] = Place::Is(*random.pick(&others));
    }
}

fn planted(
    random: &mut Random,
    draft: &Draft,
    change: impl Fn(&mut Random, &mut Branch),
) -> Vec<u8> {
    let limit = random.from_ranges(&[
        (1, 8),
        (3, 20),
        (3, 20),
        (10, 60),
        (10, 60),
        (60, 300),
        (TERM_LIMIT - 2, TERM_LIMIT),
    ]);
    let (mut branches, constants) = split_operators(draft, |_| true);
    if let Some(last) = draft.rules.last() {
        for _ in 0..random.between(0, 3 * branches.len() + 2) {
            let rule = if random.one_in(8) {
                last
            } else {
                random.pick(&draft.rules)
            };
            let mut branch = holes_for_variables(&rule.left);
            change(random, &mut branch);
            branches.push(branch);
        }
    }
    let mut grower = Grower::new(random, branches, constants);
    grower.arities = arities(draft);
    grower.stop = if limit > 60 {
        50
    } else {
        *random.pick(&[8, 20, 50])
    };
    let symbols = grower.part(random, limit).unwrap_or_default();
    symbols.into_iter().map(operator_number).collect()
}

fn holes_for_variables(side: &[Symbol]) -> Branch {
    let times = |variable: &Symbol| side.iter().filter(|other| *other == variable).count();
    let place = |symbol: &Symbol| match symbol {
        Symbol::Operator(_) => Place::Is(*symbol),
        Symbol::Variable(variable) if times(symbol) > 1 => Place::Shared(*variable),
        Symbol::Variable(_) => Place::Hole,
    };
    side.iter().map(place).collect()
}

fn operator_number(symbol: Symbol) -> u8 {
    match symbol {
        Symbol::Operator(operator) => operator,
        Symbol::Variable(_) => unreachable!("lines are grown without variables"),
    }
}
