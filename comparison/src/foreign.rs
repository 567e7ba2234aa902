//! Points that no run saved: some built by hand so that they meet the rules,
//! others saved ones with a field or two changed, so that they mostly break one.

use std::collections::HashSet;

use crate::model::{self, Book};
use crate::random::Random;
use crate::slots::{Point, Saved, SavedFrame, SavedUnit};
use crate::stacks::{next_count, steps, Step};

// ---------------------------------------------------------------------------
// Built by hand

/// Frames in places where some run might have them, and more that none has.
/// The symbols are a line of the book.
pub fn built(random: &mut Random, book: &Book, symbols: &[u8]) -> Saved {
    let units = random.between(1, 8);
    let mut builder = Builder::new(book, symbols, units);
    if !random.one_in(8) {
        builder.place_job(random, 0);
    }
    for _ in 0..random.from_ranges(&[(0, 4), (5, 60), (60, 200)]) {
        let unit = random.below(units);
        match random.below(5) {
            0..=2 => builder.place_job(random, unit),
            _ => builder.lend(random, unit),
        }
    }
    let (rewrites, budget) = within(random);
    Saved {
        budget,
        rewrites,
        entries: count(random),
        granted: count(random),
        kept: count(random),
        symbols: symbols.to_vec(),
        marks: marks(random, symbols.len()),
        units: builder.with_ranks(random),
        placed: builder
            .placed
            .iter()
            .rev()
            .map(|&unit| unit as u8)
            .collect(),
    }
}

/// Often none, often true or false ones.
fn marks(random: &mut Random, length: usize) -> Vec<bool> {
    let one_in = *random.pick(&[0, 2, 9]);
    let mut mark = |_| one_in > 0 && random.one_in(one_in);
    (0..length).map(&mut mark).collect()
}

fn within(random: &mut Random) -> (u64, u32) {
    let budget = *random.pick(&[0, 1, 9, 1000, u32::MAX]);
    let made = match random.below(3) {
        0 => budget,
        1 => budget / 2,
        _ => 0,
    };
    (made.into(), budget)
}

/// Often small, now and then so high that it stays.
fn count(random: &mut Random) -> u64 {
    match random.below(4) {
        0 => u64::MAX - random.below(9) as u64,
        1 => random.draw(),
        _ => random.below(1000) as u64,
    }
}

struct Builder<'a> {
    book: &'a Book,
    symbols: &'a [u8],
    /// The offset of each symbol's arguments.
    arguments: Vec<Vec<usize>>,
    /// Of each unit, the lowest first.
    stacks: Vec<Vec<SavedFrame>>,
    placed: Vec<usize>,
    /// Offsets that have a job, or a part that may get one.
    used: HashSet<usize>,
    /// The offset of the part of each EXIT, by unit and index.
    parts: Vec<(usize, usize, usize)>,
}

impl<'a> Builder<'a> {
    fn new(book: &'a Book, symbols: &'a [u8], units: usize) -> Builder<'a> {
        let mut stacks = vec![vec![SavedFrame::Sleep]; units];
        stacks[0] = vec![SavedFrame::Bingo];
        let mut arguments = vec![Vec::new(); symbols.len()];
        collect_arguments(book, symbols, 0, &mut arguments);
        Builder {
            book,
            symbols,
            arguments,
            stacks,
            placed: Vec::new(),
            used: HashSet::new(),
            parts: Vec::new(),
        }
    }

    fn steps(&self, offset: usize) -> Vec<Step> {
        let operator = usize::from(self.symbols[offset]);
        steps(&self.book.operators[operator].strategy)
    }

    /// The steps left to a visited job.
    fn left(&self, frame: SavedFrame) -> Option<(usize, Vec<Step>)> {
        match frame {
            SavedFrame::Job { offset, next, .. } if next > 0 => {
                let left = self.steps(offset.into()).split_off(usize::from(next) - 1);
                Some((offset.into(), left))
            }
            _ => None,
        }
    }

    /// The arguments of a visited job that its steps left don't name, and that
    /// no other job or part has.
    fn free(&self, frame: SavedFrame) -> Vec<usize> {
        let Some((offset, left)) = self.left(frame) else {
            return Vec::new();
        };
        let is_named = |argument: usize| {
            left.iter().any(|step| match step {
                Step::Visit(named) | Step::Fork(named) => usize::from(*named) == argument,
                Step::Join(_) | Step::Whole => false,
            })
        };
        let arguments = (1..).zip(&self.arguments[offset]);
        let free =
            arguments.filter(|(argument, at)| !is_named(*argument) && !self.used.contains(at));
        free.map(|(_, at)| *at).collect()
    }

    /// A job on top of the unit's stack, if there may be one.
    fn place_job(&mut self, random: &mut Random, unit: usize) {
        let index = self.stacks[unit].len() - 1;
        let at = match self.stacks[unit][index] {
            SavedFrame::Sleep => None,
            SavedFrame::Bingo => Some(0).filter(|root| !self.used.contains(root)),
            SavedFrame::Exit { .. } => {
                let of = |part: &&(usize, usize, usize)| (part.0, part.1) == (unit, index);
                self.parts.iter().find(of).map(|part| part.2)
            }
            job @ SavedFrame::Job { .. } => some_of(random, &self.free(job)),
        };
        if let Some(at) = at {
            self.used.insert(at);
            let job = self.job(random, at);
            self.stacks[unit].push(job);
        }
    }

    /// A job anywhere in its work, often where it may lend a part. No EXIT is
    /// due to it yet.
    fn job(&self, random: &mut Random, at: usize) -> SavedFrame {
        let steps = self.steps(at);
        let lends = |next: &usize| {
            let left = &steps[next - 1..];
            is_in_group(left) && least_count(left) < next_count(left)
        };
        let lending: Vec<usize> = (1..=steps.len()).filter(lends).collect();
        let any = random.below(steps.len() + 1);
        let next = match random.below(3) {
            0 => any,
            _ => some_of(random, &lending).unwrap_or(any),
        };
        let count = match next {
            0 => 0,
            _ => least_count(&steps[next - 1..]),
        };
        SavedFrame::Job {
            offset: at as u16,
            next: next as u8,
            count: count as u8,
        }
    }

    /// An EXIT on top of the unit's stack, if it may stand there and some job of
    /// another unit has a part for it.
    fn lend(&mut self, random: &mut Random, unit: usize) {
        let top = *self.stacks[unit].last().expect("a stack is never empty");
        let at_join = |(_, left): (usize, Vec<Step>)| matches!(left[0], Step::Join(_));
        if top != SavedFrame::Sleep && !self.left(top).is_some_and(at_join) {
            return;
        }
        let Some((lender, index)) = some_of(random, &self.lenders(unit)) else {
            return;
        };
        let free = self.free(self.stacks[lender][index]);
        let at = *random.pick(&free);
        self.used.insert(at);
        if let SavedFrame::Job { count, .. } = &mut self.stacks[lender][index] {
            *count += 1;
        }
        self.parts.push((unit, self.stacks[unit].len(), at));
        self.stacks[unit].push(SavedFrame::Exit {
            unit: lender as u8,
            index: index as u16,
        });
        self.placed.push(unit);
    }

    /// Jobs of other units with a JOIN before any WHOLE, which may count one
    /// more, and with a part to lend.
    fn lenders(&self, unit: usize) -> Vec<(usize, usize)> {
        let lends = |frame: SavedFrame| {
            let SavedFrame::Job { count, .. } = frame else {
                return false;
            };
            let may_count = self.left(frame).is_some_and(|(_, left)| {
                is_in_group(&left) && usize::from(count) < next_count(&left)
            });
            may_count && !self.free(frame).is_empty()
        };
        let others = (0..self.stacks.len()).filter(|&other| other != unit);
        let frames = others.flat_map(|other| {
            let stack = self.stacks[other].iter().enumerate();
            stack.map(move |(index, frame)| (other, index, *frame))
        });
        let lenders = frames.filter(|(_, _, frame)| lends(*frame));
        lenders.map(|(other, index, _)| (other, index)).collect()
    }

    /// Those that may wait mostly do, in any order.
    fn with_ranks(&self, random: &mut Random) -> Vec<SavedUnit> {
        let waits = |stack: &Vec<SavedFrame>| match stack.last() {
            Some(SavedFrame::Sleep) => true,
            Some(&job @ SavedFrame::Job { count, .. }) => {
                let left = self.left(job);
                count > 0 && left.is_some_and(|(_, left)| matches!(left[0], Step::Join(_)))
            }
            _ => false,
        };
        let units = 0..self.stacks.len();
        let mut idle: Vec<usize> = units
            .filter(|&unit| waits(&self.stacks[unit]) && !random.one_in(4))
            .collect();
        random.shuffle(&mut idle);
        let rank = |unit: usize| idle.iter().position(|&other| other == unit);
        let saved = self
            .stacks
            .iter()
            .enumerate()
            .map(|(unit, stack)| SavedUnit {
                rank: rank(unit).map_or(0, |place| place as u8 + 1),
                frames: stack.iter().rev().copied().collect(),
            });
        saved.collect()
    }
}

/// Answers the end of the part at an offset.
fn collect_arguments(
    book: &Book,
    symbols: &[u8],
    at: usize,
    arguments: &mut Vec<Vec<usize>>,
) -> usize {
    let arity = book.operators[usize::from(symbols[at])].arity;
    let mut next = at + 1;
    for _ in 0..arity {
        arguments[at].push(next);
        next = collect_arguments(book, symbols, next, arguments);
    }
    next
}

fn is_in_group(left: &[Step]) -> bool {
    let ends = |step: &&Step| matches!(step, Step::Join(_) | Step::Whole);
    matches!(left.iter().find(ends), Some(Step::Join(_)))
}

/// The count of a job that awaits no EXIT.
fn least_count(left: &[Step]) -> usize {
    if !is_in_group(left) {
        return next_count(left);
    }
    let before = left
        .iter()
        .take_while(|step| !matches!(step, Step::Join(_)));
    before.filter(|step| matches!(step, Step::Fork(_))).count()
}

fn some_of<T: Copy>(random: &mut Random, list: &[T]) -> Option<T> {
    match list {
        [] => None,
        _ => Some(*random.pick(list)),
    }
}

// ---------------------------------------------------------------------------
// Changed by hand

/// The point with a field or two changed. The form stays right, but for the
/// book's.
pub fn changed(random: &mut Random, point: &Point) -> Point {
    let mut changed = point.clone();
    for _ in 0..*random.pick(&[1, 1, 1, 2, 3]) {
        change(random, &mut changed);
    }
    changed
}

fn change(random: &mut Random, point: &mut Point) {
    let saved = &mut point.saved;
    match random.below(16) {
        0 | 1 => saved.marks = marks(random, saved.symbols.len()),
        2 => change_count(random, saved),
        3 => change_budget(random, saved),
        4 | 5 => change_ranks(random, saved),
        6 | 7 => change_placed(random, saved),
        8 => change_symbol(random, point),
        9 => change_length(random, saved),
        10..=12 => change_frame(random, saved),
        13 | 14 => change_stack(random, saved),
        _ => point.day = random.draw() as u16,
    }
}

fn change_count(random: &mut Random, saved: &mut Saved) {
    let count = count(random);
    match random.below(3) {
        0 => saved.entries = count,
        1 => saved.granted = count,
        _ => saved.kept = count,
    }
}

fn change_budget(random: &mut Random, saved: &mut Saved) {
    match random.below(4) {
        0 => saved.budget = saved.rewrites as u32,
        1 => saved.rewrites = saved.budget.into(),
        2 => saved.rewrites = u64::from(saved.budget) + 1,
        _ => saved.rewrites = random.draw(),
    }
}

fn some_unit<'a>(random: &mut Random, saved: &'a mut Saved) -> &'a mut SavedUnit {
    let unit = random.below(saved.units.len());
    &mut saved.units[unit]
}

fn change_ranks(random: &mut Random, saved: &mut Saved) {
    if random.one_in(2) {
        some_unit(random, saved).rank = random.below(8) as u8;
        return;
    }
    let mut ranks: Vec<u8> = saved.units.iter().map(|unit| unit.rank).collect();
    random.shuffle(&mut ranks);
    for (unit, rank) in saved.units.iter_mut().zip(ranks) {
        unit.rank = rank;
    }
}

fn change_placed(random: &mut Random, saved: &mut Saved) {
    let place = random.below(saved.placed.len() + 1);
    match random.below(4) {
        0 => {
            saved.placed.insert(place, random.below(8) as u8);
            saved.placed.truncate(1023);
        }
        1 if place < saved.placed.len() => {
            saved.placed.remove(place);
        }
        _ => random.shuffle(&mut saved.placed),
    }
}

/// Mostly another operator with as many arguments.
fn change_symbol(random: &mut Random, point: &mut Point) {
    let Ok(book) = model::read_book(&point.book) else {
        return;
    };
    let place = random.below(point.saved.symbols.len());
    let symbol = &mut point.saved.symbols[place];
    let arity = |number: u8| {
        let known = book.operators.get(usize::from(number));
        known.map(|operator| operator.arity)
    };
    let alike: Vec<u8> = (0..=u8::MAX)
        .filter(|&other| arity(other).is_some() && arity(other) == arity(*symbol))
        .collect();
    let other = random.byte();
    *symbol = match random.below(3) {
        0 => other,
        _ => some_of(random, &alike).unwrap_or(other),
    };
}

fn change_length(random: &mut Random, saved: &mut Saved) {
    if random.one_in(2) && saved.symbols.len() < 1024 {
        saved.symbols.push(0);
        saved.marks.push(false);
    } else if saved.symbols.len() > 1 {
        saved.symbols.pop();
        saved.marks.pop();
    }
}

/// A number of one frame becomes another, often the next one.
fn change_frame(random: &mut Random, saved: &mut Saved) {
    let unit = some_unit(random, saved);
    if unit.frames.is_empty() {
        return;
    }
    let place = random.below(unit.frames.len());
    match &mut unit.frames[place] {
        SavedFrame::Job {
            offset,
            next,
            count,
        } => match random.below(3) {
            0 => *offset = near(random, (*offset).into(), 1024) as u16,
            1 => *next = near(random, (*next).into(), 16) as u8,
            _ => *count = near(random, (*count).into(), 8) as u8,
        },
        SavedFrame::Exit { unit, index } => match random.below(2) {
            0 => *unit = random.below(8) as u8,
            _ => *index = near(random, (*index).into(), 2048) as u16,
        },
        SavedFrame::Sleep | SavedFrame::Bingo => unit.frames[place] = some_frame(random),
    }
}

fn near(random: &mut Random, value: usize, bound: usize) -> usize {
    match random.below(5) {
        0 => random.below(bound),
        1 | 2 => (value + 1) % bound,
        _ => value.saturating_sub(1),
    }
}

fn some_frame(random: &mut Random) -> SavedFrame {
    match random.below(4) {
        0 => SavedFrame::Sleep,
        1 => SavedFrame::Bingo,
        2 => SavedFrame::Exit {
            unit: random.below(8) as u8,
            index: random.below(4) as u16,
        },
        _ => SavedFrame::Job {
            offset: random.below(6) as u16,
            next: random.below(4) as u8,
            count: random.below(2) as u8,
        },
    }
}

/// A frame more or less, a unit more or less.
fn change_stack(random: &mut Random, saved: &mut Saved) {
    let idle = saved.units.iter().filter(|unit| unit.rank > 0).count() as u8;
    let frame = some_frame(random);
    match random.below(6) {
        0 | 1 => {
            let frames = &mut some_unit(random, saved).frames;
            let place = random.below(frames.len() + 1);
            frames.insert(place, frame);
        }
        2 | 3 => {
            let frames = &mut some_unit(random, saved).frames;
            let place = random.below(frames.len().max(1));
            frames.drain(place..(place + 1).min(frames.len()));
        }
        4 if saved.units.len() < 8 => saved.units.push(SavedUnit {
            rank: idle + 1,
            frames: vec![SavedFrame::Sleep],
        }),
        _ if saved.units.len() > 1 => {
            saved.units.pop();
        }
        _ => {}
    }
}
