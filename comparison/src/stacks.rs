//! The units as stacks of frames, which is how a point has them: one frame for
//! each term in work, and one for each order that is not a term's own.
//!
//! `model::Machine` has the orders themselves. Both are written from the
//! document, and `Stacks::orders` says which orders the frames stand for.

use std::collections::VecDeque;

use crate::model::{ending, Answer, Book, Item, Order, Position, Term, Unit, TERM_LIMIT};

/// What an item of a strategy gives, carried out by the entries of one unit.
#[derive(Clone, Copy, Debug, PartialEq, Eq)]
pub enum Step {
    Visit(u8),
    Fork(u8),
    /// With a count of its FORKs.
    Join(usize),
    Whole,
}

/// The orders that VISIT gives, the first on top.
pub fn steps(strategy: &[Item]) -> Vec<Step> {
    strategy.iter().flat_map(steps_of).collect()
}

fn steps_of(item: &Item) -> Vec<Step> {
    match item {
        Item::Whole => vec![Step::Whole],
        Item::Argument(argument) => vec![Step::Visit(*argument)],
        Item::Group(arguments) => {
            let (last, forked) = arguments
                .split_last()
                .expect("a settled group is not empty");
            let forks = forked.iter().map(|argument| Step::Fork(*argument));
            forks
                .chain([Step::Visit(*last), Step::Join(forked.len())])
                .collect()
        }
    }
}

/// The count that the next JOIN is laid out with; 0 if there is none.
pub fn next_count(steps: &[Step]) -> usize {
    let count = |step: &Step| match step {
        Step::Join(count) => Some(*count),
        _ => None,
    };
    steps.iter().find_map(count).unwrap_or(0)
}

#[derive(Clone, Debug, PartialEq, Eq)]
pub enum Frame {
    /// A term in work. `next` is 0 before its VISIT, and then one more than the
    /// place of its next order among its strategy's steps; `count` is that of
    /// its next JOIN.
    Job {
        term: Position,
        next: usize,
        count: usize,
    },
    /// Where the job of its JOIN stands; the lowest frame has index 0.
    Exit {
        unit: usize,
        index: usize,
    },
    Sleep,
    Bingo,
}

/// All that a run works on.
#[derive(Clone, Debug)]
pub struct Stacks<'b> {
    pub book: &'b Book,
    /// The present term, with its marks.
    pub term: Term,
    /// Of each unit; the last frame is the top one.
    pub stacks: Vec<Vec<Frame>>,
    /// The idle units, the one that has been idle longest in front.
    pub queue: VecDeque<usize>,
    /// The units of the pending parts, in the order in which these were placed.
    pub placed: Vec<usize>,
    pub budget: u32,
    /// What is counted over all parts of a run.
    pub rewrites: u64,
    pub entries: u64,
    pub granted: u64,
    pub kept: u64,
}

impl<'b> Stacks<'b> {
    pub fn new(book: &'b Book, line: Term, units: u8, budget: u32) -> Stacks<'b> {
        let visit = Frame::Job {
            term: Vec::new(),
            next: 0,
            count: 0,
        };
        let mut stacks = vec![vec![Frame::Sleep]; units.into()];
        stacks[0] = vec![Frame::Bingo, visit];
        Stacks {
            book,
            term: line,
            stacks,
            queue: (1..units.into()).collect(),
            placed: Vec::new(),
            budget,
            rewrites: 0,
            entries: 0,
            granted: 0,
            kept: 0,
        }
    }

    /// Carries out a schedule and answers the run's ending.
    pub fn run(&mut self, schedule: &[u8]) -> u8 {
        let mut endings = schedule.iter().map(|&unit| self.entry(unit.into()));
        endings.find_map(|ending| ending).unwrap_or(ending::CUT)
    }

    pub fn is_busy(&self, unit: usize) -> bool {
        !self.queue.contains(&unit)
    }

    /// Carries out one schedule entry; answers the ending if it ends the run.
    pub fn entry(&mut self, unit: usize) -> Option<u8> {
        self.entries = self.entries.saturating_add(1);
        if !self.is_busy(unit) {
            return None;
        }
        match self.pop(unit) {
            Frame::Job {
                term,
                next: 0,
                count: _,
            } => self.visit(unit, term),
            Frame::Job { term, next, count } => return self.step(unit, term, next, count),
            Frame::Exit {
                unit: parent,
                index,
            } => self.exit(unit, parent, index),
            Frame::Sleep => self.wait(unit, Frame::Sleep),
            Frame::Bingo => return Some(ending::FINISHED),
        }
        None
    }

    fn pop(&mut self, unit: usize) -> Frame {
        self.stacks[unit].pop().expect("a stack is never empty")
    }

    pub fn steps(&self, term: &[u8]) -> Vec<Step> {
        steps(self.book.strategy(self.part(term)))
    }

    fn part(&self, at: &[u8]) -> &Term {
        self.term.part(at).expect("a job is inside the term")
    }

    fn mark(&mut self, at: &[u8]) {
        let part = self.term.part_mut(at).expect("a job is inside the term");
        part.marked = true;
    }

    /// A marked part is dropped; one with an empty strategy is marked.
    fn visit(&mut self, unit: usize, term: Position) {
        if self.part(&term).marked {
            return;
        }
        let steps = self.steps(&term);
        if steps.is_empty() {
            self.mark(&term);
        }
        self.go_on(unit, term, 1, next_count(&steps), &steps);
    }

    /// The job stays on the stack while steps are left.
    fn go_on(&mut self, unit: usize, term: Position, next: usize, count: usize, left: &[Step]) {
        if !left.is_empty() {
            self.stacks[unit].push(Frame::Job { term, next, count });
        }
    }

    fn step(&mut self, unit: usize, term: Position, next: usize, count: usize) -> Option<u8> {
        let steps = self.steps(&term);
        let (step, left) = steps[next - 1..]
            .split_first()
            .expect("a job has steps left");
        match step {
            Step::Visit(argument) => {
                let part = child(&term, *argument);
                self.go_on(unit, term, next + 1, count, left);
                self.visit(unit, part);
            }
            Step::Fork(argument) => self.fork(unit, term, *argument, next, count, left),
            Step::Join(_) if count > 0 => self.wait(unit, Frame::Job { term, next, count }),
            Step::Join(_) => self.go_on(unit, term, next + 1, next_count(left), left),
            Step::Whole => return self.whole(unit, term, next, count, left),
        }
        None
    }

    fn fork(
        &mut self,
        unit: usize,
        term: Position,
        argument: u8,
        next: usize,
        count: usize,
        left: &[Step],
    ) {
        let visit = Frame::Job {
            term: child(&term, argument),
            next: 0,
            count: 0,
        };
        let index = self.stacks[unit].len();
        match self.queue.pop_front() {
            Some(helper) => {
                self.granted = self.granted.saturating_add(1);
                self.go_on(unit, term, next + 1, count, left);
                self.placed.push(helper);
                self.stacks[helper].extend([Frame::Exit { unit, index }, visit]);
            }
            None => {
                self.kept = self.kept.saturating_add(1);
                self.go_on(unit, term, next + 1, count - 1, left);
                self.stacks[unit].push(visit);
            }
        }
    }

    fn wait(&mut self, unit: usize, top: Frame) {
        self.stacks[unit].push(top);
        self.queue.push_back(unit);
    }

    /// The part is no longer pending. A parent whose count is now 0 leaves the
    /// queue, if it stands there.
    fn exit(&mut self, unit: usize, parent: usize, index: usize) {
        let latest = self.placed.iter().rposition(|&placed| placed == unit);
        self.placed
            .remove(latest.expect("an EXIT's part was placed"));
        let Frame::Job { count, .. } = &mut self.stacks[parent][index] else {
            panic!("an EXIT names a job");
        };
        *count -= 1;
        if *count == 0 {
            self.queue.retain(|&idle| idle != parent);
        }
    }

    fn whole(
        &mut self,
        unit: usize,
        term: Position,
        next: usize,
        count: usize,
        left: &[Step],
    ) -> Option<u8> {
        let part = self.part(&term);
        let Some((rule, filling)) = self.book.first_match(part) else {
            if left.is_empty() {
                self.mark(&term);
            }
            self.go_on(unit, term, next + 1, count, left);
            return None;
        };
        if self.rewrites == u64::from(self.budget) {
            return Some(ending::SPENT);
        }
        let size = self.term.size() - part.size() + rule.right.filled_size(&filling);
        if size > TERM_LIMIT {
            return Some(ending::FULL);
        }
        let filled = rule.right.filled(&filling);
        *self.term.part_mut(&term).expect("it was found") = filled;
        self.rewrites += 1;
        self.stacks[unit].push(Frame::Job {
            term,
            next: 0,
            count: 0,
        });
        None
    }

    pub fn answer(&self, ending: u8) -> Answer {
        Answer {
            ending,
            rewrites: self.rewrites,
            entries: self.entries,
            granted: self.granted,
            kept: self.kept,
            term: self.term.preorder(),
        }
    }
}

pub fn child(term: &[u8], argument: u8) -> Position {
    [term, &[argument]].concat()
}

// ---------------------------------------------------------------------------
// The orders that the frames stand for

impl Stacks<'_> {
    /// The units as `model::Machine` has them.
    pub fn orders(&self) -> Vec<Unit> {
        let units = 0..self.stacks.len();
        let lists = units.map(|unit| {
            let listed = self.stacks[unit].iter();
            let orders = listed.fold(Vec::new(), |orders, frame| self.with_frame(orders, frame));
            Unit {
                busy: self.is_busy(unit),
                orders,
            }
        });
        lists.collect()
    }

    fn with_frame(&self, mut orders: Vec<Order>, frame: &Frame) -> Vec<Order> {
        match frame {
            Frame::Job { term, next: 0, .. } => orders.push(Order::Visit(term.clone())),
            Frame::Job { term, next, count } => self.push_left(&mut orders, term, *next, *count),
            Frame::Exit { unit, index } => orders.push(Order::Exit {
                unit: *unit,
                join: self.join_height(*unit, *index),
            }),
            Frame::Sleep => orders.push(Order::Sleep),
            Frame::Bingo => orders.push(Order::Bingo),
        }
        orders
    }

    /// The last step goes to the list first. Of the JOINs only the next one may
    /// count less than it was laid out with.
    fn push_left(&self, orders: &mut Vec<Order>, term: &[u8], next: usize, count: usize) {
        let steps = self.steps(term);
        let below = orders.len();
        let mut join = below;
        for step in steps[next - 1..].iter().rev() {
            match step {
                Step::Visit(argument) => orders.push(Order::Visit(child(term, *argument))),
                Step::Fork(argument) => orders.push(Order::Fork {
                    argument: child(term, *argument),
                    join,
                }),
                Step::Join(count) => {
                    join = orders.len();
                    orders.push(Order::Join { count: *count });
                }
                Step::Whole => orders.push(Order::Whole {
                    term: term.to_vec(),
                    below,
                }),
            }
        }
        if let Order::Join { count: due } = &mut orders[join] {
            *due = count;
        }
    }

    /// How many orders lie under the next JOIN of the job at this index.
    fn join_height(&self, unit: usize, index: usize) -> usize {
        let up_to = self.stacks[unit][..=index].iter();
        let orders = up_to.fold(Vec::new(), |orders, frame| self.with_frame(orders, frame));
        let is_join = |order: &Order| matches!(order, Order::Join { .. });
        orders
            .iter()
            .rposition(is_join)
            .expect("an EXIT has a JOIN")
    }
}
