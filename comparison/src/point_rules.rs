//! The rules of a point: those of its form, and those of the run that it holds.
//!
//! Each rule is a function of its own, which says something of any fields; a
//! point meets the rules if it meets every one.

use crate::model::{self, Book};
use crate::slots::{Bits, Point, Saved, SavedFrame, BOOK_AT, NAME_LIMIT};
use crate::stacks::{next_count, steps, Step};

/// The rules, in the order in which they are looked at.
#[derive(Clone, Copy, Debug, PartialEq, Eq, PartialOrd, Ord)]
pub enum Rule {
    Name,
    Book,
    Fields,
    Padding,
    Known,
    Complete,
    Within,
    Job,
    Distinct,
    Stacks,
    Exits,
    Counts,
    Room,
    Many,
    Earlier,
    Ranked,
    Idle,
    /// Of a buffer, and not of one point.
    Names,
}

const JOB: &str = "a job is inside the term. Before its VISIT its count is 0; then its next order \
    is one of its strategy's, its count at most what its next JOIN is laid out with, and just that \
    if a WHOLE comes first or no JOIN is left";

const STACKS: &str = "unit 0's stack ends in BINGO, any other in SLEEP, and neither stands \
    elsewhere. A job stands on BINGO, at offset 0; on the visited job of which it is an argument \
    that no order left names; or on an EXIT for whose job that holds. An EXIT stands on SLEEP, or \
    on a job whose next order is a JOIN";

impl Rule {
    /// As the document of the format has it.
    pub fn words(self) -> &'static str {
        match self {
            Rule::Name => "the name's length is at most 16, and zeros stand behind the name",
            Rule::Book => "the book is inside the slot and would not be refused",
            Rule::Fields => "the fields are inside the slot",
            Rule::Padding => "the bits behind the fields, up to a whole byte, are 0",
            Rule::Known => "every symbol is an operator of the book",
            Rule::Complete => "every symbol is complete: the symbols are one term",
            Rule::Within => "the rewrites are not above the budget",
            Rule::Job => JOB,
            Rule::Distinct => "no two jobs are at one offset",
            Rule::Stacks => STACKS,
            Rule::Exits => {
                "every EXIT has one JOIN: it names another unit, and there the index of a job \
                 with a JOIN before any WHOLE"
            }
            Rule::Counts => {
                "the count of a JOIN that comes before any WHOLE is its FORKs still to be \
                 carried out and the EXITs that name its job together"
            }
            Rule::Room => {
                "of a visited job the arguments that its orders left name, one if a job stands \
                 on it, and the EXITs that name it are together at most its arity"
            }
            Rule::Many => {
                "each unit stands in the order of placing as often as EXITs stand on its stack"
            }
            Rule::Earlier => "every pending part is placed later than the part that forked it",
            Rule::Ranked => "the ranks of the idle units are 1 up to how many they are, each once",
            Rule::Idle => "an idle unit has SLEEP or a JOIN of count above 0 on top",
            Rule::Names => "no two points have one name",
        }
    }
}

/// Says whether a rule is met.
pub type Test = fn(&Seen) -> bool;

/// Those of the run that a point holds; its form's are met by then.
pub const OF_RUNS: [(Rule, Test); 13] = [
    (Rule::Known, is_known),
    (Rule::Complete, is_complete),
    (Rule::Within, is_within),
    (Rule::Job, are_jobs),
    (Rule::Distinct, are_distinct),
    (Rule::Stacks, are_stacked),
    (Rule::Exits, are_exits),
    (Rule::Counts, are_counted),
    (Rule::Room, is_room),
    (Rule::Many, are_as_many),
    (Rule::Earlier, are_earlier),
    (Rule::Ranked, are_ranked),
    (Rule::Idle, are_idle),
];

/// What stands in a slot.
#[derive(Clone, Debug, PartialEq, Eq)]
pub enum Slot {
    /// The name's length is 0, and nothing else is read.
    Free,
    /// The first rule that is broken.
    Broken(Rule),
    Holds(Box<Point>),
}

pub fn check(slot: &[u8]) -> Slot {
    if slot[0] == 0 {
        return Slot::Free;
    }
    match read(slot) {
        Err(rule) => Slot::Broken(rule),
        Ok(point) => match broken(&point).first() {
            Some(rule) => Slot::Broken(*rule),
            None => Slot::Holds(Box::new(point)),
        },
    }
}

/// The point in a slot whose form is right.
pub fn read(slot: &[u8]) -> Result<Point, Rule> {
    let name = read_name(slot).ok_or(Rule::Name)?;
    let number = |at: usize| u16::from_be_bytes([slot[at], slot[at + 1]]);
    let day = number(BOOK_AT - 2);
    let end = BOOK_AT + usize::from(number(BOOK_AT - 4));
    let book = slot.get(BOOK_AT..end).ok_or(Rule::Book)?;
    model::read_book(book).map_err(|_| Rule::Book)?;
    let mut bits = Bits::new(&slot[end..]);
    let saved = Saved::read(&mut bits).ok_or(Rule::Fields)?;
    match bits.is_padding_zero() {
        false => Err(Rule::Padding),
        true => Ok(Point {
            name,
            book: book.to_vec(),
            day,
            saved,
        }),
    }
}

fn read_name(slot: &[u8]) -> Option<Vec<u8>> {
    let length = usize::from(slot[0]);
    let name = &slot[1..=NAME_LIMIT];
    let behind = name.get(length..)?;
    let is_zero = behind.iter().all(|&byte| byte == 0);
    is_zero.then(|| name[..length].to_vec())
}

/// The rules of runs that a point breaks. Its book is one that is read.
pub fn broken(point: &Point) -> Vec<Rule> {
    let book = model::read_book(&point.book).expect("a book that is read");
    let seen = Seen::new(&book, &point.saved);
    let unmet = OF_RUNS.iter().filter(|(_, is_met)| !is_met(&seen));
    unmet.map(|(rule, _)| *rule).collect()
}

// ---------------------------------------------------------------------------
// The fields as the rules look at them

/// The symbol of which another is an argument, by its offset, and which
/// argument.
type Seat = (usize, u8);

pub struct Seen<'a> {
    book: &'a Book,
    saved: &'a Saved,
    /// Of each symbol; none at the root, and for symbols that no term has room
    /// for.
    seats: Vec<Option<Seat>>,
    /// Of each unit, the lowest frame first.
    stacks: Vec<Vec<SavedFrame>>,
}

/// A job and where it stands.
#[derive(Clone, Copy)]
struct Job {
    unit: usize,
    index: usize,
    offset: usize,
    next: usize,
    count: usize,
}

/// An EXIT and where it stands, and the job that it names.
#[derive(Clone, Copy)]
struct Exit {
    unit: usize,
    index: usize,
    named: (usize, usize),
}

impl<'a> Seen<'a> {
    pub fn new(book: &'a Book, saved: &'a Saved) -> Seen<'a> {
        let turned = |frames: &Vec<SavedFrame>| frames.iter().rev().copied().collect();
        let stacks = saved.units.iter().map(|unit| turned(&unit.frames));
        Seen {
            book,
            saved,
            seats: seats(book, &saved.symbols),
            stacks: stacks.collect(),
        }
    }

    fn frame(&self, unit: usize, index: usize) -> Option<SavedFrame> {
        self.stacks.get(unit)?.get(index).copied()
    }

    fn job(&self, unit: usize, index: usize) -> Option<Job> {
        match self.frame(unit, index)? {
            SavedFrame::Job {
                offset,
                next,
                count,
            } => Some(Job {
                unit,
                index,
                offset: offset.into(),
                next: next.into(),
                count: count.into(),
            }),
            _ => None,
        }
    }

    fn exit(&self, unit: usize, index: usize) -> Option<Exit> {
        match self.frame(unit, index)? {
            SavedFrame::Exit {
                unit: lender,
                index: at,
            } => Some(Exit {
                unit,
                index,
                named: (lender.into(), at.into()),
            }),
            _ => None,
        }
    }

    /// Every frame's unit and index.
    fn places(&self) -> impl Iterator<Item = (usize, usize)> + '_ {
        let units = self.stacks.iter().enumerate();
        units.flat_map(|(unit, stack)| (0..stack.len()).map(move |index| (unit, index)))
    }

    fn jobs(&self) -> impl Iterator<Item = Job> + '_ {
        self.places()
            .filter_map(|(unit, index)| self.job(unit, index))
    }

    fn exits(&self) -> impl Iterator<Item = Exit> + '_ {
        self.places()
            .filter_map(|(unit, index)| self.exit(unit, index))
    }

    /// How many EXITs name the job.
    fn awaited(&self, job: &Job) -> usize {
        let named = (job.unit, job.index);
        self.exits().filter(|exit| exit.named == named).count()
    }

    /// All steps of the job's strategy; none if it is not inside the term.
    fn steps(&self, job: &Job) -> Vec<Step> {
        let operator = self.saved.symbols.get(job.offset);
        let known = operator.and_then(|&number| self.book.operators.get(usize::from(number)));
        known.map_or(Vec::new(), |operator| steps(&operator.strategy))
    }

    /// The steps that are left to a visited job.
    fn left(&self, job: &Job) -> Vec<Step> {
        match job.next {
            0 => Vec::new(),
            next => self.steps(job).into_iter().skip(next - 1).collect(),
        }
    }
}

fn arity(book: &Book, operator: u8) -> u8 {
    let known = book.operators.get(usize::from(operator));
    known.map_or(0, |operator| operator.arity)
}

/// An unknown operator is taken to have no arguments.
fn seats(book: &Book, symbols: &[u8]) -> Vec<Option<Seat>> {
    // The symbols that still lack arguments, and how many they have.
    let mut open: Vec<Seat> = Vec::new();
    let mut seats = Vec::new();
    for (offset, &operator) in symbols.iter().enumerate() {
        while open
            .last()
            .is_some_and(|&(of, has)| has == arity(book, symbols[of]))
        {
            open.pop();
        }
        let seat = open.last_mut().map(|(of, has)| {
            *has += 1;
            (*of, *has)
        });
        seats.push(seat);
        if arity(book, operator) > 0 {
            open.push((offset, 0));
        }
    }
    seats
}

// ---------------------------------------------------------------------------
// Steps

/// The steps before the next JOIN, if no WHOLE is among them.
fn before_join(steps: &[Step]) -> Option<&[Step]> {
    let ends = |step: &Step| matches!(step, Step::Join(_) | Step::Whole);
    let end = steps.iter().position(ends)?;
    matches!(steps[end], Step::Join(_)).then(|| &steps[..end])
}

fn is_at_join(steps: &[Step]) -> bool {
    matches!(steps.first(), Some(Step::Join(_)))
}

fn named(step: &Step) -> Option<u8> {
    match step {
        Step::Visit(argument) | Step::Fork(argument) => Some(*argument),
        Step::Join(_) | Step::Whole => None,
    }
}

// ---------------------------------------------------------------------------
// The rules of runs

pub fn is_known(seen: &Seen) -> bool {
    let count = seen.book.operators.len();
    let mut symbols = seen.saved.symbols.iter();
    symbols.all(|&operator| usize::from(operator) < count)
}

/// Each symbol but the root is an argument, and none lacks an argument.
pub fn is_complete(seen: &Seen) -> bool {
    let symbols = &seen.saved.symbols;
    let arguments: usize = symbols
        .iter()
        .map(|&operator| usize::from(arity(seen.book, operator)))
        .sum();
    let seated = seen.seats[1..].iter().all(Option::is_some);
    seated && arguments == symbols.len() - 1
}

pub fn is_within(seen: &Seen) -> bool {
    seen.saved.rewrites <= u64::from(seen.saved.budget)
}

pub fn are_jobs(seen: &Seen) -> bool {
    seen.jobs().all(|job| is_job(seen, &job))
}

fn is_job(seen: &Seen, job: &Job) -> bool {
    let inside = job.offset < seen.saved.symbols.len();
    if job.next == 0 {
        return inside && job.count == 0;
    }
    let left = seen.left(job);
    let laid_out = next_count(&left);
    let may_be_less = before_join(&left).is_some();
    let counted = job.count == laid_out || may_be_less && job.count < laid_out;
    inside && !left.is_empty() && counted
}

pub fn are_distinct(seen: &Seen) -> bool {
    let mut offsets: Vec<usize> = seen.jobs().map(|job| job.offset).collect();
    offsets.sort_unstable();
    offsets.windows(2).all(|pair| pair[0] != pair[1])
}

pub fn are_stacked(seen: &Seen) -> bool {
    let ends = (0..).zip(&seen.stacks).all(|(unit, stack)| {
        let last = match unit {
            0 => SavedFrame::Bingo,
            _ => SavedFrame::Sleep,
        };
        stack.first() == Some(&last)
    });
    let mut above = seen.places().filter(|&(_, index)| index > 0);
    ends && above.all(|(unit, index)| stands(seen, unit, index))
}

/// Does the frame stand on such a frame as it may?
fn stands(seen: &Seen, unit: usize, index: usize) -> bool {
    let below = seen.stacks[unit][index - 1];
    match seen.stacks[unit][index] {
        SavedFrame::Sleep | SavedFrame::Bingo => false,
        SavedFrame::Exit { .. } => match seen.job(unit, index - 1) {
            Some(job) => is_at_join(&seen.left(&job)),
            None => below == SavedFrame::Sleep,
        },
        SavedFrame::Job { offset, .. } => match below {
            SavedFrame::Sleep => false,
            SavedFrame::Bingo => offset == 0,
            SavedFrame::Job { .. } => is_argument(seen, offset, seen.job(unit, index - 1)),
            SavedFrame::Exit {
                unit: lender,
                index: at,
            } => is_argument(seen, offset, seen.job(lender.into(), at.into())),
        },
    }
}

/// Is the symbol at this offset an argument of the job, which is visited and
/// names it no more?
fn is_argument(seen: &Seen, offset: u16, of: Option<Job>) -> bool {
    let seat = seen.seats.get(usize::from(offset)).copied().flatten();
    let (Some(job), Some((parent, argument))) = (of, seat) else {
        return false;
    };
    let left = seen.left(&job);
    let is_named = left.iter().filter_map(named).any(|other| other == argument);
    job.next > 0 && parent == job.offset && !is_named
}

pub fn are_exits(seen: &Seen) -> bool {
    seen.exits().all(|exit| {
        let (unit, index) = exit.named;
        let job = seen.job(unit, index);
        let has_join = job.is_some_and(|job| before_join(&seen.left(&job)).is_some());
        unit != exit.unit && has_join
    })
}

pub fn are_counted(seen: &Seen) -> bool {
    seen.jobs().all(|job| {
        let left = seen.left(&job);
        let Some(before) = before_join(&left) else {
            return true;
        };
        let is_fork = |step: &&Step| matches!(step, Step::Fork(_));
        let forks = before.iter().filter(is_fork).count();
        job.count == forks + seen.awaited(&job)
    })
}

pub fn is_room(seen: &Seen) -> bool {
    let mut visited = seen.jobs().filter(|job| job.next > 0);
    visited.all(|job| {
        let named = seen.left(&job).iter().filter_map(named).count();
        let on_it = usize::from(seen.job(job.unit, job.index + 1).is_some());
        let operator = seen.saved.symbols.get(job.offset);
        let arity = operator.map_or(0, |&operator| arity(seen.book, operator));
        named + on_it + seen.awaited(&job) <= arity.into()
    })
}

pub fn are_as_many(seen: &Seen) -> bool {
    let placed = |unit: usize| {
        let placed = seen.saved.placed.iter();
        placed.filter(|&&other| usize::from(other) == unit).count()
    };
    let exits = |unit: usize| seen.exits().filter(|exit| exit.unit == unit).count();
    // Units that are not there have no EXITs.
    (0..8).all(|unit| placed(unit) == exits(unit))
}

/// When the part of each EXIT was placed: the units' places in the order, from
/// the earliest, are those of their EXITs from below.
fn times(seen: &Seen) -> Vec<(Exit, usize)> {
    let order = seen.saved.placed.iter().rev().enumerate();
    let of_unit = |unit: usize| {
        let own = order.clone();
        own.filter(move |(_, &other)| usize::from(other) == unit)
            .map(|(time, _)| time)
    };
    let units = 0..seen.stacks.len();
    let timed = units.flat_map(|unit| {
        let exits = seen.exits().filter(move |exit| exit.unit == unit);
        exits.zip(of_unit(unit))
    });
    timed.collect()
}

/// The part that forked another is the one whose EXIT is next below the job
/// that is named; those further below were placed earlier still.
pub fn are_earlier(seen: &Seen) -> bool {
    let times = times(seen);
    times.iter().all(|(exit, time)| {
        let (unit, index) = exit.named;
        let mut below = times
            .iter()
            .filter(|(other, _)| other.unit == unit && other.index < index);
        below.all(|(_, other)| other < time)
    })
}

pub fn are_ranked(seen: &Seen) -> bool {
    let ranks = seen.saved.units.iter().map(|unit| unit.rank);
    let mut idle: Vec<u8> = ranks.filter(|&rank| rank > 0).collect();
    idle.sort_unstable();
    idle.iter().zip(1..).all(|(&rank, due)| rank == due)
}

pub fn are_idle(seen: &Seen) -> bool {
    let mut units = seen.saved.units.iter().enumerate();
    units.all(|(unit, saved)| saved.rank == 0 || waits(seen, unit))
}

fn waits(seen: &Seen, unit: usize) -> bool {
    let top = seen.stacks[unit].len().wrapping_sub(1);
    match seen.job(unit, top) {
        Some(job) => is_at_join(&seen.left(&job)) && job.count > 0,
        None => seen.frame(unit, top) == Some(SavedFrame::Sleep),
    }
}
