//! How long a schedule suffices: what the model answers, and the claim tried on
//! runs of several units, so that the comparison can tell what they tried.

use std::fmt::{self, Display, Formatter};

use crate::model::{self, ending, Book, Lengths, Machine, Term, TERM_LIMIT};
use crate::random::Random;
use crate::slots::Saved;
use crate::stacks::Stacks;
use crate::subject::Question;

/// The entries of the one-unit run that tells.
pub const ENTRIES: usize = 65_536;

/// The claim is about a run without symbol limit; terms longer than this are not
/// tried.
const LONGEST_TERM: usize = 2 * TERM_LIMIT;

/// Of a one-unit run.
#[derive(Clone, Copy, Debug, Default, PartialEq, Eq)]
pub struct Bound {
    /// The orders that it carries out, BINGO included.
    pub orders: u64,
    /// Its FORKs.
    pub forks: u64,
}

impl Bound {
    /// So many rounds, each naming every unit, suffice.
    pub fn rounds(&self) -> u64 {
        self.orders + 4 * self.forks
    }

    /// At most so many orders are carried out under any schedule.
    pub fn most(&self) -> u64 {
        self.orders + 3 * self.forks
    }
}

/// The number of a refusal; or the ending of the run that did not tell a bound; or
/// the bound.
pub type Told = Result<Result<Bound, u8>, u8>;

/// Of a question's book and line. Units, schedule and output are not asked with.
pub fn answer(question: &Question, lent: Lengths, asked: Lengths) -> Told {
    let areas = Lengths::of_areas(lent.work, lent.net);
    model::check_frame(1, areas, asked)?;
    let (book, term) = read(question)?;
    Ok(alone(&book, term, question.budget, TERM_LIMIT))
}

fn read(question: &Question) -> Result<(Book, Term), u8> {
    let book = model::read_book(question.book)?.on_day(question.day);
    let term = question.form.read(&book, question.line)?;
    Ok((book, term))
}

/// Runs one unit.
fn alone(book: &Book, term: Term, budget: u32, size_limit: usize) -> Result<Bound, u8> {
    let mut machine = Machine {
        size_limit,
        ..Machine::new(book, term, 1, budget)
    };
    let (ending, orders) = carried_out(&mut machine, &[0; ENTRIES]);
    match ending {
        ending::FINISHED => Ok(Bound {
            orders,
            forks: machine.granted + machine.kept,
        }),
        _ => Err(ending),
    }
}

/// A run that is carried out entry by entry.
trait Acting {
    fn is_busy(&self, unit: usize) -> bool;

    fn act(&mut self, unit: usize) -> Option<u8>;
}

impl Acting for Machine<'_> {
    fn is_busy(&self, unit: usize) -> bool {
        self.due(unit).is_some()
    }

    fn act(&mut self, unit: usize) -> Option<u8> {
        self.entry(unit)
    }
}

impl Acting for Stacks<'_> {
    fn is_busy(&self, unit: usize) -> bool {
        Stacks::is_busy(self, unit)
    }

    fn act(&mut self, unit: usize) -> Option<u8> {
        self.entry(unit)
    }
}

/// The run's ending and the orders that it carries out: an entry for an idle unit
/// is none.
fn carried_out(run: &mut impl Acting, schedule: &[u8]) -> (u8, u64) {
    let mut orders = 0;
    for &unit in schedule {
        orders += u64::from(run.is_busy(unit.into()));
        if let Some(ending) = run.act(unit.into()) {
            return (ending, orders);
        }
    }
    (ending::CUT, orders)
}

// ---------------------------------------------------------------------------
// The claim

/// Rounds that suffice for a question.
pub struct Enough {
    pub bound: Bound,
    /// Each names every unit once, in an order of its own.
    pub rounds: Vec<u8>,
}

/// Of a question that is answered so. `None` if its run is refused, or if one unit
/// doesn't finish.
pub fn enough(question: &Question, answer: &Told, seed: u64) -> Option<Enough> {
    model::check_frame(question.units, Lengths::LEAST, Lengths::LEAST).ok()?;
    model::check_schedule(question.schedule, question.units).ok()?;
    let bound = match answer {
        Ok(Ok(bound)) => *bound,
        // Only a run that ends full is another without symbol limit.
        Ok(Err(ending::FULL)) => {
            let (book, term) = read(question).ok()?;
            alone(&book, term, question.budget, LONGEST_TERM).ok()?
        }
        _ => return None,
    };
    let rounds = rounds(question.units, bound.rounds(), seed);
    Some(Enough { bound, rounds })
}

fn rounds(units: u8, count: u64, seed: u64) -> Vec<u8> {
    let mut random = Random::new(seed);
    let mut round: Vec<u8> = (0..units).collect();
    let mut schedule = Vec::new();
    for _ in 0..count {
        random.shuffle(&mut round);
        schedule.extend(&round);
    }
    schedule
}

/// What is counted, each of a line that is asked about.
pub const KINDS: [&str; 10] = [
    "that are refused",
    "of which one unit ends spent",
    "of which one unit ends full",
    "of which one unit ends cut",
    "of which one unit finishes with FORKs",
    "of which several units finish, FORKs granted",
    "of which several units end full, though one finishes without symbol limit",
    "of which several units carry out S + 3 × F orders, with FORKs",
    "whose own schedule ends cut, though enough rounds finish",
    "that are cut, saved and resumed, and the rounds left finish",
];

const REFUSED: usize = 0;
const FORKED: usize = 4;
const GRANTED: usize = 5;
const FULL: usize = 6;
const REACHED: usize = 7;
const TOO_FEW: usize = 8;
const RESUMED: usize = 9;

/// How often each kind was met, and the worst runs.
#[derive(Clone, Debug, Default, PartialEq, Eq)]
pub struct Bounds {
    /// Lines that one unit finishes without symbol limit.
    pub finished: u64,
    pub counts: [u64; KINDS.len()],
    /// The most orders besides S for each FORK, and that run's bound and orders.
    pub worst: Option<(Bound, u64)>,
    /// The most of its rounds that a run of several units with FORKs used.
    pub longest: Option<(Bound, u64)>,
}

impl Bounds {
    /// Counts what the model answers.
    pub fn count(&mut self, answer: &Told) {
        match answer {
            Err(_) => self.counts[REFUSED] += 1,
            Ok(Err(ending)) => self.counts[usize::from(*ending)] += 1,
            Ok(Ok(bound)) => self.counts[FORKED] += u64::from(bound.forks > 0),
        }
    }

    /// Tries the claim on the question's own schedule, on enough rounds, and on
    /// both in parts; answers what speaks against it.
    pub fn try_claim(&mut self, question: &Question, enough: &Enough) -> Option<String> {
        let (book, term) = read(question).ok()?;
        let bound = enough.bound;
        self.finished += 1;
        let new = || Machine::new(&book, term.clone(), question.units, question.budget);
        let (own, carried) = carried_out(&mut new(), question.schedule);
        let mut machine = new();
        let (ending, orders) = carried_out(&mut machine, &enough.rounds);
        self.add(&[
            (GRANTED, ending == ending::FINISHED && machine.granted > 0),
            (FULL, ending == ending::FULL),
            (REACHED, bound.forks > 0 && orders == bound.most()),
            (TOO_FEW, own == ending::CUT && ending == ending::FINISHED),
        ]);
        if machine.granted > 0 {
            let rounds = machine.entries.div_ceil(question.units.into());
            keep_longest(&mut self.longest, bound, rounds);
        }
        self.too_many(bound, carried.max(orders))
            .or_else(|| is_cut(bound, "enough rounds", ending))
            .or_else(|| self.try_parts(question, enough, &book, term))
    }

    /// The run by the question's own schedule is saved if it is cut, and resumed
    /// with the rounds that make up S + 4 × F with the orders carried out before.
    fn try_parts(
        &mut self,
        question: &Question,
        enough: &Enough,
        book: &Book,
        term: Term,
    ) -> Option<String> {
        let mut first = Stacks::new(book, term, question.units, question.budget);
        let (ending::CUT, carried) = carried_out(&mut first, question.schedule) else {
            return None;
        };
        let before = carried as usize * usize::from(question.units);
        let mut rest = Saved::of(&first).run(book);
        let (ending, orders) = carried_out(&mut rest, enough.rounds.get(before..)?);
        self.add(&[(RESUMED, ending == ending::FINISHED)]);
        self.too_many(enough.bound, carried + orders)
            .or_else(|| is_cut(enough.bound, "the rounds left", ending))
    }

    fn add(&mut self, met: &[(usize, bool)]) {
        for (kind, met) in met {
            self.counts[*kind] += u64::from(*met);
        }
    }

    fn too_many(&mut self, bound: Bound, orders: u64) -> Option<String> {
        if orders > bound.orders && self.is_worst(bound, orders) {
            self.worst = Some((bound, orders));
        }
        (orders > bound.most()).then(|| format!("{bound:?}: {orders} orders are carried out"))
    }

    /// More orders besides S for a FORK, or as many with more FORKs.
    fn is_worst(&self, bound: Bound, orders: u64) -> bool {
        let more = |bound: Bound, orders: u64| orders.saturating_sub(bound.orders);
        self.worst.is_none_or(|(other, carried)| {
            let one = more(bound, orders) * other.forks;
            let most = more(other, carried) * bound.forks;
            one > most || one == most && bound.forks > other.forks
        })
    }
}

/// More of the rounds that suffice.
fn keep_longest(longest: &mut Option<(Bound, u64)>, bound: Bound, rounds: u64) {
    let is_longer =
        longest.is_none_or(|(other, most)| rounds * other.rounds() > most * bound.rounds());
    if is_longer {
        *longest = Some((bound, rounds));
    }
}

fn is_cut(bound: Bound, what: &str, ending: u8) -> Option<String> {
    let uncut = matches!(ending, ending::FINISHED | ending::FULL);
    (!uncut).then(|| format!("{bound:?}: {what} end {ending}"))
}

impl Display for Bounds {
    fn fmt(&self, text: &mut Formatter) -> fmt::Result {
        for (kind, count) in KINDS.iter().zip(self.counts) {
            writeln!(text, "lines {kind}: {count}")?;
        }
        writeln!(text, "lines that one unit finishes: {}", self.finished)?;
        if let Some((bound, orders)) = self.worst {
            writeln!(text, "most orders: {orders}, where {bound}")?;
        }
        if let Some((bound, rounds)) = self.longest {
            writeln!(text, "most rounds: {rounds}, where {bound}")?;
        }
        Ok(())
    }
}

impl Display for Bound {
    fn fmt(&self, text: &mut Formatter) -> fmt::Result {
        let (orders, forks) = (self.orders, self.forks);
        let (most, rounds) = (self.most(), self.rounds());
        write!(
            text,
            "S = {orders}, F = {forks}, S + 3 × F = {most}, S + 4 × F = {rounds}"
        )
    }
}
