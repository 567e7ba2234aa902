//! A seeded generator and random cases.
//!
//! Most cases are sound and differ in how their runs go. The others carry one
//! to three faults, so that the order in which faults are told is met too.

use crate::batches;
use crate::books::draft;
use crate::branching;
use crate::charges;
use crate::dates;
use crate::draft::{Case, Draft};
use crate::faults::spoil;
use crate::grow::{line, near_line};
use crate::model::{Form, SCHEDULE_LIMIT};
use crate::parted;
use crate::subject::Question;
use crate::texts;

/// SplitMix64.
pub struct Random {
    state: u64,
}

impl Random {
    pub fn new(seed: u64) -> Random {
        Random { state: seed }
    }

    /// A generator for one numbered case, so that it can be made again alone.
    pub fn for_case(seed: u64, number: u64) -> Random {
        Random::new(seed.rotate_left(32) ^ Random::new(number).draw())
    }

    pub fn draw(&mut self) -> u64 {
        self.state = self.state.wrapping_add(0x9E37_79B9_7F4A_7C15);
        let mut mixed = self.state;
        mixed = (mixed ^ mixed >> 30).wrapping_mul(0xBF58_476D_1CE4_E5B9);
        mixed = (mixed ^ mixed >> 27).wrapping_mul(0x94D0_49BB_1331_11EB);
        mixed ^ mixed >> 31
    }

    pub fn below(&mut self, bound: usize) -> usize {
        (self.draw() % bound as u64) as usize
    }

    /// Both ends included.
    pub fn between(&mut self, low: usize, high: usize) -> usize {
        low + self.below(high - low + 1)
    }

    pub fn byte(&mut self) -> u8 {
        self.draw() as u8
    }

    pub fn bytes(&mut self, length: usize) -> Vec<u8> {
        (0..length).map(|_| self.byte()).collect()
    }

    pub fn one_in(&mut self, bound: usize) -> bool {
        self.below(bound) == 0
    }

    pub fn pick<'a, T>(&mut self, list: &'a [T]) -> &'a T {
        &list[self.below(list.len())]
    }

    /// A number from one of the ranges, each as likely as the others.
    pub fn from_ranges(&mut self, ranges: &[(usize, usize)]) -> usize {
        let (low, high) = *self.pick(ranges);
        self.between(low, high)
    }

    pub fn shuffle<T>(&mut self, list: &mut [T]) {
        for place in (1..list.len()).rev() {
            list.swap(place, self.below(place + 1));
        }
    }
}

/// One case in so many has a batch, and another one a book for the strict
/// profile.
const BATCH_EVERY: u64 = 8;
const STRICT_BEHIND: u64 = 4;

/// One case in so many has fees.
const FEES_EVERY: u64 = 3;

/// One case in so many has rounds.
const ROUNDS_EVERY: u64 = 2;

/// The numbered case of a seed. Every third one is a text.
pub fn numbered(seed: u64, number: u64) -> Case {
    let mut random = Random::for_case(seed, number);
    let is_strict = number % BATCH_EVERY == STRICT_BEHIND;
    let mut case = match (number % 3, is_strict) {
        (2, true) => strict_text_case(&mut random),
        (2, false) => text_case(&mut random),
        (_, true) => strict_case(&mut random),
        (_, false) => case(&mut random),
    };
    case.junk = random.draw();
    if random.one_in(10) {
        case.cut = cut(&mut random, &case);
    }
    if number % BATCH_EVERY == 0 {
        case.batch = Some(batches::batch(&mut random, &case));
    }
    if number / 3 % FEES_EVERY == 0 {
        case.fees = Some(charges::fees(&mut random, &case));
    }
    if number / 2 % ROUNDS_EVERY == 0 {
        case.rounds = Some(random.draw());
    }
    case
}

/// A line that is a term. One in five has a book that is for nets.
pub fn case(random: &mut Random) -> Case {
    if random.one_in(5) {
        return net_case(random);
    }
    let mut draft = draft(random);
    dates::date(random, &mut draft);
    let line = line(random, &draft);
    completed(random, draft, Form::Line, line)
}

fn net_case(random: &mut Random) -> Case {
    let mut draft = branching::draft(random);
    dates::date(random, &mut draft);
    let line = near_line(random, &draft);
    completed(random, draft, Form::Line, line)
}

pub fn text_case(random: &mut Random) -> Case {
    let alphabet = texts::alphabet(random);
    let mut draft = texts::draft(random, &alphabet);
    dates::date(random, &mut draft);
    let text = texts::text(random, &alphabet, &draft);
    completed(random, draft, Form::Text, text)
}

/// A book that is strict or nearly so, and another order of its rules.
fn strict_case(random: &mut Random) -> Case {
    let mut draft = parted::strict_draft(random);
    parted::spoil(random, &mut draft);
    let line = match random.one_in(2) {
        true => line(random, &draft),
        false => near_line(random, &draft),
    };
    let case = completed(random, draft, Form::Line, line);
    rearranged(random, case)
}

fn strict_text_case(random: &mut Random) -> Case {
    let alphabet = texts::alphabet(random);
    let mut draft = parted::strict_text_draft(random, &alphabet);
    parted::spoil(random, &mut draft);
    let text = texts::text(random, &alphabet, &draft);
    let case = completed(random, draft, Form::Text, text);
    rearranged(random, case)
}

fn rearranged(random: &mut Random, case: Case) -> Case {
    Case {
        rearranged: Some(random.draw()),
        ..case
    }
}

fn completed(random: &mut Random, draft: Draft, form: Form, line: Vec<u8>) -> Case {
    let units = random.between(1, 8) as u8;
    let schedule = schedule(random, units);
    let budget = budget(random);
    let mut case = Case::new(draft, line, units, budget, schedule);
    case.form = form;
    case.day = dates::day(random, &case.draft);
    case.writer_offset = *random.pick(&[-1, 0, 0, 7]);
    if random.one_in(4) {
        sharpen(random, &mut case);
    }
    let faults = *random.pick(&[0, 0, 0, 0, 0, 0, 0, 0, 1, 1, 2, 3]);
    for _ in 0..faults {
        spoil(random, &mut case);
    }
    case
}

pub fn schedule(random: &mut Random, units: u8) -> Vec<u8> {
    let length = match random.below(200) {
        0 => SCHEDULE_LIMIT,
        1..=4 => random.between(4000, 12_000),
        _ => random.from_ranges(&[(0, 100), (100, 800), (300, 1500), (1000, 4000)]),
    };
    let count = usize::from(units);
    match random.below(20) {
        0..=5 => (0..length).map(|place| (place % count) as u8).collect(),
        6..=11 => (0..length).map(|_| random.below(count) as u8).collect(),
        12..=14 => bursts(random, count, length),
        15 | 16 => favoured(random, count, length),
        17 => (0..length)
            .map(|place| (count - 1 - place % count) as u8)
            .collect(),
        18 if random.one_in(4) => Vec::new(),
        // Unit 0 alone, or alone a unit that never gets work.
        _ => vec![if random.one_in(8) { units - 1 } else { 0 }; length],
    }
}

fn bursts(random: &mut Random, count: usize, length: usize) -> Vec<u8> {
    let longest = *random.pick(&[3, 10, 60]);
    let mut schedule = Vec::new();
    while schedule.len() < length {
        let unit = random.below(count) as u8;
        let burst = random.between(1, longest).min(length - schedule.len());
        schedule.extend(vec![unit; burst]);
    }
    schedule
}

/// One unit acts far more often than the others.
fn favoured(random: &mut Random, count: usize, length: usize) -> Vec<u8> {
    let favourite = random.below(count);
    (0..length)
        .map(|_| if random.one_in(6) { random.below(count) } else { favourite } as u8)
        .collect()
}

fn budget(random: &mut Random) -> u32 {
    match random.below(10) {
        0 => random.below(2) as u32,
        1 => random.between(2, 12) as u32,
        2 => random.between(10, 200) as u32,
        3 => u32::MAX,
        _ => random.between(1000, 1_000_000) as u32,
    }
}

/// Moves the budget or the schedule's end to where the run's ending turns.
fn sharpen(random: &mut Random, case: &mut Case) {
    let book = case.book();
    let Ok(answer) = Question::of(case, &book).answer_in_full() else {
        return;
    };
    let less = random.below(2);
    if random.one_in(2) {
        case.budget = (answer.rewrites as u32).saturating_sub(less as u32);
    } else {
        case.schedule
            .truncate((answer.entries as usize).saturating_sub(less));
    }
}

/// Mostly into what stands before the schedule, where the input is cut short;
/// often into the day of a dated book, its last two bytes.
fn cut(random: &mut Random, case: &Case) -> usize {
    let book = case.book();
    let before = book.len() + case.line.len() + 9;
    let cut_short = match random.below(4) {
        0 => random.between(1, 3),
        1 => random.between(1, 12),
        _ => random.between(1, before),
    };
    match random.below(4) {
        0 => random.below(case.schedule.len() + 1),
        _ => case.schedule.len() + cut_short,
    }
}
