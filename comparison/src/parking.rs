//! Calls on one buffer of points, one after the other: runs with a name,
//! resumptions, and damage between them.

use std::sync::OnceLock;

use crate::by_hand;
use crate::draft::Case;
use crate::foreign::{built, changed};
use crate::model::{self, Answer, Lengths};
use crate::point_rules::{check, read, Rule, Slot};
use crate::points::{park, resume, slot_mut};
use crate::random::Random;
use crate::slots::{Point, POINTS_LEN, SLOT_LEN};
use crate::subject::Question;

/// The calls, and what the buffer holds before them.
#[derive(Clone, Debug, PartialEq, Eq)]
pub struct PointCase {
    /// Bytes behind the published length.
    pub behind: usize,
    /// Seeds what free slots hold behind their first byte; 0 for zeros.
    pub held: u64,
    pub calls: Vec<Call>,
    /// Seeds what the other lent buffers hold before.
    pub junk: u64,
}

#[derive(Clone, Debug, PartialEq, Eq)]
pub enum Call {
    Park(Box<Park>),
    Resume(Resume),
    Damage(Damage),
}

/// A case's run with a name. Of the case only the run counts.
#[derive(Clone, Debug, PartialEq, Eq)]
pub struct Park {
    pub case: Case,
    pub name: Vec<u8>,
    /// How many of the buffer's last bytes are not lent.
    pub lacking: usize,
}

#[derive(Clone, Debug, PartialEq, Eq)]
pub struct Resume {
    pub name: Vec<u8>,
    pub schedule: Vec<u8>,
    /// As of a case.
    pub work_offset: isize,
    pub net_offset: isize,
    pub output_len: usize,
    pub lacking: usize,
}

/// A change of one slot that no call makes.
#[derive(Clone, Debug, PartialEq, Eq)]
pub struct Damage {
    pub slot: usize,
    pub how: How,
}

#[derive(Clone, Debug, PartialEq, Eq)]
pub enum How {
    /// Bits of the point are turned, counted from the slot's front.
    Turned(Vec<usize>),
    /// Fields of the point are changed, as this seed has it.
    Changed(u64),
    /// The fields become others that are built by hand for the point's term.
    Built(u64),
    /// One of the points that are made by hand.
    ByHand(usize),
    /// One of the slots whose form is wrong.
    Misformed(usize),
    /// What another slot holds.
    Copied(usize),
    /// The first byte becomes 0, so that the slot is free.
    Freed,
}

impl PointCase {
    /// What the buffer holds at first.
    pub fn points(&self) -> Vec<u8> {
        let mut points = match self.held {
            0 => vec![0; POINTS_LEN + self.behind],
            seed => Random::new(seed).bytes(POINTS_LEN + self.behind),
        };
        for slot in points.chunks_mut(SLOT_LEN).take(8) {
            slot[0] = 0;
        }
        points
    }
}

/// The part of the buffer that is lent.
pub fn lent_of(points: &mut [u8], lacking: usize) -> &mut [u8] {
    let length = points.len().saturating_sub(lacking);
    &mut points[..length]
}

impl Call {
    /// What the model answers, if it is asked something; the buffer is then as
    /// the call leaves it.
    pub fn carry_out(&self, points: &mut [u8], published: Lengths) -> Option<Result<Answer, u8>> {
        match self {
            Call::Park(parked) => Some(parked.answer(points, published)),
            Call::Resume(resumed) => Some(resumed.answer(points, published)),
            Call::Damage(damage) => {
                damage.apply(points);
                None
            }
        }
    }
}

impl Park {
    fn answer(&self, points: &mut [u8], published: Lengths) -> Result<Answer, u8> {
        let book = self.case.book();
        let question = Question::of(&self.case, &book);
        let lent = self.case.lengths(published);
        let points = lent_of(points, self.lacking);
        park(&question, &self.name, points, lent, published)
    }
}

impl Resume {
    pub fn lengths(&self, published: Lengths) -> Lengths {
        Lengths {
            work: published.work.saturating_add_signed(self.work_offset),
            net: published.net.saturating_add_signed(self.net_offset),
            output: self.output_len,
        }
    }

    fn answer(&self, points: &mut [u8], published: Lengths) -> Result<Answer, u8> {
        let lent = self.lengths(published);
        let points = lent_of(points, self.lacking);
        resume(&self.name, &self.schedule, points, lent, published)
    }
}

impl Damage {
    /// Where there is no point to be changed, nothing is.
    pub fn apply(&self, points: &mut [u8]) {
        let bytes = match &self.how {
            How::Copied(from) => Some(slot_mut(points, *from).to_vec()),
            How::ByHand(number) => Some(points_by_hand()[*number].slot()),
            How::Misformed(number) => Some(misformed_slots()[*number].clone()),
            How::Turned(bits) => turned(slot_mut(points, self.slot), bits),
            How::Changed(seed) => changed_slot(slot_mut(points, self.slot), *seed),
            How::Built(seed) => built_slot(slot_mut(points, self.slot), *seed),
            How::Freed => {
                slot_mut(points, self.slot)[0] = 0;
                None
            }
        };
        if let Some(bytes) = bytes {
            slot_mut(points, self.slot).copy_from_slice(&bytes);
        }
    }
}

/// Those that meet the rules, then those that break one.
pub fn points_by_hand() -> &'static [Point] {
    static POINTS: OnceLock<Vec<Point>> = OnceLock::new();
    POINTS.get_or_init(|| {
        let breaking = by_hand::breaking().into_iter();
        let broken = breaking.map(|(_, (_, point))| point);
        by_hand::meeting().into_iter().chain(broken).collect()
    })
}

/// The numbers of those that break this one of the rules of runs.
pub fn breaking_by_hand(rule: Rule) -> Vec<usize> {
    let breaking = by_hand::breaking().into_iter();
    let first = points_by_hand().len() - breaking.len();
    let numbered = (first..).zip(breaking);
    let of_rule = numbered.filter(|(_, (of, _))| *of == rule);
    of_rule.map(|(number, _)| number).collect()
}

pub fn misformed_slots() -> &'static [Vec<u8>] {
    static SLOTS: OnceLock<Vec<Vec<u8>>> = OnceLock::new();
    SLOTS.get_or_init(|| {
        let misformed = by_hand::misformed().into_iter();
        misformed.map(|(_, _, slot)| slot).collect()
    })
}

fn point_in(slot: &[u8]) -> Option<Point> {
    match slot[0] {
        0 => None,
        _ => read(slot).ok(),
    }
}

fn turned(slot: &[u8], bits: &[usize]) -> Option<Vec<u8>> {
    let length = point_in(slot)?.bytes().len();
    let mut bytes = slot.to_vec();
    for bit in bits {
        let bit = bit % (length * 8);
        bytes[bit / 8] ^= 128 >> (bit % 8);
    }
    Some(bytes)
}

fn changed_slot(slot: &[u8], seed: u64) -> Option<Vec<u8>> {
    let point = point_in(slot)?;
    Some(changed(&mut Random::new(seed), &point).slot())
}

/// Of a point whose symbols are a term of its book.
fn built_slot(slot: &[u8], seed: u64) -> Option<Vec<u8>> {
    let Slot::Holds(point) = check(slot) else {
        return None;
    };
    let book = model::read_book(&point.book).expect("a rule of points");
    let saved = built(&mut Random::new(seed), &book, &point.saved.symbols);
    Some(Point { saved, ..*point }.slot())
}
