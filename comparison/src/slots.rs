//! The form of a point: a slot's bytes, written and read.
//!
//! A buffer has eight slots. A slot begins with a name; behind it stand book and
//! day, then the fields of the run, packed most significant bit first.

use std::collections::VecDeque;

use crate::model::{self, Book, Position, Term};
use crate::stacks::{Frame, Stacks};

pub const SLOTS: usize = 8;
pub const SLOT_LEN: usize = 65_536;

/// The published length of the buffer.
pub const POINTS_LEN: usize = SLOTS * SLOT_LEN;

pub const NAME_LIMIT: usize = 16;

/// Where the book begins: behind the name's length, the name, the book's length
/// and the day.
pub const BOOK_AT: usize = 1 + NAME_LIMIT + 2 + 2;

/// What a run that was cut is saved as.
#[derive(Clone, Debug, PartialEq, Eq)]
pub struct Point {
    pub name: Vec<u8>,
    /// As it was given.
    pub book: Vec<u8>,
    pub day: u16,
    pub saved: Saved,
}

/// The packed fields.
#[derive(Clone, Debug, PartialEq, Eq)]
pub struct Saved {
    pub budget: u32,
    /// Counts over all parts of the run.
    pub rewrites: u64,
    pub entries: u64,
    pub granted: u64,
    pub kept: u64,
    /// The present term in preorder, and a mark or none for each symbol.
    pub symbols: Vec<u8>,
    pub marks: Vec<bool>,
    pub units: Vec<SavedUnit>,
    /// The units of the pending parts, in the order in which these were placed,
    /// the latest first.
    pub placed: Vec<u8>,
}

#[derive(Clone, Debug, PartialEq, Eq)]
pub struct SavedUnit {
    /// 0 if it is busy, and otherwise its place in the idle queue, from 1.
    pub rank: u8,
    /// The top one first.
    pub frames: Vec<SavedFrame>,
}

/// As `stacks::Frame`, with a term's offset in the place of its position.
#[derive(Clone, Copy, Debug, PartialEq, Eq)]
pub enum SavedFrame {
    Job { offset: u16, next: u8, count: u8 },
    Exit { unit: u8, index: u16 },
    Sleep,
    Bingo,
}

// ---------------------------------------------------------------------------
// Runs and their points

impl Saved {
    pub fn of(run: &Stacks) -> Saved {
        let places = positions(&run.term);
        let offset = |at: &Position| places.iter().position(|other| other == at);
        let offset = |at: &Position| offset(at).expect("a job is inside the term") as u16;
        let frame = |frame: &Frame| match frame {
            Frame::Job { term, next, count } => SavedFrame::Job {
                offset: offset(term),
                next: *next as u8,
                count: *count as u8,
            },
            Frame::Exit { unit, index } => SavedFrame::Exit {
                unit: *unit as u8,
                index: *index as u16,
            },
            Frame::Sleep => SavedFrame::Sleep,
            Frame::Bingo => SavedFrame::Bingo,
        };
        let units = (0..).zip(&run.stacks).map(|(unit, stack)| SavedUnit {
            rank: rank(&run.queue, unit),
            frames: stack.iter().rev().map(frame).collect(),
        });
        Saved {
            budget: run.budget,
            rewrites: run.rewrites,
            entries: run.entries,
            granted: run.granted,
            kept: run.kept,
            symbols: run.term.preorder(),
            marks: marks(&run.term),
            units: units.collect(),
            placed: run.placed.iter().rev().map(|&unit| unit as u8).collect(),
        }
    }

    /// The run goes on from here, by the book of its day. The rules are met.
    pub fn run<'b>(&self, book: &'b Book) -> Stacks<'b> {
        let mut term = model::read_line(book, &self.symbols).expect("every symbol is complete");
        put_marks(&mut term, &mut self.marks.iter());
        let places = positions(&term);
        let frame = |frame: &SavedFrame| match *frame {
            SavedFrame::Job {
                offset,
                next,
                count,
            } => Frame::Job {
                term: places[usize::from(offset)].clone(),
                next: next.into(),
                count: count.into(),
            },
            SavedFrame::Exit { unit, index } => Frame::Exit {
                unit: unit.into(),
                index: index.into(),
            },
            SavedFrame::Sleep => Frame::Sleep,
            SavedFrame::Bingo => Frame::Bingo,
        };
        let stack = |unit: &SavedUnit| unit.frames.iter().rev().map(frame).collect();
        Stacks {
            book,
            stacks: self.units.iter().map(stack).collect(),
            queue: self.queue(),
            placed: self.placed.iter().rev().map(|&unit| unit.into()).collect(),
            budget: self.budget,
            rewrites: self.rewrites,
            entries: self.entries,
            granted: self.granted,
            kept: self.kept,
            term,
        }
    }

    fn queue(&self) -> VecDeque<usize> {
        let units = 0..self.units.len();
        let mut idle: Vec<usize> = units.filter(|&unit| self.units[unit].rank > 0).collect();
        idle.sort_by_key(|&unit| self.units[unit].rank);
        idle.into()
    }
}

fn rank(queue: &VecDeque<usize>, unit: usize) -> u8 {
    let place = queue.iter().position(|&idle| idle == unit);
    place.map_or(0, |place| place as u8 + 1)
}

/// The position of each symbol, in preorder.
pub fn positions(term: &Term) -> Vec<Position> {
    let mut found = Vec::new();
    collect_positions(term, &mut Vec::new(), &mut found);
    found
}

fn collect_positions(term: &Term, at: &mut Position, found: &mut Vec<Position>) {
    found.push(at.clone());
    for (argument, part) in (1..).zip(&term.arguments) {
        at.push(argument);
        collect_positions(part, at, found);
        at.pop();
    }
}

fn marks(term: &Term) -> Vec<bool> {
    let below = term.arguments.iter().flat_map(marks);
    [term.marked].into_iter().chain(below).collect()
}

fn put_marks(term: &mut Term, marks: &mut std::slice::Iter<bool>) {
    term.marked = *marks.next().expect("each symbol has a mark or none");
    for part in &mut term.arguments {
        put_marks(part, marks);
    }
}

// ---------------------------------------------------------------------------
// The writer

impl Point {
    /// The whole slot: zeros behind the point, though they are not read.
    pub fn slot(&self) -> Vec<u8> {
        let mut bytes = self.bytes();
        assert!(bytes.len() <= SLOT_LEN, "no point is longer than a slot");
        bytes.resize(SLOT_LEN, 0);
        bytes
    }

    /// The point alone.
    pub fn bytes(&self) -> Vec<u8> {
        let mut name = self.name.clone();
        name.resize(NAME_LIMIT, 0);
        let length = self.book.len() as u16;
        [
            &[self.name.len() as u8],
            &name[..],
            &length.to_be_bytes(),
            &self.day.to_be_bytes(),
            &self.book,
            &packed(&self.saved.bits()),
        ]
        .concat()
    }
}

/// Zero bits up to a whole byte.
fn packed(bits: &[bool]) -> Vec<u8> {
    let byte = |bits: &[bool]| {
        let places = (0..8).rev().zip(bits);
        places.fold(0, |byte, (place, &bit)| byte | u8::from(bit) << place)
    };
    bits.chunks(8).map(byte).collect()
}

/// Gathers fields, most significant bit first.
#[derive(Default)]
struct Fields {
    bits: Vec<bool>,
}

impl Fields {
    fn put(&mut self, width: u32, value: impl Into<u64>) {
        let value: u64 = value.into();
        let places = (0..width).rev();
        self.bits
            .extend(places.map(|place| value >> place & 1 == 1));
    }
}

impl Saved {
    fn bits(&self) -> Vec<bool> {
        let mut fields = Fields::default();
        fields.put(3, self.units.len() as u64 - 1);
        fields.put(32, self.budget);
        for count in [self.rewrites, self.entries, self.granted, self.kept] {
            fields.put(64, count);
        }
        fields.put(10, self.symbols.len() as u64 - 1);
        for operator in &self.symbols {
            fields.put(8, *operator);
        }
        for mark in &self.marks {
            fields.put(1, *mark);
        }
        for unit in &self.units {
            put_unit(&mut fields, unit);
        }
        fields.put(10, self.placed.len() as u64);
        for unit in &self.placed {
            fields.put(3, *unit);
        }
        fields.bits
    }
}

fn put_unit(fields: &mut Fields, unit: &SavedUnit) {
    fields.put(3, unit.rank);
    fields.put(11, unit.frames.len() as u64);
    for frame in &unit.frames {
        put_frame(fields, frame);
    }
}

fn put_frame(fields: &mut Fields, frame: &SavedFrame) {
    match *frame {
        SavedFrame::Job {
            offset,
            next,
            count,
        } => {
            fields.put(2, 0_u8);
            fields.put(10, offset);
            fields.put(4, next);
            fields.put(3, count);
        }
        SavedFrame::Exit { unit, index } => {
            fields.put(2, 1_u8);
            fields.put(3, unit);
            fields.put(11, index);
        }
        SavedFrame::Sleep => fields.put(2, 2_u8),
        SavedFrame::Bingo => fields.put(2, 3_u8),
    }
}

// ---------------------------------------------------------------------------
// The reader

/// Bits of a slot, from a place on.
pub struct Bits<'a> {
    bytes: &'a [u8],
    place: usize,
}

impl<'a> Bits<'a> {
    pub fn new(bytes: &'a [u8]) -> Bits<'a> {
        Bits { bytes, place: 0 }
    }

    /// The bits behind those that were taken, up to a whole byte, are zero.
    pub fn is_padding_zero(&self) -> bool {
        let begun = match self.place % 8 {
            0 => 0,
            used => self.bytes[self.place / 8] << used,
        };
        begun == 0
    }

    /// None if the bits run out.
    fn take(&mut self, width: usize) -> Option<u64> {
        let places = self.place..self.place + width;
        if places.end > self.bytes.len() * 8 {
            return None;
        }
        self.place = places.end;
        let bit = |place: usize| self.bytes[place / 8] >> (7 - place % 8) & 1;
        Some(places.fold(0, |value, place| value << 1 | u64::from(bit(place))))
    }

    fn many<T>(&mut self, count: u64, one: impl Fn(&mut Bits<'a>) -> Option<T>) -> Option<Vec<T>> {
        (0..count).map(|_| one(self)).collect()
    }
}

impl Saved {
    /// None if the bits run out.
    pub fn read(bits: &mut Bits) -> Option<Saved> {
        let units = bits.take(3)? + 1;
        let budget = bits.take(32)? as u32;
        let rewrites = bits.take(64)?;
        let entries = bits.take(64)?;
        let granted = bits.take(64)?;
        let kept = bits.take(64)?;
        let symbols = bits.take(10)? + 1;
        Some(Saved {
            budget,
            rewrites,
            entries,
            granted,
            kept,
            symbols: bits.many(symbols, |bits| Some(bits.take(8)? as u8))?,
            marks: bits.many(symbols, |bits| Some(bits.take(1)? == 1))?,
            units: bits.many(units, take_unit)?,
            placed: {
                let parts = bits.take(10)?;
                bits.many(parts, |bits| Some(bits.take(3)? as u8))?
            },
        })
    }
}

fn take_unit(bits: &mut Bits) -> Option<SavedUnit> {
    let rank = bits.take(3)? as u8;
    let height = bits.take(11)?;
    let frames = bits.many(height, take_frame)?;
    Some(SavedUnit { rank, frames })
}

fn take_frame(bits: &mut Bits) -> Option<SavedFrame> {
    Some(match bits.take(2)? {
        0 => SavedFrame::Job {
            offset: bits.take(10)? as u16,
            next: bits.take(4)? as u8,
            count: bits.take(3)? as u8,
        },
        1 => SavedFrame::Exit {
            unit: bits.take(3)? as u8,
            index: bits.take(11)? as u16,
        },
        2 => SavedFrame::Sleep,
        _ => SavedFrame::Bingo,
    })
}
