//! Buffers that are lent to a subject, full of junk, and what became of them.

use crate::fees::MOST_OWNERS;
use crate::model::Lengths;
use crate::subject::{Lent, Parts};

/// The three buffers that are lent together.
#[derive(Default)]
pub struct Lenders {
    work: Lender,
    net: Lender,
    pub output: Lender,
}

impl Lenders {
    pub fn lend(&mut self, lengths: Lengths, junk: u64) -> Lent<'_> {
        Lent {
            work: self.work.lend(lengths.work, junk),
            net: self.net.lend(lengths.net, junk.rotate_left(21)),
            output: self.output.lend(lengths.output, !junk),
        }
    }

    /// What differs, if the output doesn't have this front or an area is not
    /// all zero; after a refusal, if one of the three has changed.
    pub fn difference(&self, name: &str, front: Option<&[u8]>) -> Option<String> {
        let zeros = |area: &Lender| match front {
            Some(_) => vec![0; area.length],
            None => Vec::new(),
        };
        self.output
            .difference(name, front.unwrap_or_default())
            .or_else(|| self.work.difference("work area", &zeros(&self.work)))
            .or_else(|| self.net.difference("net's area", &zeros(&self.net)))
    }
}

/// A buffer whose front is lent again and again, full of junk each time.
#[derive(Default)]
pub struct Lender {
    bytes: Vec<u8>,
    /// What the bytes were when they were lent.
    junk: Vec<u8>,
    /// How many of them were lent.
    length: usize,
}

/// Bytes behind the lent ones, where a write past the end shows.
const BEHIND: usize = 64;

impl Lender {
    /// No byte of junk is 0, so that a write of zeros shows too.
    pub fn lend(&mut self, length: usize, seed: u64) -> &mut [u8] {
        let factor = seed | 1;
        self.length = length;
        self.junk = (0..length + BEHIND)
            .map(|place| (factor.wrapping_mul(place as u64) >> 56).max(1) as u8)
            .collect();
        self.bytes.resize(self.junk.len().max(self.bytes.len()), 0);
        self.bytes[..self.junk.len()].copy_from_slice(&self.junk);
        &mut self.bytes[..length]
    }

    /// What differs, if the front is not as given or the rest not as it was.
    pub fn difference(&self, name: &str, front: &[u8]) -> Option<String> {
        let due = [front, &self.junk[front.len()..]].concat();
        let found = &self.bytes[..due.len()];
        (found != due).then(|| buffer_difference(name, &due, found))
    }
}

/// Room for the owners' parts, full of junk, and some behind it, where a write
/// past the end shows.
pub struct PartsLender {
    room: [i64; ROOM],
    junk: [i64; ROOM],
}

const ROOM: usize = MOST_OWNERS + 4;

impl PartsLender {
    pub fn new(seed: u64) -> PartsLender {
        let factor = seed as i64 | 1;
        let junk: [i64; ROOM] = std::array::from_fn(|place| factor.wrapping_mul(place as i64 + 1));
        PartsLender { room: junk, junk }
    }

    pub fn lent(&mut self) -> &mut Parts {
        self.room.first_chunk_mut().expect("room for all owners")
    }

    /// What stands there if these parts are in front and the rest is as it was.
    pub fn due(&self, front: &[i64]) -> Vec<i64> {
        [front, &self.junk[front.len()..]].concat()
    }

    pub fn found(&self) -> Vec<i64> {
        self.room.to_vec()
    }
}

pub fn buffer_difference(name: &str, due: &[u8], found: &[u8]) -> String {
    let place = (0..due.len())
        .find(|&place| due[place] != found[place])
        .unwrap_or(due.len());
    let end = due.len().min(place + 16);
    format!(
        "{name} from byte {place}\n  due   {}\n  found {}",
        hexadecimal(&due[place..end]),
        hexadecimal(&found[place..end])
    )
}

pub fn hexadecimal(bytes: &[u8]) -> String {
    let bytes: Vec<String> = bytes.iter().map(|byte| format!("{byte:02x}")).collect();
    bytes.join(" ")
}
