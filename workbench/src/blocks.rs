//! What a batch posts together: items that follow each other.

use std::time::Duration;

use crate::batch::Failure;
use crate::items::{Item, Items, Raw, Reading};
use crate::lines::{Line, Lines, LONGEST};

/// The most items that go together. With so many, reading the book for each
/// block counts little beside its lines.
pub const MOST: usize = 256;

/// Blocks take at most about so long: progress is drawn so often.
const LONG: Duration = Duration::from_millis(100);

/// How many items the next block may have, after one of so many that took so
/// long. Lines may come that take longer, so it is at most twice as many.
pub fn paced(most: usize, items: usize, time: Duration) -> usize {
    let fitting = LONG.as_nanos() * items as u128 / time.as_nanos().max(1);
    let fitting = usize::try_from(fitting).unwrap_or(MOST);
    fitting.clamp(1, MOST.min(2 * most))
}

pub struct Block {
    pub items: Vec<Item>,
    /// How much of the input they end at.
    pub end: u64,
}

/// The blocks of an input.
pub struct Blocks<'i, 'r> {
    lines: Lines<'i>,
    items: Items<'r>,
    /// What comes behind the last block.
    failure: Option<Failure>,
}

impl<'i, 'r> Blocks<'i, 'r> {
    pub fn new(lines: Lines<'i>, reading: &'r Reading) -> Blocks<'i, 'r> {
        Blocks {
            lines,
            items: Items::new(reading),
            failure: None,
        }
    }

    /// The next items: so many, or fewer where they are long, where the next
    /// isn't there yet, so that who types the lines sees their postings, and
    /// before a failure.
    pub fn next(&mut self, most: usize) -> Result<Option<Block>, Failure> {
        if let Some(failure) = self.failure.take() {
            return Err(failure);
        }
        let before = self.lines.read;
        let Some(first) = self.item()? else {
            return Ok(None);
        };
        let mut items = vec![first];
        while items.len() < most
            && self.lines.is_there()
            && self.lines.read - before < LONGEST as u64
        {
            match self.item() {
                Ok(item) => items.extend(item),
                Err(failure) => {
                    self.failure = Some(failure);
                    break;
                }
            }
        }
        let end = self.lines.read;
        Ok(Some(Block { items, end }))
    }

    fn item(&mut self) -> Result<Option<Item>, Failure> {
        self.items.next(|| raw(&mut self.lines))
    }
}

fn raw(lines: &mut Lines) -> Result<Option<Raw>, Failure> {
    let line = lines.line().map_err(Failure::Read)?;
    Ok(line.map(|line| match line {
        Line::Whole { bytes, ended } => Raw {
            bytes: Ok(bytes),
            ended,
        },
        Line::TooLong => Raw {
            bytes: Err(format!(
                "the line has over {LONGEST} bytes; expected at most so many"
            )),
            ended: false,
        },
    }))
}
