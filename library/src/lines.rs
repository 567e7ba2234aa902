//! The bytes of many lines.

use std::error::Error;
use std::fmt::{self, Display, Formatter};

use crate::LONGEST_RECORD;

/// Many lines one after another, each behind its length in two bytes, the high byte first.
///
/// ```
/// # use kurvneist::Lines;
/// let mut lines = Lines::new();
/// lines.push(&[2, 0, 0])?;
/// lines.push(&[])?;
/// assert_eq!(lines.len(), 2);
/// assert_eq!(lines.as_bytes(), [0, 3, 2, 0, 0, 0, 0]);
/// # Ok::<(), kurvneist::LineTooLong>(())
/// ```
#[derive(Clone, Debug, Default, PartialEq, Eq)]
pub struct Lines {
    bytes: Vec<u8>,
    count: usize,
}

impl Lines {
    /// No lines.
    pub const fn new() -> Lines {
        Lines {
            bytes: Vec::new(),
            count: 0,
        }
    }

    /// One more line, a term or a text. A line that can't be told in two bytes is left out.
    pub fn push(&mut self, line: &[u8]) -> Result<(), LineTooLong> {
        let length = u16::try_from(line.len()).map_err(|_| LineTooLong)?;
        self.bytes.extend(length.to_be_bytes());
        self.bytes.extend(line);
        self.count += 1;
        Ok(())
    }

    /// How many lines there are.
    pub const fn len(&self) -> usize {
        self.count
    }

    /// There are no lines.
    pub const fn is_empty(&self) -> bool {
        self.count == 0
    }

    /// The lines with their lengths.
    pub fn as_bytes(&self) -> &[u8] {
        &self.bytes
    }

    /// No lines; their room stays.
    pub fn clear(&mut self) {
        self.bytes.clear();
        self.count = 0;
    }

    /// Bytes of answers in which all lines are done if no term is over two symbols longer than its line: 32 and the term for
    /// each, and what the last line asks for.
    pub(crate) fn room(&self) -> usize {
        let records = 32 * self.count + self.bytes.len();
        records.min(LONGEST_RECORD * self.count) + LONGEST_RECORD
    }
}

/// A line of over 65,535 bytes can't stand among many.
#[derive(Clone, Copy, Debug, PartialEq, Eq)]
#[non_exhaustive]
pub struct LineTooLong;

impl Display for LineTooLong {
    fn fmt(&self, text: &mut Formatter) -> fmt::Result {
        text.pad("a line among many has at most 65,535 bytes")
    }
}

impl Error for LineTooLong {}
