//! The records that many lines get.

use std::iter::FusedIterator;

use crate::{Answer, Posting, Refusal};

/// What many lines are answered, line by line: the run's values and its present term, or what refused the line.
///
/// ```
/// # use kurvneist::{Ending, Postings, Refusal};
/// let refused = [11];
/// let ran = [0, 0, 0, 0, 0, 2, 0, 0, 0, 0, 0, 0, 0, 22, 0, 0, 0, 0, 0, 0, 0, 0, 0, 0, 0, 0, 0, 0, 0, 2, 0, 3, 1, 1, 0];
/// let records = [&refused[..], &ran].concat();
/// let mut postings = Postings::of(&records);
/// assert_eq!(postings.next(), Some(Err(Refusal::UnknownOperatorInLine)));
/// let posting = postings.next().unwrap()?;
/// assert_eq!(posting.answer.ending, Ending::Finished);
/// assert_eq!((posting.answer.rewrites, posting.answer.entries), (2, 22));
/// assert_eq!((posting.answer.granted, posting.answer.kept), (0, 2));
/// assert_eq!(posting.term, [1, 1, 0]);
/// assert_eq!(postings.next(), None);
/// # Ok::<(), Refusal>(())
/// ```
#[derive(Clone, Debug)]
pub struct Postings<'a> {
    left: &'a [u8],
}

impl<'a> Postings<'a> {
    /// Reads these records, which are those that the library wrote.
    ///
    /// # Panics
    ///
    /// Where they are read on and are cut short or no records.
    pub const fn of(records: &'a [u8]) -> Postings<'a> {
        Postings { left: records }
    }

    fn take(&mut self, count: usize) -> &'a [u8] {
        let (front, left) = self.left.split_at_checked(count).expect("a whole record");
        self.left = left;
        front
    }

    /// A number of so many bytes, the high one first.
    fn number(&mut self, bytes: usize) -> u64 {
        let bytes = self.take(bytes).iter();
        bytes.fold(0, |number, byte| number << 8 | u64::from(*byte))
    }

    fn record(&mut self) -> Result<Posting<'a>, Refusal> {
        Refusal::check(self.take(1)[0])?;
        // Ending, rewrites, entries, granted, kept and the term's length.
        let answer = Answer::of([1, 4, 8, 8, 8, 2].map(|bytes| self.number(bytes)));
        let term = self.take(answer.length);
        Ok(Posting { answer, term })
    }
}

impl<'a> Iterator for Postings<'a> {
    type Item = Result<Posting<'a>, Refusal>;

    fn next(&mut self) -> Option<Self::Item> {
        (!self.left.is_empty()).then(|| self.record())
    }
}

impl FusedIterator for Postings<'_> {}
