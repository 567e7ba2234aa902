//! Many lines by one book: what is asked, and what is done in lent buffers.

use crate::{raw, Refusal, Request};

/// A book, and how lines are reduced by it. Later versions may ask more, so a batch is made by [`Batch::new`].
///
/// ```
/// use kurvneist::{round_robin, Batch};
///
/// let schedule = round_robin(2, 100);
/// let batch = Batch::new(&[1, 0, 0]).units(2).budget(9).schedule(&schedule);
/// assert_eq!((batch.units, batch.budget, batch.schedule.len()), (2, 9, 100));
/// ```
#[derive(Clone, Copy, Debug)]
#[non_exhaustive]
pub struct Batch<'a> {
    /// The rule book, packed.
    pub book: &'a [u8],
    /// How many units there are, 1 to 8.
    pub units: u8,
    /// The most rewrites that may be made of each line.
    pub budget: u32,
    /// The day on which the lines are posted. By a dated book only the rules that stand on it are tried; an undated book
    /// ignores it.
    pub day: u16,
    /// The number of the unit that acts, entry by entry; each line begins with the first entry.
    pub schedule: &'a [u8],
}

impl<'a> Batch<'a> {
    /// One unit, any number of rewrites, day 0, and a schedule without entries, as for [`Request::new`]. So a schedule is
    /// given next, and for a dated book a day.
    pub const fn new(book: &'a [u8]) -> Batch<'a> {
        Batch {
            book,
            units: 1,
            budget: u32::MAX,
            day: 0,
            schedule: &[],
        }
    }

    /// The same by another book.
    pub const fn book(self, book: &'a [u8]) -> Batch<'a> {
        Batch { book, ..self }
    }

    /// The same on so many units.
    pub const fn units(self, units: u8) -> Batch<'a> {
        Batch { units, ..self }
    }

    /// The same with so many rewrites of each line at most.
    pub const fn budget(self, budget: u32) -> Batch<'a> {
        Batch { budget, ..self }
    }

    /// The same on this day, which an undated book ignores.
    pub const fn day(self, day: u16) -> Batch<'a> {
        Batch { day, ..self }
    }

    /// The same by another schedule.
    pub const fn schedule(self, schedule: &'a [u8]) -> Batch<'a> {
        Batch { schedule, ..self }
    }

    /// The request of one line by itself, which is answered as this line among many.
    pub const fn line(self, line: &'a [u8]) -> Request<'a> {
        Request::new(self.book, line)
            .units(self.units)
            .budget(self.budget)
            .day(self.day)
            .schedule(self.schedule)
    }
}

/// Why no more lines were done.
#[derive(Clone, Copy, Debug, PartialEq, Eq, Hash)]
#[non_exhaustive]
pub enum Stop {
    /// There are none.
    End = 0,
    /// The next line is cut short: its length, or its bytes, run out.
    Cut = 1,
    /// The next line is whole, and the longest record would not fit behind the others.
    Room = 2,
}

impl Stop {
    /// The number that the C functions tell: 0 end, 1 cut, 2 room.
    pub const fn number(self) -> u8 {
        self as u8
    }

    /// The stop with this number.
    pub const fn new(number: u8) -> Option<Stop> {
        match number {
            0 => Some(Stop::End),
            1 => Some(Stop::Cut),
            2 => Some(Stop::Room),
            _ => None,
        }
    }
}

/// Which of many lines were done, those in front, and why no more.
#[derive(Clone, Copy, Debug, PartialEq, Eq, Hash)]
#[non_exhaustive]
pub struct Done {
    /// How many lines were done.
    pub lines: usize,
    /// The bytes that they take, with their lengths: where the next line begins.
    pub read: usize,
    /// The bytes of their records.
    pub written: usize,
    /// Why no more.
    pub stop: Stop,
}

impl Done {
    /// The library is proved to answer positions in the lent buffers and a stop's number, and those fit.
    fn of(values: [u64; raw::DONE_LENGTH]) -> Done {
        let [lines, read, written, stop] = values;
        let place = |value| usize::try_from(value).expect("a position in a buffer");
        let stop = u8::try_from(stop).ok().and_then(Stop::new);
        Done {
            lines: place(lines),
            read: place(read),
            written: place(written),
            stop: stop.expect("a stop is 0 to 2"),
        }
    }
}

/// Reduces many lines by one book, which is read once, in lent buffers: two areas of at least
/// [`WORK_LENGTH`](crate::WORK_LENGTH) and [`NET_LENGTH`](crate::NET_LENGTH) bytes, and answers of any length. An
/// [`Engine`](crate::Engine) has them of its own, and goes on until all lines are done.
///
/// The lines stand one after another, each behind its length in two bytes, as [`Lines`](crate::Lines) makes them. Each is
/// answered as [`reduce`](crate::reduce) answers it by itself; its record is written to the answers, one after another from
/// the front, where [`Postings`](crate::Postings) reads them. What refuses one line, 10, 11, 12 or 14, is that line's record.
/// Only 13, 15 and the book's own refusals are this function's.
///
/// A line is done only where [`LONGEST_RECORD`](crate::LONGEST_RECORD) bytes are left in the answers. After [`Stop::Room`] a
/// caller goes on with the lines from `read` on and answers of at least so many bytes; no line is done twice or left out.
///
/// The other bytes of the answers stay, and the work area and the net's are all zero, whatever they held before. After a
/// refusal all three are as they were.
///
/// ```
/// use kurvneist::{reduce_lines, Batch, Postings, Refusal, Stop, LONGEST_RECORD, NET_LENGTH, WORK_LENGTH};
///
/// let lines = [0, 1, 0, 0, 1, 7, 0, 1, 0]; // 0, 7 and 0 again, each a line of one byte
/// let batch = Batch::new(&[1, 0, 0]).schedule(&[0; 5]);
/// let (mut work, mut net) = (vec![7; WORK_LENGTH], vec![7; NET_LENGTH]);
/// let mut answers = [7; LONGEST_RECORD + 33];
/// let done = reduce_lines(&batch, &lines, &mut work, &mut net, &mut answers)?;
/// assert_eq!((done.lines, done.read, done.written, done.stop), (2, 6, 34, Stop::Room));
/// let mut postings = Postings::of(&answers[..done.written]);
/// assert_eq!(postings.next().unwrap()?.term, [0]);
/// assert_eq!(postings.next(), Some(Err(Refusal::UnknownOperatorInLine)));
/// assert_eq!(postings.next(), None);
/// assert_eq!(answers[done.written], 7);
///
/// let done = reduce_lines(&batch, &lines[done.read..], &mut work, &mut net, &mut answers)?;
/// assert_eq!((done.lines, done.read, done.written, done.stop), (1, 3, 33, Stop::End));
/// # Ok::<(), kurvneist::Refusal>(())
/// ```
pub fn reduce_lines(
    batch: &Batch,
    lines: &[u8],
    work: &mut [u8],
    net: &mut [u8],
    answers: &mut [u8],
) -> Result<Done, Refusal> {
    let mut values = [0; raw::DONE_LENGTH];
    let number = raw::reduce_lines(batch, lines, work, net, answers, &mut values);
    Refusal::check(number).map(|()| Done::of(values))
}

/// Reduces many payees' texts, as [`payee`](crate::payee) does each; what refuses one text is 19, 18 or 14. All else is as
/// for [`reduce_lines`].
pub fn payee_lines(
    batch: &Batch,
    texts: &[u8],
    work: &mut [u8],
    net: &mut [u8],
    answers: &mut [u8],
) -> Result<Done, Refusal> {
    let mut values = [0; raw::DONE_LENGTH];
    let number = raw::payee_lines(batch, texts, work, net, answers, &mut values);
    Refusal::check(number).map(|()| Done::of(values))
}
