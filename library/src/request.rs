//! What a run is asked.

/// A book, a line, and how the line is reduced. Later versions may ask more, so a request is made by [`Request::new`].
///
/// ```
/// use kurvneist::{round_robin, Request};
///
/// let schedule = round_robin(2, 100);
/// let request = Request::new(&[1, 0, 0], &[0]).units(2).budget(9).schedule(&schedule);
/// assert_eq!((request.units, request.budget, request.schedule.len()), (2, 9, 100));
/// ```
#[derive(Clone, Copy, Debug)]
#[non_exhaustive]
pub struct Request<'a> {
    /// The rule book, packed.
    pub book: &'a [u8],
    /// What is reduced. For [`reduce`](crate::reduce) and [`Engine::post`](crate::Engine::post) the term, one byte a
    /// symbol, in preorder; for [`payee`](crate::payee) and [`Engine::post_payee`](crate::Engine::post_payee) a payee's
    /// text in ISO 8859-1.
    pub line: &'a [u8],
    /// How many units there are, 1 to 8.
    pub units: u8,
    /// The most rewrites that may be made.
    pub budget: u32,
    /// The day on which the line is posted. By a dated book only the rules that stand on it are tried; an undated book
    /// ignores it.
    pub day: u16,
    /// The number of the unit that acts, entry by entry.
    pub schedule: &'a [u8],
}

impl<'a> Request<'a> {
    /// One unit, any number of rewrites, day 0, and a schedule without entries. So a schedule is given next; without one
    /// the book and the line are checked, and the run ends cut before its first entry. A dated book's day is given too: on
    /// day 0 its later rules are absent.
    pub const fn new(book: &'a [u8], line: &'a [u8]) -> Request<'a> {
        Request {
            book,
            line,
            units: 1,
            budget: u32::MAX,
            day: 0,
            schedule: &[],
        }
    }

    /// The same by another book.
    pub const fn book(self, book: &'a [u8]) -> Request<'a> {
        Request { book, ..self }
    }

    /// The same for another line.
    pub const fn line(self, line: &'a [u8]) -> Request<'a> {
        Request { line, ..self }
    }

    /// The same on so many units.
    pub const fn units(self, units: u8) -> Request<'a> {
        Request { units, ..self }
    }

    /// The same with so many rewrites at most.
    pub const fn budget(self, budget: u32) -> Request<'a> {
        Request { budget, ..self }
    }

    /// The same on this day, which an undated book ignores.
    ///
    /// ```
    /// # use kurvneist::{Engine, Request};
    /// // Three constants; 0 gives 1 from day 100 on, and 2 from day 283 on.
    /// let book = b"\x00\x03\x00\x00\x20\x06\x40\x00\x04\x04\x6c\x00\x02";
    /// let mut engine = Engine::new();
    /// let mut posted = |day| {
    ///     let posting = engine.post(&Request::new(book, &[0]).day(day).schedule(&[0; 9]))?;
    ///     Ok::<_, kurvneist::Refusal>(posting.term.to_vec())
    /// };
    /// assert_eq!(posted(99)?, [0]);
    /// assert_eq!(posted(100)?, [1]);
    /// assert_eq!(posted(283)?, [2]);
    /// # Ok::<(), kurvneist::Refusal>(())
    /// ```
    pub const fn day(self, day: u16) -> Request<'a> {
        Request { day, ..self }
    }

    /// The same by another schedule.
    pub const fn schedule(self, schedule: &'a [u8]) -> Request<'a> {
        Request { schedule, ..self }
    }
}
