//! An engine with buffers of its own.

use crate::{
    bound, bound_payee, park, park_payee, payee, payee_lines, reduce, reduce_lines, resume, settle,
    settle_payee, Answer, Batch, Bound, Charge, Done, Fees, Lines, Points, Postings, Refusal,
    Request, Settlement, Stop, NET_LENGTH, OUTPUT_LENGTH, WORK_LENGTH,
};

/// Owns one work area, one area for the net and one output and lends them to every run, so that posting a line allocates
/// nothing. The answers of many lines have a buffer that grows with them and is used again.
///
/// Each run that is not refused leaves both areas zero: nothing of one line is there when the next comes.
#[derive(Clone)]
pub struct Engine {
    work: Box<[u8]>,
    net: Box<[u8]>,
    output: Box<[u8]>,
    answers: Vec<u8>,
}

/// A run's answer and its present term, which stays until the engine's next run. The term is a posting if the ending
/// is [`Finished`](crate::Ending::Finished).
#[derive(Clone, Copy, Debug, PartialEq, Eq)]
#[non_exhaustive]
pub struct Posting<'a> {
    /// The run's values.
    pub answer: Answer,
    /// The present term, one byte a symbol, in preorder.
    pub term: &'a [u8],
}

/// [`reduce_lines`] or [`payee_lines`].
type DoLines = fn(&Batch, &[u8], &mut [u8], &mut [u8], &mut [u8]) -> Result<Done, Refusal>;

impl Engine {
    /// An engine with zeroed buffers of the lengths that a run asks for.
    pub fn new() -> Engine {
        Engine {
            work: vec![0; WORK_LENGTH].into(),
            net: vec![0; NET_LENGTH].into(),
            output: vec![0; OUTPUT_LENGTH].into(),
            answers: Vec::new(),
        }
    }

    /// Carries out one run whose line is a term; the refusals 15 and 16 can't come.
    pub fn post(&mut self, request: &Request) -> Result<Posting<'_>, Refusal> {
        let answer = reduce(request, &mut self.work, &mut self.net, &mut self.output)?;
        Ok(self.posting(answer))
    }

    /// Carries out one run whose line is a payee's text; the refusals 15 and 16 can't come.
    pub fn post_payee(&mut self, request: &Request) -> Result<Posting<'_>, Refusal> {
        let answer = payee(request, &mut self.work, &mut self.net, &mut self.output)?;
        Ok(self.posting(answer))
    }

    /// Says how long a schedule suffices for a line that is a term, as [`bound`](crate::bound) does; the request's own units
    /// and schedule don't count. The refusals 13 to 16 can't come.
    ///
    /// ```
    /// use kurvneist::{Ending, Engine, Request};
    ///
    /// // both(end, Y) gives Y; both(tick(X), Y) gives tick(both(X, Y))
    /// let book = b"\x03\x02\x52\xc0\x94\x80\x10\x08\x01\x18\x80\x80\x30\x88\x04\x05\x08\x80";
    /// let request = Request::new(book, &[2, 1, 0, 1, 0]).units(2).budget(9);
    /// let mut engine = Engine::new();
    /// let enough = engine.bound(&request)?.told().expect("one unit finishes");
    /// assert_eq!((enough.orders, enough.forks, enough.rounds()), (22, 2, 30));
    /// let schedule = enough.schedule(2);
    /// assert_eq!(schedule.len(), 60);
    /// let posting = engine.post(&request.schedule(&schedule))?;
    /// assert_eq!((posting.answer.ending, posting.answer.entries), (Ending::Finished, 33));
    /// # Ok::<(), kurvneist::Refusal>(())
    /// ```
    pub fn bound(&mut self, request: &Request) -> Result<Bound, Refusal> {
        bound(request, &mut self.work, &mut self.net)
    }

    /// The same for a line that is a payee's text.
    pub fn bound_payee(&mut self, request: &Request) -> Result<Bound, Refusal> {
        bound_payee(request, &mut self.work, &mut self.net)
    }

    /// Carries out one run whose line is a term, under a name, and if it ends cut saves it there, as [`park`] does. The
    /// refusals 15 and 16 can't come.
    pub fn park(
        &mut self,
        request: &Request,
        name: &[u8],
        points: &mut Points,
    ) -> Result<Posting<'_>, Refusal> {
        let Engine {
            work, net, output, ..
        } = self;
        let answer = park(request, name, work, net, points.lent(), output)?;
        Ok(self.posting(answer))
    }

    /// The same of a run whose line is a payee's text.
    pub fn park_payee(
        &mut self,
        request: &Request,
        name: &[u8],
        points: &mut Points,
    ) -> Result<Posting<'_>, Refusal> {
        let Engine {
            work, net, output, ..
        } = self;
        let answer = park_payee(request, name, work, net, points.lent(), output)?;
        Ok(self.posting(answer))
    }

    /// Goes on with the run of a name, as [`resume`] does. The refusals 15 and 16 can't come.
    pub fn resume(
        &mut self,
        name: &[u8],
        schedule: &[u8],
        points: &mut Points,
    ) -> Result<Posting<'_>, Refusal> {
        let Engine {
            work, net, output, ..
        } = self;
        let answer = resume(name, schedule, work, net, points.lent(), output)?;
        Ok(self.posting(answer))
    }

    /// Carries out one run whose line is a term and, if it finishes, charges its posting as [`charge`](crate::charge) does.
    /// The refusals 15 and 16 can't come, nor 22 and 23 where the run doesn't finish.
    ///
    /// ```
    /// use kurvneist::{Engine, FeeTable, Fees, Refusal, Request};
    ///
    /// let table: FeeTable = [350].into_iter().collect();
    /// let fees = Fees::new(table.as_bytes(), &[6000, 4000]);
    /// let request = Request::new(&[1, 0, 0], &[0]).schedule(&[0; 5]); // one constant, no rules
    /// let mut engine = Engine::new();
    /// let settled = engine.settle(&request, &fees, -18_000)?;
    /// assert_eq!(settled.posting.term, [0]);
    /// let charge = settled.charge.unwrap();
    /// assert_eq!((charge.fee, charge.parts()), (-630, &[-10_422, -6948][..]));
    /// # Ok::<(), Refusal>(())
    /// ```
    pub fn settle(
        &mut self,
        request: &Request,
        fees: &Fees,
        amount: i64,
    ) -> Result<Settlement<'_>, Refusal> {
        let settled = settle(request, fees, amount, &mut self.output)?;
        Ok(self.settlement(settled))
    }

    /// Carries out one run whose line is a payee's text and, if it finishes, charges its posting, as
    /// [`settle`](Engine::settle) does.
    pub fn settle_payee(
        &mut self,
        request: &Request,
        fees: &Fees,
        amount: i64,
    ) -> Result<Settlement<'_>, Refusal> {
        let settled = settle_payee(request, fees, amount, &mut self.output)?;
        Ok(self.settlement(settled))
    }

    /// Posts all lines, which are terms, by one book, each as [`post`](Engine::post) posts it by itself. The refusals of the
    /// units and the book, told once, are the result's; those of a line are that line's item.
    ///
    /// ```
    /// use kurvneist::{Batch, Engine, Lines, Refusal};
    ///
    /// // both(end, Y) gives Y; both(tick(X), Y) gives tick(both(X, Y))
    /// let book = b"\x03\x02\x52\xc0\x94\x80\x10\x08\x01\x18\x80\x80\x30\x88\x04\x05\x08\x80";
    /// let mut lines = Lines::new();
    /// for line in [&[2, 1, 0, 1, 0][..], &[7], &[2, 0, 0]] {
    ///     lines.push(line)?;
    /// }
    /// let mut engine = Engine::new();
    /// let postings = engine.post_lines(&Batch::new(book).schedule(&[0; 99]), &lines)?;
    /// let terms: Vec<_> = postings.map(|posting| Ok(posting?.term)).collect();
    /// assert_eq!(terms, [Ok(&[1, 1, 0][..]), Err(Refusal::UnknownOperatorInLine), Ok(&[0])]);
    /// # Ok::<(), Box<dyn std::error::Error>>(())
    /// ```
    pub fn post_lines(&mut self, batch: &Batch, lines: &Lines) -> Result<Postings<'_>, Refusal> {
        self.post_all(reduce_lines, batch, lines)
    }

    /// Posts all lines, which are payees' texts, by one book, each as [`post_payee`](Engine::post_payee) posts it by itself.
    pub fn post_payees(&mut self, batch: &Batch, texts: &Lines) -> Result<Postings<'_>, Refusal> {
        self.post_all(payee_lines, batch, texts)
    }

    /// Each further call reads the book again, so room is guessed first and then doubled.
    fn post_all(
        &mut self,
        do_lines: DoLines,
        batch: &Batch,
        lines: &Lines,
    ) -> Result<Postings<'_>, Refusal> {
        let (mut left, mut written) = (lines.as_bytes(), 0);
        self.grow(lines.room());
        loop {
            let answers = &mut self.answers[written..];
            let done = do_lines(batch, left, &mut self.work, &mut self.net, answers)?;
            left = &left[done.read..];
            written += done.written;
            if done.stop != Stop::Room {
                return Ok(Postings::of(&self.answers[..written]));
            }
            self.grow(2 * self.answers.len());
        }
    }

    /// Room for at least so many bytes of answers.
    fn grow(&mut self, length: usize) {
        self.answers.resize(length.max(self.answers.len()), 0);
    }

    fn posting(&self, answer: Answer) -> Posting<'_> {
        let term = &self.output[..answer.length];
        Posting { answer, term }
    }

    fn settlement(&self, (answer, charge): (Answer, Option<Charge>)) -> Settlement<'_> {
        let posting = self.posting(answer);
        Settlement { posting, charge }
    }
}

impl Default for Engine {
    fn default() -> Engine {
        Engine::new()
    }
}
