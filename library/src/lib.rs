//! Reduces lines by rule books, on one to eight simulated units that share the work under a schedule.
//!
//! A safe face of the proved static library `libkurvneist.a`: this crate lends it buffers, gives its numbers names, and
//! decides nothing. What the bytes of a book, a line, a text and a page are, what is refused and in which order, is said
//! in `docs/FORMAT.md`.
//!
//! ```
//! use kurvneist::{round_robin, Ending, Engine, Request};
//!
//! // Three operators: end, tick(_) and both(_, _), whose arguments may be reduced at the same time.
//! // Two rules: both(end, Y) gives Y, and both(tick(X), Y) gives tick(both(X, Y)).
//! let book = b"\x03\x02\x52\xc0\x94\x80\x10\x08\x01\x18\x80\x80\x30\x88\x04\x05\x08\x80";
//! let line = [2, 1, 0, 1, 0]; // both(tick(end), tick(end))
//! let schedule = round_robin(2, 100);
//! let request = Request::new(book, &line).units(2).budget(9).schedule(&schedule);
//! let mut engine = Engine::new();
//! let posting = engine.post(&request)?;
//! assert_eq!(posting.answer.ending, Ending::Finished);
//! assert_eq!(posting.answer.rewrites, 2);
//! assert_eq!(posting.term, [1, 1, 0]); // tick(tick(end))
//! # Ok::<(), kurvneist::Refusal>(())
//! ```
//!
//! A payee comes in as it is typed, in ISO 8859-1. Its book begins with operator 0, the constant `end`, and 42 operators
//! of one argument: a letter or digit each, and 42 for what separates words. Small letters are as capitals, and accented
//! letters as their base letters.
//!
//! ```
//! # use kurvneist::{Engine, Request};
//! let book = [&[43, 0x02][..], &[0x22; 20], &[0x20, 0x00]].concat(); // 43 operators, no rules
//! let mut engine = Engine::new();
//! let mut term = |text| {
//!     let posting = engine.post_payee(&Request::new(&book, text)); // no entries, so the term stays as it is read
//!     posting.map(|posting| posting.term.to_vec())
//! };
//! assert_eq!(term(b"Caf\xE9 7")?, [3, 1, 6, 5, 42, 39, 0]);
//! assert_eq!(term(b"Caf\xE9 7"), term(b" CAFE - 7."));
//! # Ok::<(), kurvneist::Refusal>(())
//! ```
//!
//! Rules with days replace earlier ones: a dated book is asked with a [`day`](Request::day), and only the rules that stand
//! on it are tried.
//!
//! Many lines by one book are posted together, by [`Engine::post_lines`] and [`Engine::post_payees`], so that the book is
//! read once.
//!
//! A posting has an amount too: [`charge`] takes the fee off it, at the rate of the posting's root, and splits the rest among
//! owners to the cent; [`Engine::settle`] posts a line and charges it.
//!
//! A run that takes long is given a name and parked: if it ends cut, [`Engine::park`] saves it among [`Points`], which the caller
//! keeps, and [`Engine::resume`] goes on with it later, to the same end as if it had not been parked.
//!
//! How long a schedule suffices is known before the run: [`Engine::bound`] tells it for any number of units, by a run of one.
//!
//! Of a book that [`strict_book`] admits no term is matched by two rules, so that their order is free.
//!
//! A refusal has a name, a number and a condition, and leaves every buffer as it was:
//!
//! ```
//! # use kurvneist::{Engine, Refusal, Request};
//! let refusal = Engine::new().post(&Request::new(&[1, 0, 0], &[7])).unwrap_err();
//! assert_eq!(refusal, Refusal::UnknownOperatorInLine);
//! assert_eq!(refusal.number(), 11);
//! assert_eq!(refusal.to_string(), "refused 11: the line names an operator that the book does not have");
//! ```
//!
//! [`Request`], [`Batch`], [`Fees`], [`Answer`], [`Done`], [`Posting`], [`Charge`], [`Settlement`], [`NotStrict`],
//! [`Enough`], [`Bound`], [`Ending`], [`Stop`] and [`Refusal`] grow as the engine does: a request is made by
//! [`Request::new`], a batch by [`Batch::new`], fees by [`Fees::new`], and a `match` on a bound, an ending, a stop or a
//! refusal has an arm for what it doesn't know.
#![deny(unsafe_code)]
#![warn(missing_docs)]

mod answer;
mod batch;
mod bound;
mod engine;
mod fees;
#[cfg(doctest)]
mod growth;
mod lines;
mod points;
mod postings;
pub mod raw;
mod refusal;
mod request;
mod strict;

pub use answer::{Answer, Ending};
pub use batch::{payee_lines, reduce_lines, Batch, Done, Stop};
pub use bound::{bound, bound_payee, Bound, Enough, BOUND_ENTRIES};
pub use engine::{Engine, Posting};
pub use fees::{
    charge, settle, settle_payee, Charge, FeeTable, Fees, Settlement, LARGEST_AMOUNT, MOST_OWNERS,
    WHOLE,
};
pub use lines::{LineTooLong, Lines};
pub use points::{
    park, park_payee, resume, Points, WrongPointsLength, LONGEST_NAME, MOST_NAMES, POINTS_LENGTH,
};
pub use postings::Postings;
pub use refusal::Refusal;
pub use request::Request;
pub use strict::{strict_book, NotStrict};

/// Bytes of work area that a run asks for.
pub const WORK_LENGTH: usize = 24_624;

/// Bytes of the net's area that a run asks for. The book's left sides are laid out in it, so that the first rule that matches
/// is found without trying one by one.
pub const NET_LENGTH: usize = 3840;

/// Bytes of output that a run asks for: a term has at most 1,024 symbols.
pub const OUTPUT_LENGTH: usize = 1024;

/// Bytes of the longest record of a line among many: 32 and 1,024 symbols.
pub const LONGEST_RECORD: usize = 1056;

/// No book has more bytes than a dated one of 255 operators, each with a list of 31 items, and 255 rules whose sides have
/// 64 operators each: a byte 0, and a day of 16 bits before each rule.
pub const LONGEST_BOOK: usize = {
    let operator = 3 + 1 + 5 + 31 * 4;
    let rule = 16 + 2 * 64 * 9;
    usize::div_ceil(8 + 8 + 255 * operator + 8 + 255 * rule, 8)
};

/// Carries out one run in lent buffers of at least [`WORK_LENGTH`], [`NET_LENGTH`] and [`OUTPUT_LENGTH`] bytes. An
/// [`Engine`] has them of its own.
///
/// The present term is then at the front of the output, whose other bytes stay, and the work area and the net's are all
/// zero, whatever they held before. After a refusal all three are as they were.
///
/// ```
/// use kurvneist::{reduce, Request, NET_LENGTH, OUTPUT_LENGTH, WORK_LENGTH};
///
/// let request = Request::new(&[1, 0, 0], &[0]).schedule(&[0; 5]);
/// let (mut work, mut net) = (vec![7; WORK_LENGTH], vec![7; NET_LENGTH]);
/// let mut output = [7; OUTPUT_LENGTH];
/// let answer = reduce(&request, &mut work, &mut net, &mut output)?;
/// assert_eq!((answer.entries, answer.length), (3, 1));
/// assert_eq!(output[..3], [0, 7, 7]);
/// # Ok::<(), kurvneist::Refusal>(())
/// ```
pub fn reduce(
    request: &Request,
    work: &mut [u8],
    net: &mut [u8],
    output: &mut [u8],
) -> Result<Answer, Refusal> {
    let mut values = [0; raw::ANSWER_LENGTH];
    Refusal::check(raw::reduce(request, work, net, output, &mut values))?;
    Ok(Answer::of(values))
}

/// Carries out one run whose line is a payee's text in ISO 8859-1, of any length: its term has an operator for each
/// letter and digit, 42 for each run of other bytes between them, and 0 last. All else is as for [`reduce`].
///
/// After the book's own refusals comes 19, if it lacks the operators for the classes, and then 18, if the term would have
/// over 1,024 symbols; 10, 11 and 12 never come.
///
/// ```
/// use kurvneist::{payee, Request, NET_LENGTH, OUTPUT_LENGTH, WORK_LENGTH};
///
/// let book = [&[43, 0x02][..], &[0x22; 20], &[0x20, 0x00]].concat(); // 43 operators, no rules
/// let request = Request::new(&book, b"Wei\xDF").schedule(&[0; 20]);
/// let (mut work, mut net) = (vec![7; WORK_LENGTH], vec![7; NET_LENGTH]);
/// let mut output = [7; OUTPUT_LENGTH];
/// let answer = payee(&request, &mut work, &mut net, &mut output)?;
/// assert_eq!((answer.entries, answer.length), (11, 5));
/// assert_eq!(output[..6], [23, 5, 9, 31, 0, 7]);
/// # Ok::<(), kurvneist::Refusal>(())
/// ```
pub fn payee(
    request: &Request,
    work: &mut [u8],
    net: &mut [u8],
    output: &mut [u8],
) -> Result<Answer, Refusal> {
    let mut values = [0; raw::ANSWER_LENGTH];
    Refusal::check(raw::payee(request, work, net, output, &mut values))?;
    Ok(Answer::of(values))
}

/// Writes a book with its strategies settled to the front of the output and answers the written length. The output's
/// other bytes stay, and after a refusal all do. A dated book is written dated, with all its rules and their days.
///
/// A written book is never longer than the book given, so an output of that length, or of [`LONGEST_BOOK`] bytes, is
/// never refused by 16.
pub fn write_book(book: &[u8], output: &mut [u8]) -> Result<usize, Refusal> {
    let mut length = 0;
    Refusal::check(raw::write_book(book, output, &mut length))?;
    Ok(usize::try_from(length).expect("what is written fits the output"))
}

/// The book with its strategies settled. The refusal 16 can't come: it is proved that one buffer of the given book's
/// length is enough, since settling only shortens lists and rules are written as they stand, and so is one of
/// [`LONGEST_BOOK`] bytes, since what is longer is no book and is refused.
///
/// ```
/// // A constant, and an operator of one argument with the list (1 0), which is the default.
/// assert_eq!(kurvneist::written_book(&[0x02, 0x03, 0x10, 0x80, 0x00])?, [0x02, 0x02, 0x00]);
/// # Ok::<(), kurvneist::Refusal>(())
/// ```
pub fn written_book(book: &[u8]) -> Result<Vec<u8>, Refusal> {
    let mut output = vec![0; book.len().min(LONGEST_BOOK)];
    let length = write_book(book, &mut output)?;
    output.truncate(length);
    Ok(output)
}

/// A schedule in which the units take turns: 0, 1 and so on, then 0 again. No units count as one.
///
/// ```
/// assert_eq!(kurvneist::round_robin(3, 7), [0, 1, 2, 0, 1, 2, 0]);
/// ```
pub fn round_robin(units: u8, entries: usize) -> Vec<u8> {
    (0..units.max(1)).cycle().take(entries).collect()
}
