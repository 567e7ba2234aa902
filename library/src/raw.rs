//! The C functions, with slices in the place of pointers. Their values come back as they are; [`crate::reduce`],
//! [`crate::payee`], [`crate::reduce_lines`], [`crate::payee_lines`], [`crate::charge`], [`crate::settle`],
//! [`crate::settle_payee`], [`crate::park`], [`crate::park_payee`], [`crate::resume`], [`crate::write_book`] and
//! [`crate::strict_book`] give them names.
//!
//! This is the only module with `unsafe`. For each call it suffices that
//! - the functions are proved safe for any bytes, lengths and numbers, and use a pointer only for the elements that they
//!   are lent with it,
//! - a slice's pointer is never null and is good for the slice's length, also where that is 0,
//! - `&mut` is exclusive, so what is written to overlaps nothing else,
//! - nothing is kept after the call returns.
#![allow(unsafe_code)]

use crate::{Batch, Fees, Request, MOST_OWNERS};

/// Declared as in `include/kurvneist.h`.
mod c {
    extern "C" {
        pub fn kurvneist_work_length() -> usize;
        pub fn kurvneist_net_length() -> usize;
        pub fn kurvneist_output_length() -> usize;
        pub fn kurvneist_reduce(
            book: *const u8,
            book_length: usize,
            line: *const u8,
            line_length: usize,
            units: u8,
            budget: u32,
            day: u16,
            schedule: *const u8,
            schedule_length: usize,
            work: *mut u8,
            work_length: usize,
            net: *mut u8,
            net_length: usize,
            output: *mut u8,
            output_length: usize,
            answer: *mut u64,
        ) -> u8;
        pub fn kurvneist_payee(
            book: *const u8,
            book_length: usize,
            text: *const u8,
            text_length: usize,
            units: u8,
            budget: u32,
            day: u16,
            schedule: *const u8,
            schedule_length: usize,
            work: *mut u8,
            work_length: usize,
            net: *mut u8,
            net_length: usize,
            output: *mut u8,
            output_length: usize,
            answer: *mut u64,
        ) -> u8;
        pub fn kurvneist_record_length() -> usize;
        pub fn kurvneist_reduce_lines(
            book: *const u8,
            book_length: usize,
            lines: *const u8,
            lines_length: usize,
            units: u8,
            budget: u32,
            day: u16,
            schedule: *const u8,
            schedule_length: usize,
            work: *mut u8,
            work_length: usize,
            net: *mut u8,
            net_length: usize,
            answers: *mut u8,
            answers_length: usize,
            done: *mut u64,
        ) -> u8;
        pub fn kurvneist_payee_lines(
            book: *const u8,
            book_length: usize,
            texts: *const u8,
            texts_length: usize,
            units: u8,
            budget: u32,
            day: u16,
            schedule: *const u8,
            schedule_length: usize,
            work: *mut u8,
            work_length: usize,
            net: *mut u8,
            net_length: usize,
            answers: *mut u8,
            answers_length: usize,
            done: *mut u64,
        ) -> u8;
        pub fn kurvneist_charge(
            term: *const u8,
            term_length: usize,
            rates: *const u8,
            rates_length: usize,
            amount: i64,
            shares: *const u16,
            owners: usize,
            parts: *mut i64,
            fee: *mut i64,
        ) -> u8;
        pub fn kurvneist_settle(
            book: *const u8,
            book_length: usize,
            line: *const u8,
            line_length: usize,
            units: u8,
            budget: u32,
            day: u16,
            schedule: *const u8,
            schedule_length: usize,
            rates: *const u8,
            rates_length: usize,
            amount: i64,
            shares: *const u16,
            owners: usize,
            output: *mut u8,
            output_length: usize,
            parts: *mut i64,
            answer: *mut u64,
            fee: *mut i64,
            charged: *mut u64,
        ) -> u8;
        pub fn kurvneist_settle_payee(
            book: *const u8,
            book_length: usize,
            text: *const u8,
            text_length: usize,
            units: u8,
            budget: u32,
            day: u16,
            schedule: *const u8,
            schedule_length: usize,
            rates: *const u8,
            rates_length: usize,
            amount: i64,
            shares: *const u16,
            owners: usize,
            output: *mut u8,
            output_length: usize,
            parts: *mut i64,
            answer: *mut u64,
            fee: *mut i64,
            charged: *mut u64,
        ) -> u8;
        pub fn kurvneist_points_length() -> usize;
        pub fn kurvneist_park(
            book: *const u8,
            book_length: usize,
            line: *const u8,
            line_length: usize,
            units: u8,
            budget: u32,
            day: u16,
            schedule: *const u8,
            schedule_length: usize,
            name: *const u8,
            name_length: usize,
            work: *mut u8,
            work_length: usize,
            net: *mut u8,
            net_length: usize,
            points: *mut u8,
            points_length: usize,
            output: *mut u8,
            output_length: usize,
            answer: *mut u64,
        ) -> u8;
        pub fn kurvneist_park_payee(
            book: *const u8,
            book_length: usize,
            text: *const u8,
            text_length: usize,
            units: u8,
            budget: u32,
            day: u16,
            schedule: *const u8,
            schedule_length: usize,
            name: *const u8,
            name_length: usize,
            work: *mut u8,
            work_length: usize,
            net: *mut u8,
            net_length: usize,
            points: *mut u8,
            points_length: usize,
            output: *mut u8,
            output_length: usize,
            answer: *mut u64,
        ) -> u8;
        pub fn kurvneist_resume(
            name: *const u8,
            name_length: usize,
            schedule: *const u8,
            schedule_length: usize,
            work: *mut u8,
            work_length: usize,
            net: *mut u8,
            net_length: usize,
            points: *mut u8,
            points_length: usize,
            output: *mut u8,
            output_length: usize,
            answer: *mut u64,
        ) -> u8;
        pub fn kurvneist_bound(
            book: *const u8,
            book_length: usize,
            line: *const u8,
            line_length: usize,
            budget: u32,
            day: u16,
            work: *mut u8,
            work_length: usize,
            net: *mut u8,
            net_length: usize,
            answer: *mut u64,
        ) -> u8;
        pub fn kurvneist_bound_payee(
            book: *const u8,
            book_length: usize,
            text: *const u8,
            text_length: usize,
            budget: u32,
            day: u16,
            work: *mut u8,
            work_length: usize,
            net: *mut u8,
            net_length: usize,
            answer: *mut u64,
        ) -> u8;
        pub fn kurvneist_write_book(
            book: *const u8,
            book_length: usize,
            output: *mut u8,
            output_length: usize,
            length: *mut u64,
        ) -> u8;
        pub fn kurvneist_strict_book(book: *const u8, book_length: usize, pair: *mut u64) -> u8;
    }
}

/// The numbers of an answer: ending, rewrites, entries, FORKs granted, FORKs kept and the term's length.
pub const ANSWER_LENGTH: usize = 6;

/// The numbers that many lines are answered: lines done, bytes of them read, bytes of records written, and the stop.
pub const DONE_LENGTH: usize = 4;

/// What a settled line is answered.
#[derive(Clone, Copy, Debug, Default, PartialEq, Eq)]
pub struct Settled {
    /// The run's numbers; all zeros after a refusal.
    pub answer: [u64; ANSWER_LENGTH],
    /// 1 if the run finished, so that its posting was charged; otherwise 0.
    pub charged: u64,
    /// The fee, and 0 where none was charged.
    pub fee: i64,
    /// The owners' parts at the front, if the posting was charged. The other elements stay.
    pub parts: [i64; MOST_OWNERS],
}

/// The numbers that say how long a schedule suffices: the ending of the one-unit run, S and F.
pub const BOUND_LENGTH: usize = 3;

/// The numbers of a pair of rules that overlap: the first rule's and the second's, from 0.
pub const PAIR_LENGTH: usize = 2;

/// The bytes of work area that a run asks for, by the linked library.
pub fn work_length() -> usize {
    // SAFETY: no pointer is passed.
    unsafe { c::kurvneist_work_length() }
}

/// The bytes of the net's area that a run asks for, by the linked library.
pub fn net_length() -> usize {
    // SAFETY: no pointer is passed.
    unsafe { c::kurvneist_net_length() }
}

/// The bytes of output that a run asks for, by the linked library.
pub fn output_length() -> usize {
    // SAFETY: no pointer is passed.
    unsafe { c::kurvneist_output_length() }
}

/// The bytes that a line among many asks for in the answers, by the linked library.
pub fn record_length() -> usize {
    // SAFETY: no pointer is passed.
    unsafe { c::kurvneist_record_length() }
}

/// The bytes of the buffer of points, by the linked library.
pub fn points_length() -> usize {
    // SAFETY: no pointer is passed.
    unsafe { c::kurvneist_points_length() }
}

/// A refusal's number, or 0. The answer is all zeros after a refusal.
pub fn reduce(
    request: &Request,
    work: &mut [u8],
    net: &mut [u8],
    output: &mut [u8],
    answer: &mut [u64; ANSWER_LENGTH],
) -> u8 {
    // SAFETY: every pointer and length are those of one slice, and `answer` has the six elements that are written.
    unsafe {
        c::kurvneist_reduce(
            request.book.as_ptr(),
            request.book.len(),
            request.line.as_ptr(),
            request.line.len(),
            request.units,
            request.budget,
            request.day,
            request.schedule.as_ptr(),
            request.schedule.len(),
            work.as_mut_ptr(),
            work.len(),
            net.as_mut_ptr(),
            net.len(),
            output.as_mut_ptr(),
            output.len(),
            answer.as_mut_ptr(),
        )
    }
}

/// The same where the request's line is a text.
pub fn payee(
    request: &Request,
    work: &mut [u8],
    net: &mut [u8],
    output: &mut [u8],
    answer: &mut [u64; ANSWER_LENGTH],
) -> u8 {
    // SAFETY: as for `reduce`, whose parameters these are.
    unsafe {
        c::kurvneist_payee(
            request.book.as_ptr(),
            request.book.len(),
            request.line.as_ptr(),
            request.line.len(),
            request.units,
            request.budget,
            request.day,
            request.schedule.as_ptr(),
            request.schedule.len(),
            work.as_mut_ptr(),
            work.len(),
            net.as_mut_ptr(),
            net.len(),
            output.as_mut_ptr(),
            output.len(),
            answer.as_mut_ptr(),
        )
    }
}

/// A refusal's number of frame or book, or 0. What is done is all zeros after a refusal.
pub fn reduce_lines(
    batch: &Batch,
    lines: &[u8],
    work: &mut [u8],
    net: &mut [u8],
    answers: &mut [u8],
    done: &mut [u64; DONE_LENGTH],
) -> u8 {
    // SAFETY: every pointer and length are those of one slice, and `done` has the four elements that are written.
    unsafe {
        c::kurvneist_reduce_lines(
            batch.book.as_ptr(),
            batch.book.len(),
            lines.as_ptr(),
            lines.len(),
            batch.units,
            batch.budget,
            batch.day,
            batch.schedule.as_ptr(),
            batch.schedule.len(),
            work.as_mut_ptr(),
            work.len(),
            net.as_mut_ptr(),
            net.len(),
            answers.as_mut_ptr(),
            answers.len(),
            done.as_mut_ptr(),
        )
    }
}

/// The same where each line is a text.
pub fn payee_lines(
    batch: &Batch,
    texts: &[u8],
    work: &mut [u8],
    net: &mut [u8],
    answers: &mut [u8],
    done: &mut [u64; DONE_LENGTH],
) -> u8 {
    // SAFETY: as for `reduce_lines`, whose parameters these are.
    unsafe {
        c::kurvneist_payee_lines(
            batch.book.as_ptr(),
            batch.book.len(),
            texts.as_ptr(),
            texts.len(),
            batch.units,
            batch.budget,
            batch.day,
            batch.schedule.as_ptr(),
            batch.schedule.len(),
            work.as_mut_ptr(),
            work.len(),
            net.as_mut_ptr(),
            net.len(),
            answers.as_mut_ptr(),
            answers.len(),
            done.as_mut_ptr(),
        )
    }
}

/// A refusal's number, or 0. The fee is 0 after a refusal, and the parts stay; otherwise the owners' parts are written at
/// the front, and the other elements stay.
pub fn charge(
    term: &[u8],
    fees: &Fees,
    amount: i64,
    parts: &mut [i64; MOST_OWNERS],
    fee: &mut i64,
) -> u8 {
    // SAFETY: every pointer and length are those of one slice, `parts` has the sixteen elements of which those in front are
    // written, and `fee` is the one element that is written.
    unsafe {
        c::kurvneist_charge(
            term.as_ptr(),
            term.len(),
            fees.rates.as_ptr(),
            fees.rates.len(),
            amount,
            fees.shares.as_ptr(),
            fees.shares.len(),
            parts.as_mut_ptr(),
            fee,
        )
    }
}

/// A refusal's number, or 0.
pub fn settle(
    request: &Request,
    fees: &Fees,
    amount: i64,
    output: &mut [u8],
    settled: &mut Settled,
) -> u8 {
    // SAFETY: every pointer and length are those of one slice, and what is settled has the six, the one, the one and the
    // sixteen elements that are written.
    unsafe {
        c::kurvneist_settle(
            request.book.as_ptr(),
            request.book.len(),
            request.line.as_ptr(),
            request.line.len(),
            request.units,
            request.budget,
            request.day,
            request.schedule.as_ptr(),
            request.schedule.len(),
            fees.rates.as_ptr(),
            fees.rates.len(),
            amount,
            fees.shares.as_ptr(),
            fees.shares.len(),
            output.as_mut_ptr(),
            output.len(),
            settled.parts.as_mut_ptr(),
            settled.answer.as_mut_ptr(),
            &mut settled.fee,
            &mut settled.charged,
        )
    }
}

/// The same where the request's line is a text.
pub fn settle_payee(
    request: &Request,
    fees: &Fees,
    amount: i64,
    output: &mut [u8],
    settled: &mut Settled,
) -> u8 {
    // SAFETY: as for `settle`, whose parameters these are.
    unsafe {
        c::kurvneist_settle_payee(
            request.book.as_ptr(),
            request.book.len(),
            request.line.as_ptr(),
            request.line.len(),
            request.units,
            request.budget,
            request.day,
            request.schedule.as_ptr(),
            request.schedule.len(),
            fees.rates.as_ptr(),
            fees.rates.len(),
            amount,
            fees.shares.as_ptr(),
            fees.shares.len(),
            output.as_mut_ptr(),
            output.len(),
            settled.parts.as_mut_ptr(),
            settled.answer.as_mut_ptr(),
            &mut settled.fee,
            &mut settled.charged,
        )
    }
}

/// A refusal's number, or 0. The answer is all zeros after a refusal.
pub fn park(
    request: &Request,
    name: &[u8],
    work: &mut [u8],
    net: &mut [u8],
    points: &mut [u8],
    output: &mut [u8],
    answer: &mut [u64; ANSWER_LENGTH],
) -> u8 {
    // SAFETY: every pointer and length are those of one slice, and `answer` has the six elements that are written.
    unsafe {
        c::kurvneist_park(
            request.book.as_ptr(),
            request.book.len(),
            request.line.as_ptr(),
            request.line.len(),
            request.units,
            request.budget,
            request.day,
            request.schedule.as_ptr(),
            request.schedule.len(),
            name.as_ptr(),
            name.len(),
            work.as_mut_ptr(),
            work.len(),
            net.as_mut_ptr(),
            net.len(),
            points.as_mut_ptr(),
            points.len(),
            output.as_mut_ptr(),
            output.len(),
            answer.as_mut_ptr(),
        )
    }
}

/// The same where the request's line is a text.
pub fn park_payee(
    request: &Request,
    name: &[u8],
    work: &mut [u8],
    net: &mut [u8],
    points: &mut [u8],
    output: &mut [u8],
    answer: &mut [u64; ANSWER_LENGTH],
) -> u8 {
    // SAFETY: as for `park`, whose parameters these are.
    unsafe {
        c::kurvneist_park_payee(
            request.book.as_ptr(),
            request.book.len(),
            request.line.as_ptr(),
            request.line.len(),
            request.units,
            request.budget,
            request.day,
            request.schedule.as_ptr(),
            request.schedule.len(),
            name.as_ptr(),
            name.len(),
            work.as_mut_ptr(),
            work.len(),
            net.as_mut_ptr(),
            net.len(),
            points.as_mut_ptr(),
            points.len(),
            output.as_mut_ptr(),
            output.len(),
            answer.as_mut_ptr(),
        )
    }
}

/// A refusal's number, or 0. The answer is all zeros after a refusal.
pub fn resume(
    name: &[u8],
    schedule: &[u8],
    work: &mut [u8],
    net: &mut [u8],
    points: &mut [u8],
    output: &mut [u8],
    answer: &mut [u64; ANSWER_LENGTH],
) -> u8 {
    // SAFETY: as for `park`.
    unsafe {
        c::kurvneist_resume(
            name.as_ptr(),
            name.len(),
            schedule.as_ptr(),
            schedule.len(),
            work.as_mut_ptr(),
            work.len(),
            net.as_mut_ptr(),
            net.len(),
            points.as_mut_ptr(),
            points.len(),
            output.as_mut_ptr(),
            output.len(),
            answer.as_mut_ptr(),
        )
    }
}

/// A refusal's number, or 0. The answer is all zeros after a refusal, and S and F are zeros unless the ending is 0.
pub fn bound(
    request: &Request,
    work: &mut [u8],
    net: &mut [u8],
    answer: &mut [u64; BOUND_LENGTH],
) -> u8 {
    // SAFETY: every pointer and length are those of one slice, and `answer` has the three elements that are written.
    unsafe {
        c::kurvneist_bound(
            request.book.as_ptr(),
            request.book.len(),
            request.line.as_ptr(),
            request.line.len(),
            request.budget,
            request.day,
            work.as_mut_ptr(),
            work.len(),
            net.as_mut_ptr(),
            net.len(),
            answer.as_mut_ptr(),
        )
    }
}

/// The same where the request's line is a text.
pub fn bound_payee(
    request: &Request,
    work: &mut [u8],
    net: &mut [u8],
    answer: &mut [u64; BOUND_LENGTH],
) -> u8 {
    // SAFETY: as for `bound`, whose parameters these are.
    unsafe {
        c::kurvneist_bound_payee(
            request.book.as_ptr(),
            request.book.len(),
            request.line.as_ptr(),
            request.line.len(),
            request.budget,
            request.day,
            work.as_mut_ptr(),
            work.len(),
            net.as_mut_ptr(),
            net.len(),
            answer.as_mut_ptr(),
        )
    }
}

/// A refusal's number, or 0. The length is that of the written book; 0 after a refusal.
pub fn write_book(book: &[u8], output: &mut [u8], length: &mut u64) -> u8 {
    // SAFETY: every pointer and length are those of one slice, and `length` is the one element that is written.
    unsafe {
        c::kurvneist_write_book(
            book.as_ptr(),
            book.len(),
            output.as_mut_ptr(),
            output.len(),
            length,
        )
    }
}

/// A refusal's number, or 0. The pair is the first two rules that overlap after 25, and zeros otherwise.
pub fn strict_book(book: &[u8], pair: &mut [u64; PAIR_LENGTH]) -> u8 {
    // SAFETY: the pointer and length are those of one slice, and `pair` has the two elements that are written.
    unsafe { c::kurvneist_strict_book(book.as_ptr(), book.len(), pair.as_mut_ptr()) }
}
