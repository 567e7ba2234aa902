//! What callers can't rely on, so that these types may grow without breaking them.
//!
//! A request is not made of its fields:
//!
//! ```compile_fail,E0639
//! let request = kurvneist::Request { book: &[], line: &[], units: 1, budget: 0, day: 0, schedule: &[] };
//! ```
//!
//! Neither is a batch:
//!
//! ```compile_fail,E0639
//! let batch = kurvneist::Batch { book: &[], units: 1, budget: 0, day: 0, schedule: &[] };
//! ```
//!
//! Nor fees:
//!
//! ```compile_fail,E0639
//! let fees = kurvneist::Fees { rates: &[], shares: &[] };
//! ```
//!
//! An answer, a posting, what is done, what is settled, what is enough or why a book is not strict is not taken apart into all
//! its fields; with `..` it is:
//!
//! ```compile_fail,E0638
//! fn rewrites(answer: kurvneist::Answer) -> u32 {
//!     let kurvneist::Answer { ending: _, rewrites, entries: _, granted: _, kept: _, length: _ } = answer;
//!     rewrites
//! }
//! ```
//!
//! ```compile_fail,E0638
//! fn symbols(posting: kurvneist::Posting) -> usize {
//!     let kurvneist::Posting { answer: _, term } = posting;
//!     term.len()
//! }
//! ```
//!
//! ```compile_fail,E0638
//! fn lines(done: kurvneist::Done) -> usize {
//!     let kurvneist::Done { lines, read: _, written: _, stop: _ } = done;
//!     lines
//! }
//! ```
//!
//! ```compile_fail,E0638
//! fn is_charged(settlement: kurvneist::Settlement) -> bool {
//!     let kurvneist::Settlement { posting: _, charge } = settlement;
//!     charge.is_some()
//! }
//! ```
//!
//! ```compile_fail,E0638
//! fn forks(enough: kurvneist::Enough) -> u64 {
//!     let kurvneist::Enough { orders: _, forks } = enough;
//!     forks
//! }
//! ```
//!
//! ```compile_fail,E0638
//! fn pair(fault: kurvneist::NotStrict) -> Option<[usize; 2]> {
//!     let kurvneist::NotStrict { refusal: _, pair } = fault;
//!     pair
//! }
//! ```
//!
//! ```
//! fn rewrites(posting: kurvneist::Posting) -> u32 {
//!     let kurvneist::Posting { answer: kurvneist::Answer { rewrites, .. }, .. } = posting;
//!     rewrites
//! }
//! ```
//!
//! Endings, stops, bounds and refusals have an arm for those to come; then they can be matched:
//!
//! ```compile_fail,E0004
//! # use kurvneist::Ending;
//! fn is_posting(ending: Ending) -> bool {
//!     match ending {
//!         Ending::Finished => true,
//!         Ending::Spent | Ending::Full | Ending::Cut => false,
//!     }
//! }
//! ```
//!
//! ```compile_fail,E0004
//! # use kurvneist::Stop;
//! fn goes_on(stop: Stop) -> bool {
//!     match stop {
//!         Stop::Room => true,
//!         Stop::End | Stop::Cut => false,
//!     }
//! }
//! ```
//!
//! ```compile_fail,E0004
//! # use kurvneist::Bound;
//! fn is_known(bound: Bound) -> bool {
//!     match bound {
//!         Bound::Told(_) => true,
//!         Bound::Unknown(_) => false,
//!     }
//! }
//! ```
//!
//! ```
//! # use kurvneist::{Ending, Refusal};
//! fn is_posting(ending: Ending) -> bool {
//!     match ending {
//!         Ending::Finished => true,
//!         _ => false,
//!     }
//! }
//! fn is_too_long(refusal: Refusal) -> bool {
//!     matches!(refusal, Refusal::LineTooLong | Refusal::TextTooLong)
//! }
//! ```
//!
//! ```compile_fail,E0004
//! use kurvneist::Refusal::*;
//! fn all(refusal: kurvneist::Refusal) {
//!     match refusal {
//!         BookRunsOut | NoOperator | BadStrategy | UnknownOperatorInRule | LeftSideIsVariable
//!         | LeftSideRepeatsVariable | RightSideAddsVariable | SideTooLong | BookLeftOver | LineIsNoTerm
//!         | UnknownOperatorInLine | LineTooLong | BadUnits | UnknownUnitInSchedule | WorkTooShort
//!         | OutputTooShort | BadInput | TextTooLong | NoLetters | BadPointOrName | NinthName | AmountOutOfRange
//!         | BadRateOrShares | OutsideStrictProfile | RulesOverlap => (),
//!     }
//! }
//! ```
