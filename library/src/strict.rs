//! The strict profile.

use std::error::Error;
use std::fmt::{self, Display, Formatter};

use crate::{raw, Refusal};

/// Why the strict profile doesn't admit a book: the book's own fault, [`Refusal::OutsideStrictProfile`] or
/// [`Refusal::RulesOverlap`].
#[derive(Clone, Copy, Debug, PartialEq, Eq, Hash)]
#[non_exhaustive]
pub struct NotStrict {
    /// The refusal.
    pub refusal: Refusal,
    /// After [`Refusal::RulesOverlap`] the first two rules that match one term, numbered from 0 in the book: the lowest first
    /// rule, and with it the lowest second. There may be more.
    pub pair: Option<[usize; 2]>,
}

/// Whether no term is matched by two of a book's rules, so that their order is free: any rearrangement of the rules gives the
/// same term, ending, rewrites, entries and FORKs, granted and kept, for every line under the same schedule. Two rules with
/// the same left side are two rules.
///
/// It is decided for undated books without a repeated variable in a left side, over the terms that the book's operators form,
/// of which one has arity 0.
///
/// ```
/// use kurvneist::{strict_book, Refusal};
///
/// // both(end, Y) gives Y; both(tick(X), Y) gives tick(both(X, Y))
/// let book = b"\x03\x02\x52\xc0\x94\x80\x10\x08\x01\x18\x80\x80\x30\x88\x04\x05\x08\x80";
/// assert_eq!(strict_book(book), Ok(()));
///
/// // The same with a third rule, both(X, end) gives X: both(end, end) is matched by the first and by the third.
/// let argued = b"\x03\x02\x52\xc0\x94\x80\x18\x08\x01\x18\x80\x80\x30\x88\x04\x05\x08\x80\xa0\x00\x80";
/// let fault = strict_book(argued).unwrap_err();
/// assert_eq!((fault.refusal, fault.pair), (Refusal::RulesOverlap, Some([0, 2])));
/// assert_eq!(fault.to_string(), "refused 25: two of the book's rules match one term: rules 0 and 2, counted from 0");
/// ```
pub fn strict_book(book: &[u8]) -> Result<(), NotStrict> {
    let mut pair = [0; raw::PAIR_LENGTH];
    let checked = Refusal::check(raw::strict_book(book, &mut pair));
    checked.map_err(|refusal| NotStrict {
        refusal,
        pair: (refusal == Refusal::RulesOverlap).then(|| pair.map(place)),
    })
}

fn place(number: u64) -> usize {
    usize::try_from(number).expect("a book has at most 255 rules")
}

impl Display for NotStrict {
    fn fmt(&self, text: &mut Formatter) -> fmt::Result {
        let refusal = self.refusal;
        match self.pair {
            Some([first, second]) => {
                write!(
                    text,
                    "{refusal}: rules {first} and {second}, counted from 0"
                )
            }
            None => write!(text, "{refusal}"),
        }
    }
}

impl Error for NotStrict {}

/// The refusal alone, for who has no use for the pair.
impl From<NotStrict> for Refusal {
    fn from(fault: NotStrict) -> Refusal {
        fault.refusal
    }
}
