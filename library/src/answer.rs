//! What a run answers.

use std::fmt::{self, Display, Formatter};

use crate::raw::ANSWER_LENGTH;

/// How a run ended. Only a finished run's term is a posting; a later version's further endings are none.
#[derive(Clone, Copy, Debug, PartialEq, Eq, Hash)]
#[non_exhaustive]
pub enum Ending {
    /// Nothing is left to do.
    Finished = 0,
    /// A rewrite is due and the budget is used up.
    Spent = 1,
    /// A rewrite is due that would make the term longer than 1,024 symbols.
    Full = 2,
    /// The schedule has no further entry.
    Cut = 3,
}

impl Ending {
    /// The page's number: 0 finished, 1 spent, 2 full, 3 cut.
    pub const fn number(self) -> u8 {
        self as u8
    }

    /// The ending with this number.
    pub const fn new(number: u8) -> Option<Ending> {
        match number {
            0 => Some(Ending::Finished),
            1 => Some(Ending::Spent),
            2 => Some(Ending::Full),
            3 => Some(Ending::Cut),
            _ => None,
        }
    }
}

impl Display for Ending {
    fn fmt(&self, text: &mut Formatter) -> fmt::Result {
        text.pad(match self {
            Ending::Finished => "finished",
            Ending::Spent => "spent",
            Ending::Full => "full",
            Ending::Cut => "cut",
        })
    }
}

/// The values of a run that was not refused.
///
/// In a finished run granted and kept together are exactly the FORKs of a one-unit run without symbol limit, whatever the
/// units and the schedule. In any other ending they are the FORKs so far.
#[derive(Clone, Copy, Debug, PartialEq, Eq, Hash)]
#[non_exhaustive]
pub struct Answer {
    /// How the run ended.
    pub ending: Ending,
    /// Rewrites made, at most the budget.
    pub rewrites: u32,
    /// Schedule entries used.
    pub entries: u64,
    /// FORKs that found an idle unit.
    pub granted: u64,
    /// FORKs that found nobody idle, so that the unit kept the part.
    pub kept: u64,
    /// Symbols of the present term, 1 to 1,024.
    pub length: usize,
}

impl Answer {
    /// The library is proved to answer the values of a run, and those fit.
    pub(crate) fn of(values: [u64; ANSWER_LENGTH]) -> Answer {
        let [ending, rewrites, entries, granted, kept, length] = values;
        let ending = u8::try_from(ending).ok().and_then(Ending::new);
        Answer {
            ending: ending.expect("an ending is 0 to 3"),
            rewrites: u32::try_from(rewrites).expect("rewrites are at most the budget"),
            entries,
            granted,
            kept,
            length: usize::try_from(length).expect("a term has at most 1,024 symbols"),
        }
    }
}
