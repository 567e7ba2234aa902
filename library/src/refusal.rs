//! Refusals and what they say.

use std::error::Error;
use std::fmt::{self, Display, Formatter};

/// Each refusal's number, its name and its condition, said once; what stands before a number are the name's attributes.
macro_rules! refusals {
    ($($(#[$attribute:meta])* $number:literal $name:ident $condition:literal)*) => {
        /// Why a request, a batch or a book to be written was refused, and every lent buffer kept its bytes; why one line of a
        /// batch was, whose record this is; or why the strict profile doesn't admit a book.
        ///
        /// `docs/FORMAT.md` says in which order they are told. Later versions may add some. One that is given no longer is
        /// deprecated, and keeps its number and its words for who reads what an earlier version told.
        ///
        /// ```
        /// # use kurvneist::{Engine, Refusal, Request};
        /// let refusal = Engine::new().post(&Request::new(&[1, 0, 0], &[7])).unwrap_err();
        /// match refusal {
        ///     Refusal::UnknownOperatorInLine => assert_eq!(refusal.number(), 11),
        ///     other => panic!("{other}"),
        /// }
        /// ```
        #[derive(Clone, Copy, Debug, PartialEq, Eq, Hash)]
        #[non_exhaustive]
        #[repr(u8)]
        pub enum Refusal {
            $(#[doc = concat!(stringify!($number), ": ", $condition, ".")] $(#[$attribute])* $name = $number,)*
        }

        #[allow(deprecated)]
        impl Refusal {
            /// All refusals, by number, with those that are given no longer.
            pub const ALL: &'static [Refusal] = &[$(Refusal::$name),*];

            /// The refusal with this number.
            pub const fn new(number: u8) -> Option<Refusal> {
                match number {
                    $($number => Some(Refusal::$name),)*
                    _ => None,
                }
            }

            /// The condition in words.
            pub const fn condition(self) -> &'static str {
                match self {
                    $(Refusal::$name => $condition,)*
                }
            }
        }
    };
}

refusals! {
    1 BookRunsOut "the book's bits run out"
    2 NoOperator "the book has no operator"
    3 BadStrategy "a strategy has an item above 9, a group in a group, a close without an open, a 0 in a group, \
        an argument above the arity, or a last item that is not 0"
    4 UnknownOperatorInRule "a rule names an operator that the book does not have"
    5 LeftSideIsVariable "a rule's left side is a variable"
    #[deprecated(note = "given no longer: a variable that stands again matches equal parts")]
    6 LeftSideRepeatsVariable "a rule's left side names a variable twice, which is refused no longer"
    7 RightSideAddsVariable "a rule's right side names a variable that its left side does not"
    8 SideTooLong "a rule's side is still incomplete after 64 symbols"
    9 BookLeftOver "a padding bit of the book is 1, or a further byte follows"
    10 LineIsNoTerm "the line is empty or incomplete, or has bytes left over"
    11 UnknownOperatorInLine "the line names an operator that the book does not have"
    12 LineTooLong "the line has over 1,024 bytes"
    13 BadUnits "the number of units is not 1 to 8"
    14 UnknownUnitInSchedule "a schedule entry names a unit that is not there"
    15 WorkTooShort "the work area has less than 24,624 bytes, or the net's area less than 3,840"
    16 OutputTooShort "the output is too short: a run needs 1,024 bytes, the writer as many as the written book has; or the \
        buffer of points has less than 524,288"
    17 BadInput "the program's input is cut short, or over 32,768 schedule bytes follow"
    18 TextTooLong "the text's term would have over 1,024 symbols"
    19 NoLetters "the book lacks the operators of texts: 0 without arguments, and 1 to 42 with one argument each"
    20 BadPointOrName "a point breaks a rule, the name to resume is unknown, or a name has not 1 to 16 bytes"
    21 NinthName "a ninth name is given: eight points are there, and none has it"
    22 AmountOutOfRange "the amount is not from -1,000,000,000,000 to 1,000,000,000,000 cents"
    23 BadRateOrShares "the root's rate is missing or above 10,000, the owners are not 1 to 16, or their shares do not \
        total 10,000"
    24 OutsideStrictProfile "the book is dated, a variable is repeated in a left side, or no operator has arity 0"
    25 RulesOverlap "two of the book's rules match one term"
}

impl Refusal {
    /// The number that the page and the C functions tell. Functions of this crate never give 17: it is about the
    /// programs' input.
    pub const fn number(self) -> u8 {
        self as u8
    }

    /// `Ok` for 0. The library is proved to answer 0 or one of its refusals, which are 1 to 5, 7 to 16 and 18 to 25.
    pub(crate) fn check(number: u8) -> Result<(), Refusal> {
        match number {
            0 => Ok(()),
            _ => Err(Refusal::new(number).expect("a refusal has a name")),
        }
    }
}

impl Display for Refusal {
    fn fmt(&self, text: &mut Formatter) -> fmt::Result {
        write!(text, "refused {}: {}", self.number(), self.condition())
    }
}

impl Error for Refusal {}
