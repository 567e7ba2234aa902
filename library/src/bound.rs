//! How long a schedule suffices.

use crate::{raw, round_robin, Ending, Refusal, Request};

/// The entries of the one-unit run that tells: of a line that takes more orders nothing is known.
pub const BOUND_ENTRIES: usize = 65_536;

/// What is known of how long a schedule suffices for a line.
#[derive(Clone, Copy, Debug, PartialEq, Eq, Hash)]
#[non_exhaustive]
pub enum Bound {
    /// One unit finishes the line, and this is enough for any number of units.
    Told(Enough),
    /// One unit does not finish it but ends so, and nothing is known. After [`Ending::Spent`] no schedule finishes the line
    /// within the budget; after [`Ending::Full`] another order of units might keep the limit of 1,024 symbols; after
    /// [`Ending::Cut`] the line takes over [`BOUND_ENTRIES`] orders.
    Unknown(Ending),
}

impl Bound {
    /// What is enough, if that is known.
    pub const fn told(self) -> Option<Enough> {
        match self {
            Bound::Told(enough) => Some(enough),
            Bound::Unknown(_) => None,
        }
    }

    /// The library is proved to answer zeros behind an ending that is not 0.
    fn of([ending, orders, forks]: [u64; raw::BOUND_LENGTH]) -> Bound {
        let ending = u8::try_from(ending).ok().and_then(Ending::new);
        match ending.expect("an ending is 0 to 3") {
            Ending::Finished => Bound::Told(Enough { orders, forks }),
            other => Bound::Unknown(other),
        }
    }
}

/// What a one-unit run tells of the runs of several units, whatever their schedule: S, the orders that it carries out, and F,
/// its FORKs. Both are those of a run without symbol limit.
#[derive(Clone, Copy, Debug, PartialEq, Eq, Hash)]
#[non_exhaustive]
pub struct Enough {
    /// S: the orders that one unit carries out, BINGO included. It has an entry for each, at most [`BOUND_ENTRIES`].
    pub orders: u64,
    /// F: the FORKs among them.
    pub forks: u64,
}

impl Enough {
    /// S + 4 × F: so many rounds, each naming every unit, never end cut; they finish, or end full.
    pub const fn rounds(self) -> u64 {
        self.orders + 4 * self.forks
    }

    /// S + 3 × F: at most so many orders are carried out, on any number of units under any schedule. An entry for an idle
    /// unit is none.
    pub const fn most_orders(self) -> u64 {
        self.orders + 3 * self.forks
    }

    /// The entries of so many rounds, each naming every unit once. No units count as one.
    pub fn entries(self, units: u8) -> u64 {
        self.rounds() * u64::from(units.max(1))
    }

    /// Such a schedule, in which the units take turns.
    pub fn schedule(self, units: u8) -> Vec<u8> {
        let entries = usize::try_from(self.entries(units));
        round_robin(units, entries.expect("at most 2,621,440 entries"))
    }
}

/// Says how long a schedule suffices for a line by the rules that stand on the request's day: whatever the units and the
/// schedule, a run of this line within the same budget carries out at most S + 3 × F orders, and S + 4 × F rounds, each
/// naming every unit, never end cut. S and F are told by a run of one unit over [`BOUND_ENTRIES`] entries, if that finishes.
/// The request's own units and schedule don't count.
///
/// Both areas are lent as for [`reduce`](crate::reduce) and all zero afterwards; an [`Engine`](crate::Engine) has them of its
/// own. The refusals are 15, the book's and the line's: 13, 14 and 16 can't come.
///
/// ```
/// use kurvneist::{bound, Bound, Request, NET_LENGTH, WORK_LENGTH};
///
/// let (mut work, mut net) = (vec![7; WORK_LENGTH], vec![7; NET_LENGTH]);
/// let bound = bound(&Request::new(&[1, 0, 0], &[0]), &mut work, &mut net)?; // one constant, no rules
/// let Bound::Told(enough) = bound else { panic!() };
/// assert_eq!((enough.orders, enough.forks), (3, 0)); // VISIT, WHOLE and BINGO
/// # Ok::<(), kurvneist::Refusal>(())
/// ```
pub fn bound(request: &Request, work: &mut [u8], net: &mut [u8]) -> Result<Bound, Refusal> {
    let mut values = [0; raw::BOUND_LENGTH];
    let number = raw::bound(request, work, net, &mut values);
    Refusal::check(number).map(|()| Bound::of(values))
}

/// The same for a payee's text, as for [`payee`](crate::payee).
pub fn bound_payee(request: &Request, work: &mut [u8], net: &mut [u8]) -> Result<Bound, Refusal> {
    let mut values = [0; raw::BOUND_LENGTH];
    let number = raw::bound_payee(request, work, net, &mut values);
    Refusal::check(number).map(|()| Bound::of(values))
}
