//! Named points: runs that are parked and gone on with later.

use std::error::Error;
use std::fmt::{self, Debug, Display, Formatter};

use crate::{raw, Answer, Refusal, Request};

/// Bytes of the buffer of points: eight slots.
pub const POINTS_LENGTH: usize = 524_288;

/// The most names at once.
pub const MOST_NAMES: usize = 8;

/// The longest name. The shortest has one byte.
pub const LONGEST_NAME: usize = 16;

const SLOT_LENGTH: usize = POINTS_LENGTH / MOST_NAMES;

/// A buffer of named points: eight slots, each free or with a point. It is what a caller keeps, in a file say, while runs are
/// parked; `docs/FORMAT.md` says what its bytes are.
///
/// ```
/// use kurvneist::{round_robin, Ending, Engine, Points, Request};
///
/// // both(end, Y) gives Y; both(tick(X), Y) gives tick(both(X, Y))
/// let book = b"\x03\x02\x52\xc0\x94\x80\x10\x08\x01\x18\x80\x80\x30\x88\x04\x05\x08\x80";
/// let request = Request::new(book, &[2, 1, 0, 1, 0]).units(2).budget(9).schedule(&[0; 3]);
/// let mut engine = Engine::new();
/// let mut points = Points::new();
/// let posting = engine.park(&request, b"may", &mut points)?;
/// assert_eq!((posting.answer.ending, posting.answer.entries), (Ending::Cut, 3));
/// assert_eq!(points.names().collect::<Vec<_>>(), [b"may"]);
///
/// // Kept, and taken up again.
/// let mut points = Points::from_bytes(points.into_bytes())?;
/// let posting = engine.resume(b"may", &round_robin(2, 100), &mut points)?;
/// assert_eq!((posting.answer.ending, posting.answer.entries), (Ending::Finished, 34));
/// assert_eq!(posting.term, [1, 1, 0]);
/// assert_eq!(points, Points::new());
/// # Ok::<(), Box<dyn std::error::Error>>(())
/// ```
#[derive(Clone, PartialEq, Eq)]
pub struct Points {
    bytes: Box<[u8]>,
}

impl Points {
    /// No points: all bytes are zero.
    pub fn new() -> Points {
        Points {
            bytes: vec![0; POINTS_LENGTH].into(),
        }
    }

    /// The points in these bytes, which are [`POINTS_LENGTH`]. Whether a point breaks a rule is told when a run is parked or
    /// resumed.
    pub fn from_bytes(bytes: Vec<u8>) -> Result<Points, WrongPointsLength> {
        match bytes.len() {
            POINTS_LENGTH => Ok(Points {
                bytes: bytes.into(),
            }),
            _ => Err(WrongPointsLength),
        }
    }

    /// The bytes to be kept.
    pub fn bytes(&self) -> &[u8] {
        &self.bytes
    }

    /// The same, given away.
    pub fn into_bytes(self) -> Vec<u8> {
        self.bytes.into()
    }

    /// The names that have a point, slot by slot. A slot whose name would be over [`LONGEST_NAME`] bytes is left out; every
    /// run is refused while it is there.
    pub fn names(&self) -> impl Iterator<Item = &[u8]> {
        self.bytes.chunks(SLOT_LENGTH).filter_map(name_in)
    }

    pub(crate) fn lent(&mut self) -> &mut [u8] {
        &mut self.bytes
    }
}

/// A slot begins with its name's length, and 0 if it is free.
fn name_in(slot: &[u8]) -> Option<&[u8]> {
    let length = usize::from(slot[0]);
    match length {
        1..=LONGEST_NAME => Some(&slot[1..=length]),
        _ => None,
    }
}

impl Default for Points {
    fn default() -> Points {
        Points::new()
    }
}

/// The names alone.
impl Debug for Points {
    fn fmt(&self, text: &mut Formatter) -> fmt::Result {
        let names: Vec<&[u8]> = self.names().collect();
        text.debug_struct("Points").field("names", &names).finish()
    }
}

/// A buffer of points has [`POINTS_LENGTH`] bytes.
#[derive(Clone, Copy, Debug, PartialEq, Eq)]
#[non_exhaustive]
pub struct WrongPointsLength;

impl Display for WrongPointsLength {
    fn fmt(&self, text: &mut Formatter) -> fmt::Result {
        text.pad("a buffer of points has 524,288 bytes")
    }
}

impl Error for WrongPointsLength {}

/// Carries out one run with a name in lent buffers, as [`reduce`](crate::reduce) does without; the buffer of points has at
/// least [`POINTS_LENGTH`] bytes. An [`Engine`](crate::Engine) has the others of its own.
///
/// If the run ends cut, it is saved under its name, in the place of an older point of that name or in the lowest free slot.
/// Otherwise the points stay as they are. Points of other names always do.
///
/// Just before the schedule is looked at, the points are: 16 if their buffer is too short; 20 if one of them breaks a rule, or
/// the name has not 1 to 16 bytes; 21 if it is a ninth one. After a refusal all buffers are as they were.
pub fn park(
    request: &Request,
    name: &[u8],
    work: &mut [u8],
    net: &mut [u8],
    points: &mut [u8],
    output: &mut [u8],
) -> Result<Answer, Refusal> {
    let mut values = [0; raw::ANSWER_LENGTH];
    let number = raw::park(request, name, work, net, points, output, &mut values);
    Refusal::check(number).map(|()| Answer::of(values))
}

/// The same of a run whose line is a payee's text, as for [`payee`](crate::payee).
pub fn park_payee(
    request: &Request,
    name: &[u8],
    work: &mut [u8],
    net: &mut [u8],
    points: &mut [u8],
    output: &mut [u8],
) -> Result<Answer, Refusal> {
    let mut values = [0; raw::ANSWER_LENGTH];
    let number = raw::park_payee(request, name, work, net, points, output, &mut values);
    Refusal::check(number).map(|()| Answer::of(values))
}

/// Goes on with the run of a name, by its own book, day, units and budget. Of the answer, rewrites, entries and FORKs are
/// those of all its parts: it ends exactly as the unbroken run would. Entries and FORKs stay at the highest number of 64 bits.
///
/// If the run is cut again, its point is replaced; otherwise its slot is zeroed, and free. Points of other names stay.
///
/// The refusals 15 and 16 come first, then 20 if a point breaks a rule or none has the name, then 14, by the point's units.
/// After a refusal all buffers are as they were.
pub fn resume(
    name: &[u8],
    schedule: &[u8],
    work: &mut [u8],
    net: &mut [u8],
    points: &mut [u8],
    output: &mut [u8],
) -> Result<Answer, Refusal> {
    let mut values = [0; raw::ANSWER_LENGTH];
    let number = raw::resume(name, schedule, work, net, points, output, &mut values);
    Refusal::check(number).map(|()| Answer::of(values))
}
