//! Fees and owners' shares: what is charged to a posting, and how the rest is split.

use crate::{raw, Answer, Posting, Refusal, Request};

/// The most owners that an amount is split among.
pub const MOST_OWNERS: usize = 16;

/// The largest amount, and with a minus the smallest, in cents.
pub const LARGEST_AMOUNT: i64 = 1_000_000_000_000;

/// What a rate of everything is, and what the owners' shares total.
pub const WHOLE: u16 = 10_000;

/// The rates of a book's operators, in ten-thousandths, from operator 0 up: two bytes each, the high byte first.
///
/// ```
/// # use kurvneist::FeeTable;
/// let mut table: FeeTable = [0, 350].into_iter().collect();
/// table.push(10_000);
/// assert_eq!(table.len(), 3);
/// assert_eq!(table.as_bytes(), [0x00, 0x00, 0x01, 0x5e, 0x27, 0x10]);
/// ```
#[derive(Clone, Debug, Default, PartialEq, Eq)]
pub struct FeeTable {
    bytes: Vec<u8>,
}

impl FeeTable {
    /// No rates.
    pub const fn new() -> FeeTable {
        FeeTable { bytes: Vec::new() }
    }

    /// The next operator's rate. One above [`WHOLE`] is refused when it is used.
    pub fn push(&mut self, rate: u16) {
        self.bytes.extend(rate.to_be_bytes());
    }

    /// How many rates there are.
    pub fn len(&self) -> usize {
        self.bytes.len() / 2
    }

    /// There are no rates.
    pub fn is_empty(&self) -> bool {
        self.bytes.is_empty()
    }

    /// The table's bytes.
    pub fn as_bytes(&self) -> &[u8] {
        &self.bytes
    }
}

impl Extend<u16> for FeeTable {
    fn extend<I: IntoIterator<Item = u16>>(&mut self, rates: I) {
        rates.into_iter().for_each(|rate| self.push(rate));
    }
}

impl FromIterator<u16> for FeeTable {
    fn from_iter<I: IntoIterator<Item = u16>>(rates: I) -> FeeTable {
        let mut table = FeeTable::new();
        table.extend(rates);
        table
    }
}

/// By which rates a posting is charged, and among whom the rest is split. Later versions may ask more, so it is made by
/// [`Fees::new`].
#[derive(Clone, Copy, Debug)]
#[non_exhaustive]
pub struct Fees<'a> {
    /// The fee table, as [`FeeTable`] makes it. The rate is that of a posting's root.
    pub rates: &'a [u8],
    /// The owners' shares in ten-thousandths, those of 1 to 16 owners. They total [`WHOLE`].
    pub shares: &'a [u16],
}

impl<'a> Fees<'a> {
    /// By this table, and among owners of these shares.
    pub const fn new(rates: &'a [u8], shares: &'a [u16]) -> Fees<'a> {
        Fees { rates, shares }
    }
}

/// What was charged: the fee, and the owners' parts of the rest, in cents. Fee and parts add up to the amount exactly.
#[derive(Clone, Copy, Debug, PartialEq, Eq)]
#[non_exhaustive]
pub struct Charge {
    /// The fee, with the amount's sign.
    pub fee: i64,
    parts: [i64; MOST_OWNERS],
    owners: usize,
}

impl Charge {
    /// The owners' parts, in the order of their shares.
    pub fn parts(&self) -> &[i64] {
        &self.parts[..self.owners]
    }

    /// The library is proved to accept at most sixteen owners.
    fn of(fee: i64, parts: [i64; MOST_OWNERS], fees: &Fees) -> Charge {
        let owners = fees.shares.len();
        Charge { fee, parts, owners }
    }
}

/// What became of a line: its run, and what was charged to its posting.
#[derive(Clone, Copy, Debug, PartialEq, Eq)]
#[non_exhaustive]
pub struct Settlement<'a> {
    /// The run's values and its present term.
    pub posting: Posting<'a>,
    /// The fee and the parts if the run finished; otherwise its term is no posting, and nothing is charged.
    pub charge: Option<Charge>,
}

/// Charges a posting, one byte a symbol in preorder, of which the root counts. The fee is `amount` × rate / 10,000 in
/// whole cents, halves away from zero. The rest is split: each part is cut toward zero, and the cents left go one each,
/// with the amount's sign, to the remainders largest in size, the lower owner first where equal. So what is charged to a
/// refund is what is charged to the payment, with the sign turned.
///
/// 22 refuses an amount beyond [`LARGEST_AMOUNT`], then 23 a rate that is missing or above [`WHOLE`], owners that are not
/// 1 to [`MOST_OWNERS`], and shares that do not total [`WHOLE`].
///
/// ```
/// use kurvneist::{charge, FeeTable, Fees, Refusal};
///
/// let table: FeeTable = [0, 350].into_iter().collect(); // nothing, and 3.5 per cent
/// let fees = Fees::new(table.as_bytes(), &[3333, 3333, 3334]);
/// let charged = charge(&[1, 1, 0], &fees, 10_100)?;
/// assert_eq!(charged.fee, 354); // of 353.5
/// assert_eq!(charged.parts(), [3249, 3248, 3249]); // of 3248.3418 twice, and 3249.3164
/// assert_eq!(charge(&[1, 1, 0], &fees, -10_100)?.parts(), [-3249, -3248, -3249]);
/// assert_eq!(charge(&[2, 0, 0], &fees, 10_100), Err(Refusal::BadRateOrShares));
/// # Ok::<(), Refusal>(())
/// ```
pub fn charge(posting: &[u8], fees: &Fees, amount: i64) -> Result<Charge, Refusal> {
    let (mut parts, mut fee) = ([0; MOST_OWNERS], 0);
    Refusal::check(raw::charge(posting, fees, amount, &mut parts, &mut fee))?;
    Ok(Charge::of(fee, parts, fees))
}

/// Carries out one run as [`reduce`](crate::reduce) does, in areas of its own and with a lent output of at least
/// [`OUTPUT_LENGTH`](crate::OUTPUT_LENGTH) bytes, and charges its posting as [`charge`] does. An
/// [`Engine`](crate::Engine) has an output of its own.
///
/// The run's own refusals come first, 15 never. If the run finished, 22 and 23 come behind them; otherwise its answer is
/// all there is, and amount, rates and shares are not looked at. After a refusal the output is as it was.
///
/// ```
/// use kurvneist::{settle, FeeTable, Fees, Request, OUTPUT_LENGTH};
///
/// // both(end, Y) gives Y; both(tick(X), Y) gives tick(both(X, Y))
/// let book = b"\x03\x02\x52\xc0\x94\x80\x10\x08\x01\x18\x80\x80\x30\x88\x04\x05\x08\x80";
/// let line = [2, 1, 0, 1, 0]; // both(tick(end), tick(end)), which is posted as tick(tick(end))
/// let table: FeeTable = [0, 350, 0].into_iter().collect();
/// let fees = Fees::new(table.as_bytes(), &[3333, 3333, 3334]);
/// let mut output = [7; OUTPUT_LENGTH];
/// let request = Request::new(book, &line).schedule(&[0; 29]);
/// let (answer, charge) = settle(&request, &fees, 10_100, &mut output)?;
/// assert_eq!(output[..answer.length], [1, 1, 0]);
/// assert_eq!(charge.unwrap().fee, 354);
///
/// let (answer, charge) = settle(&request.schedule(&[]), &fees, 10_100, &mut output)?;
/// assert_eq!((answer.entries, charge), (0, None));
/// # Ok::<(), kurvneist::Refusal>(())
/// ```
pub fn settle(
    request: &Request,
    fees: &Fees,
    amount: i64,
    output: &mut [u8],
) -> Result<(Answer, Option<Charge>), Refusal> {
    settle_by(raw::settle, request, fees, amount, output)
}

/// Carries out one run whose line is a payee's text, as [`payee`](crate::payee) does, and charges its posting; all else is
/// as for [`settle`].
pub fn settle_payee(
    request: &Request,
    fees: &Fees,
    amount: i64,
    output: &mut [u8],
) -> Result<(Answer, Option<Charge>), Refusal> {
    settle_by(raw::settle_payee, request, fees, amount, output)
}

/// [`raw::settle`] or [`raw::settle_payee`].
type Settle = fn(&Request, &Fees, i64, &mut [u8], &mut raw::Settled) -> u8;

fn settle_by(
    settle: Settle,
    request: &Request,
    fees: &Fees,
    amount: i64,
    output: &mut [u8],
) -> Result<(Answer, Option<Charge>), Refusal> {
    let mut settled = raw::Settled::default();
    Refusal::check(settle(request, fees, amount, output, &mut settled))?;
    let charge = (settled.charged != 0).then(|| Charge::of(settled.fee, settled.parts, fees));
    Ok((Answer::of(settled.answer), charge))
}
