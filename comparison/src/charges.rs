//! Random amounts, fee tables and shares, and what they try, so that the
//! comparison can tell.

use std::fmt::{self, Display, Formatter};

use crate::draft::{Case, Fees};
use crate::fees::{
    check_amount, check_shares, cut, exact, rate, remainders, Charge, LARGEST, MOST_OWNERS, WHOLE,
};
use crate::model::refusal::{AMOUNT, RATE_OR_SHARES};
use crate::model::{ending, Answer, Form};
use crate::random::Random;
use crate::subject::Question;

// ---------------------------------------------------------------------------
// Random fees

/// Most are sound; the others have one fault, or two.
pub fn fees(random: &mut Random, case: &Case) -> Fees {
    let operators = case.draft.operators.len().max(1);
    let rates: Vec<u16> = (0..operators).map(|_| any_rate(random)).collect();
    let root = random.below(operators);
    // What stands behind the root doesn't matter.
    let behind = random.from_ranges(&[(0, 0), (0, 3), (0, 20)]);
    let mut fees = Fees {
        term: [vec![root as u8], random.bytes(behind)].concat(),
        amount: amount(random, rates[root]),
        rates: rates.iter().flat_map(|rate| rate.to_be_bytes()).collect(),
        shares: shares(random),
    };
    let faults = *random.pick(&[0, 0, 0, 1, 1, 2]);
    for _ in 0..faults {
        spoil(random, &mut fees, root);
    }
    fees
}

fn any_rate(random: &mut Random) -> u16 {
    match random.below(6) {
        0 => *random.pick(&[0, WHOLE]),
        1 => *random.pick(&[1, 4999, 5000, 5001, 9999]),
        2 => 50 * random.below(20) as u16,
        _ => random.below(usize::from(WHOLE) + 1) as u16,
    }
}

/// Of either sign; often where the fee has half a cent.
fn amount(random: &mut Random, rate: u16) -> i64 {
    let digits = random.below(13) as u32;
    let size = match random.below(8) {
        0 => random.below(3) as i64,
        1 => LARGEST - random.below(3) as i64,
        2..=4 => with_half(random.below(10_usize.pow(digits)) as i64, rate),
        _ => random.below(10_usize.pow(digits)) as i64,
    };
    match random.one_in(2) {
        true => size,
        false => -size,
    }
}

/// The next amount from there whose fee has half a cent; that one, if none has.
fn with_half(from: i64, rate: u16) -> i64 {
    let half = i128::from(WHOLE / 2);
    let period = i64::from(WHOLE);
    let mut amounts = from..(from + period).min(LARGEST + 1);
    let found = amounts.find(|amount| exact(*amount, rate) % i128::from(WHOLE) == half);
    found.unwrap_or(from)
}

/// They total 10,000: as even as can be, at random, or with many of 0.
fn shares(random: &mut Random) -> Vec<u16> {
    let owners = random.from_ranges(&[(1, 1), (2, 4), (2, MOST_OWNERS), (16, 16)]);
    let whole = usize::from(WHOLE);
    let mut ends: Vec<usize> = match random.below(3) {
        0 => (1..owners).map(|place| whole * place / owners).collect(),
        1 => (1..owners).map(|_| random.below(whole + 1)).collect(),
        _ => (1..owners).map(|_| 2500 * random.below(5)).collect(),
    };
    ends.push(whole);
    ends.sort_unstable();
    let starts = [vec![0], ends.clone()].concat();
    let lengths = starts.iter().zip(&ends).map(|(start, end)| end - start);
    let mut shares: Vec<u16> = lengths.map(|length| length as u16).collect();
    random.shuffle(&mut shares);
    shares
}

fn spoil(random: &mut Random, fees: &mut Fees, root: usize) {
    match random.below(6) {
        0 => fees.amount = *random.pick(&[1, -1]) * (LARGEST + 1),
        1 => fees.amount = *random.pick(&[i64::MIN, i64::MAX, 2 * LARGEST]),
        2 => fees.term.clear(),
        3 => fees.rates.truncate(2 * root + random.below(2)),
        4 => {
            let above = *random.pick(&[WHOLE + 1, WHOLE + 1, u16::MAX]);
            if let Some(rate) = fees.rates.get_mut(2 * root..2 * root + 2) {
                rate.copy_from_slice(&above.to_be_bytes());
            }
        }
        _ => spoil_shares(random, &mut fees.shares),
    }
}

fn spoil_shares(random: &mut Random, shares: &mut Vec<u16>) {
    match random.below(5) {
        0 => shares.clear(),
        // Shares of 0 don't change the total, but the owners.
        1 => shares.resize(MOST_OWNERS + 1, 0),
        // So that they total 10,000 in 16 bits only.
        2 => {
            shares.truncate(MOST_OWNERS - 2);
            shares.extend([32_768, 32_768]);
            let total = shares
                .iter()
                .fold(0_u16, |sum, share| sum.wrapping_add(*share));
            shares[0] = shares[0].wrapping_add(WHOLE.wrapping_sub(total));
        }
        3 => {
            if let Some(share) = shares.iter_mut().find(|share| **share > 0) {
                *share -= 1;
            }
        }
        _ => {
            if let Some(share) = shares.last_mut() {
                *share += 1;
            }
        }
    }
}

// ---------------------------------------------------------------------------
// What they try

/// What is counted: of postings that are charged, of those that are refused,
/// and of lines that are settled.
pub const KINDS: [&str; 28] = [
    "of payments",
    "of refunds",
    "of nothing",
    "of amounts at a limit",
    "with half a cent of a payment",
    "with half a cent of a refund",
    "at the rate 0",
    "at the rate 10000",
    "with cents left",
    "with cents for some of equal remainders",
    "with a share of 0",
    "among one owner",
    "among 16 owners",
    "refused one cent past a limit",
    "refused by 22 where 23 is due too",
    "refused without a root",
    "refused where the rates end before the root's",
    "refused where they end in the middle of it",
    "refused at the rate 10001",
    "refused without owners",
    "refused with 17 owners",
    "refused with a total of 9999",
    "refused with a total of 10001",
    "refused with a total of 10000 in 16 bits only",
    "of settled lines",
    "of settled texts",
    "of runs that did not finish, where 22 or 23 would be due",
    "refused behind a finished run",
];

/// Where the kinds of refused postings begin, and those of settled lines.
const REFUSED: usize = 13;
const SETTLED: usize = 24;

/// How often each kind was met.
#[derive(Clone, Debug, Default, PartialEq, Eq)]
pub struct Charges {
    pub charges: u64,
    /// Those refused by 22 and by 23.
    pub refused: [u64; 2],
    pub counts: [u64; KINDS.len()],
}

impl Charges {
    pub fn count(&mut self, fees: &Fees, due: &Result<Charge, u8>) {
        self.charges += 1;
        match due {
            Ok(charge) => self.add(0, &charged_kinds(fees, charge)),
            Err(number) => {
                self.refused[usize::from(*number == RATE_OR_SHARES)] += 1;
                self.add(REFUSED, &refused_kinds(fees, *number));
            }
        }
    }

    pub fn count_settled(
        &mut self,
        question: &Question,
        fees: &Fees,
        due: &Result<(Answer, Option<Charge>), u8>,
    ) {
        let (is_charged, is_unfinished) = match due {
            Ok((answer, charge)) => (charge.is_some(), answer.ending != ending::FINISHED),
            Err(_) => (false, false),
        };
        let unsound = check_amount(fees.amount).is_err() || check_shares(&fees.shares).is_err();
        let met = [
            is_charged && question.form == Form::Line,
            is_charged && question.form == Form::Text,
            is_unfinished && unsound,
            matches!(due, Err(AMOUNT | RATE_OR_SHARES)),
        ];
        self.add(SETTLED, &met);
    }

    fn add(&mut self, first: usize, met: &[bool]) {
        for (count, met) in self.counts[first..].iter_mut().zip(met) {
            *count += u64::from(*met);
        }
    }
}

fn charged_kinds(fees: &Fees, charge: &Charge) -> [bool; REFUSED] {
    let rate = rate(&fees.term, &fees.rates);
    let exact = exact(fees.amount, rate.unwrap_or_default());
    let has_half = (exact % i128::from(WHOLE)).abs() == i128::from(WHOLE / 2);
    let net = fees.amount - charge.fee;
    let left = net - cut(net, &fees.shares).iter().sum::<i64>();
    [
        fees.amount > 0,
        fees.amount < 0,
        fees.amount == 0,
        fees.amount.abs() == LARGEST,
        has_half && exact > 0,
        has_half && exact < 0,
        rate == Some(0),
        rate == Some(WHOLE),
        left != 0,
        is_tied(net, &fees.shares, left.unsigned_abs() as usize),
        fees.shares.contains(&0),
        fees.shares.len() == 1,
        fees.shares.len() == MOST_OWNERS,
    ]
}

/// Whether the last remainder that gets a cent equals the next one.
fn is_tied(net: i64, shares: &[u16], left: usize) -> bool {
    let mut sizes: Vec<i128> = remainders(net, shares);
    sizes.iter_mut().for_each(|size| *size = size.abs());
    sizes.sort_unstable_by(|one, other| other.cmp(one));
    0 < left && left < sizes.len() && sizes[left - 1] == sizes[left]
}

fn refused_kinds(fees: &Fees, number: u8) -> [bool; SETTLED - REFUSED] {
    let is_22 = number == AMOUNT;
    let sound = check_shares(&fees.shares).is_ok();
    let rate = rate(&fees.term, &fees.rates);
    let place = fees.term.first().map(|root| 2 * usize::from(*root));
    let ends_at =
        |more| !is_22 && sound && place.map(|place| place + more) == Some(fees.rates.len());
    let next = WHOLE + 1;
    let is_next = place.is_some_and(|place| {
        fees.rates[place.min(fees.rates.len())..].starts_with(&next.to_be_bytes())
    });
    let total: u64 = fees.shares.iter().copied().map(u64::from).sum();
    let owners = fees.shares.len();
    let shares = |is_met: bool| !is_22 && rate.is_some() && is_met;
    let few = (1..=MOST_OWNERS).contains(&owners);
    [
        is_22 && fees.amount.unsigned_abs() == LARGEST.unsigned_abs() + 1,
        is_22 && !(sound && rate.is_some()),
        !is_22 && sound && place.is_none(),
        ends_at(0),
        ends_at(1),
        !is_22 && sound && is_next,
        shares(owners == 0),
        shares(owners == MOST_OWNERS + 1 && total == u64::from(WHOLE)),
        shares(few && total == u64::from(WHOLE) - 1),
        shares(few && total == u64::from(WHOLE) + 1),
        shares(few && total > u64::from(WHOLE) && total as u16 == WHOLE),
    ]
}

impl Display for Charges {
    fn fmt(&self, text: &mut Formatter) -> fmt::Result {
        let [of_amount, of_others] = self.refused;
        writeln!(
            text,
            "charges: {}, refused 22 {of_amount}, refused 23 {of_others}",
            self.charges
        )?;
        for (kind, count) in KINDS.iter().zip(self.counts) {
            writeln!(text, "charges {kind}: {count}")?;
        }
        Ok(())
    }
}
