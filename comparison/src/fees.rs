//! The model of fees and owners' shares: what is charged to a posting, and to
//! the posting of a line that is reduced before.

use std::cmp::Reverse;

use crate::draft::Fees;
use crate::model::refusal::{AMOUNT, RATE_OR_SHARES};
use crate::model::{ending, Answer, Lengths};
use crate::subject::Question;

/// The largest amount, in cents.
pub const LARGEST: i64 = 1_000_000_000_000;

/// The highest rate, and the total of all shares.
pub const WHOLE: u16 = 10_000;

pub const MOST_OWNERS: usize = 16;

/// What is charged, in cents.
#[derive(Clone, Debug, PartialEq, Eq)]
pub struct Charge {
    pub fee: i64,
    /// One for each owner.
    pub parts: Vec<i64>,
}

/// What is charged to a posting, whose root has the rate.
pub fn charge(posting: &[u8], fees: &Fees) -> Result<Charge, u8> {
    check_amount(fees.amount)?;
    let rate = rate(posting, &fees.rates).ok_or(RATE_OR_SHARES)?;
    check_shares(&fees.shares)?;
    let fee = rounded(exact(fees.amount, rate));
    let parts = split(fees.amount - fee, &fees.shares);
    Ok(Charge { fee, parts })
}

/// The run's own answer, and what is charged if it finished.
pub fn settle(
    question: &Question,
    fees: &Fees,
    output: usize,
) -> Result<(Answer, Option<Charge>), u8> {
    let answer = run(question, output)?;
    let charge = match answer.ending {
        ending::FINISHED => Some(charge(&answer.term, fees)?),
        _ => None,
    };
    Ok((answer, charge))
}

/// The run in areas of its own, with an output of so many bytes.
pub fn run(question: &Question, output: usize) -> Result<Answer, u8> {
    let lent = Lengths {
        output,
        ..Lengths::LEAST
    };
    question.answer(lent, Lengths::LEAST)
}

pub fn check_amount(amount: i64) -> Result<(), u8> {
    match (-LARGEST..=LARGEST).contains(&amount) {
        true => Ok(()),
        false => Err(AMOUNT),
    }
}

/// The rate of the root, if there is one and it is none too high.
pub fn rate(posting: &[u8], rates: &[u8]) -> Option<u16> {
    let root = usize::from(*posting.first()?);
    let rate = rates.chunks_exact(2).nth(root)?;
    Some(u16::from_be_bytes([rate[0], rate[1]])).filter(|rate| *rate <= WHOLE)
}

pub fn check_shares(shares: &[u16]) -> Result<(), u8> {
    let total: u64 = shares.iter().copied().map(u64::from).sum();
    match (1..=MOST_OWNERS).contains(&shares.len()) && total == u64::from(WHOLE) {
        true => Ok(()),
        false => Err(RATE_OR_SHARES),
    }
}

/// That share of an amount, in ten-thousandths of a cent.
pub fn exact(amount: i64, share: u16) -> i128 {
    i128::from(amount) * i128::from(share)
}

/// The whole cents that are nearest; of two that are as near, those further
/// from zero.
pub fn rounded(exact: i128) -> i64 {
    let below = exact.div_euclid(WHOLE.into());
    let distance = |cents: i128| (cents * i128::from(WHOLE) - exact).abs();
    let nearest = [below, below + 1]
        .into_iter()
        .min_by_key(|cents| (distance(*cents), Reverse(cents.abs())));
    whole(nearest.expect("one of the two"))
}

/// The owners' parts of what is left of an amount.
pub fn split(net: i64, shares: &[u16]) -> Vec<i64> {
    let mut parts = cut(net, shares);
    let left = net - parts.iter().sum::<i64>();
    let remainders = remainders(net, shares);
    let mut owners: Vec<usize> = (0..shares.len()).collect();
    // Where remainders are equal, the order stays: the lower owner first.
    owners.sort_by_key(|owner| Reverse(remainders[*owner].abs()));
    for owner in owners.into_iter().take(left.unsigned_abs() as usize) {
        parts[owner] += left.signum();
    }
    parts
}

/// The parts cut toward zero.
pub fn cut(net: i64, shares: &[u16]) -> Vec<i64> {
    let cut = |share: &u16| whole(exact(net, *share) / i128::from(WHOLE));
    shares.iter().map(cut).collect()
}

/// What was cut off, in ten-thousandths of a cent, with the sign of what it was
/// cut off from.
pub fn remainders(net: i64, shares: &[u16]) -> Vec<i128> {
    let remainder = |share: &u16| exact(net, *share) % i128::from(WHOLE);
    shares.iter().map(remainder).collect()
}

fn whole(cents: i128) -> i64 {
    i64::try_from(cents).expect("no more than the amount")
}
