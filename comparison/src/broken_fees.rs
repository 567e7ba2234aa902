//! Slips in what is charged, and in when it is.

use std::cmp::Reverse;

use crate::broken::Slip;
use crate::draft::Fees;
use crate::fees::{self, check_amount, check_shares, exact, rounded, Charge, LARGEST, WHOLE};
use crate::model::refusal::{AMOUNT, RATE_OR_SHARES};
use crate::model::{ending, Answer, Form};
use crate::subject::{Parts, Question};

/// What the model charges with this slip.
pub fn charge(slip: Slip, posting: &[u8], fees: &Fees) -> Result<Charge, u8> {
    match slip {
        Slip::Hasty => others(slip, posting, fees).map(|_| ())?,
        Slip::Limit if fees.amount == -LARGEST => return Err(AMOUNT),
        _ => {}
    }
    check_amount(fees.amount)?;
    let rate = others(slip, posting, fees)?;
    let fee = fee(slip, fees.amount, rate);
    let net = match slip {
        Slip::Gross => fees.amount,
        _ => fees.amount - fee,
    };
    let parts = split(slip, net, &fees.shares);
    Ok(Charge { fee, parts })
}

/// What 23 is about; answers the rate.
fn others(slip: Slip, posting: &[u8], fees: &Fees) -> Result<u16, u8> {
    let mut rates = fees.rates.clone();
    match slip {
        Slip::Inverted => rates.chunks_exact_mut(2).for_each(<[u8]>::reverse),
        // A rate of which one byte is there.
        Slip::Severed if rates.len() % 2 == 1 => rates.push(0),
        _ => {}
    }
    let rate = fees::rate(posting, &rates).ok_or(RATE_OR_SHARES)?;
    let total = fees
        .shares
        .iter()
        .fold(0, |sum: u16, share| sum.wrapping_add(*share));
    match slip {
        Slip::Wrapped if total == WHOLE && fees.shares.len() <= fees::MOST_OWNERS => {}
        _ => check_shares(&fees.shares)?,
    }
    Ok(rate)
}

fn fee(slip: Slip, amount: i64, rate: u16) -> i64 {
    let (exact, whole) = (exact(amount, rate), i128::from(WHOLE));
    let below = exact.div_euclid(whole);
    let is_half = exact.rem_euclid(whole) == whole / 2;
    let cents = match slip {
        Slip::Even if is_half => below + below.rem_euclid(2),
        Slip::Upward if is_half => below + 1,
        _ => rounded(exact).into(),
    };
    i64::try_from(cents).expect("no more than the amount")
}

fn split(slip: Slip, net: i64, shares: &[u16]) -> Vec<i64> {
    let mut parts = fees::cut(net, shares);
    let remainders = fees::remainders(net, shares);
    let mut owners: Vec<usize> = (0..shares.len()).collect();
    match slip {
        Slip::Dropped => return parts,
        Slip::Signed => owners.sort_by_key(|owner| Reverse(remainders[*owner])),
        Slip::Higher => owners.sort_by_key(|owner| (remainders[*owner].abs(), *owner)),
        Slip::First => {}
        _ => return fees::split(net, shares),
    }
    if slip == Slip::Higher {
        owners.reverse();
    }
    let left = net - parts.iter().sum::<i64>();
    for owner in owners.into_iter().take(left.unsigned_abs() as usize) {
        parts[owner] += left.signum();
    }
    parts
}

/// What a line is settled as with this slip.
pub fn settle(
    slip: Slip,
    question: &Question,
    fees: &Fees,
    output: usize,
) -> Result<(Answer, Option<Charge>), u8> {
    if slip == Slip::Sooner {
        check_amount(fees.amount)?;
        check_shares(&fees.shares)?;
    }
    let answer = fees::run(question, output)?;
    let posting = match slip {
        Slip::Source if question.form == Form::Line => question.line,
        _ => &answer.term,
    };
    let charge = match (slip, answer.ending) {
        (_, ending::FINISHED) | (Slip::Eager, _) => Some(charge(slip, posting, fees)?),
        _ => None,
    };
    Ok((answer, charge))
}

/// The parts of owners that aren't there are zeroed.
pub fn slip_in_parts(slip: Slip, owners: usize, parts: &mut Parts) {
    if slip == Slip::Cleared {
        parts.iter_mut().skip(owners).for_each(|part| *part = 0);
    }
}
