//! What the model charges, by the request's own words.

mod common;

use common::*;
use comparison::draft::Fees;
use comparison::fees::*;
use comparison::model::{ending, Form};
use comparison::random::Random;
use comparison::subject::Question;

fn fees(amount: i64, rate: u16, shares: &[u16]) -> Fees {
    Fees {
        term: vec![0],
        rates: rate.to_be_bytes().to_vec(),
        amount,
        shares: shares.to_vec(),
    }
}

fn charged(amount: i64, rate: u16, shares: &[u16]) -> (i64, Vec<i64>) {
    let charge = charge(&[0], &fees(amount, rate, shares)).unwrap();
    (charge.fee, charge.parts)
}

#[test]
fn fees_in_whole_cents() {
    let fee = |amount, rate| charged(amount, rate, &[WHOLE]).0;
    assert_eq!([1, 3, 5].map(|amount| fee(amount, 5000)), [1, 2, 3]);
    assert_eq!([-1, -3, -5].map(|amount| fee(amount, 5000)), [-1, -2, -3]);
    assert_eq!([2, -2, 0].map(|amount| fee(amount, 5000)), [1, -1, 0]);
    assert_eq!([fee(1, 4999), fee(1, 5001), fee(-1, 5001)], [0, 1, -1]);
    assert_eq!([fee(10_100, 350), fee(-10_100, 350)], [354, -354]);
    assert_eq!(fee(LARGEST, WHOLE), LARGEST);
    assert_eq!(fee(-LARGEST, WHOLE), -LARGEST);
}

#[test]
fn parts_of_the_rest() {
    assert_eq!(
        charged(10_100, 350, &[3333, 3333, 3334]),
        (354, vec![3249, 3248, 3249])
    );
    assert_eq!(
        charged(-10_100, 350, &[3333, 3333, 3334]),
        (-354, vec![-3249, -3248, -3249])
    );
    assert_eq!(charged(3, 0, &[2500; 4]).1, [1, 1, 1, 0]);
    assert_eq!(charged(-1, 0, &[2500; 4]).1, [-1, 0, 0, 0]);
    assert_eq!(charged(1, 0, &[4000, 6000]).1, [0, 1]);
    assert_eq!(charged(-1, 0, &[4000, 6000]).1, [0, -1]);
    assert_eq!(charged(1, 0, &[0, WHOLE]).1, [0, 1]);
}

/// Each sentence of the request, of many amounts, rates and shares.
#[test]
fn what_the_request_says_of_every_charge() {
    let mut random = Random::new(40);
    let mut tried = 0;
    for _ in 0..20_000 {
        let case = comparison::random::case(&mut random);
        let fees = comparison::charges::fees(&mut random, &case);
        let Ok(charge) = charge(&fees.term, &fees) else {
            continue;
        };
        let rate = i128::from(rate(&fees.term, &fees.rates).unwrap());
        check_fee(&fees, rate, charge.fee);
        check_parts(&fees, &charge);
        let refund = Fees {
            amount: -fees.amount,
            ..fees.clone()
        };
        let turned = Charge {
            fee: -charge.fee,
            parts: charge.parts.iter().map(|part| -part).collect(),
        };
        assert_eq!(comparison::fees::charge(&fees.term, &refund), Ok(turned));
        tried += 1;
    }
    assert!(tried > 5000, "{tried}");
}

/// In twice ten-thousandths of a cent a fee is at most 10,000 off, and where it
/// is just that, it is further from zero.
fn check_fee(fees: &Fees, rate: i128, fee: i64) {
    let twice = 2 * i128::from(fees.amount) * rate;
    let off = 20_000 * i128::from(fee) - twice;
    assert!(off.abs() <= 10_000, "{fees:?}");
    if off.abs() == 10_000 {
        assert_eq!(off.signum(), twice.signum(), "{fees:?}");
    }
}

/// Each part is cut, or a cent more in size. No owner without a cent has a
/// larger remainder than one with a cent, or an equal one and a lower place.
fn check_parts(fees: &Fees, charge: &Charge) {
    let net = fees.amount - charge.fee;
    assert_eq!(charge.parts.iter().sum::<i64>(), net, "{fees:?}");
    let size = |share: &u16| i128::from(net.abs()) * i128::from(*share);
    let mut owners = Vec::new();
    for (share, part) in fees.shares.iter().zip(&charge.parts) {
        let cent = i128::from(part.abs()) - size(share) / 10_000;
        assert!(cent == 0 || cent == 1 && part.signum() == fees.amount.signum());
        owners.push((size(share) % 10_000, cent == 1));
    }
    for (place, (remainder, has_cent)) in owners.iter().enumerate() {
        for (higher, (other, other_has)) in owners.iter().enumerate() {
            let before = remainder > other || remainder == other && place < higher;
            assert!(!(before && *other_has && !has_cent), "{fees:?}");
        }
    }
}

#[test]
fn refusals_in_order() {
    let told = |fees: &Fees| charge(&fees.term, fees).map(|_| ());
    let sound = fees(1, 350, &[5000, 5000]);
    assert_eq!(told(&sound), Ok(()));
    for amount in [LARGEST + 1, -LARGEST - 1, i64::MIN, i64::MAX] {
        assert_eq!(
            told(&Fees {
                amount,
                ..sound.clone()
            }),
            Err(22)
        );
        assert_eq!(
            told(&Fees {
                amount,
                ..Fees::default()
            }),
            Err(22)
        );
    }
    for amount in [LARGEST, -LARGEST, 0] {
        assert_eq!(
            told(&Fees {
                amount,
                ..sound.clone()
            }),
            Ok(())
        );
        assert_eq!(
            told(&Fees {
                amount,
                ..Fees::default()
            }),
            Err(23)
        );
    }
    let term = |term: &[u8]| {
        told(&Fees {
            term: term.to_vec(),
            ..sound.clone()
        })
    };
    assert_eq!(
        [term(&[]), term(&[1]), term(&[0, 9])],
        [Err(23), Err(23), Ok(())]
    );
    let rates = |rates: &[u8]| {
        told(&Fees {
            rates: rates.to_vec(),
            ..sound.clone()
        })
    };
    assert_eq!(
        [rates(&[]), rates(&[0]), rates(&[0, 0, 0])],
        [Err(23), Err(23), Ok(())]
    );
    assert_eq!(
        [rates(&[0x27, 0x10]), rates(&[0x27, 0x11])],
        [Ok(()), Err(23)]
    );
    let shares = |shares: &[u16]| {
        told(&Fees {
            shares: shares.to_vec(),
            ..sound.clone()
        })
    };
    assert_eq!(
        [shares(&[]), shares(&[9999]), shares(&[10_001])],
        [Err(23); 3]
    );
    assert_eq!([shares(&[625; 16]), shares(&[WHOLE])], [Ok(()); 2]);
    assert_eq!(
        [shares(&[0; 17]), shares(&[u16::MAX, 10_001])],
        [Err(23); 2]
    );
    let seventeen = [vec![WHOLE], vec![0; 16]].concat();
    assert_eq!(shares(&seventeen), Err(23));
}

/// Book P's line is posted as tick(tick(end)), so that tick has the rate.
#[test]
fn a_settled_line() {
    let book = book_p().encode();
    let question = Question {
        form: Form::Line,
        book: &book,
        line: &LINE_P,
        units: 1,
        budget: 9,
        day: 0,
        schedule: &[0; 29],
    };
    let fees = Fees {
        term: Vec::new(),
        rates: vec![0, 0, 1, 0x5e],
        amount: 10_100,
        shares: vec![WHOLE],
    };
    let settled = |question: &Question, fees: &Fees, output| {
        let settled = settle(question, fees, output)?;
        Ok((settled.0.ending, settled.1.map(|charge| charge.fee)))
    };
    assert_eq!(
        settled(&question, &fees, 1024),
        Ok((ending::FINISHED, Some(354)))
    );
    assert_eq!(settled(&question, &fees, 1023), Err(16));
    let bad = Fees::default();
    let cut = Question {
        schedule: &[0; 21],
        ..question
    };
    assert_eq!(settled(&cut, &bad, 1024), Ok((ending::CUT, None)));
    assert_eq!(settled(&question, &bad, 1024), Err(23));
    let far = Fees {
        amount: i64::MIN,
        ..bad
    };
    assert_eq!(settled(&question, &far, 1024), Err(22));
    assert_eq!(
        settled(
            &Question {
                units: 9,
                ..question
            },
            &far,
            0
        ),
        Err(13)
    );
    assert_eq!(
        settled(
            &Question {
                line: &[9],
                ..question
            },
            &far,
            1024
        ),
        Err(11)
    );
}
