//! What is charged to a posting, and what is refused: fees, owners' parts, and the runs before them.

mod common;

use common::*;
use kurvneist::{
    charge, raw, settle, settle_payee, Ending, Engine, FeeTable, Fees, Refusal, Request,
    LARGEST_AMOUNT, MOST_OWNERS, OUTPUT_LENGTH, WHOLE,
};

fn table(rates: &[u16]) -> FeeTable {
    rates.iter().copied().collect()
}

/// The fee and the parts of an amount, at this rate and among these shares; what is charged to the other sign is this with
/// the sign turned.
fn charged(amount: i64, rate: u16, shares: &[u16]) -> (i64, Vec<i64>) {
    let table = table(&[rate]);
    let fees = Fees::new(table.as_bytes(), shares);
    let [one, other] = [amount, -amount].map(|amount| {
        let charged = charge(&[0], &fees, amount).expect("nothing to refuse");
        let sum: i64 = charged.parts().iter().sum();
        assert_eq!(charged.fee + sum, amount, "{rate} {shares:?}");
        (charged.fee, charged.parts().to_vec())
    });
    let turned: Vec<i64> = other.1.iter().map(|part| -part).collect();
    assert_eq!(one, (-other.0, turned));
    one
}

#[test]
fn halves_go_away_from_zero() {
    let fee = |amount, rate| charged(amount, rate, &[WHOLE]).0;
    for (rate, fees) in [
        (5000, [0, 1, 1, 2, 2, 3]),
        (4999, [0, 0, 1, 1, 2, 2]),
        (5001, [0, 1, 1, 2, 2, 3]),
        (0, [0; 6]),
        (WHOLE, [0, 1, 2, 3, 4, 5]),
    ] {
        assert_eq!([0, 1, 2, 3, 4, 5].map(|amount| fee(amount, rate)), fees);
    }
    assert_eq!(fee(1, 4999), 0);
    assert_eq!(fee(10_000, 1), 1);
    assert_eq!([fee(4_999, 1), fee(5_000, 1)], [0, 1]);
    assert_eq!(fee(LARGEST_AMOUNT, WHOLE), LARGEST_AMOUNT);
    assert_eq!(fee(LARGEST_AMOUNT - 1, 9999), 999_899_999_999);
}

#[test]
fn cents_left_go_to_the_largest_remainders_and_lower_owners() {
    let parts = |amount, shares: &[u16]| charged(amount, 0, shares).1;
    assert_eq!(parts(100, &[3333, 3333, 3334]), [33, 33, 34]);
    assert_eq!(parts(1, &[2500; 4]), [1, 0, 0, 0]);
    assert_eq!(parts(2, &[2500; 4]), [1, 1, 0, 0]);
    assert_eq!(parts(3, &[2500; 4]), [1, 1, 1, 0]);
    assert_eq!(parts(1, &[3333, 3334, 3333]), [0, 1, 0]);
    assert_eq!(parts(5, &[1000, 0, 9000]), [1, 0, 4]);
    assert_eq!(parts(7, &[0, WHOLE]), [0, 7]);
    assert_eq!(parts(15, &[625; 16])[..], [&[1; 15][..], &[0]].concat());
    assert_eq!(parts(LARGEST_AMOUNT, &[625; 16]), [62_500_000_000; 16]);
    let most = parts(LARGEST_AMOUNT - 1, &[625; 16]);
    assert_eq!(most[14..], [62_500_000_000, 62_499_999_999]);
}

#[test]
fn nothing_is_left_of_nothing() {
    assert_eq!(charged(0, 350, &[5000, 5000]), (0, vec![0, 0]));
    assert_eq!(charged(999, WHOLE, &[5000, 5000]), (999, vec![0, 0]));
}

/// The rate is that of the first byte, whatever follows.
#[test]
fn the_root_has_the_rate() {
    let table = table(&[100, 200, 300]);
    let fees = Fees::new(table.as_bytes(), &[WHOLE]);
    let fee = |term: &[u8]| charge(term, &fees, 10_000).map(|charged| charged.fee);
    assert_eq!(fee(&[0]), Ok(100));
    assert_eq!(fee(&[1, 0]), Ok(200));
    assert_eq!(fee(&[2, 255, 255]), Ok(300));
    assert_eq!(fee(&[3]), Err(Refusal::BadRateOrShares));
    let most: FeeTable = (0..=255).collect();
    let fees = Fees::new(most.as_bytes(), &[WHOLE]);
    assert_eq!(charge(&[255], &fees, 10_000).unwrap().fee, 255);
}

/// Fills fee and parts with junk, and sees what becomes of them.
fn check_charge(due: u8, term: &[u8], fees: &Fees, amount: i64) {
    let junk = [0x5a5a; MOST_OWNERS];
    let (mut parts, mut fee) = (junk, 0x5a5a);
    let number = raw::charge(term, fees, amount, &mut parts, &mut fee);
    assert_eq!(number, due, "{amount} {fees:?}");
    let written = match due {
        0 => fees.shares.len(),
        _ => {
            assert_eq!(fee, 0);
            0
        }
    };
    assert_eq!(parts[written..], junk[written..], "{amount} {fees:?}");
}

#[test]
fn refusals_22_and_23() {
    let sound = table(&[0, 350, WHOLE]);
    let sound = sound.as_bytes();
    let halves = &[5000, 5000][..];
    let fees = Fees::new(sound, halves);
    for amount in [LARGEST_AMOUNT, LARGEST_AMOUNT - 1, 0] {
        for term in [&[0][..], &[1, 0], &[2]] {
            check_charge(0, term, &fees, amount);
            check_charge(0, term, &fees, -amount);
        }
    }
    for amount in [LARGEST_AMOUNT + 1, -LARGEST_AMOUNT - 1, i64::MAX, i64::MIN] {
        check_charge(22, &[1, 0], &fees, amount);
        // 22 is told first.
        check_charge(22, &[], &Fees::new(&[], &[]), amount);
    }
    check_charge(23, &[], &fees, 1);
    check_charge(23, &[3], &fees, 1);
    // The last rate is cut in two.
    check_charge(23, &[2], &Fees::new(&sound[..5], halves), 1);
    check_charge(0, &[1], &Fees::new(&sound[..5], halves), 1);
    check_charge(23, &[0], &Fees::new(&[], halves), 1);
    for above in [WHOLE + 1, u16::MAX] {
        let table = table(&[0, above]);
        check_charge(23, &[1], &Fees::new(table.as_bytes(), halves), 1);
        // Another operator's rate is not looked at.
        check_charge(0, &[0], &Fees::new(table.as_bytes(), halves), 1);
    }
    let shares: [&[u16]; 10] = [
        &[],
        &[0],
        &[9999],
        &[10_001],
        &[5000, 4999],
        &[5000, 5001],
        &[625; 17],
        &[WHOLE, 0, 0, 0, 0, 0, 0, 0, 0, 0, 0, 0, 0, 0, 0, 0, 0],
        // They total 10,000 only in 16 bits.
        &[u16::MAX, 10_001],
        &[32_768, 32_768, WHOLE],
    ];
    for shares in shares {
        check_charge(23, &[1], &Fees::new(sound, shares), 1);
    }
    check_charge(0, &[1], &Fees::new(sound, &[625; 16]), 1);
}

/// What becomes of an output and of all values, filled with junk, where the line is settled.
fn check_settle(due: u8, request: &Request, fees: &Fees, amount: i64, length: usize) {
    let mut output = junk(length);
    let mut settled = raw::Settled {
        answer: [u64::MAX; raw::ANSWER_LENGTH],
        charged: u64::MAX,
        fee: i64::MAX,
        parts: [0x5a5a; MOST_OWNERS],
    };
    let number = raw::settle(request, fees, amount, &mut output, &mut settled);
    let refused = raw::Settled {
        parts: [0x5a5a; MOST_OWNERS],
        ..raw::Settled::default()
    };
    assert_eq!((number, settled), (due, refused));
    assert!(output == junk(length), "the output of refusal {due}");
    let told = settle(request, fees, amount, &mut output);
    assert_eq!(told.map_err(Refusal::number), Err(due));
}

#[test]
fn a_settled_line_is_refused_as_its_run_and_then_as_its_posting() {
    let book = book_p();
    let table = table(&[0, 350, WHOLE]);
    let fees = Fees::new(table.as_bytes(), &[5000, 5000]);
    let bad = Fees::new(&[], &[]);
    let (request, far) = (page(&book, &[0; 29]), LARGEST_AMOUNT + 1);
    check_settle(13, &request.units(0), &bad, far, 0);
    check_settle(16, &request, &bad, far, OUTPUT_LENGTH - 1);
    check_settle(1, &request.book(&[]), &bad, far, OUTPUT_LENGTH);
    check_settle(11, &request.line(&[3]), &bad, far, OUTPUT_LENGTH);
    check_settle(14, &request.schedule(&[9]), &bad, far, OUTPUT_LENGTH);
    check_settle(22, &request, &bad, far, OUTPUT_LENGTH);
    check_settle(23, &request, &bad, 1, OUTPUT_LENGTH);
    check_settle(23, &request, &Fees::new(&[0, 0], &[WHOLE]), 1, 5000);
    assert!(settle(&request, &fees, 1, &mut [0; OUTPUT_LENGTH]).is_ok());
}

#[test]
fn a_finished_run_is_posted_and_charged() {
    let book = book_p();
    let table = table(&[0, 350, WHOLE]);
    let fees = Fees::new(table.as_bytes(), &[3333, 3333, 3334]);
    let request = page(&book, &[0; 29]);
    for length in [OUTPUT_LENGTH, 5000] {
        let mut output = junk(length);
        let mut settled = raw::Settled {
            parts: [7; MOST_OWNERS],
            ..raw::Settled::default()
        };
        let number = raw::settle(&request, &fees, 10_100, &mut output, &mut settled);
        assert_eq!((number, settled.answer), (0, [0, 2, 22, 0, 2, 3]));
        assert_eq!((settled.charged, settled.fee), (1, 354));
        let parts = [&[3249, 3248, 3249][..], &[7; 13]].concat();
        assert_eq!(settled.parts[..], parts);
        assert_eq!(output, [&[1, 1, 0], &junk(length)[3..]].concat());
    }
    let mut engine = Engine::new();
    let (answer, term) = {
        let posting = engine.post(&request).unwrap();
        (posting.answer, posting.term.to_vec())
    };
    let settled = engine.settle(&request, &fees, 10_100).unwrap();
    assert_eq!(settled.posting.answer, answer);
    assert_eq!(settled.posting.term, term);
    assert_eq!(settled.charge, charge(&term, &fees, 10_100).ok());
}

/// Amount, rates and shares are not looked at, and nothing is charged.
#[test]
fn an_unfinished_run_is_not_charged() {
    let (book, growing) = (book_p(), growing_book());
    let bad = Fees::new(&[], &[1]);
    let page = page(&book, &[0; 100]);
    let full = page.book(&growing).line(&[1, 0]).budget(u32::MAX);
    for (request, ending) in [
        (page.budget(1), Ending::Spent),
        (full, Ending::Full),
        (page.schedule(&[0; 7]), Ending::Cut),
    ] {
        let mut output = junk(OUTPUT_LENGTH);
        let mut settled = raw::Settled {
            answer: [9; raw::ANSWER_LENGTH],
            charged: 9,
            fee: 9,
            parts: [9; MOST_OWNERS],
        };
        let number = raw::settle(&request, &bad, i64::MIN, &mut output, &mut settled);
        assert_eq!((number, settled.charged, settled.fee), (0, 0, 0));
        assert_eq!(settled.parts, [9; MOST_OWNERS]);
        let mut engine = Engine::new();
        let posting = engine.post(&request).unwrap();
        let due = [posting.term, &junk(OUTPUT_LENGTH)[posting.answer.length..]].concat();
        assert!(output == due, "{ending}");
        let posting = (posting.answer, posting.term.to_vec());
        let settled = engine.settle(&request, &bad, i64::MIN).unwrap();
        assert_eq!(settled.posting.answer.ending, ending);
        assert_eq!(
            (settled.posting.answer, settled.posting.term.to_vec()),
            posting
        );
        assert_eq!(settled.charge, None);
    }
}

#[test]
fn a_payee_is_posted_and_charged() {
    // AB gives C.
    let book = class_book(&[(&[op(1), op(2), op(0)], &[op(3), op(0)])]);
    let table = table(&[0, 100, 200, 300]);
    let fees = Fees::new(table.as_bytes(), &[WHOLE]);
    let request = Request::new(&book, b" (a-b) ").schedule(&[0; 50]);
    let mut engine = Engine::new();
    // The gap stays, and A is the root.
    let settled = engine.settle_payee(&request, &fees, 10_000).unwrap();
    assert_eq!(settled.posting.term, [1, 42, 2, 0]);
    assert_eq!(settled.charge.unwrap().fee, 100);
    let settled = engine.settle_payee(&request.line(b"\xe1B"), &fees, 10_000);
    let settled = settled.unwrap();
    assert_eq!(settled.posting.term, [3, 0]);
    assert_eq!(settled.charge.unwrap().parts(), [9700]);
    let refused = engine.settle_payee(&request.line(b"d"), &fees, 10_000);
    assert_eq!(refused.unwrap_err(), Refusal::BadRateOrShares);
    let refused = engine.settle_payee(&request.book(&book_p()), &fees, i64::MAX);
    assert_eq!(refused.unwrap_err(), Refusal::NoLetters);
    let long = [b'a'; 1024];
    let refused = settle_payee(&request.line(&long), &fees, 1, &mut [0; OUTPUT_LENGTH]);
    assert_eq!(refused, Err(Refusal::TextTooLong));
}

#[test]
fn a_table_has_two_bytes_for_each_rate() {
    let mut table = FeeTable::new();
    assert!(table.is_empty());
    table.push(0x1234);
    table.extend([0, u16::MAX]);
    assert_eq!(table.as_bytes(), [0x12, 0x34, 0, 0, 0xff, 0xff]);
    assert_eq!((table.len(), table.is_empty()), (3, false));
    assert_eq!(table, [0x1234, 0, u16::MAX].into_iter().collect());
}
