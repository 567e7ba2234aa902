//! The static library agrees with the model, also on what is longer than any
//! random case.

mod common;

use common::*;
use comparison::compare::{compare, Comparison};
use comparison::compare_points::compare_points;
use comparison::draft::{Batch, Case, Damage, Draft, Fees, OperatorDraft, Symbol};
use comparison::fees::{LARGEST, WHOLE};
use comparison::library::Library;
use comparison::model::Form;
use comparison::random::Random;
use comparison::records::{LONGEST, LONGEST_LINE};
use comparison::slots::POINTS_LEN;
use comparison::strict;
use comparison::subject::Parking;

#[test]
fn random_cases() {
    let (tally, difference) = compare(&mut Library, 34, 0..3000);
    if let Some(difference) = difference {
        panic!("{difference}");
    }
    assert!(tally.missing().is_empty(), "{tally}");
}

#[test]
fn random_calls_on_points() {
    assert_eq!(Library.points_length(), POINTS_LEN);
    let (tally, difference) = compare_points(&mut Library, 74, 0..1200);
    if let Some(difference) = difference {
        panic!("{difference}");
    }
    assert!(tally.missing().is_empty(), "{tally}");
}

/// Checks the case and answers the refusal that was due, if one was.
fn refusal(case: &Case) -> Option<usize> {
    let mut library = Library;
    let mut comparison = Comparison::new(&mut library);
    assert_eq!(comparison.check(case), None);
    (1..=19).find(|&number| comparison.tally.refusals[number] > 0)
}

fn page(draft: Draft) -> Case {
    Case::new(draft, LINE_P.to_vec(), 1, 9, vec![0; 29])
}

/// 255 operators with lists of 31 items, 255 rules with sides of 64 symbols.
fn longest_book() -> Draft {
    let list = [&[0, 1].repeat(15)[..], &[0]].concat();
    let side = [vec![op(7); 63], vec![op(0)]].concat();
    let mut operators: Vec<OperatorDraft> = vec![with_strategy(1, &list); 255];
    operators[0] = with_strategy(0, &[0; 31]);
    Draft::new(operators, vec![rule(&side, &side); 255])
}

#[test]
fn longest_book_there_is() {
    let mut case = page(longest_book());
    assert_eq!(case.book().len(), 40_962);
    case.line = [vec![7; 1023], vec![0]].concat();
    case.schedule = vec![0; 10_000];
    assert_eq!(refusal(&case), None);
    case.damage = vec![Damage::Add(0)];
    assert_eq!(refusal(&case), Some(9));
}

/// Its rules agree, so that one of them stands, whichever day it is of.
#[test]
fn longest_dated_book_there_is() {
    let days: [fn(u16) -> u16; 4] = [|_| 7, |place| place, |place| 254 - place, |place| place % 3];
    for day in days {
        let mut draft = longest_book().dated();
        for (place, rule) in (0..).zip(&mut draft.rules) {
            rule.day = day(place);
            rule.right[62 - usize::from(place) / 5] = op(1 + (place % 200) as u8);
        }
        let mut case = page(draft);
        assert_eq!(case.book().len(), 41_473);
        case.line = [vec![7; 1023], vec![0]].concat();
        case.schedule = vec![0; 5000];
        for day in [0, 1, 100, 254, u16::MAX] {
            case.day = day;
            assert_eq!(refusal(&case), None);
        }
        case.damage = vec![Damage::Add(0)];
        assert_eq!(refusal(&case), Some(9));
    }
}

/// Left sides of 64 symbols that differ in the last one only, or in the names of
/// 16 variables.
#[test]
fn left_sides_that_differ_late() {
    let mut operators = vec![operator(0); 255];
    operators[0] = operator(1);
    let row = |last: u8| [vec![op(0); 63], vec![op(last)]].concat();
    let rules = (0..255).map(|place| {
        let last = 1 + (place % 254) as u8;
        rule(&row(last), &[op(255 - last)]).on(place % 7)
    });
    let mut case = page(Draft::new(operators, rules.collect()).dated());
    case.schedule = vec![0; 200];
    for (last, day) in [(1, 0), (1, 2), (1, 9), (2, 9), (254, 1), (254, 9)] {
        case.line = [vec![0; 63], vec![last]].concat();
        case.day = day;
        assert_eq!(refusal(&case), None);
    }
    // pair over 16 variables, in any order of their names, the last perhaps again
    let operators = vec![operator(0), operator(2)];
    let left = |shift: u8, last: u8| {
        let names = (0..15).map(|place| Symbol::Variable((place + shift) % 16));
        let pairs = names.flat_map(|name| [op(1), name]);
        pairs.chain([Symbol::Variable(last)]).collect::<Vec<_>>()
    };
    let rules = (0..16).flat_map(|shift| {
        let fresh = (15 + shift) % 16;
        let again = (14 + shift) % 16;
        [fresh, again].map(|last| rule(&left(shift, last), &[op(0)]).on(shift.into()))
    });
    let mut case = page(Draft::new(operators, rules.collect()).dated());
    case.line = [[1, 0].repeat(15), vec![0]].concat();
    for day in 0..16 {
        case.day = day;
        assert_eq!(refusal(&case), None);
    }
}

/// A left side pair(E, pair(E, .. last)), whose elements are 12 variables and 13
/// times `closed`, in any order; without any, a row of one operator.
fn late_side(random: &mut Random, closed: &[Symbol], last: Symbol) -> Vec<Symbol> {
    if closed.is_empty() {
        return [vec![op(1); 63], vec![last]].concat();
    }
    let variables = (0..12).map(|variable| vec![op(0), Symbol::Variable(variable)]);
    let mut elements: Vec<Vec<Symbol>> = variables.collect();
    elements.resize(25, [&[op(0)], closed].concat());
    random.shuffle(&mut elements);
    [elements.concat(), vec![last]].concat()
}

/// Strict books whose left sides are told apart by the last symbol alone; then
/// two of them have the same one, or one of them a variable there.
#[test]
fn strict_books_that_are_told_apart_late() {
    let random = &mut Random::new(5);
    let mut operators = vec![operator(0); 255];
    operators[0] = operator(2);
    operators[1] = operator(1);
    let check = |case: &Case, due: u8| {
        assert_eq!(refusal(case), Some(10));
        let found = strict::check(&case.book());
        assert_eq!(found.err().map_or(0, |fault| fault.number), due);
    };
    for closed in [&[][..], &[op(2)], &[op(1), op(2)]] {
        let lasts = (2..255).map(op);
        let sides = lasts.map(|last| late_side(random, closed, last));
        let rules = sides.map(|side| rule(&side, &[op(2)])).collect();
        let mut case = page(Draft::new(operators.clone(), rules));
        case.rearranged = Some(7);
        check(&case, 0);
        let any = Symbol::Variable(15);
        for (place, last) in [(251, op(254)), (252, op(2)), (0, op(3)), (100, any)] {
            let mut case = case.clone();
            case.draft.rules[place].left = late_side(random, closed, last);
            check(&case, 25);
        }
        case.draft.dated = true;
        check(&case, 24);
    }
}

#[test]
fn bytes_that_are_too_many_for_any_book() {
    for further in [65_535, 65_536, 200_000] {
        for book in [book_p(), longest_book(), longest_book().dated()] {
            let mut case = page(book);
            case.damage = vec![Damage::Add(0); further];
            assert_eq!(refusal(&case), Some(9));
        }
        // Every list of these operators is at fault.
        let mut case = page(book_p());
        case.damage = vec![Damage::Replace(vec![255; further])];
        assert_eq!(refusal(&case), Some(3));
    }
}

#[test]
fn lines_that_are_too_long() {
    for length in [1025, 65_536 + 5, 200_000] {
        let mut case = page(book_p());
        case.line.resize(length, 0);
        assert_eq!(refusal(&case), Some(12));
    }
}

#[test]
fn schedules_longer_than_the_program_takes() {
    let idle = vec![7; 200_000];
    let mut case = page(book_p());
    case.units = 8;
    case.schedule = [idle.clone(), (0..2).cycle().take(100).collect()].concat();
    assert_eq!(refusal(&case), None);
    case.schedule = [vec![0; 29], idle.clone()].concat();
    assert_eq!(refusal(&case), None);
    case.schedule = [idle, vec![8]].concat();
    assert_eq!(refusal(&case), Some(14));
}

/// A text for a book of class operators, cut at once.
fn text(text: Vec<u8>) -> Case {
    let operators = [vec![operator(0)], vec![operator(1); 42]].concat();
    let rules = Vec::new();
    let mut case = Case::new(Draft::new(operators, rules), text, 1, 9, Vec::new());
    case.form = Form::Text;
    case
}

#[test]
fn every_byte_as_a_text() {
    for byte in 0..=255 {
        assert_eq!(refusal(&text(vec![byte])), None);
        assert_eq!(refusal(&text(vec![b'a', byte, b'b'])), None);
    }
    assert_eq!(refusal(&text((0..=255).collect())), None);
}

#[test]
fn texts_longer_than_the_program_takes() {
    for length in [65_535, 65_536, 65_536 + 5, 200_000] {
        assert_eq!(refusal(&text(vec![b'-'; length])), None);
        assert_eq!(refusal(&text(vec![b'x'; length])), Some(18));
        let mut spread = vec![b' '; length];
        spread[0] = b'a';
        spread[length - 1] = b'b';
        assert_eq!(refusal(&text(spread)), None);
    }
}

/// Separators behind the last letter that fits, and then another letter.
#[test]
fn texts_at_the_limit_with_separators_behind() {
    let full = |more: &[u8]| text([&[b'x'; 1023][..], more].concat());
    assert_eq!(refusal(&full(b"")), None);
    assert_eq!(refusal(&full(&b" ".repeat(5000))), None);
    assert_eq!(refusal(&full(b"x")), Some(18));
    assert_eq!(
        refusal(&full(&[&b" ".repeat(5000)[..], b"x"].concat())),
        Some(18)
    );
}

/// Room for all records.
fn batch(lines: Vec<Vec<u8>>) -> Option<Batch> {
    let room = LONGEST * (lines.len() + 1);
    Some(Batch {
        lines,
        cut: 0,
        room,
    })
}

#[test]
fn many_lines_by_the_longest_book() {
    for draft in [longest_book(), longest_book().dated()] {
        let mut case = page(draft);
        case.schedule = vec![0; 5000];
        let lines = (0..30).map(|place| [vec![7; place * 40], vec![(place % 3 * 127) as u8]]);
        case.batch = batch(lines.map(|parts| parts.concat()).collect());
        assert_eq!(refusal(&case), Some(10));
        case.damage = vec![Damage::Add(0)];
        assert_eq!(refusal(&case), Some(9));
    }
}

/// Room for each number of bytes about the records' ends.
#[test]
fn many_lines_with_any_room() {
    let mut case = page(book_p());
    let lines = [&LINE_P[..], &[7], &[], &LINE_P, &[0]].map(<[u8]>::to_vec);
    case.batch = batch(lines.to_vec());
    for room in (0..40).chain(LONGEST - 2..LONGEST + 120) {
        case.batch.as_mut().unwrap().room = room;
        assert_eq!(refusal(&case), None);
    }
    for cut in 0..30 {
        case.batch.as_mut().unwrap().cut = cut;
        assert_eq!(refusal(&case), None);
    }
}

#[test]
fn many_lines_of_the_longest() {
    let mut case = page(book_p());
    case.batch = batch(vec![vec![0; LONGEST_LINE]; 3]);
    assert_eq!(refusal(&case), None);
    let mut case = text(Vec::new());
    let letters = vec![vec![b'x'; LONGEST_LINE], vec![b'x'; 1023]];
    let spread = [b"a", &b" ".repeat(LONGEST_LINE - 2)[..], b"b"].concat();
    case.batch = batch([letters, vec![spread]].concat());
    assert_eq!(refusal(&case), None);
}

#[test]
fn many_lines_by_bytes_that_are_too_many_for_any_book() {
    for further in [65_535, 65_536, 200_000] {
        let mut case = page(book_p());
        case.batch = batch(vec![LINE_P.to_vec(); 3]);
        case.damage = vec![Damage::Add(0); further];
        assert_eq!(refusal(&case), Some(9));
    }
}

/// Extreme amounts, rates and shares together, of a posting by itself and of one
/// that the page's line is reduced to.
#[test]
fn charges_at_every_limit() {
    let sizes = [
        0,
        1,
        2,
        3,
        5000,
        9999,
        LARGEST - 1,
        LARGEST,
        LARGEST + 1,
        i64::MAX,
    ];
    let rates = [0, 1, 4999, 5000, 5001, 9999, WHOLE, WHOLE + 1, u16::MAX];
    let shares: [&[u16]; 12] = [
        &[],
        &[WHOLE],
        &[0, WHOLE],
        &[5000, 5000],
        &[3333, 3333, 3334],
        &[1, 9998, 1],
        &[625; 16],
        &[
            666, 666, 666, 666, 666, 667, 667, 667, 667, 667, 667, 667, 667, 667, 667, 0,
        ],
        &[9999],
        &[5000, 5001],
        &[32_768, 32_768, WHOLE],
        &[588; 17],
    ];
    let mut library = Library;
    let mut comparison = Comparison::new(&mut library);
    let mut case = page(book_p());
    for size in sizes {
        for amount in [size, size.wrapping_neg(), !size] {
            for rate in rates {
                for shares in shares {
                    case.fees = Some(Fees {
                        term: vec![1, 9],
                        // Of end, of tick and, with one byte, of both.
                        rates: [&[0, 0], &rate.to_be_bytes()[..], &[0]].concat(),
                        amount,
                        shares: shares.to_vec(),
                    });
                    assert_eq!(comparison.check(&case), None);
                }
            }
        }
    }
    assert_eq!(comparison.tally.charges.charges, 10 * 3 * 9 * 12);
}

/// The table's bytes about the root's own, for every root.
#[test]
fn rates_that_end_anywhere() {
    for root in [0, 1, 127, 254, 255] {
        let mut case = page(book_p());
        let place = 2 * usize::from(root);
        for length in (0..4).chain(place..place + 4).chain([513, 70_000]) {
            case.fees = Some(Fees {
                term: vec![root],
                rates: vec![0x12; length],
                amount: -LARGEST,
                shares: vec![4000, 6000],
            });
            assert_eq!(refusal(&case), None);
        }
    }
}
