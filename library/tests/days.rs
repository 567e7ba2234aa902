//! Dated books: which rules are tried on a day, what is refused, and what the writer keeps.

mod common;

use common::*;
use kurvneist::{write_book, written_book, Engine, Refusal, Request};

/// Three constants, and a pair whose arguments are not reduced.
const OPERATORS: [Operator; 4] = [(0, None), (0, None), (0, None), (2, Some(&[0]))];

fn term(book: &[u8], line: &[u8], day: u16) -> Vec<u8> {
    let mut engine = Engine::new();
    let request = Request::new(book, line).day(day).schedule(&[0; 20]);
    engine.post(&request).unwrap().term.to_vec()
}

/// A rule for pairs.
fn pair(sides: &[Symbol; 4]) -> Rule<'_> {
    (&sides[..3], &sides[3..])
}

#[test]
fn a_later_rule_replaces_an_earlier_one() {
    let sides = [[op(3), X, Y, op(0)], [op(3), Y, X, op(1)]];
    let [old, new] = [pair(&sides[0]), pair(&sides[1])];
    for rules in [[(100, old), (200, new)], [(200, new), (100, old)]] {
        let book = dated_book(&OPERATORS, &rules);
        let posted = |day| term(&book, &[3, 2, 2], day);
        assert_eq!(posted(0), [3, 2, 2]);
        assert_eq!(posted(99), [3, 2, 2]);
        assert_eq!(posted(100), [0]);
        assert_eq!(posted(199), [0]);
        assert_eq!(posted(200), [1]);
        assert_eq!(posted(u16::MAX), [1]);
    }
}

#[test]
fn within_a_day_the_last_stands() {
    let sides = [[op(3), X, Y, op(0)], [op(3), Y, X, op(1)]];
    let [first, last] = [pair(&sides[0]), pair(&sides[1])];
    let book = dated_book(&OPERATORS, &[(100, first), (100, last)]);
    assert_eq!(term(&book, &[3, 2, 2], 100), [1]);
}

#[test]
fn a_variable_that_stands_twice_is_another_left_side() {
    let sides = [[op(3), X, X, op(0)], [op(3), X, Y, op(1)]];
    let [equal, any] = [pair(&sides[0]), pair(&sides[1])];
    let book = dated_book(&OPERATORS, &[(1, equal), (2, any)]);
    assert_eq!(term(&book, &[3, 2, 2], 2), [0]);
    assert_eq!(term(&book, &[3, 2, 1], 2), [1]);
}

#[test]
fn what_stands_is_tried_in_book_order() {
    let sides = [
        [op(3), X, op(2), op(0)],
        [op(3), op(2), X, op(1)],
        [op(3), X, X, op(2)],
    ];
    let [first, second, third] = [pair(&sides[0]), pair(&sides[1]), pair(&sides[2])];
    let book = dated_book(&OPERATORS, &[(30, first), (20, second), (10, third)]);
    let posted = |day| term(&book, &[3, 2, 2], day);
    assert_eq!([10, 20, 30].map(posted), [[2], [1], [0]]);
}

#[test]
fn an_undated_book_ignores_the_day() {
    let sides = [[op(3), X, Y, op(0)], [op(3), Y, X, op(1)]];
    let book = book(&OPERATORS, &[pair(&sides[0]), pair(&sides[1])]);
    for day in [0, 1, u16::MAX] {
        assert_eq!(term(&book, &[3, 2, 2], day), [0]);
    }
}

/// Texts are posted on a day too.
#[test]
fn a_payee_on_a_day() {
    let rules: [(u16, Rule); 2] = [
        (10, (&[op(1), X], &[op(2), X])),
        (20, (&[op(1), Y], &[op(3), Y])),
    ];
    let book = dated_book(&class_operators(), &rules);
    let mut engine = Engine::new();
    let mut posted = |day| {
        let request = Request::new(&book, b"a").day(day).schedule(&[0; 20]);
        engine.post_payee(&request).unwrap().term.to_vec()
    };
    assert_eq!([9, 10, 20].map(&mut posted), [[1, 0], [2, 0], [3, 0]]);
}

#[test]
fn a_byte_0_and_what_follows() {
    assert_eq!(written_book(&[0]), Err(Refusal::BookRunsOut));
    assert_eq!(written_book(&[0, 0]), Err(Refusal::NoOperator));
    assert_eq!(written_book(&[0, 1, 0, 0]), Ok(vec![0, 1, 0, 0]));
    assert_eq!(written_book(&[0, 1, 0, 0, 0]), Err(Refusal::BookLeftOver));
    let sides = [op(3), X, Y, op(0)];
    let whole = dated_book(&OPERATORS, &[(0xFFFF, pair(&sides)), (0, pair(&sides))]);
    for length in 0..whole.len() {
        assert_eq!(written_book(&whole[..length]), Err(Refusal::BookRunsOut));
    }
}

/// Settled lists, the same days, and rules that stand on no day.
#[test]
fn the_writer_keeps_the_form() {
    let sides = [[op(3), X, Y, op(0)], [op(3), Y, X, op(1)]];
    let rules = [(7, pair(&sides[0])), (7, pair(&sides[1]))];
    let mut given = OPERATORS;
    given[0] = (0, Some(&[0, 0]));
    let settled = dated_book(&OPERATORS, &rules);
    let mut output = junk(100);
    let length = write_book(&dated_book(&given, &rules), &mut output).unwrap();
    assert_eq!(output[..length], settled);
    assert!(output[length..] == junk(100)[length..]);
}
