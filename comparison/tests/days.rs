//! Dated books: how they are read and written, which rules stand on a day, and
//! the day in a program's input.

mod common;

use common::*;
use comparison::draft::{Draft, RuleDraft, Symbol};
use comparison::model::*;

const A: Symbol = Symbol::Operator(0);
const B: Symbol = Symbol::Operator(1);
const C: Symbol = Symbol::Operator(2);
const PAIR: Symbol = Symbol::Operator(3);

/// Three constants, and an operator of two arguments whose arguments are not
/// reduced.
fn book(rules: Vec<RuleDraft>) -> Draft {
    let operators = vec![
        operator(0),
        operator(0),
        operator(0),
        with_strategy(2, &[0]),
    ];
    Draft::new(operators, rules).dated()
}

fn pair(one: Symbol, other: Symbol, right: Symbol, day: u16) -> RuleDraft {
    rule(&[PAIR, one, other], &[right]).on(day)
}

/// The right sides of the rules that stand on a day, as their operators.
fn standing(draft: &Draft, day: u16) -> Vec<Symbol> {
    let book = read_book(&draft.encode()).unwrap().on_day(day);
    let right = |rule: &Rule| match rule.right {
        Pattern::Operator(operator, _) => Symbol::Operator(operator),
        Pattern::Variable(variable) => Symbol::Variable(variable),
    };
    book.rules.iter().map(right).collect()
}

#[test]
fn rules_of_later_days_are_absent() {
    let draft = book(vec![pair(A, B, A, 10), pair(B, A, B, 11)]);
    assert_eq!(standing(&draft, 9), []);
    assert_eq!(standing(&draft, 10), [A]);
    assert_eq!(standing(&draft, 11), [A, B]);
    assert_eq!(standing(&draft, u16::MAX), [A, B]);
}

#[test]
fn the_latest_day_stands_wherever_it_is_in_the_book() {
    let draft = book(vec![pair(X, Y, B, 20), pair(X, Y, A, 10)]);
    assert_eq!(standing(&draft, 10), [A]);
    assert_eq!(standing(&draft, 19), [A]);
    assert_eq!(standing(&draft, 20), [B]);
}

#[test]
fn within_a_day_the_last_in_the_book_stands() {
    let draft = book(vec![pair(X, Y, A, 5), pair(X, Y, B, 5), pair(X, Y, C, 4)]);
    assert_eq!(standing(&draft, 4), [C]);
    assert_eq!(standing(&draft, 5), [B]);
}

#[test]
fn rules_that_stand_are_in_book_order() {
    let draft = book(vec![
        pair(X, A, A, 30),
        pair(A, X, B, 20),
        pair(X, X, C, 10),
    ]);
    assert_eq!(standing(&draft, 30), [A, B, C]);
    // Tried in that order: the rule of the latest day is the first in the book.
    let schedule = [0; 20];
    let term = |day| {
        let answer = answer(
            &draft.encode(),
            &[3, 0, 0],
            1,
            9,
            day,
            &schedule,
            Lengths::LEAST,
            Lengths::LEAST,
        );
        answer.unwrap().term
    };
    assert_eq!(term(9), [3, 0, 0]);
    assert_eq!(term(10), [2]);
    assert_eq!(term(20), [1]);
    assert_eq!(term(30), [0]);
}

#[test]
fn left_sides_agree_up_to_a_renaming_one_to_one() {
    let z = Symbol::Variable(15);
    let stands = |one: [Symbol; 2], other: [Symbol; 2]| {
        let draft = book(vec![
            pair(one[0], one[1], A, 1),
            pair(other[0], other[1], B, 2),
        ]);
        standing(&draft, 2)
    };
    for agreeing in [[Y, X], [X, Y], [z, X], [Y, z]] {
        assert_eq!(stands([X, Y], agreeing), [B], "{agreeing:?}");
    }
    assert_eq!(stands([X, X], [z, z]), [B]);
    assert_eq!(stands([X, X], [X, Y]), [A, B]);
    assert_eq!(stands([X, Y], [X, X]), [A, B]);
    assert_eq!(stands([X, Y], [X, A]), [A, B]);
    assert_eq!(stands([X, A], [A, X]), [A, B]);
    assert_eq!(stands([A, X], [B, X]), [A, B]);
}

/// Three places, so that a renaming is made before it is broken.
#[test]
fn a_renaming_holds_in_every_place() {
    let triple = Symbol::Operator(1);
    let read = |left: [Symbol; 3], other: [Symbol; 3]| {
        let sides = [left, other].map(|side| [&[triple][..], &side].concat());
        let rules = sides.map(|side| rule(&side, &[op(0)])).to_vec();
        let draft = Draft::new(vec![operator(0), operator(3)], rules).dated();
        read_book(&draft.encode()).unwrap().on_day(0).rules.len()
    };
    let z = Symbol::Variable(2);
    assert_eq!(read([X, Y, X], [Y, X, Y]), 1);
    assert_eq!(read([X, Y, X], [Y, X, X]), 2);
    assert_eq!(read([X, Y, z], [Y, z, X]), 1);
    assert_eq!(read([X, Y, z], [Y, z, Y]), 2);
    assert_eq!(read([X, Y, Y], [X, X, Y]), 2);
}

/// A later rule of a day that has not come replaces nothing.
#[test]
fn later_rules_are_absent_before_others_are_replaced() {
    let draft = book(vec![pair(X, Y, A, 1), pair(Y, X, B, 2), pair(X, Y, C, 3)]);
    assert_eq!(standing(&draft, 0), []);
    assert_eq!(standing(&draft, 1), [A]);
    assert_eq!(standing(&draft, 2), [B]);
    assert_eq!(standing(&draft, 3), [C]);
}

#[test]
fn an_undated_book_ignores_the_day_and_replaces_nothing() {
    let mut draft = book(vec![pair(X, Y, A, 1), pair(Y, X, B, 2)]);
    draft.dated = false;
    for day in [0, 1, 2, u16::MAX] {
        assert_eq!(standing(&draft, day), [A, B]);
    }
}

#[test]
fn a_dated_book_byte_by_byte() {
    // 0; one operator, a constant; one rule; its day; end gives end.
    let bytes = [0x00, 0x01, 0x00, 0x10, 0x12, 0x30, 0x00, 0x00];
    let draft = Draft::new(vec![operator(0)], vec![rule(&[A], &[A]).on(0x0123)]).dated();
    assert_eq!(draft.encode(), bytes);
    let book = read_book(&bytes).unwrap();
    assert_eq!(book.days, Some(vec![0x0123]));
    assert_eq!(written(&bytes, bytes.len()), Ok(bytes.to_vec()));
    assert_eq!(written(&bytes, bytes.len() - 1), Err(16));
    // No rules.
    assert_eq!(read_book(&[0, 1, 0, 0]).unwrap().days, Some(vec![]));
    assert_eq!(written(&[0, 1, 0, 0], 4), Ok(vec![0, 1, 0, 0]));
    assert_eq!(read_book(&[1, 0, 0]).unwrap().days, None);
}

#[test]
fn the_writer_keeps_days_and_rules_that_do_not_stand() {
    let rules = vec![pair(X, Y, A, 7), pair(Y, X, B, 7), pair(X, Y, C, 0xFFFF)];
    let mut draft = book(rules);
    let settled = draft.encode();
    draft.operators[0].strategy = Some(vec![0, 0]);
    assert_eq!(written(&draft.encode(), usize::MAX), Ok(settled));
}

#[test]
fn refusals_of_dated_books() {
    assert_eq!(read_book(&[0]), Err(1));
    assert_eq!(read_book(&[0, 0]), Err(2));
    assert_eq!(read_book(&[0, 0, 0, 1]), Err(2));
    let whole = book(vec![pair(X, Y, A, 7), pair(Y, X, B, 0xFFFF)]).encode();
    for length in 0..whole.len() {
        assert_eq!(read_book(&whole[..length]), Err(1), "{length} bytes");
    }
    assert_eq!(read_book(&[&whole[..], &[0]].concat()), Err(9));
    // A rule's fault is told where it is read, whatever its day.
    let faulty = |rule: RuleDraft| read_book(&book(vec![rule.on(0xFFFF)]).encode());
    assert_eq!(faulty(rule(&[X], &[A])), Err(5));
    assert_eq!(faulty(rule(&[PAIR, X, X], &[Y])), Err(7));
    assert_eq!(faulty(rule(&[op(4)], &[A])), Err(4));
}

fn page_text(input: &[u8]) -> String {
    String::from_utf8(page(input)).unwrap()
}

fn with_day(book: &[u8], line: &[u8], units: u8, day: &[u8], schedule: &[u8]) -> Vec<u8> {
    let schedule = [day, schedule].concat();
    input(book, line, units, 9, &schedule)
}

#[test]
fn the_day_stands_behind_the_budget_high_byte_first() {
    let book = book(vec![pair(X, Y, A, 0x0100)]).encode();
    let page = |day: [u8; 2]| page_text(&with_day(&book, &[3, 0, 1], 1, &day, &[0; 10]));
    assert!(page([0x00, 0x01]).ends_with("term 3 0 1\n"));
    assert!(page([0x00, 0xFF]).ends_with("term 3 0 1\n"));
    assert!(page([0x01, 0x00]).ends_with("term 0\n"));
}

#[test]
fn a_day_cut_short() {
    let book = book(vec![]).encode();
    for day in [&[][..], &[0]] {
        let input = with_day(&book, &[0], 1, day, &[]);
        assert_eq!(page_text(&input), "REDUCE 1\nrefused 17\n");
    }
    let input = with_day(&book, &[0], 1, &[0, 0], &[]);
    assert!(page_text(&input).starts_with("REDUCE 1\nend 3\n"));
    // The entries of the schedule are counted behind the day.
    let long = |entries| with_day(&book, &[0], 1, &[0, 0], &vec![0; entries]);
    assert!(page_text(&long(32_768)).starts_with("REDUCE 1\nend 0\n"));
    assert_eq!(page_text(&long(32_769)), "REDUCE 1\nrefused 17\n");
}

/// Also where the book is refused, and only if it has a first byte.
#[test]
fn the_day_is_there_exactly_if_the_first_byte_is_0() {
    let refused = |input: &[u8], number: u8| {
        assert_eq!(page_text(input), format!("REDUCE 1\nrefused {number}\n"));
    };
    refused(&with_day(&[0], &[], 1, &[], &[]), 17);
    refused(&with_day(&[0], &[], 1, &[9], &[]), 17);
    refused(&with_day(&[0], &[], 1, &[9, 9], &[]), 1);
    refused(&with_day(&[0, 0], &[], 1, &[9, 9], &[]), 2);
    refused(&with_day(&[0, 0], &[], 0, &[9, 9], &[]), 13);
    refused(&with_day(&[], &[], 1, &[], &[]), 1);
    refused(&with_day(&[1, 0, 0], &[0], 1, &[], &[9]), 14);
}
