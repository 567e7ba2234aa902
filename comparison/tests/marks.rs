//! What is marked, and what VISIT and FORK do where a mark stands.

mod common;

use std::thread;

use common::*;
use comparison::draft::Draft;
use comparison::model::*;
use comparison::random::{case, Random};

/// The symbols with a mark, by their places in the term.
fn marks(term: &Term) -> Vec<usize> {
    let mut found = Vec::new();
    let mut place = 0;
    collect(term, &mut place, &mut found);
    found
}

fn collect(term: &Term, place: &mut usize, found: &mut Vec<usize>) {
    if term.marked {
        found.push(*place);
    }
    *place += 1;
    for argument in &term.arguments {
        collect(argument, place, found);
    }
}

/// The marked symbols after each entry of a run on one unit, BINGO's excepted.
fn marks_by_entry(draft: &Draft, line: &[u8]) -> Vec<Vec<usize>> {
    let book = read_book(&draft.encode()).unwrap();
    let mut machine = Machine::new(&book, read_line(&book, line).unwrap(), 1, 9);
    let mut found = Vec::new();
    while machine.entry(0).is_none() {
        found.push(marks(&machine.term));
    }
    found
}

#[test]
fn only_the_last_whole_marks() {
    let draft = Draft::new(vec![operator(0), with_strategy(1, &[0, 1, 0])], vec![]);
    // VISIT, WHOLE, then the argument's VISIT and WHOLE, and WHOLE again.
    let none: Vec<usize> = Vec::new();
    assert_eq!(
        marks_by_entry(&draft, &[1, 0]),
        [none.clone(), none.clone(), none, vec![1], vec![0, 1]]
    );
}

#[test]
fn empty_strategy_is_marked_by_visit() {
    let draft = Draft::new(vec![operator(0), with_strategy(1, &[])], vec![]);
    assert_eq!(marks_by_entry(&draft, &[1, 0]), [[0]]);
}

/// f(X) gives g(X, X), and g walks both.
fn copying() -> Draft {
    Draft::new(
        vec![
            operator(0),
            operator(1),
            with_strategy(2, &[8, 1, 2, 9, 0]),
            operator(1),
        ],
        vec![rule(&[op(1), X], &[op(2), X, X])],
    )
}

/// The part is walked in 4 entries before it is copied. The FORK is one still,
/// and each copy's VISIT an entry.
#[test]
fn copies_have_the_marks_of_their_part() {
    let found = ask(&copying(), &[1, 3, 0], 1, 9, &[0; 99]).unwrap();
    assert_eq!((found.ending, found.rewrites), (ending::FINISHED, 1));
    assert_eq!(found.term, [2, 3, 0, 3, 0]);
    assert_eq!((found.entries, found.granted, found.kept), (13, 0, 1));
    let found = ask(&copying(), &[1, 3, 0], 2, 9, &[0, 1].repeat(50)).unwrap();
    assert_eq!((found.ending, found.rewrites), (ending::FINISHED, 1));
    assert_eq!((found.granted, found.kept), (1, 0));
    let after = marks_by_entry(&copying(), &[1, 3, 0]);
    assert_eq!(
        after[4..7],
        [vec![1, 2], vec![1, 2, 3, 4], vec![1, 2, 3, 4]]
    );
}

/// Of two equal parts only one is walked before they are compared.
#[test]
fn the_first_of_equal_parts_is_copied() {
    let of = |strategy: &[u8]| {
        Draft::new(
            vec![operator(0), with_strategy(2, strategy), operator(1)],
            vec![rule(&[op(1), X, X], &[op(2), X])],
        )
    };
    let entries = |strategy: &[u8]| {
        let found = ask(&of(strategy), &[1, 0, 0], 1, 9, &[0; 99]).unwrap();
        assert_eq!((found.ending, found.rewrites), (ending::FINISHED, 1));
        found.entries
    };
    assert_eq!(entries(&[1, 0]), 8);
    assert_eq!(entries(&[2, 0]), 9);
}

/// With the schedule's 0s and 1s in turn the page's run ends later, but makes
/// the same FORKs.
#[test]
fn page_of_the_document_on_two_units() {
    let found = ask(&book_p(), &LINE_P, 2, 9, &[0, 1].repeat(30)).unwrap();
    assert_eq!(
        (found.ending, found.rewrites, found.entries),
        (ending::FINISHED, 2, 33)
    );
    assert_eq!((found.granted, found.kept), (2, 0));
}

/// The part at a position lies in a marked one, or, if `of_one`, is marked
/// itself.
fn is_in_marked(term: &Term, at: &[u8], of_one: bool) -> bool {
    match at.split_first() {
        None => term.marked && of_one,
        Some((&argument, rest)) => {
            let part = &term.arguments[usize::from(argument) - 1];
            term.marked || is_in_marked(part, rest, of_one)
        }
    }
}

/// Does an order stand in a marked part? VISIT and FORK of the part itself may.
fn is_misplaced(term: &Term, order: &Order) -> bool {
    match order {
        Order::Visit(part) | Order::Fork { argument: part, .. } => is_in_marked(term, part, false),
        Order::Whole { term: part, .. } => is_in_marked(term, part, true),
        _ => false,
    }
}

/// Every marked part is its own result, without a rewrite.
fn assert_finished(book: &Book, term: &Term) {
    if term.marked {
        let (result, rewrites) = reduce(book, term.clone(), 0).expect("no rewrite is made");
        assert_eq!((&result, rewrites), (term, 0));
    }
    for argument in &term.arguments {
        assert_finished(book, argument);
    }
}

fn check_random_cases() {
    let (mut finished, mut marked) = (0, 0);
    for number in 0..1500 {
        let case = case(&mut Random::for_case(32, number));
        let Ok(book) = read_book(&case.book()) else {
            continue;
        };
        let book = book.on_day(case.day);
        let (Ok(line), 1..=8) = (read_line(&book, &case.line), case.units) else {
            continue;
        };
        if check_schedule(&case.schedule, case.units).is_err() {
            continue;
        }
        let mut machine = Machine::new(&book, line, case.units, case.budget);
        let mut ended = None;
        for &unit in &case.schedule {
            ended = machine.entry(unit.into());
            if ended.is_some() {
                break;
            }
            let mut orders = machine.units.iter().flat_map(|unit| &unit.orders);
            assert!(!orders.any(|order| is_misplaced(&machine.term, order)));
        }
        assert_finished(&book, &machine.term);
        marked += marks(&machine.term).len();
        if ended == Some(ending::FINISHED) {
            assert!(machine.term.marked, "{case:?}");
            finished += 1;
        }
    }
    assert!(finished > 100 && marked > 5000, "{finished} {marked}");
}

/// No order stands in a marked part, at the end a marked part is its own
/// result, and a finished run's term is marked.
#[test]
fn marked_parts_are_finished_and_left_alone() {
    thread::Builder::new()
        .stack_size(256 << 20)
        .spawn(check_random_cases)
        .unwrap()
        .join()
        .unwrap();
}
