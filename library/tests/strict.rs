//! The strict profile: which books are admitted, which two rules are told, and that the order of the rules is free.

mod common;

use common::*;
use kurvneist::{raw, round_robin, strict_book, Answer, Engine, NotStrict, Refusal, Request};

const Z: Symbol = Symbol::Variable(2);

/// Two constants, operator 2 of one argument and 3 of two, whose arguments are a group.
fn operators() -> [Operator<'static>; 4] {
    [(0, None), (0, None), (1, None), (2, Some(&[8, 1, 2, 9, 0]))]
}

const A: Symbol = Symbol::Operator(0);
const B: Symbol = Symbol::Operator(1);
const G: Symbol = Symbol::Operator(2);
const F: Symbol = Symbol::Operator(3);

fn book_of(lefts: &[&[Symbol]]) -> Vec<u8> {
    let rules: Vec<Rule> = lefts.iter().map(|left| (*left, &[A][..])).collect();
    book(&operators(), &rules)
}

/// The number and the pair, which is written in any case.
fn told(book: &[u8]) -> (u8, [u64; 2]) {
    let mut pair = [u64::MAX; raw::PAIR_LENGTH];
    let number = raw::strict_book(book, &mut pair);
    let due = strict_book(book);
    assert_eq!(Refusal::new(number), due.err().map(|fault| fault.refusal));
    let told = due.err().and_then(|fault: NotStrict| fault.pair);
    let places = pair.map(|place| place as usize);
    assert_eq!(told, (number == 25).then_some(places));
    (number, pair)
}

#[test]
fn admitted_books() {
    assert_eq!(told(&book_p()), (0, [0, 0]));
    let books: [&[&[Symbol]]; 6] = [
        &[],
        &[&[F, X, Y]],
        &[&[A], &[B], &[G, X], &[F, X, Y]],
        &[&[F, A, X], &[F, B, X], &[F, G, X, Y], &[F, F, X, Y, Z]],
        // A variable skips a part, and what stands behind it tells.
        &[&[F, X, A], &[F, G, G, Y, B]],
        &[&[F, F, X, Y, A], &[F, Z, B]],
    ];
    for lefts in books {
        assert_eq!(told(&book_of(lefts)), (0, [0, 0]));
    }
}

#[test]
fn the_first_two_rules_that_overlap() {
    let pairs: [([u64; 2], &[&[Symbol]]); 7] = [
        ([0, 1], &[&[G, X], &[G, Y]]),
        // Two rules with the same left side are two rules.
        ([0, 2], &[&[A], &[B], &[A]]),
        // Each has a variable where the other has an operator.
        ([0, 1], &[&[F, X, B], &[F, G, Y, X]]),
        // The lowest first rule, then the lowest second.
        ([1, 4], &[&[A], &[G, X], &[F, X, Y], &[F, A, X], &[G, A]]),
        ([0, 1], &[&[F, X, Y], &[F, B, X], &[F, A, X]]),
        ([2, 3], &[&[A], &[B], &[F, X, A], &[F, A, X]]),
        ([1, 2], &[&[G, A], &[G, G, X], &[G, G, G, B]]),
    ];
    for (pair, lefts) in pairs {
        assert_eq!(told(&book_of(lefts)), (25, pair));
    }
}

/// 255 left sides of 64 symbols that differ in the last one, and then two that do not.
#[test]
fn the_last_pair_of_the_longest() {
    let mut operators: Vec<Operator> = vec![(0, None); 254];
    operators.insert(0, (1, None));
    let row = |last: Symbol| [vec![op(0); 63], vec![last]].concat();
    let mut sides: Vec<Vec<Symbol>> = (1..=254).map(|last| row(op(last))).collect();
    sides.insert(0, vec![op(9)]);
    let told = |sides: &[Vec<Symbol>]| {
        let rules: Vec<Rule> = sides.iter().map(|left| (&left[..], &[B][..])).collect();
        told(&book(&operators, &rules))
    };
    assert_eq!(told(&sides), (0, [0, 0]));
    sides[253] = row(op(254));
    assert_eq!(told(&sides), (25, [253, 254]));
    sides[253] = row(X);
    assert_eq!(told(&sides), (25, [1, 253]));
}

#[test]
fn twenty_four_before_twenty_five_and_after_the_books_own() {
    let overlap: [Rule; 2] = [(&[G, X], &[A]), (&[G, A], &[A])];
    assert_eq!(told(&book(&operators(), &overlap)), (25, [0, 1]));
    let dated = |rules: &[Rule]| {
        let rules: Vec<(u16, Rule)> = rules.iter().map(|rule| (7, *rule)).collect();
        dated_book(&operators(), &rules)
    };
    assert_eq!(told(&dated(&[])), (24, [0, 0]));
    assert_eq!(told(&dated(&overlap)), (24, [0, 0]));
    assert_eq!(told(&book_of(&[&[F, X, X]])), (24, [0, 0]));
    assert_eq!(
        told(&book_of(&[&[G, X], &[G, A], &[F, X, X]])),
        (24, [0, 0])
    );
    let formless: [Operator; 2] = [(1, None), (2, None)];
    let both: [Rule; 2] = [(&[op(0), X], &[X]), (&[op(0), Y], &[Y])];
    assert_eq!(told(&book(&formless, &[])), (24, [0, 0]));
    assert_eq!(told(&book(&formless, &both)), (24, [0, 0]));
    // The book's own: its bits run out, no operator, a left side that is a variable, a byte left over.
    assert_eq!(told(&[]), (1, [0, 0]));
    assert_eq!(told(&[0]), (1, [0, 0]));
    assert_eq!(told(&[0, 0]), (2, [0, 0]));
    assert_eq!(told(&book_of(&[&[F, X, X], &[X]])), (5, [0, 0]));
    assert_eq!(told(&[dated(&overlap), vec![0]].concat()), (9, [0, 0]));
}

#[test]
fn faults_in_words() {
    let outside = strict_book(&book_of(&[&[F, X, X]])).unwrap_err();
    assert_eq!(outside.refusal, Refusal::OutsideStrictProfile);
    assert_eq!(
        outside.to_string(),
        "refused 24: the book is dated, a variable is repeated in a left side, or no operator has arity 0"
    );
    let overlap = strict_book(&book_of(&[&[A], &[B], &[A]])).unwrap_err();
    assert_eq!(overlap.pair, Some([0, 2]));
    assert_eq!(
        overlap.to_string(),
        "refused 25: two of the book's rules match one term: rules 0 and 2, counted from 0"
    );
    assert_eq!(Refusal::from(overlap), Refusal::RulesOverlap);
    let error: Box<dyn std::error::Error> = overlap.into();
    assert_eq!(error.to_string(), overlap.to_string());
}

/// Every order of four rules, by which a line is posted alike on any units.
#[test]
fn any_order_of_the_rules_posts_alike() {
    let rules: [Rule; 4] = [
        (&[F, A, X], &[X]),
        (&[F, G, X, Y], &[G, F, X, Y]),
        (&[F, B, G, X], &[F, X, A]),
        (&[B], &[G, A]),
    ];
    // f(g(f(b, b)), f(g(a), g(a))), of which f(b, b) becomes f(g(a), g(a)).
    let line = [3, 2, 3, 1, 1, 3, 2, 0, 2, 0];
    let posted = |rules: &[Rule], units: u8, entries: usize| -> (Answer, Vec<u8>) {
        let book = book(&operators(), rules);
        assert_eq!(strict_book(&book), Ok(()));
        let schedule = round_robin(units, entries);
        let request = Request::new(&book, &line).units(units).schedule(&schedule);
        let mut engine = Engine::new();
        let posting = engine.post(&request).unwrap();
        (posting.answer, posting.term.to_vec())
    };
    for (units, entries) in [(1, 200), (2, 200), (3, 37), (8, 400)] {
        let due = posted(&rules, units, entries);
        assert!(due.0.rewrites > 2);
        for order in orders(4) {
            let rules: Vec<Rule> = order.iter().map(|&place| rules[place]).collect();
            assert_eq!(posted(&rules, units, entries), due, "{order:?}");
        }
    }
}

/// All orders of so many numbers.
fn orders(count: usize) -> Vec<Vec<usize>> {
    if count == 0 {
        return vec![Vec::new()];
    }
    let shorter = orders(count - 1).into_iter();
    let longer = shorter.flat_map(|order| {
        (0..count).map(move |place| {
            let mut order = order.clone();
            order.insert(place, count - 1);
            order
        })
    });
    longer.collect()
}
