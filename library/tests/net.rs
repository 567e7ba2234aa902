//! The rule that a large book's net finds: always the first that matches, as if they were tried one by one.

mod common;

use common::*;
use kurvneist::{reduce, Answer, Engine, Request};

/// Rewrites one part once: the rule that acted shows in the term.
fn posted(book: &[u8], line: &[u8]) -> Vec<u8> {
    let request = Request::new(book, line).budget(1).schedule(&[0; 4]);
    Engine::new().post(&request).unwrap().term.to_vec()
}

/// Constants 0 to 9; 10 takes one argument, 11 two, 12 three. No argument is reduced.
fn operators() -> Vec<Operator<'static>> {
    let constants = vec![(0, None); 10];
    let others = vec![(1, Some(&[0][..])), (2, Some(&[0])), (3, Some(&[0]))];
    [constants, others].concat()
}

const ONE: Symbol = Symbol::Operator(10);
const TWO: Symbol = Symbol::Operator(11);
const THREE: Symbol = Symbol::Operator(12);
const Z: Symbol = Symbol::Variable(2);

/// Rules with these left sides; the first gives the constant 0, the next 1 and so on.
fn book_of(lefts: &[&[Symbol]]) -> Vec<u8> {
    let rights: Vec<[Symbol; 1]> = (0..lefts.len()).map(|place| [op(place as u8)]).collect();
    let rules = lefts.iter().zip(&rights);
    let rules: Vec<Rule> = rules.map(|(left, right)| (*left, &right[..])).collect();
    book(&operators(), &rules)
}

#[test]
fn the_first_in_book_order_acts_whichever_is_more_special() {
    let special: &[Symbol] = &[TWO, op(5), op(6)];
    let general: &[Symbol] = &[TWO, X, Y];
    let between: &[Symbol] = &[TWO, op(5), Y];
    let line = [11, 5, 6];
    for lefts in [
        [special, general, between],
        [special, between, general],
        [general, special, between],
        [general, between, special],
        [between, special, general],
        [between, general, special],
    ] {
        assert_eq!(posted(&book_of(&lefts), &line), [0]);
    }
}

#[test]
fn a_variable_is_tried_where_the_operator_fails_further_on() {
    let book = book_of(&[
        &[THREE, ONE, op(5), X, op(6)],
        &[THREE, X, ONE, Y, op(7)],
        &[THREE, ONE, X, ONE, Y, Z],
        &[THREE, X, Y, Z],
    ]);
    assert_eq!(posted(&book, &[12, 10, 5, 3, 6]), [0]);
    assert_eq!(posted(&book, &[12, 10, 5, 10, 4, 7]), [1]);
    assert_eq!(posted(&book, &[12, 10, 5, 10, 4, 6]), [0]);
    assert_eq!(posted(&book, &[12, 10, 5, 10, 4, 8]), [2]);
    assert_eq!(posted(&book, &[12, 10, 4, 3, 6]), [3]);
    assert_eq!(posted(&book, &[12, 11, 1, 2, 11, 3, 4, 11, 5, 6]), [3]);
}

#[test]
fn a_variable_that_stands_again_is_compared() {
    let book = book_of(&[
        &[TWO, X, X],
        &[TWO, ONE, X, Y],
        &[TWO, X, Y],
        &[THREE, X, Y, X],
        &[THREE, X, X, Y],
        &[THREE, Y, X, X],
    ]);
    assert_eq!(posted(&book, &[11, 10, 5, 10, 5]), [0]);
    assert_eq!(posted(&book, &[11, 10, 5, 10, 6]), [1]);
    assert_eq!(posted(&book, &[11, 5, 6]), [2]);
    // Three rules of one path.
    assert_eq!(posted(&book, &[12, 5, 5, 5]), [3]);
    assert_eq!(posted(&book, &[12, 5, 5, 6]), [4]);
    assert_eq!(posted(&book, &[12, 6, 5, 5]), [5]);
    assert_eq!(posted(&book, &[12, 6, 5, 4]), [12, 6, 5, 4]);
}

#[test]
fn the_same_left_side_again_is_never_reached() {
    let twice: &[Symbol] = &[TWO, ONE, X, op(5)];
    let book = book_of(&[twice, twice, &[TWO, Y, op(5)], twice]);
    assert_eq!(posted(&book, &[11, 10, 7, 5]), [0]);
    assert_eq!(posted(&book, &[11, 7, 5]), [2]);
}

/// 255 left sides of 64 symbols, no two the same: at each of the first eight symbols behind the root there are two ways on,
/// and the last symbol says which rule it is.
#[test]
fn the_largest_book_has_room() {
    let lefts: Vec<Vec<Symbol>> = (1..=255).map(long_left).collect();
    let right: [Symbol; 1] = [op(0)];
    let kept: Vec<Symbol> = [vec![op(1), op(1)], vec![op(0)]].concat();
    for acting in [0, 1, 127, 200, 254] {
        let rules: Vec<Rule> = (0..255)
            .map(|rule| {
                (
                    &lefts[rule][..],
                    if rule == acting { &right[..] } else { &kept },
                )
            })
            .collect();
        let book = book(&[(0, None), (1, Some(&[0])), (1, Some(&[0]))], &rules);
        let mut lent = Lent::new(LENGTHS);
        let line = long_line(acting as u8 + 1);
        let request = Request::new(&book, &line).budget(1).schedule(&[0; 4]);
        let answer = reduce(&request, &mut lent.work, &mut lent.net, &mut lent.output).unwrap();
        lent.check_run(answer.length);
        let Answer { rewrites, .. } = answer;
        assert_eq!((rewrites, &lent.output[..answer.length]), (1, &[0][..]));
    }
}

/// The root, eight symbols for the number's bits, 54 more and a constant.
fn long_line(number: u8) -> Vec<u8> {
    let bits = (0..8).map(|bit| 1 + (number >> bit & 1));
    [vec![1], bits.collect(), vec![2; 54], vec![0]].concat()
}

fn long_left(number: u8) -> Vec<Symbol> {
    long_line(number).into_iter().map(op).collect()
}
