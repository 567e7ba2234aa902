//! The model of the strict profile, held to what it means: all small terms are
//! formed, and the rules that match each are counted.

mod common;

use common::*;
use comparison::draft::{Draft, Symbol};
use comparison::model::{ending, read_book, read_line, refusal, write_book, Book, Term};
use comparison::parted::{rearranged, spoil, strict_draft, strict_text_draft};
use comparison::random::Random;
use comparison::strict::{check, first_constant, is_decided, overlaps, NotStrict};
use comparison::texts;

const Z: Symbol = Symbol::Variable(2);

/// Two constants a and b, g of one argument, f of two.
fn draft(lefts: &[&[Symbol]]) -> Draft {
    let operators = [0, 0, 1, 2].map(operator).to_vec();
    let rules = lefts.iter().map(|left| rule(left, &[op(0)])).collect();
    Draft::new(operators, rules)
}

const A: Symbol = Symbol::Operator(0);
const B: Symbol = Symbol::Operator(1);
const G: Symbol = Symbol::Operator(2);
const F: Symbol = Symbol::Operator(3);

/// The number, and for 25 the pair and its term.
fn told(draft: &Draft) -> (u8, Option<(usize, usize, Vec<u8>)>) {
    match check(&draft.encode()) {
        Ok(()) => (0, None),
        Err(NotStrict { number, overlap }) => {
            let overlap = overlap.map(|one| (one.first, one.second, one.term.preorder()));
            (number, overlap)
        }
    }
}

fn overlapping(lefts: &[&[Symbol]]) -> (usize, usize, Vec<u8>) {
    let (number, overlap) = told(&draft(lefts));
    assert_eq!(number, refusal::OVERLAP);
    overlap.unwrap()
}

#[test]
fn the_first_pair_and_its_term() {
    // Where one side has a variable, the other's part decides; the first constant fills the rest.
    assert_eq!(
        overlapping(&[&[F, X, B], &[F, G, Y, X]]),
        (0, 1, vec![3, 2, 0, 1])
    );
    assert_eq!(overlapping(&[&[G, X], &[G, Y]]), (0, 1, vec![2, 0]));
    // Two rules with the same left side are two rules.
    assert_eq!(overlapping(&[&[A], &[B], &[A]]), (0, 2, vec![0]));
    // The lowest first rule, then the lowest second.
    assert_eq!(
        overlapping(&[&[A], &[G, X], &[F, X, Y], &[F, A, X], &[G, A]]),
        (1, 4, vec![2, 0])
    );
    assert_eq!(
        overlapping(&[&[F, X, Y], &[F, B, X], &[F, A, X]]),
        (0, 1, vec![3, 1, 0])
    );
}

#[test]
fn sides_that_no_term_has_both_of() {
    let books: [&[&[Symbol]]; 7] = [
        &[],
        &[&[F, X, Y]],
        &[&[A], &[B], &[G, X], &[F, X, Y]],
        &[&[F, A, X], &[F, B, X], &[F, G, X, Y], &[F, F, X, Y, Z]],
        &[&[F, X, A], &[F, X, B], &[F, X, G, Y]],
        // A variable skips a part, and what stands behind it tells.
        &[&[F, X, A], &[F, G, G, Y, B]],
        &[&[F, F, X, Y, A], &[F, Z, B]],
    ];
    for lefts in books {
        assert_eq!(told(&draft(lefts)), (0, None), "{lefts:?}");
    }
}

#[test]
fn twenty_four_before_twenty_five() {
    let overlap = draft(&[&[G, X], &[G, A]]);
    assert_eq!(told(&overlap).0, 25);
    assert_eq!(told(&overlap.clone().dated()), (24, None));
    assert_eq!(told(&draft(&[]).dated()), (24, None));
    // The book's own number before both.
    let mut faulty = overlap.clone().dated();
    faulty.rules.push(rule(&[X], &[A]));
    assert_eq!(told(&faulty), (5, None));
    assert_eq!(told(&draft(&[&[F, X, X]])), (24, None));
    assert_eq!(told(&draft(&[&[G, X], &[G, A], &[F, X, X]])), (24, None));
    // Names mean something inside one rule only.
    assert_eq!(told(&draft(&[&[F, X, A], &[F, X, B]])), (0, None));
    let formless = |lefts: &[&[Symbol]]| {
        let rules = lefts.iter().map(|left| rule(left, left)).collect();
        Draft::new(vec![operator(1), operator(2)], rules)
    };
    assert_eq!(told(&formless(&[])), (24, None));
    assert_eq!(told(&formless(&[&[op(0), X]])), (24, None));
    assert_eq!(told(&formless(&[&[op(0), X], &[op(0), Y]])), (24, None));
}

/// Every term of the book with at most so many symbols, by their number; no
/// more than about `most`.
fn terms(book: &Book, symbols: usize, most: usize) -> Vec<Term> {
    let mut by_size: Vec<Vec<Term>> = vec![Vec::new()];
    for size in 1..=symbols {
        let mut of_size = Vec::new();
        for (number, operator) in (0..=u8::MAX).zip(&book.operators) {
            for arguments in rows(&by_size, operator.arity.into(), size - 1) {
                of_size.push(Term::new(number, arguments));
            }
            if by_size.concat().len() + of_size.len() > most {
                return [by_size.concat(), of_size].concat();
            }
        }
        by_size.push(of_size);
    }
    by_size.concat()
}

/// Rows of so many terms with so many symbols together.
fn rows(by_size: &[Vec<Term>], count: usize, symbols: usize) -> Vec<Vec<Term>> {
    if count == 0 {
        return if symbols == 0 {
            vec![Vec::new()]
        } else {
            Vec::new()
        };
    }
    let mut all = Vec::new();
    for size in 1..=symbols.min(by_size.len().saturating_sub(1)) {
        for rest in rows(by_size, count - 1, symbols - size) {
            for first in &by_size[size] {
                all.push([vec![first.clone()], rest.clone()].concat());
            }
        }
    }
    all
}

/// The first two rules that match the term, if there are two.
fn matched_twice(book: &Book, term: &Term) -> Option<(usize, usize)> {
    let matches = |place: &usize| book.rules[*place].left.matches(term, &mut [None; 16]);
    let mut places = (0..book.rules.len()).filter(matches);
    places.next().zip(places.next())
}

/// Small books: no small term has two rules before the pair that is told, and
/// the term that is told has two.
#[test]
fn all_small_terms() {
    let (mut admitted, mut refused, mut formed) = (0, 0, 0);
    for number in 0..1500 {
        let random = &mut Random::for_case(42, number);
        let book = read_book(&small_draft(random).encode()).unwrap();
        if !is_decided(&book) {
            continue;
        }
        let due = check(&write_book(&book));
        let terms = terms(&book, 7, 1500);
        formed += terms.len();
        let first = terms
            .iter()
            .filter_map(|term| matched_twice(&book, term))
            .min();
        match due {
            Ok(()) => {
                assert_eq!(first, None, "{book:?}");
                admitted += 1;
            }
            Err(fault) => {
                let overlap = fault.overlap.unwrap();
                let pair = (overlap.first, overlap.second);
                assert_eq!(matched_twice(&book, &overlap.term), Some(pair));
                assert!(first.is_none_or(|first| pair <= first), "{book:?}");
                // What is told is met among the small terms if its own term is one.
                if overlap.term.size() <= 4 {
                    assert_eq!(first, Some(pair), "{book:?}");
                }
                refused += 1;
            }
        }
    }
    assert!(admitted > 200 && refused > 200, "{admitted} {refused}");
    assert!(formed > 100_000, "{formed}");
}

/// Few operators and short left sides, without repeated variables.
fn small_draft(random: &mut Random) -> Draft {
    let mut arities = vec![0, 0, 1, 2];
    arities.truncate(random.between(2, 4));
    random.shuffle(&mut arities);
    let operators = arities.iter().copied().map(operator).collect();
    let mut draft = Draft::new(operators, Vec::new());
    for _ in 0..random.between(1, 6) {
        let mut left = vec![op(random.below(draft.operators.len()) as u8)];
        while draft.part_end(&left, 0).is_none() {
            let variables = left.iter().filter(|one| matches!(one, Symbol::Variable(_)));
            let fresh = Symbol::Variable(variables.count() as u8);
            left.push(match random.one_in(2) || left.len() > 4 {
                true => fresh,
                false => op(random.below(draft.operators.len()) as u8),
            });
        }
        let right = left.clone();
        draft.rules.push(rule(&left, &right));
    }
    draft
}

/// The term of each pair of rules that overlap is matched by both and by the
/// first constant where neither says anything.
#[test]
fn every_overlap_has_its_term() {
    let mut found = 0;
    for number in 0..600 {
        let random = &mut Random::for_case(43, number);
        let mut draft = strict_draft(random);
        spoil(random, &mut draft);
        let book = read_book(&draft.encode()).unwrap();
        if !is_decided(&book) {
            continue;
        }
        let constant = first_constant(&book).unwrap();
        assert_eq!(book.operators[usize::from(constant)].arity, 0);
        for overlap in overlaps(&book) {
            let line = overlap.term.preorder();
            assert_eq!(read_line(&book, &line), Ok(overlap.term.clone()));
            for place in [overlap.first, overlap.second] {
                let left = &book.rules[place].left;
                assert!(left.matches(&overlap.term, &mut [None; 16]));
            }
            found += 1;
        }
    }
    assert!(found > 50, "{found}");
}

/// Books that are made to be strict are so.
#[test]
fn parted_and_thinned_books_are_strict() {
    let mut admitted = 0;
    for number in 0..400 {
        let random = &mut Random::for_case(41, number);
        let draft = match number % 3 {
            0 => {
                let alphabet = texts::alphabet(random);
                strict_text_draft(random, &alphabet)
            }
            _ => strict_draft(random),
        };
        let book = read_book(&draft.encode()).unwrap();
        let formless = first_constant(&book).is_none();
        let due = if formless { 24 } else { 0 };
        assert_eq!(told(&draft), (due, None), "{draft:?}");
        admitted += usize::from(!formless);
    }
    assert!(admitted > 300, "{admitted}");
}

/// Another order of a strict book's rules answers alike; of a book that is not
/// strict it may not.
#[test]
fn rearranged_rules() {
    let p = book_p();
    let book = read_book(&p.encode()).unwrap();
    let turned = (0..)
        .map(|seed| rearranged(&book, seed))
        .find(|other| other.rules[0].place == 1);
    let turned = write_book(&turned.unwrap());
    for units in [1, 2] {
        let schedule: Vec<u8> = (0..units).cycle().take(100).collect();
        let due = ask(&p, &LINE_P, units, 9, &schedule).unwrap();
        assert_eq!(due.ending, ending::FINISHED);
        assert_eq!(ask_bytes(&turned, &LINE_P, units, 9, &schedule), Ok(due));
    }
    let mut loose = draft(&[&[G, X], &[G, A]]);
    loose.rules[1].right = vec![B];
    let book = read_book(&loose.encode()).unwrap();
    let answers = (0..20).map(|seed| {
        let other = write_book(&rearranged(&book, seed));
        ask_bytes(&other, &[2, 0], 1, 9, &[0; 20]).unwrap().term
    });
    let answers: Vec<_> = answers.collect();
    assert!(answers.contains(&vec![0]) && answers.contains(&vec![1]));
}
