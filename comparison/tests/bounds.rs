//! How long a schedule suffices.

mod common;

use common::*;
use comparison::bounds::{answer, enough, Bound, Bounds, Told};
use comparison::draft::Draft;
use comparison::model::{ending, refusal, Form, Lengths};
use comparison::subject::Question;

fn question<'a>(book: &'a [u8], line: &'a [u8], schedule: &'a [u8]) -> Question<'a> {
    Question {
        form: Form::Line,
        book,
        line,
        units: 2,
        budget: 9,
        day: 0,
        schedule,
    }
}

fn told(draft: &Draft, line: &[u8]) -> Told {
    let book = draft.encode();
    answer(&question(&book, line, &[]), Lengths::LEAST, Lengths::LEAST)
}

#[test]
fn orders_and_forks_of_one_unit() {
    let bound = |orders, forks| Ok(Ok(Bound { orders, forks }));
    assert_eq!(told(&book_p(), &[0]), bound(3, 0));
    assert_eq!(told(&book_p(), &[2, 0, 0]), bound(10, 1));
    assert_eq!(told(&book_p(), &LINE_P), bound(22, 2));
}

/// Three orders besides those of one unit: a JOIN that waits, an EXIT, a SLEEP.
#[test]
fn the_sharp_bound_is_reached() {
    let book = book_p().encode();
    let schedule = [[0; 5].as_slice(), &[1; 4], &[0; 4]].concat();
    let question = question(&book, &[2, 0, 0], &schedule);
    let answer = answer(&question, Lengths::LEAST, Lengths::LEAST);
    let enough = enough(&question, &answer, 1).unwrap();
    assert_eq!(enough.rounds.len(), 2 * (10 + 4));
    let mut bounds = Bounds::default();
    assert_eq!(bounds.try_claim(&question, &enough), None);
    let bound = Bound {
        orders: 10,
        forks: 1,
    };
    assert_eq!(bounds.worst, Some((bound, 13)));
    assert_eq!((bound.most(), bound.rounds()), (13, 14));
}

/// f(X) gives f(X), and g(X) gives h(g(X), g(X)).
#[test]
fn what_one_unit_does_not_finish_is_not_told() {
    let [f, g, h] = [1, 2, 3].map(op);
    let draft = Draft::new(
        vec![operator(0), operator(1), operator(1), operator(2)],
        vec![rule(&[f, X], &[f, X]), rule(&[g, X], &[h, g, X, g, X])],
    );
    assert_eq!(told(&draft, &[1, 0]), Ok(Err(ending::SPENT)));
    let book = draft.encode();
    let asked = |line: &'static [u8], budget| {
        let question = Question {
            budget,
            ..question(&book, line, &[])
        };
        answer(&question, Lengths::LEAST, Lengths::LEAST)
    };
    assert_eq!(asked(&[2, 0], u32::MAX), Ok(Err(ending::FULL)));
    assert_eq!(asked(&[1, 0], u32::MAX), Ok(Err(ending::CUT)));
    assert_eq!(asked(&[1], 9), Err(refusal::TERM_SHAPE));
    let spent = question(&book, &[1, 0], &[]);
    assert!(enough(&spent, &Ok(Err(ending::SPENT)), 1).is_none());
}

/// Neither units nor output are asked with.
#[test]
fn refused_by_an_area_the_book_or_the_line() {
    let book = book_p().encode();
    let question = Question {
        units: 9,
        schedule: &[200],
        ..question(&book, &[0], &[])
    };
    let asked = Lengths::of_areas(5, 5);
    let lent = |work, net| Lengths {
        work,
        net,
        output: 0,
    };
    assert!(answer(&question, lent(5, 5), asked).is_ok());
    assert_eq!(answer(&question, lent(4, 5), asked), Err(refusal::AREA));
    assert_eq!(answer(&question, lent(5, 4), asked), Err(refusal::AREA));
}
