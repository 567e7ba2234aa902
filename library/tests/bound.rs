//! How long a schedule suffices: what is told, that it is enough, and where it is not known.

mod common;

use common::*;
use kurvneist::{
    bound, bound_payee, raw, round_robin, Answer, Bound, Ending, Engine, Enough, Refusal, Request,
    BOUND_ENTRIES, NET_LENGTH, WORK_LENGTH,
};

fn told(request: &Request) -> Enough {
    let mut engine = Engine::new();
    engine.bound(request).unwrap().told().expect("known")
}

/// S and F.
fn numbers(request: &Request) -> (u64, u64) {
    let enough = told(request);
    (enough.orders, enough.forks)
}

fn unknown(request: &Request) -> Ending {
    match Engine::new().bound(request) {
        Ok(Bound::Unknown(ending)) => ending,
        other => panic!("{other:?}"),
    }
}

fn ran(request: &Request) -> Answer {
    let mut engine = Engine::new();
    engine.post(request).unwrap().answer
}

#[test]
fn orders_and_forks_of_one_unit() {
    let book = book_p();
    let request = |line| Request::new(&book, line).budget(9);
    assert_eq!(numbers(&request(&[0])), (3, 0));
    assert_eq!(numbers(&request(&[2, 0, 0])), (10, 1));
    assert_eq!(numbers(&request(&LINE_P)), (22, 2));
    // They are the entries and the FORKs of that run.
    let alone = ran(&page(&book, &[0; 29]));
    assert_eq!((alone.entries, alone.granted + alone.kept), (22, 2));
    let enough = told(&request(&LINE_P));
    assert_eq!((enough.most_orders(), enough.rounds()), (28, 30));
    assert_eq!(
        [0, 1, 2, 8].map(|units| enough.entries(units)),
        [30, 30, 60, 240]
    );
    assert_eq!(enough.schedule(2), round_robin(2, 60));
}

/// S + 4 × F rounds, whatever the units and in which order each round names them.
#[test]
fn enough_rounds_finish() {
    let book = book_p();
    let lines: [&[u8]; 4] = [
        &LINE_P,
        &[2, 2, 1, 0, 1, 0, 2, 1, 0, 1, 0],
        &[2, 2, 2, 0, 0, 2, 0, 0, 2, 1, 1, 0, 2, 1, 0, 0],
        &[1, 1, 2, 1, 2, 0, 1, 0, 0],
    ];
    for line in lines {
        let request = Request::new(&book, line);
        let enough = told(&request);
        for units in 1..=8 {
            let turns = enough.schedule(units);
            let backwards = turns.iter().map(|unit| units - 1 - unit).collect();
            let twice = turns.iter().flat_map(|unit| [*unit, *unit]).collect();
            for schedule in [turns, backwards, twice] {
                let answer = ran(&request.units(units).schedule(&schedule));
                assert_eq!(answer.ending, Ending::Finished, "{line:?} on {units}");
                assert_eq!(answer.granted + answer.kept, enough.forks);
            }
        }
    }
}

/// Each entry carries out an order: a JOIN that waits, an EXIT and a SLEEP besides those of one unit.
#[test]
fn the_sharp_bound_is_reached() {
    let book = book_p();
    let schedule = [[0; 5].as_slice(), &[1; 4], &[0; 4]].concat();
    let request = Request::new(&book, &[2, 0, 0]).units(2);
    let answer = ran(&request.schedule(&schedule));
    assert_eq!((answer.ending, answer.entries), (Ending::Finished, 13));
    let enough = told(&request);
    assert_eq!((enough.most_orders(), enough.rounds()), (13, 14));
    let answer = ran(&request.schedule(&schedule[..12]));
    assert_eq!(answer.ending, Ending::Cut);
}

/// The units and the schedule of the request don't count; its budget does.
#[test]
fn budget_and_day_count_alone() {
    let book = book_p();
    let request = Request::new(&book, &LINE_P).units(9).schedule(&[200]);
    assert_eq!(numbers(&request.budget(2)), (22, 2));
    assert_eq!(unknown(&request.budget(1)), Ending::Spent);
    let rules: [(u16, Rule); 2] = [(100, (&[op(0)], &[op(1)])), (283, (&[op(0)], &[op(2)]))];
    let book = dated_book(&[(0, None); 3], &rules);
    for (day, orders) in [(99, 3), (100, 5), (u16::MAX, 5)] {
        assert_eq!(numbers(&Request::new(&book, &[0]).day(day)), (orders, 0));
    }
}

#[test]
fn a_payees_text() {
    let book = class_book(&[(&[op(42), X], &[X])]);
    let request = Request::new(&book, b"Caf\xE9 7");
    let mut engine = Engine::new();
    let enough = engine.bound_payee(&request).unwrap().told().unwrap();
    let schedule = enough.schedule(1);
    let posting = engine.post_payee(&request.schedule(&schedule)).unwrap();
    assert_eq!(posting.term, [3, 1, 6, 5, 39, 0]);
    assert_eq!((enough.orders, enough.forks), (posting.answer.entries, 0));
    let refused = Request::new(&[1, 0, 0], b"x");
    assert_eq!(engine.bound_payee(&refused), Err(Refusal::NoLetters));
}

/// f(X) grows for ever, and is rewritten for ever as itself.
#[test]
fn what_one_unit_does_not_finish_is_not_known() {
    let growing = growing_book();
    let request = Request::new(&growing, &[1, 0]);
    assert_eq!(unknown(&request.budget(9)), Ending::Spent);
    assert_eq!(unknown(&request), Ending::Full);
    let same = book(&[(0, None), (1, Some(&[0]))], &[(&[op(1), X], &[op(1), X])]);
    let request = Request::new(&same, &[1, 0]);
    assert_eq!(unknown(&request), Ending::Cut);
    assert_eq!(unknown(&request.budget(32_767)), Ending::Spent);
    assert_eq!(unknown(&request.budget(32_768)), Ending::Cut);
}

/// `l` counts its first argument down, and each of its second makes 60 more. By rule, each rewrite takes two orders.
fn counting_book(first: Option<&[u8]>) -> Vec<u8> {
    let (end, s, l) = (op(0), op(1), op(2));
    let sixty = [vec![l], vec![s; 60], vec![end, Y]].concat();
    let operators = [(0, first), (1, None), (2, Some(&[0][..])), (2, None)];
    book(
        &operators,
        &[(&[l, s, X, Y], &[l, X, Y]), (&[l, end, s, Y], &sixty)],
    )
}

/// p(end, l(..)) of so many rewrites.
fn counting_line(rewrites: usize) -> Vec<u8> {
    let row = |count: usize| [vec![1; count], vec![0]].concat();
    [vec![3, 0, 2], row(rewrites % 61), row(rewrites / 61)].concat()
}

#[test]
fn as_many_orders_as_there_are_entries() {
    // `end` with an empty strategy takes one order, otherwise two.
    let (empty, usual) = (counting_book(Some(&[])), counting_book(None));
    let line = counting_line(32_765);
    let most = Request::new(&empty, &line);
    assert_eq!(numbers(&most), (65_536, 0));
    assert_eq!(numbers(&most), (BOUND_ENTRIES as u64, 0));
    assert_eq!(unknown(&most.book(&usual)), Ending::Cut);
    assert_eq!(
        ran(&most.book(&usual).schedule(&[0; 65_537])).entries,
        65_537
    );
}

/// One unit grows the first argument beside the long second one; two units may shrink the second before.
#[test]
fn one_unit_ends_full_and_another_order_does_not() {
    let (end, short, long, row) = (op(0), op(1), op(2), op(4));
    let operators = [
        (0, None),
        (0, None),
        (1, None),
        (2, Some(&[8, 1, 2, 9, 0][..])),
        (1, Some(&[])),
    ];
    let grown = [vec![long], vec![row; 62], vec![end]].concat();
    let rules: [Rule; 2] = [(&[short], &grown), (&[long, X], &[end])];
    let book = book(&operators, &rules);
    let line = [vec![3, 1, 2], vec![4; 1000], vec![0]].concat();
    let request = Request::new(&book, &line).units(2);
    assert_eq!(unknown(&request), Ending::Full);
    // Unit 0 shrinks the second argument, then unit 1 grows and shrinks the first.
    let schedule = [[0; 50].as_slice(), &[1; 50], &[0; 50]].concat();
    assert_eq!(ran(&request.schedule(&schedule)).ending, Ending::Finished);
    assert_eq!(
        ran(&request.schedule(&round_robin(2, 999))).ending,
        Ending::Full
    );
}

/// The values before the call are none of those that are written.
fn raw_numbers(request: &Request, lent: &mut Lent) -> (u8, [u64; 3]) {
    let mut values = [u64::MAX; raw::BOUND_LENGTH];
    let number = raw::bound(request, &mut lent.work, &mut lent.net, &mut values);
    (number, values)
}

#[test]
fn areas_are_left_zero() {
    let (book, growing) = (book_p(), growing_book());
    let cases = [
        (Request::new(&book, &LINE_P), [0, 22, 2]),
        (Request::new(&book, &LINE_P).budget(1), [1, 0, 0]),
        (Request::new(&growing, &[1, 0]), [2, 0, 0]),
    ];
    for (request, due) in cases {
        for [more, most] in [[0, 0], [9, 1000]] {
            let mut lent = Lent::new([WORK_LENGTH + more, NET_LENGTH + most, 3]);
            assert_eq!(raw_numbers(&request, &mut lent), (0, due));
            lent.check_run(0);
        }
    }
}

#[test]
fn refused_with_zeros_and_buffers_as_they_were() {
    let book = book_p();
    let sound = Request::new(&book, &LINE_P);
    let long = [0; 1025];
    let faults = [
        (LENGTHS, sound.book(&[]), 1),
        (LENGTHS, sound.book(&[0, 0]), 2),
        (LENGTHS, sound.line(&[]), 10),
        (LENGTHS, sound.line(&[7]), 11),
        (LENGTHS, sound.line(&long), 12),
        ([WORK_LENGTH - 1, NET_LENGTH, 0], sound.book(&[]), 15),
        ([WORK_LENGTH, NET_LENGTH - 1, 0], sound.book(&[]), 15),
        ([0, 0, 0], sound, 15),
    ];
    for (lengths, request, due) in faults {
        let mut lent = Lent::new(lengths);
        assert_eq!(raw_numbers(&request, &mut lent), (due, [0; 3]));
        lent.check_unchanged(due);
        let Lent { work, net, .. } = &mut lent;
        assert_eq!(bound(&request, work, net), Err(Refusal::new(due).unwrap()));
        let text = bound_payee(&request, work, net).unwrap_err();
        let due = match due {
            10..=12 => Refusal::NoLetters,
            due => Refusal::new(due).unwrap(),
        };
        assert_eq!(text, due);
    }
}

/// Threads have less stack than the main one; a bound needs little of it.
#[test]
fn a_thread_of_a_quarter_megabyte_is_enough() {
    let thread = std::thread::Builder::new().stack_size(1 << 18);
    let numbers = thread.spawn(|| numbers(&page(&book_p(), &[]))).unwrap();
    assert_eq!(numbers.join().unwrap(), (22, 2));
}
