//! What becomes of the lent buffers, and engines used again and again.

mod common;

use std::thread;

use common::*;
use kurvneist::{
    raw, reduce, round_robin, write_book, written_book, Answer, Ending, Engine, Request,
    LONGEST_BOOK, NET_LENGTH, OUTPUT_LENGTH, WORK_LENGTH,
};

/// Runs in these buffers, whose output is full of junk; sees that the areas are then zero and the output changed at its
/// front only.
fn run_in(lent: &mut Lent, request: &Request) -> (Answer, Vec<u8>) {
    let answer = reduce(request, &mut lent.work, &mut lent.net, &mut lent.output);
    let answer = answer.expect("nothing to refuse");
    lent.check_run(answer.length);
    (answer, lent.output[..answer.length].to_vec())
}

/// Runs in buffers of their own, full of junk.
fn run(request: &Request) -> (Answer, Vec<u8>) {
    run_in(&mut Lent::new(LENGTHS), request)
}

/// Requests of every ending.
fn requests<'a>(book: &'a [u8], schedule: &'a [u8], growing: &'a [u8]) -> [Request<'a>; 5] {
    let page = page(book, schedule);
    let full = page.book(growing).line(&[1, 0]).budget(u32::MAX);
    let (spent, cut) = (page.budget(1), page.units(2));
    [page, spent, full, cut, page]
}

#[test]
fn lengths_are_those_of_the_linked_library() {
    assert_eq!(raw::work_length(), WORK_LENGTH);
    assert_eq!(raw::net_length(), NET_LENGTH);
    assert_eq!(raw::output_length(), OUTPUT_LENGTH);
}

#[test]
fn junk_in_the_areas_does_not_matter() {
    let (book, growing) = (book_p(), growing_book());
    let filled = |work, net| Lent {
        work: vec![work; WORK_LENGTH],
        net: vec![net; NET_LENGTH],
        output: junk(OUTPUT_LENGTH),
    };
    for request in requests(&book, &[0; 100], &growing) {
        let due = run_in(&mut filled(0, 0), &request);
        for filler in [0x01, 0x5A, 0xFF] {
            for mut lent in [filled(filler, 0), filled(0, filler), filled(filler, filler)] {
                assert_eq!(run_in(&mut lent, &request), due);
            }
        }
        assert_eq!(run(&request), due);
    }
}

#[test]
fn longer_buffers_are_fine() {
    let book = book_p();
    let request = page(&book, &[0; 29]);
    let due = run(&request);
    for lengths in [
        [WORK_LENGTH + 777, NET_LENGTH, 3 * OUTPUT_LENGTH],
        [WORK_LENGTH, NET_LENGTH + 1, OUTPUT_LENGTH],
        [WORK_LENGTH + 1, NET_LENGTH + 777, OUTPUT_LENGTH + 1],
        [WORK_LENGTH, 100_000, OUTPUT_LENGTH],
    ] {
        assert_eq!(run_in(&mut Lent::new(lengths), &request), due);
    }
}

#[test]
fn the_same_areas_serve_run_after_run() {
    let (book, growing) = (book_p(), growing_book());
    let requests = requests(&book, &[0; 100], &growing);
    let mut lent = Lent::new(LENGTHS);
    let found = requests.map(|request| {
        lent.output = junk(OUTPUT_LENGTH);
        run_in(&mut lent, &request)
    });
    let alone = requests.map(|request| run(&request));
    assert_eq!(found, alone);
    let answers = found.map(|(answer, _)| answer);
    let endings = answers.map(|answer| answer.ending);
    let due = [
        Ending::Finished,
        Ending::Spent,
        Ending::Full,
        Ending::Cut,
        Ending::Finished,
    ];
    assert_eq!(endings, due);
    assert_eq!((answers[2].length, answers[2].rewrites), (2 + 32 * 31, 32));
}

#[test]
fn an_engine_posts_line_after_line() {
    let (book, growing) = (book_p(), growing_book());
    let mut engine = Engine::default();
    for request in requests(&book, &[0; 100], &growing) {
        let (answer, term) = run(&request);
        let posting = engine.post(&request).expect("nothing to refuse");
        assert_eq!((posting.answer, posting.term), (answer, &term[..]));
        // A refusal in between leaves no trace.
        let refused = request.units(9);
        assert_eq!(engine.post(&refused).unwrap_err().number(), 13);
    }
}

#[test]
fn every_schedule_that_finishes_gives_the_same_posting() {
    let book = book_p();
    let line = [2, 2, 1, 1, 0, 1, 0, 2, 1, 0, 2, 1, 1, 1, 0, 2, 1, 0, 1, 0];
    for units in 1..=8 {
        let schedule = round_robin(units, 5000);
        let request = page(&book, &schedule)
            .line(&line)
            .units(units)
            .budget(u32::MAX);
        let (answer, term) = run(&request);
        assert_eq!((answer.ending, answer.rewrites), (Ending::Finished, 15));
        assert_eq!(
            (answer.granted > 0, term),
            (units > 1, [[1; 9].to_vec(), vec![0]].concat())
        );
    }
}

#[test]
fn engines_in_several_threads() {
    let post = || {
        let (book, growing) = (book_p(), growing_book());
        let mut engine = Engine::new();
        (0..50).for_each(|_| {
            for request in requests(&book, &[0; 100], &growing) {
                let due = run(&request);
                assert_eq!(engine.post(&request).unwrap().term, due.1);
            }
        });
    };
    thread::scope(|scope| {
        (0..4).for_each(|_| {
            scope.spawn(post);
        });
    });
}

#[test]
fn writer_changes_the_front_only() {
    let given = [0x02, 0x03, 0x10, 0x80, 0x00];
    for room in [3, 4, 500] {
        let mut output = junk(room);
        assert_eq!(write_book(&given, &mut output), Ok(3));
        let due = [&[0x02, 0x02, 0x00], &junk(room)[3..]].concat();
        assert_eq!(output, due);
    }
}

#[test]
fn written_books_are_written_alike() {
    assert_eq!(written_book(&book_p()), Ok(book_p()));
    let unsettled = book(&[(2, Some(&[8, 2, 1, 9, 0, 1, 0, 0])), (0, Some(&[]))], &[]);
    let settled = book(&[(2, Some(&[8, 2, 1, 9, 0])), (0, Some(&[]))], &[]);
    assert_eq!(written_book(&unsettled), Ok(settled.clone()));
    assert_eq!(written_book(&settled), Ok(settled));
}

#[test]
fn longest_book_is_written() {
    assert_eq!(LONGEST_BOOK, 41_473);
    let list = [0; 31];
    let mut operators = vec![(1, Some(&list[..])); 254];
    operators.push((0, Some(&list[..])));
    let side = [vec![op(0); 63], vec![op(254)]].concat();
    let rule: Rule = (&side, &side);
    let mut settled = vec![(1, Some(&list[..1])); 254];
    settled.push((0, None));
    let dated = |operators: &[Operator]| dated_book(operators, &vec![(0xABCD, rule); 255]);
    let undated = |operators: &[Operator]| book(operators, &vec![rule; 255]);
    assert_eq!(dated(&operators).len(), LONGEST_BOOK);
    assert_eq!(undated(&operators).len(), 40_962);
    for (mut longest, due) in [
        (dated(&operators), dated(&settled)),
        (undated(&operators), undated(&settled)),
    ] {
        assert_eq!(written_book(&longest), Ok(due));
        longest.push(0);
        assert_eq!(written_book(&longest).unwrap_err().number(), 9);
    }
}

#[test]
fn endings_have_numbers_and_names() {
    let endings = [Ending::Finished, Ending::Spent, Ending::Full, Ending::Cut];
    assert_eq!(endings.map(Ending::number), [0, 1, 2, 3]);
    assert_eq!([0, 1, 2, 3].map(Ending::new), endings.map(Some));
    assert_eq!([4, 255].map(Ending::new), [None; 2]);
    let names = endings.map(|ending| ending.to_string());
    assert_eq!(names, ["finished", "spent", "full", "cut"]);
}

#[test]
fn units_take_turns() {
    assert_eq!(round_robin(1, 3), [0, 0, 0]);
    assert_eq!(round_robin(8, 9), [0, 1, 2, 3, 4, 5, 6, 7, 0]);
    assert_eq!(round_robin(0, 2), [0, 0]);
    assert!(round_robin(5, 0).is_empty());
}
