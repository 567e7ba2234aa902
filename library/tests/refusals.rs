//! Every refusal that the library gives, by number. All buffers keep their bytes and all values are 0.

mod common;

use common::*;
use kurvneist::{
    raw, reduce, write_book, written_book, Ending, Engine, Refusal, Request, NET_LENGTH,
    OUTPUT_LENGTH, WORK_LENGTH,
};

/// A book for each refusal of the book's places.
fn faulty_books() -> Vec<(u8, Vec<u8>)> {
    let operators: [Operator; 3] = [(0, None), (1, None), (2, None)];
    let rule = |left: &[Symbol], right: &[Symbol]| book(&operators, &[(left, right)]);
    let list = |items: &[u8]| book(&[(2, Some(items))], &[]);
    let mut cut = book_p();
    cut.pop();
    vec![
        (1, vec![]),
        (1, vec![1]),
        (1, cut),
        (1, vec![0]),
        (1, vec![0, 255]),
        (2, vec![0, 0]),
        (2, vec![0, 0, 255]),
        (3, list(&[10, 0])),
        (3, list(&[8, 8, 9, 9, 0])),
        (3, list(&[9, 0])),
        (3, list(&[8, 0, 9, 0])),
        (3, list(&[3, 0])),
        (3, list(&[1])),
        (4, rule(&[op(3)], &[op(0)])),
        (4, rule(&[op(1), op(255)], &[op(0)])),
        (5, rule(&[X], &[op(0)])),
        (7, rule(&[op(1), X], &[Y])),
        (7, rule(&[op(2), X, X], &[Y])),
        (8, rule(&[op(1); 64], &[])),
        (8, rule(&[op(1), X], &[op(1); 64])),
        (9, vec![1, 0, 8]),
        (9, vec![1, 0, 0, 0]),
    ]
}

/// Puts a request in buffers of these lengths and sees that it is refused and nothing changes.
fn check_refused(due: u8, request: &Request, lengths: [usize; 3]) {
    let Lent {
        mut work,
        mut net,
        mut output,
    } = Lent::new(lengths);
    let mut values = [u64::MAX; raw::ANSWER_LENGTH];
    let number = raw::reduce(request, &mut work, &mut net, &mut output, &mut values);
    assert_eq!((number, values), (due, [0; raw::ANSWER_LENGTH]));
    assert_eq!(
        reduce(request, &mut work, &mut net, &mut output).map_err(Refusal::number),
        Err(due)
    );
    Lent { work, net, output }.check_unchanged(due);
}

fn check_refused_in_sound_frame(due: u8, request: &Request) {
    check_refused(due, request, LENGTHS);
}

fn check_writer_refused(due: u8, book: &[u8], output_length: usize) {
    let mut output = junk(output_length);
    let mut length = u64::MAX;
    let number = raw::write_book(book, &mut output, &mut length);
    assert_eq!((number, length), (due, 0));
    assert_eq!(
        write_book(book, &mut output).map_err(Refusal::number),
        Err(due)
    );
    assert!(output == junk(output_length), "the output of refusal {due}");
}

#[test]
fn books_1_to_9_but_6() {
    let books = faulty_books();
    for number in [1, 2, 3, 4, 5, 7, 8, 9] {
        assert!(books.iter().any(|(due, _)| *due == number));
    }
    for (due, book) in &books {
        check_refused_in_sound_frame(*due, &page(book, &[0; 29]));
        check_writer_refused(*due, book, 100);
    }
}

/// A variable may stand again on the left. What was told of it keeps its number and name.
#[test]
fn six_is_given_no_longer() {
    let operators: [Operator; 3] = [(0, None), (1, None), (2, None)];
    let both = book(&operators, &[(&[op(2), X, X], &[X])]);
    assert_eq!(written_book(&both), Ok(both.clone()));
    let schedule = [0; 99];
    let posted = |line: &[u8]| {
        let mut engine = Engine::new();
        let posting = engine.post(&page(&both, &schedule).line(line)).unwrap();
        assert_eq!(posting.answer.ending, Ending::Finished);
        (posting.answer.rewrites, posting.term.to_vec())
    };
    assert_eq!(posted(&[2, 1, 0, 1, 0]), (1, vec![1, 0]));
    assert_eq!(posted(&[2, 1, 0, 0]), (0, vec![2, 1, 0, 0]));
    let six = Refusal::new(6).unwrap();
    assert_eq!(format!("{six:?}"), "LeftSideRepeatsVariable");
    assert_eq!(
        six.to_string(),
        "refused 6: a rule's left side names a variable twice, which is refused no longer"
    );
}

#[test]
fn lines_10_to_12() {
    let book = book_p();
    let lines: [(u8, &[u8]); 9] = [
        (10, &[]),
        (10, &[2, 0]),
        (10, &[0, 0]),
        (10, &[0, 255]),
        (11, &[3]),
        (11, &[2, 255]),
        (11, &[255; 1024]),
        (12, &[255; 1025]),
        (12, &[0; 5000]),
    ];
    for (due, line) in lines {
        let request = page(&book, &[0; 29]).line(line);
        check_refused_in_sound_frame(due, &request);
    }
}

#[test]
fn units_13() {
    let book = book_p();
    for units in [0, 9, 255] {
        let request = page(&book, &[0; 29]).units(units);
        check_refused_in_sound_frame(13, &request);
    }
}

#[test]
fn schedules_14() {
    let book = book_p();
    check_refused_in_sound_frame(14, &page(&book, &[1]));
    // An entry that the run would never reach.
    let late = [vec![0; 400], vec![255]].concat();
    check_refused_in_sound_frame(14, &page(&book, &late));
}

#[test]
fn work_areas_15() {
    let book = book_p();
    for length in [0, 1, WORK_LENGTH - 1] {
        let lengths = [length, NET_LENGTH, OUTPUT_LENGTH];
        check_refused(15, &page(&book, &[0; 29]), lengths);
    }
}

#[test]
fn areas_of_the_net_15() {
    let book = book_p();
    for length in [0, 1, NET_LENGTH - 1] {
        let lengths = [WORK_LENGTH, length, OUTPUT_LENGTH];
        check_refused(15, &page(&book, &[0; 29]), lengths);
    }
}

#[test]
fn outputs_16() {
    let book = book_p();
    for length in [0, 1, OUTPUT_LENGTH - 1] {
        let lengths = [WORK_LENGTH, NET_LENGTH, length];
        check_refused(16, &page(&book, &[0; 29]), lengths);
    }
    for length in 0..book.len() {
        check_writer_refused(16, &book, length);
    }
}

#[test]
fn places_from_top_to_bottom() {
    let (book, empty) = (book_p(), []);
    let request =
        |units, book, line, schedule| Request::new(book, line).units(units).schedule(schedule);
    let (long, short) = ([255; 1025], [0, 255]);
    check_refused(13, &request(0, &empty, &long, &[9]), [0; 3]);
    for lengths in [
        [WORK_LENGTH - 1, NET_LENGTH, 0],
        [WORK_LENGTH, NET_LENGTH - 1, 0],
    ] {
        check_refused(15, &request(1, &empty, &long, &[9]), lengths);
    }
    let lengths = [WORK_LENGTH, NET_LENGTH, 1023];
    check_refused(16, &request(1, &empty, &long, &[9]), lengths);
    check_refused_in_sound_frame(1, &request(1, &empty, &long, &[9]));
    check_refused_in_sound_frame(12, &request(1, &book, &long, &[9]));
    check_refused_in_sound_frame(10, &request(1, &book, &short, &[9]));
    check_refused_in_sound_frame(14, &request(1, &book, &LINE_P, &[9]));
    // The writer tells the book's faults first.
    check_writer_refused(9, &[1, 0, 8], 0);
}

#[test]
fn refusals_in_words() {
    let numbers: Vec<u8> = (1..=25).collect();
    assert_eq!(Refusal::ALL.len(), numbers.len());
    for (number, &refusal) in numbers.into_iter().zip(Refusal::ALL) {
        assert_eq!(refusal.number(), number);
        assert_eq!(Refusal::new(number), Some(refusal));
        assert_eq!(
            refusal.to_string(),
            format!("refused {number}: {}", refusal.condition())
        );
        // Each number has words of its own.
        for other in (1..number).filter_map(Refusal::new) {
            assert_ne!(refusal.condition(), other.condition());
        }
    }
    assert_eq!(
        [0, 26, 255].map(Refusal::new),
        [None; 3],
        "other numbers are none"
    );
    let error: Box<dyn std::error::Error> = Refusal::LineTooLong.into();
    assert_eq!(
        error.to_string(),
        "refused 12: the line has over 1,024 bytes"
    );
    // What a `main` that returns it shows.
    assert_eq!(format!("{error:?}"), "LineTooLong");
}

/// A request that says nothing more checks the book and the line, and makes no rewrite.
#[test]
fn a_new_request_has_one_unit_and_no_entry() {
    let book = book_p();
    let request = Request::new(&book, &LINE_P);
    assert_eq!(
        (request.units, request.budget, request.day),
        (1, u32::MAX, 0)
    );
    let mut engine = Engine::new();
    let posting = engine.post(&request).unwrap();
    assert_eq!(
        (posting.answer.ending, posting.answer.entries),
        (Ending::Cut, 0)
    );
    assert_eq!(posting.term, LINE_P);
    let refused = engine
        .post(&request.book(&[0, 0]))
        .map(|posting| posting.answer);
    assert_eq!(refused, Err(Refusal::NoOperator));
}
