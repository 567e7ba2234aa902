//! The model of many lines by one book.

mod common;

use common::*;
use comparison::model::{Form, Lengths};
use comparison::records::*;
use comparison::subject::Question;

/// The page's run, with a budget of 9 and 29 entries.
const RECORD_P: [u8; 35] = [
    0, 0, 0, 0, 0, 2, 0, 0, 0, 0, 0, 0, 0, 22, 0, 0, 0, 0, 0, 0, 0, 0, 0, 0, 0, 0, 0, 0, 0, 2, 0,
    3, 1, 1, 0,
];

/// Each line of the page, by book P.
fn answered(lines: &[u8], room: usize, units: u8, schedule: &[u8]) -> Result<Answered, u8> {
    let question = Question {
        form: Form::Line,
        book: &book_p().encode(),
        line: lines,
        units,
        budget: 9,
        day: 0,
        schedule,
    };
    let lent = Lengths {
        output: room,
        ..Lengths::LEAST
    };
    answer(&question, lent, Lengths::LEAST)
}

fn many() -> Vec<u8> {
    joined(&[LINE_P.to_vec(), vec![3], vec![], LINE_P.to_vec()])
}

#[test]
fn a_record_for_each_line() {
    assert_eq!(many()[..10], [0, 5, 2, 1, 0, 1, 0, 0, 1, 3]);
    let due = [&RECORD_P[..], &[11], &[10], &RECORD_P].map(<[u8]>::to_vec);
    let told = answered(&many(), 5000, 1, &[0; 29]).unwrap();
    assert_eq!((told.read, told.stop), (19, stop::END));
    assert_eq!(told.records, due);
    assert_eq!(LONGEST, 1056);
}

#[test]
fn a_bad_schedule_refuses_each_sound_line() {
    let told = answered(&many(), 5000, 1, &[0, 1]).unwrap();
    assert_eq!(told.records, [[14], [11], [10], [14]]);
    assert_eq!(answered(&many(), 5000, 0, &[0, 1]), Err(13));
}

#[test]
fn why_no_more() {
    let told = |lines: &[u8], room| {
        let told = answered(lines, room, 1, &[0; 29]).unwrap();
        (told.records.len(), told.read, told.stop)
    };
    let many = many();
    assert_eq!(told(&[], 0), (0, 0, stop::END));
    assert_eq!(told(&[0], 0), (0, 0, stop::CUT));
    assert_eq!(told(&[0, 1], 0), (0, 0, stop::CUT));
    assert_eq!(told(&many, LONGEST - 1), (0, 0, stop::ROOM));
    assert_eq!(told(&many, LONGEST), (1, 7, stop::ROOM));
    assert_eq!(told(&many, LONGEST + 34), (1, 7, stop::ROOM));
    assert_eq!(told(&many, LONGEST + 35), (2, 10, stop::ROOM));
    assert_eq!(told(&many, LONGEST + 37), (4, 19, stop::END));
    assert_eq!(told(&many[..18], LONGEST + 37), (3, 12, stop::CUT));
    assert_eq!(told(&many[..18], LONGEST + 35), (2, 10, stop::ROOM));
}
