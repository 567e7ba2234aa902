//! Named points: what is saved, gone on with and refused.

mod common;

use common::*;
use kurvneist::{
    park, raw, resume, round_robin, Answer, Ending, Engine, Points, Refusal, Request,
    WrongPointsLength, LONGEST_NAME, MOST_NAMES, POINTS_LENGTH,
};

const SLOT: usize = POINTS_LENGTH / MOST_NAMES;

fn parked(request: &Request, name: &[u8], points: &mut Points) -> Result<Answer, Refusal> {
    let mut engine = Engine::new();
    engine
        .park(request, name, points)
        .map(|posting| posting.answer)
}

fn resumed(name: &[u8], schedule: &[u8], points: &mut Points) -> Result<Answer, Refusal> {
    let mut engine = Engine::new();
    engine
        .resume(name, schedule, points)
        .map(|posting| posting.answer)
}

fn names(points: &Points) -> Vec<Vec<u8>> {
    points.names().map(<[u8]>::to_vec).collect()
}

/// The page's request on two units.
fn two_units<'a>(book: &'a [u8], schedule: &'a [u8]) -> Request<'a> {
    page(book, schedule).units(2)
}

#[test]
fn lengths_are_those_of_the_linked_library() {
    assert_eq!(raw::points_length(), POINTS_LENGTH);
    assert_eq!((MOST_NAMES, LONGEST_NAME, SLOT), (8, 16, 65_536));
}

/// Wherever it is parked, the run ends as the unbroken one.
#[test]
fn parked_anywhere() {
    let book = book_p();
    let schedule = round_robin(2, 33);
    let mut engine = Engine::new();
    let due = engine.post(&two_units(&book, &schedule)).unwrap();
    let (due, term) = (due.answer, due.term.to_vec());
    assert_eq!((due.ending, due.entries), (Ending::Finished, 33));
    for cut in 0..33 {
        let mut points = Points::new();
        let first = two_units(&book, &schedule[..cut]);
        assert_eq!(
            parked(&first, b"n", &mut points).unwrap().ending,
            Ending::Cut
        );
        // Resumed without an entry it is saved as it was.
        let before = points.clone();
        let again = resumed(b"n", &[], &mut points).unwrap();
        assert_eq!((again.ending, again.entries), (Ending::Cut, cut as u64));
        assert_eq!(points, before);
        let posting = engine.resume(b"n", &schedule[cut..], &mut points).unwrap();
        assert_eq!((posting.answer, posting.term), (due, &term[..]));
        assert_eq!(points, Points::new());
    }
    // One entry at a time.
    let mut points = Points::new();
    parked(&two_units(&book, &[]), b"n", &mut points).unwrap();
    for entry in &schedule[..32] {
        let cut = resumed(b"n", &[*entry], &mut points).unwrap();
        assert_eq!(cut.ending, Ending::Cut);
    }
    assert_eq!(resumed(b"n", &[0], &mut points), Ok(due));
}

#[test]
fn a_payees_text() {
    let book = class_book(&[(&[op(42), X], &[X])]);
    let request = Request::new(&book, b"Caf\xE9 7").schedule(&[0; 4]);
    let mut engine = Engine::new();
    let mut points = Points::new();
    engine.park_payee(&request, b"text", &mut points).unwrap();
    let posting = engine.resume(b"text", &[0; 99], &mut points).unwrap();
    assert_eq!(posting.answer.ending, Ending::Finished);
    assert_eq!(posting.term, [3, 1, 6, 5, 39, 0]);
}

#[test]
fn the_book_and_its_day_are_the_points() {
    let rules: [(u16, Rule); 2] = [(100, (&[op(0)], &[op(1)])), (283, (&[op(0)], &[op(2)]))];
    let book = dated_book(&[(0, None); 3], &rules);
    let mut engine = Engine::new();
    for (day, term) in [(99, 0), (100, 1), (283, 2)] {
        let mut points = Points::new();
        let request = Request::new(&book, &[0]).day(day);
        engine.park(&request, b"day", &mut points).unwrap();
        let posting = engine.resume(b"day", &[0; 9], &mut points).unwrap();
        assert_eq!(posting.term, [term]);
    }
}

#[test]
fn eight_names_and_a_ninth() {
    let book = book_p();
    let mut points = Points::new();
    let eight: Vec<Vec<u8>> = (0..8).map(|number| vec![b'a' + number]).collect();
    for name in &eight {
        parked(&two_units(&book, &[0, 1]), name, &mut points).unwrap();
    }
    assert_eq!(names(&points), eight);
    let before = points.clone();
    for schedule in [&[][..], &[0; 29], &[9]] {
        let ninth = parked(&two_units(&book, schedule), b"z", &mut points);
        assert_eq!(ninth, Err(Refusal::NinthName));
    }
    assert_eq!(points, before);
    // Two slots become free, and the lower one is taken.
    for name in [b"f", b"b"] {
        let answer = resumed(name, &round_robin(2, 99), &mut points).unwrap();
        assert_eq!(answer.ending, Ending::Finished);
    }
    parked(&two_units(&book, &[]), b"z", &mut points).unwrap();
    assert_eq!(
        names(&points).concat(),
        b"azcdegh",
        "the second is taken, the sixth is free"
    );
    let slot = |points: &Points, number: usize| points.bytes()[number * SLOT..][..SLOT].to_vec();
    assert!(slot(&points, 5).iter().all(|byte| *byte == 0));
    for number in [0, 2, 3, 4, 6, 7] {
        assert_eq!(slot(&points, number), slot(&before, number));
    }
}

#[test]
fn an_old_name_is_replaced_and_other_endings_change_nothing() {
    let book = book_p();
    let mut points = Points::new();
    let long = [vec![1; 1000], vec![0]].concat();
    parked(&two_units(&book, &[0; 60]).line(&long), b"old", &mut points).unwrap();
    let before = points.clone();
    let finished = parked(&page(&book, &[0; 29]), b"old", &mut points).unwrap();
    assert_eq!(finished.ending, Ending::Finished);
    let spent = parked(&page(&book, &[0; 29]).budget(0), b"new", &mut points).unwrap();
    assert_eq!(spent.ending, Ending::Spent);
    assert_eq!(points, before);
    parked(&page(&book, &[0]), b"old", &mut points).unwrap();
    let mut afresh = Points::new();
    parked(&page(&book, &[0]), b"old", &mut afresh).unwrap();
    assert_eq!(points, afresh);
}

#[test]
fn names_are_any_bytes() {
    let book = book_p();
    let mut points = Points::new();
    let given: [&[u8]; 5] = [b"a", b"a\0", b"\0", &[0; 16], b"sixteen letters!"];
    for name in given {
        parked(&page(&book, &[]), name, &mut points).unwrap();
    }
    assert_eq!(names(&points), given);
    let before = points.clone();
    for name in [&b""[..], b"seventeen letters"] {
        let told = parked(&page(&book, &[]), name, &mut points);
        assert_eq!(told, Err(Refusal::BadPointOrName));
        let told = resumed(name, &[], &mut points);
        assert_eq!(told, Err(Refusal::BadPointOrName));
    }
    let unknown = resumed(b"b", &[], &mut points);
    assert_eq!(unknown, Err(Refusal::BadPointOrName));
    assert_eq!(points, before);
    assert_eq!(
        format!("{:?}", Points::new()),
        "Points { names: [] }",
        "the names alone"
    );
}

/// A bit of the fields is turned: the budget becomes less than the rewrites.
#[test]
fn a_point_that_breaks_a_rule() {
    let book = book_p();
    let mut points = Points::new();
    parked(&page(&book, &[0; 12]), b"sound", &mut points).unwrap();
    parked(&page(&book, &[0; 12]), b"broken", &mut points).unwrap();
    let mut bytes = points.into_bytes();
    // Behind the units' three bits: 9 is 1001, of which the first bit goes; then it is 1.
    let fields = SLOT + 21 + book.len();
    assert_eq!(bytes[fields + 4] & 0xE0, 0x20);
    bytes[fields + 3] ^= 1;
    bytes[fields + 4] ^= 0x20;
    let mut points = Points::from_bytes(bytes).unwrap();
    assert_eq!(points.names().count(), 2);
    let before = points.clone();
    for name in [&b"sound"[..], b"broken", b"new"] {
        let told = parked(&page(&book, &[9]), name, &mut points);
        assert_eq!(told, Err(Refusal::BadPointOrName));
        let told = resumed(name, &[9], &mut points);
        assert_eq!(told, Err(Refusal::BadPointOrName));
    }
    assert_eq!(points, before);
}

#[test]
fn buffers_of_points_have_their_length() {
    for length in [0, 1, POINTS_LENGTH - 1, POINTS_LENGTH + 1] {
        let told: WrongPointsLength = Points::from_bytes(vec![0; length]).unwrap_err();
        assert_eq!(told.to_string(), "a buffer of points has 524,288 bytes");
    }
    assert_eq!(
        Points::from_bytes(vec![0; POINTS_LENGTH]),
        Ok(Points::default())
    );
}

/// The run with the name `n` in lent buffers, with points of their own.
fn park_in(lent: &mut Lent, request: &Request, points: &mut [u8]) -> Result<Answer, Refusal> {
    let Lent { work, net, output } = lent;
    park(request, b"n", work, net, points, output)
}

#[test]
fn shorter_buffers_of_points_are_refused() {
    let book = book_p();
    for length in [0, POINTS_LENGTH - 1] {
        let (mut lent, mut points) = (Lent::new(LENGTHS), vec![0; length]);
        let told = park_in(&mut lent, &page(&book, &[0; 3]), &mut points);
        assert_eq!(told, Err(Refusal::OutputTooShort));
        let Lent { work, net, output } = &mut lent;
        let told = resume(b"n", &[], work, net, &mut points, output);
        assert_eq!(told, Err(Refusal::OutputTooShort));
        assert_eq!(points, vec![0; length]);
        lent.check_unchanged(16);
    }
}

#[test]
fn longer_buffers_of_points_keep_what_is_behind() {
    let book = book_p();
    let mut lent = Lent::new(LENGTHS);
    let mut points = [vec![0; POINTS_LENGTH], vec![7; 99]].concat();
    let answer = park_in(&mut lent, &page(&book, &[0; 3]), &mut points).unwrap();
    lent.check_run(answer.length);
    assert_eq!(points[POINTS_LENGTH..], [7; 99]);
    assert_eq!(points[..4], [1, b'n', 0, 0]);
}

/// The frame, the book and the line come before the points, and those before the schedule.
#[test]
fn places_from_top_to_bottom() {
    let book = book_p();
    let mut points = Points::new();
    let told = |request: &Request, points: &mut Points| parked(request, b"", points).unwrap_err();
    let faulty = Request::new(&[], &[9]).units(0).schedule(&[9]);
    assert_eq!(told(&faulty, &mut points), Refusal::BadUnits);
    assert_eq!(told(&faulty.units(1), &mut points), Refusal::BookRunsOut);
    let read = faulty.units(1).book(&book);
    assert_eq!(told(&read, &mut points), Refusal::UnknownOperatorInLine);
    let lined = read.line(&LINE_P);
    assert_eq!(told(&lined, &mut points), Refusal::BadPointOrName);
    assert_eq!(
        parked(&lined, b"n", &mut points),
        Err(Refusal::UnknownUnitInSchedule)
    );
    parked(&lined.schedule(&[]), b"n", &mut points).unwrap();
    // One unit is the point's.
    assert_eq!(
        resumed(b"n", &[0, 1], &mut points),
        Err(Refusal::UnknownUnitInSchedule)
    );
}
