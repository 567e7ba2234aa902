//! Many lines by one book are posted as each by itself.

mod common;

use std::fs;

use common::*;
use kurvneist::{
    round_robin, Answer, Batch, Ending, Engine, LineTooLong, Lines, Posting, Refusal, Request,
    LONGEST_RECORD,
};

/// What an engine tells of a line, kept.
type Told = Result<(Answer, Vec<u8>), Refusal>;

fn told(posting: Result<Posting, Refusal>) -> Told {
    posting.map(|posting| (posting.answer, posting.term.to_vec()))
}

/// Posts the lines together and one by one, in an engine each, and sees that they are told the same.
fn check<L: AsRef<[u8]>>(batch: &Batch, lines: &[L]) -> Vec<Told> {
    let (mut together, mut alone) = (Engine::new(), Engine::new());
    let postings = together.post_lines(batch, &lines_of(lines)).unwrap();
    let found: Vec<Told> = postings.map(told).collect();
    let due = lines.iter().map(|line| batch.line(line.as_ref()));
    let due: Vec<Told> = due.map(|request| told(alone.post(&request))).collect();
    assert_eq!(found, due);
    found
}

/// The same for texts.
fn check_texts<L: AsRef<[u8]>>(batch: &Batch, texts: &[L]) -> Vec<Told> {
    let (mut together, mut alone) = (Engine::new(), Engine::new());
    let postings = together.post_payees(batch, &lines_of(texts)).unwrap();
    let found: Vec<Told> = postings.map(told).collect();
    let due = texts.iter().map(|text| batch.line(text.as_ref()));
    let due: Vec<Told> = due
        .map(|request| told(alone.post_payee(&request)))
        .collect();
    assert_eq!(found, due);
    found
}

fn batch_of<'a>(request: &Request<'a>) -> Batch<'a> {
    Batch::new(request.book)
        .units(request.units)
        .budget(request.budget)
        .day(request.day)
        .schedule(request.schedule)
}

fn terms(told: &[Told]) -> Vec<&[u8]> {
    let terms = told.iter().map(|told| &told.as_ref().unwrap().1[..]);
    terms.collect()
}

/// Sound lines for book P, and some that are refused.
fn lines_p() -> Vec<Vec<u8>> {
    vec![
        LINE_P.to_vec(),
        vec![],
        vec![0],
        vec![2, 2, 1, 1, 0, 1, 0, 2, 1, 0, 2, 1, 1, 1, 0, 2, 1, 0, 1, 0],
        vec![3],
        vec![0, 0],
        [vec![1; 1023], vec![0]].concat(),
        vec![0; 1025],
        LINE_P.to_vec(),
    ]
}

#[test]
fn on_all_units_with_every_ending() {
    let book = book_p();
    let mut endings = Vec::new();
    for units in 1..=8 {
        for entries in [0, 21, 22, 100, 5000] {
            let schedule = round_robin(units, entries);
            for budget in [0, 1, 9, u32::MAX] {
                let batch = Batch::new(&book).units(units).budget(budget);
                let told = check(&batch.schedule(&schedule), &lines_p());
                endings.extend(told.into_iter().flatten().map(|(answer, _)| answer.ending));
            }
        }
    }
    for ending in [Ending::Finished, Ending::Spent, Ending::Cut] {
        assert!(endings.contains(&ending), "{ending}");
    }
}

#[test]
fn examples() {
    for (folder, texts) in [("../examples", false), ("../examples/payee", true)] {
        let files = fs::read_dir(folder)
            .unwrap()
            .map(|file| file.unwrap().path());
        let inputs = files.filter(|file| file.extension().is_some_and(|end| end == "in"));
        let mut count = 0;
        for input in inputs.map(|file| fs::read(file).unwrap()) {
            let request = request_of(&input);
            let lines = [request.line, &[255], request.line, &[], request.line];
            match texts {
                true => check_texts(&batch_of(&request), &lines),
                false => check(&batch_of(&request), &lines),
            };
            count += 1;
        }
        assert!(count >= 3, "{folder}");
    }
}

#[test]
fn by_a_dated_book_on_its_day() {
    let rules: [(u16, Rule); 2] = [(100, (&[op(0)], &[op(1)])), (283, (&[op(0)], &[op(2)]))];
    let book = dated_book(&[(0, None), (0, None), (0, None), (2, None)], &rules);
    let lines = [&[0][..], &[1], &[3, 0, 2]];
    let batch = Batch::new(&book).schedule(&[0; 99]);
    for (day, due) in [(99, 0), (100, 1), (282, 1), (283, 2), (u16::MAX, 2)] {
        let told = check(&batch.day(day), &lines);
        assert_eq!(terms(&told), [&[due][..], &[1], &[3, due, 2]]);
    }
}

/// A net with several ways on, and a variable that stands again.
#[test]
fn by_a_book_of_several_left_sides() {
    let rules: [Rule; 4] = [
        (&[op(2), X, X], &[X]),
        (&[op(2), op(1), X, Y], &[op(2), X, Y]),
        (&[op(2), X, op(0)], &[op(1), X]),
        (&[op(1), op(1), op(0)], &[op(0)]),
    ];
    let book = book(&[(0, None), (1, None), (2, Some(&[0]))], &rules);
    let lines = [
        &[2, 0, 0][..],
        &[2, 1, 0, 0],
        &[2, 0, 1, 0],
        &[2, 2, 0, 0, 2, 0, 0],
        &[1, 1, 0],
        &[2, 1, 1, 0, 1, 1, 0],
    ];
    let told = check(&Batch::new(&book).schedule(&[0; 99]), &lines);
    assert_eq!(terms(&told)[..2], [[0], [0]]);
}

/// Terms that grow far beyond their lines ask for more room than was guessed.
#[test]
fn answers_that_grow() {
    let book = growing_book();
    let batch = Batch::new(&book).schedule(&[0; 200]);
    for count in [1, 2, 3, 10, 100, 300] {
        let told = check(&batch, &vec![[1, 0]; count]);
        let full = |told: &Told| told.as_ref().unwrap().0.ending == Ending::Full;
        assert_eq!((told.len(), told.iter().all(full)), (count, true));
        assert_eq!(terms(&told)[count - 1].len(), 2 + 32 * 31);
    }
}

/// A batch leaves nothing behind, nor does a refused one, and lines alone come in between.
#[test]
fn an_engine_posts_batch_after_batch() {
    let (book, growing) = (book_p(), growing_book());
    let batches = [Batch::new(&growing), Batch::new(&book)].map(|batch| batch.schedule(&[0; 200]));
    let mut engine = Engine::new();
    for count in [40, 0, 1, 7] {
        for (batch, line) in batches.iter().zip([&[1, 0][..], &LINE_P]) {
            let due = told(engine.post(&batch.line(line)));
            let postings = engine.post_lines(batch, &lines_of(&vec![line; count]));
            let found: Vec<Told> = postings.unwrap().map(told).collect();
            assert_eq!(found, vec![due; count]);
            let refused = engine.post_lines(&batch.units(9), &Lines::new());
            assert_eq!(refused.err(), Some(Refusal::BadUnits));
        }
    }
}

#[test]
fn the_book_is_refused_once() {
    let mut engine = Engine::new();
    for lines in [lines_of(&[LINE_P; 3]), Lines::new()] {
        let mut refused = |batch: Batch| {
            let of_lines = engine.post_lines(&batch, &lines).err();
            assert_eq!(engine.post_payees(&batch, &lines).err(), of_lines);
            of_lines
        };
        assert_eq!(refused(Batch::new(&[])), Some(Refusal::BookRunsOut));
        assert_eq!(refused(Batch::new(&[0, 0])), Some(Refusal::NoOperator));
        assert_eq!(
            refused(Batch::new(&[1, 0, 0]).units(0)),
            Some(Refusal::BadUnits)
        );
        assert_eq!(refused(Batch::new(&[1, 0, 0])), None);
    }
}

#[test]
fn texts() {
    let of_letters = class_book(&[(&[op(1), X], &[X])]);
    let texts = [
        &b"\xC5 bad"[..],
        b"",
        b" - ",
        &[b'x'; 1023],
        &[b'x'; 1024],
        &[b'-'; 65_535],
        b"AZaz09",
    ];
    let batch = Batch::new(&of_letters).schedule(&[0; 5000]);
    let told = check_texts(&batch, &texts);
    assert_eq!(told[0].as_ref().unwrap().1, [42, 2, 4, 0]);
    assert_eq!(told[4], Err(Refusal::TextTooLong));
    let no_letters = book_p();
    for told in check_texts(&batch.book(&no_letters), &texts) {
        assert_eq!(told, Err(Refusal::NoLetters));
    }
}

/// The schedule is looked at behind the line, and refuses each sound one.
#[test]
fn refusals_of_single_lines() {
    let book = book_p();
    let numbers = |schedule: &[u8]| {
        let told = check(&Batch::new(&book).schedule(schedule), &lines_p());
        let numbers = told
            .into_iter()
            .map(|told| told.map_or_else(Refusal::number, |_| 0));
        numbers.collect::<Vec<_>>()
    };
    assert_eq!(numbers(&[0; 99]), [0, 10, 0, 0, 11, 10, 0, 12, 0]);
    assert_eq!(numbers(&[0, 1]), [14, 10, 14, 14, 11, 10, 14, 12, 14]);
}

#[test]
fn lines_have_at_most_65_535_bytes() {
    let mut lines = Lines::default();
    assert!(lines.is_empty());
    lines.push(&[7; 65_535]).unwrap();
    let error = lines.push(&[7; 65_536]).unwrap_err();
    assert_eq!(
        error.to_string(),
        "a line among many has at most 65,535 bytes"
    );
    let error: Box<dyn std::error::Error> = error.into();
    assert!(error.is::<LineTooLong>());
    assert_eq!((lines.len(), lines.as_bytes().len()), (1, 65_537));
    assert_eq!(lines.as_bytes()[..3], [255, 255, 7]);
    lines.push(b"ab").unwrap();
    assert_eq!(lines.as_bytes()[65_537..], [0, 2, b'a', b'b']);
    lines.clear();
    assert_eq!((lines.is_empty(), lines.as_bytes()), (true, &[][..]));
    // Long lines don't make much room.
    check(&Batch::new(&[1, 0, 0]), &vec![[0; 65_535]; 20]);
}

#[test]
fn a_new_batch_has_one_unit_and_no_entry() {
    let batch = Batch::new(&[1, 0, 0]);
    assert_eq!((batch.units, batch.budget, batch.day), (1, u32::MAX, 0));
    let told = check(&batch, &[[0]; 2]);
    assert!(told
        .iter()
        .flatten()
        .all(|(answer, _)| answer.ending == Ending::Cut));
    let line = batch.units(2).budget(3).day(4).schedule(&[5]).line(&[6]);
    assert_eq!(
        (line.book, line.line, line.schedule),
        (&[1, 0, 0][..], &[6][..], &[5][..])
    );
    assert_eq!((line.units, line.budget, line.day), (2, 3, 4));
    assert_eq!(LONGEST_RECORD, 32 + 1024);
}
