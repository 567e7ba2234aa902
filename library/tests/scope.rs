//! The cases of document 01, starred ones first.

mod common;

use std::collections::HashSet;

use common::*;
use kurvneist::{round_robin, written_book, Answer, Ending, Engine, Refusal, Request};

fn posted(request: &Request) -> (Answer, Vec<u8>) {
    let mut engine = Engine::new();
    let posting = engine.post(request).expect("nothing to refuse");
    (posting.answer, posting.term.to_vec())
}

fn refused<T>(result: Result<T, Refusal>) -> Option<u8> {
    result.err().map(Refusal::number)
}

#[test]
fn page_of_the_document() {
    let (answer, term) = posted(&page(&book_p(), &[0; 29]));
    assert_eq!((answer.ending, answer.entries), (Ending::Finished, 22));
    assert_eq!((answer.rewrites, answer.granted, answer.kept), (2, 0, 2));
    assert_eq!((answer.length, term), (3, vec![1, 1, 0]));
}

#[test]
fn one_entry_less_is_cut() {
    let (answer, term) = posted(&page(&book_p(), &[0; 21]));
    assert_eq!((answer.ending, answer.entries), (Ending::Cut, 21));
    assert_eq!((answer.rewrites, answer.granted, answer.kept), (2, 0, 2));
    assert_eq!(term, [1, 1, 0]);
}

#[test]
fn budget_of_one_is_spent() {
    let book = book_p();
    let (answer, term) = posted(&page(&book, &[0; 29]).budget(1));
    assert_eq!(answer.ending, Ending::Spent);
    assert_eq!((answer.rewrites, answer.entries, answer.kept), (1, 19, 2));
    assert_eq!(term, [1, 2, 0, 1, 0]);
}

#[test]
fn main_unit_waits_for_a_unit_that_never_acts() {
    let book = book_p();
    let (answer, term) = posted(&page(&book, &[0; 100]).units(2));
    assert_eq!((answer.ending, answer.entries), (Ending::Cut, 100));
    assert_eq!((answer.rewrites, answer.granted, answer.kept), (0, 1, 0));
    assert_eq!(term, LINE_P);
}

#[test]
fn join_passes_at_entry_thirteen() {
    let book = book_p();
    let schedule = [round_robin(2, 13), vec![0]].concat();
    let up_to = |entries: usize| {
        let request = page(&book, &schedule[..entries]).units(2);
        posted(&request).0
    };
    let thirteen = up_to(13);
    assert_eq!((thirteen.ending, thirteen.entries), (Ending::Cut, 13));
    assert_eq!(
        (thirteen.granted, thirteen.kept, thirteen.rewrites),
        (1, 0, 0)
    );
    // Unit 0 had the JOIN on top at entry 13, and has the WHOLE under it at the next.
    assert_eq!(up_to(14).rewrites, 1);
}

/// Unit 0 waits at its JOIN after five entries, and takes what unit 1 forks then; one entry earlier it is busy.
#[test]
fn the_main_unit_helps_while_it_waits() {
    let book = book_p();
    let line = [2, 2, 1, 0, 0, 0];
    let after = |zeros: usize, then: &[u8]| {
        let schedule = [&vec![0; zeros][..], &[1, 1], then].concat();
        let (answer, term) = posted(&page(&book, &schedule).line(&line).units(2));
        (answer.ending, answer.granted, answer.kept, term)
    };
    assert_eq!(after(5, &[]), (Ending::Cut, 2, 0, line.to_vec()));
    assert_eq!(after(4, &[]), (Ending::Cut, 1, 1, line.to_vec()));
    // Unit 1 alone gets no further: its JOIN waits for unit 0.
    assert_eq!(after(5, &[1; 100]), (Ending::Cut, 2, 0, line.to_vec()));
    let turns = round_robin(2, 100);
    let (ending, granted, kept, term) = after(5, &turns);
    assert_eq!((ending, granted + kept), (Ending::Finished, 4));
    assert_eq!(term, [1, 0]);
}

/// The units take turns of 1 to 9 entries, upwards and downwards.
fn schedules(units: u8) -> Vec<Vec<u8>> {
    let upwards = (1..=9).map(|turn| {
        let turns = round_robin(units, 5000 / turn).into_iter();
        turns.flat_map(|unit| vec![unit; turn]).collect()
    });
    let upwards: Vec<Vec<u8>> = upwards.collect();
    let turned = |schedule: &Vec<u8>| schedule.iter().map(|unit| units - 1 - unit).collect();
    let downwards = upwards.iter().map(turned).collect();
    [upwards, downwards].concat()
}

/// In a finished run granted and kept together are the FORKs of a run on one unit, whatever the units and the schedule.
#[test]
fn granted_and_kept_are_the_forks_of_one_unit() {
    let book = book_p();
    let counts = |line, units, schedule: &[u8]| {
        let (answer, _) = posted(
            &page(&book, schedule)
                .line(line)
                .units(units)
                .budget(u32::MAX),
        );
        assert_eq!(answer.ending, Ending::Finished);
        (answer.granted, answer.kept)
    };
    let sums = [2, 2, 1, 1, 0, 1, 0, 2, 1, 0, 2, 1, 1, 1, 0, 2, 1, 0, 1, 0];
    let mut shares = HashSet::new();
    for (line, forks) in [(&LINE_P[..], 2), (&sums, 15)] {
        assert_eq!(counts(line, 1, &[0; 5000]), (0, forks));
        for units in 2..=8 {
            for schedule in schedules(units) {
                let (granted, kept) = counts(line, units, &schedule);
                assert_eq!(granted + kept, forks, "{units} units");
                shares.insert((granted, kept));
            }
        }
    }
    assert!(
        shares.contains(&(15, 0)) && shares.contains(&(8, 7)),
        "{shares:?}"
    );
    // When the second FORK comes, unit 1 has carried out its EXIT and not yet its SLEEP.
    let schedule = [vec![0; 2], vec![1; 5], vec![0; 100]].concat();
    assert_eq!(counts(&LINE_P, 2, &schedule), (1, 1));
}

#[test]
fn the_two_settled_lists() {
    let written = |arity, list: &[u8]| written_book(&book(&[(arity, Some(list))], &[]));
    // Both settle to the default.
    assert_eq!(written(1, &[1, 0, 1, 0]), Ok(book(&[(1, None)], &[])));
    assert_eq!(
        written(2, &[8, 1, 1, 9, 8, 9, 2, 0]),
        Ok(book(&[(2, None)], &[]))
    );
    // And where the default differs, the settled list is written.
    assert_eq!(
        written(3, &[8, 1, 1, 9, 8, 9, 2, 0]),
        Ok(book(&[(3, Some(&[1, 2, 0]))], &[]))
    );
}

#[test]
fn small_books_byte_by_byte() {
    let constant = [0x01, 0x00, 0x00];
    assert_eq!(written_book(&constant), Ok(constant.to_vec()));
    let (answer, term) = posted(&page(&constant, &[0; 9]).line(&[0]));
    assert_eq!((answer.ending, answer.rewrites), (Ending::Finished, 0));
    assert_eq!((answer.entries, term), (3, vec![0]));
    assert_eq!(
        written_book(&[0x02, 0x03, 0x10, 0x80, 0x00]),
        Ok(vec![0x02, 0x02, 0x00])
    );
    assert_eq!(refused(written_book(&[0x00])), Some(1));
}

#[test]
fn lines_of_1024_and_1025_symbols() {
    let book = book_p();
    let line = |length: usize| [vec![1; length - 1], vec![0]].concat();
    let (longest, longer) = (line(1024), line(1025));
    let request = page(&book, &[0; 32_768]).line(&longest);
    let (answer, term) = posted(&request);
    assert_eq!((answer.ending, answer.length), (Ending::Finished, 1024));
    assert_eq!(term, longest);
    let longer = request.line(&longer);
    assert_eq!(refused(Engine::new().post(&longer)), Some(12));
}

#[test]
fn sides_of_64_and_65_symbols() {
    let chain = |length: usize| [vec![op(1); length - 1], vec![op(0)]].concat();
    let read = |left: usize, right: usize| {
        let rule = (&chain(left)[..], &chain(right)[..]);
        refused(written_book(&book(&[(0, None), (1, None)], &[rule])))
    };
    assert_eq!(read(64, 64), None);
    assert_eq!(read(65, 64), Some(8));
    assert_eq!(read(64, 65), Some(8));
}

#[test]
fn units_of_0_and_9() {
    let book = book_p();
    let with = |units| {
        let request = page(&book, &[0; 29]).units(units);
        refused(Engine::new().post(&request))
    };
    assert_eq!([0, 1, 8, 9].map(with), [Some(13), None, None, Some(13)]);
}

/// f(X) gives g(X, X): the copy counts in the new size.
#[test]
fn full_counts_every_copy() {
    let book = book(
        &[(0, None), (1, Some(&[0])), (2, Some(&[0])), (1, None)],
        &[(&[op(1), X], &[op(2), X, X])],
    );
    let line = |part: usize| [vec![1], vec![3; part - 1], vec![0]].concat();
    // 1 + 2 * 511 = 1023 symbols fit, 1 + 2 * 512 = 1025 do not.
    let (fits, _) = posted(&page(&book, &[0; 9]).line(&line(511)));
    assert_eq!((fits.ending, fits.rewrites), (Ending::Finished, 1));
    assert_eq!(fits.length, 1023);
    let (full, term) = posted(&page(&book, &[0; 9]).line(&line(512)));
    assert_eq!((full.ending, full.rewrites), (Ending::Full, 0));
    assert_eq!((full.entries, term), (2, line(512)));
}
