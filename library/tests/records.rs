//! Many lines in lent buffers: their records byte by byte, why no more are done, going on, and what refuses them all.

mod common;

use common::*;
use kurvneist::{
    payee_lines, raw, reduce_lines, Batch, Done, Ending, Postings, Refusal, Stop, LONGEST_RECORD,
    NET_LENGTH, WORK_LENGTH,
};

/// Does lines in buffers full of junk, with answers of this length; sees that the areas are then zero and the answers
/// changed at their front only. Answers the records.
fn run(batch: &Batch, lines: &[u8], room: usize) -> (Done, Vec<u8>) {
    let mut lent = Lent::new([WORK_LENGTH + 1, NET_LENGTH + 1, room]);
    let done = reduce_lines(
        batch,
        lines,
        &mut lent.work,
        &mut lent.net,
        &mut lent.output,
    );
    let done = done.expect("nothing to refuse");
    lent.check_run(done.written);
    (done, lent.output[..done.written].to_vec())
}

/// Refuses the whole call, in lines and in texts; nothing changes, and all numbers are 0.
fn check_refused(due: u8, batch: &Batch, lines: &[u8], lengths: [usize; 3]) {
    for (plain, named) in [
        (raw::reduce_lines as RawLines, reduce_lines as NamedLines),
        (raw::payee_lines, payee_lines),
    ] {
        let mut lent = Lent::new(lengths);
        let Lent { work, net, output } = &mut lent;
        let mut values = [u64::MAX; raw::DONE_LENGTH];
        let number = plain(batch, lines, work, net, output, &mut values);
        assert_eq!((number, values), (due, [0; raw::DONE_LENGTH]));
        let refused = named(batch, lines, work, net, output);
        assert_eq!(refused.map_err(Refusal::number), Err(due));
        lent.check_unchanged(due);
    }
}

type RawLines =
    fn(&Batch, &[u8], &mut [u8], &mut [u8], &mut [u8], &mut [u64; raw::DONE_LENGTH]) -> u8;

type NamedLines = fn(&Batch, &[u8], &mut [u8], &mut [u8], &mut [u8]) -> Result<Done, Refusal>;

fn numbers(done: Done) -> (usize, usize, usize, Stop) {
    (done.lines, done.read, done.written, done.stop)
}

/// The page's run: ending 0, 2 rewrites, 22 entries, no FORK granted, 2 kept, and a term of three symbols.
const RECORD_P: [u8; 35] = [
    0, 0, 0, 0, 0, 2, 0, 0, 0, 0, 0, 0, 0, 22, 0, 0, 0, 0, 0, 0, 0, 0, 0, 0, 0, 0, 0, 0, 0, 2, 0,
    3, 1, 1, 0,
];

#[test]
fn the_length_is_that_of_the_linked_library() {
    assert_eq!(raw::record_length(), LONGEST_RECORD);
}

#[test]
fn records_byte_by_byte() {
    let book = book_p();
    let batch = Batch::new(&book).budget(9).schedule(&[0; 29]);
    let lines = lines_of(&[&LINE_P[..], &[3], &[], &LINE_P]);
    let (done, records) = run(&batch, lines.as_bytes(), 3000);
    assert_eq!(numbers(done), (4, 19, 72, Stop::End));
    assert_eq!(records, [&RECORD_P[..], &[11, 10], &RECORD_P].concat());
    let spent = run(&batch.budget(1), lines_of(&[LINE_P]).as_bytes(), 2000).1;
    assert_eq!(spent[..14], [0, 1, 0, 0, 0, 1, 0, 0, 0, 0, 0, 0, 0, 19]);
    assert_eq!(spent[30..], [0, 5, 1, 2, 0, 1, 0]);
}

#[test]
fn the_longest_record_fits_exactly() {
    let book = book_p();
    let line = [vec![1; 1023], vec![0]].concat();
    let batch = Batch::new(&book).schedule(&[0; 3000]);
    let lines = lines_of(&[&line, &line]);
    let (done, records) = run(&batch, lines.as_bytes(), LONGEST_RECORD);
    assert_eq!(numbers(done), (1, 1026, LONGEST_RECORD, Stop::Room));
    assert_eq!((&records[30..32], &records[32..]), (&[4, 0][..], &line[..]));
    let (done, _) = run(&batch, lines.as_bytes(), 2 * LONGEST_RECORD);
    assert_eq!(numbers(done), (2, 2052, 2 * LONGEST_RECORD, Stop::End));
    let (done, _) = run(&batch, lines.as_bytes(), LONGEST_RECORD - 1);
    assert_eq!(numbers(done), (0, 0, 0, Stop::Room));
}

/// A number of each width that has more than one byte.
#[test]
fn numbers_have_the_high_byte_first() {
    let book = growing_book();
    let schedule = [vec![1; 70_000], vec![0; 200]].concat();
    let batch = Batch::new(&book).units(2).schedule(&schedule);
    let (_, records) = run(&batch, &[0, 2, 1, 0], 2000);
    let posting = Postings::of(&records).next().unwrap().unwrap();
    assert_eq!(posting.answer.ending, Ending::Full);
    assert_eq!(posting.answer.entries.to_be_bytes(), records[6..14]);
    assert!(posting.answer.entries > 70_000);
    assert_eq!(posting.answer.length, 994);
    assert_eq!(records[30..32], [3, 226]);
}

/// Where the lines are cut at any byte, those that are whole are done.
#[test]
fn cut_lines() {
    let book = book_p();
    let batch = Batch::new(&book).budget(9).schedule(&[0; 29]);
    let lines = lines_of(&[&LINE_P[..], &[], &LINE_P]);
    let ends = [(0, 0), (7, 35), (9, 36), (16, 71)];
    for length in 0..=lines.as_bytes().len() {
        let (done, _) = run(&batch, &lines.as_bytes()[..length], 3000);
        let whole = ends.iter().rposition(|(end, _)| *end <= length).unwrap();
        let (read, written) = ends[whole];
        let stop = match read == length {
            true => Stop::End,
            false => Stop::Cut,
        };
        assert_eq!(numbers(done), (whole, read, written, stop), "{length}");
        // Without room it is told too: there is nothing to go on with.
        let (done, _) = run(&batch, &lines.as_bytes()[read..length], 0);
        assert_eq!(numbers(done), (0, 0, 0, stop));
    }
}

#[test]
fn going_on_in_answers_of_any_length() {
    let book = book_p();
    let batch = Batch::new(&book).budget(9).schedule(&[0; 29]);
    let lines = lines_of(&[&LINE_P[..], &[9], &[0], &[0; 1025], &[], &LINE_P, &[1, 0]]);
    let (all, due) = run(&batch, lines.as_bytes(), 20_000);
    assert_eq!((all.lines, all.stop), (7, Stop::End));
    for room in (LONGEST_RECORD..LONGEST_RECORD + due.len() + 2).step_by(7) {
        let (mut records, mut left, mut count) = (Vec::new(), lines.as_bytes(), 0);
        loop {
            let (done, more) = run(&batch, left, room);
            records.extend(more);
            left = &left[done.read..];
            count += done.lines;
            if done.stop == Stop::End {
                break;
            }
            assert!(done.stop == Stop::Room && done.lines > 0, "{room}");
            assert!(room - done.written < LONGEST_RECORD);
        }
        assert_eq!((count, &records, left), (7, &due, &[][..]));
    }
}

#[test]
fn no_lines() {
    let batch = Batch::new(&[1, 0, 0]).schedule(&[0; 9]);
    for room in [0, 1, 5000] {
        assert_eq!(numbers(run(&batch, &[], room).0), (0, 0, 0, Stop::End));
        check_refused(
            2,
            &batch.book(&[0, 0]),
            &[],
            [WORK_LENGTH, NET_LENGTH, room],
        );
    }
    // Nobody acts by a schedule that can't be used either.
    let done = run(&batch.schedule(&[9]), &[], 5000).0;
    assert_eq!(numbers(done), (0, 0, 0, Stop::End));
}

#[test]
fn frame_and_book_refuse_all() {
    let (list, book) = (book(&[(2, Some(&[10, 0]))], &[]), book_p());
    let sound = Batch::new(&book).schedule(&[9]);
    let lines = lines_of(&[&[9; 1025][..], &LINE_P]);
    let refused =
        |due, batch: &Batch, lengths| check_refused(due, batch, lines.as_bytes(), lengths);
    let lengths = [WORK_LENGTH, NET_LENGTH, 5000];
    for units in [0, 9, 255] {
        refused(13, &sound.units(units).book(&[]), [0; 3]);
    }
    for short in [0, 1, WORK_LENGTH - 1] {
        refused(15, &sound.book(&[]), [short, NET_LENGTH, 0]);
    }
    for short in [0, 1, NET_LENGTH - 1] {
        refused(15, &sound.book(&[]), [WORK_LENGTH, short, 5000]);
    }
    refused(1, &sound.book(&book[..book.len() - 1]), lengths);
    refused(3, &sound.book(&list), lengths);
    refused(9, &sound.book(&[1, 0, 8]), lengths);
}

#[test]
fn bytes_that_are_too_many_for_any_book() {
    let lines = lines_of(&[LINE_P]);
    for further in [65_536, 65_537, 200_000] {
        let longer = [book_p(), vec![0; further]].concat();
        let lists = vec![255; further];
        for (due, book) in [(9, &longer), (3, &lists)] {
            let lengths = [WORK_LENGTH, NET_LENGTH, 5000];
            check_refused(due, &Batch::new(book), lines.as_bytes(), lengths);
        }
    }
}

#[test]
fn stops_have_numbers() {
    let stops = [Stop::End, Stop::Cut, Stop::Room];
    assert_eq!(stops.map(Stop::number), [0, 1, 2]);
    assert_eq!([0, 1, 2].map(Stop::new), stops.map(Some));
    assert_eq!([3, 255].map(Stop::new), [None; 2]);
}

#[test]
#[should_panic(expected = "a whole record")]
fn a_cut_record_is_none() {
    let _ = Postings::of(&RECORD_P[..34]).next();
}
