//! Every refusal number, and which is told where several are due.

mod common;

use common::*;
use comparison::draft::{Draft, OperatorDraft, RuleDraft, Symbol};
use comparison::model::*;

fn read(operators: Vec<OperatorDraft>, rules: Vec<RuleDraft>) -> Result<Book, u8> {
    read_book(&Draft::new(operators, rules).encode())
}

fn read_list(arity: u8, items: &[u8]) -> Result<Book, u8> {
    read(vec![with_strategy(arity, items)], vec![])
}

/// Reads one rule over a constant, an operator of one and one of two arguments.
fn read_rule(left: &[Symbol], right: &[Symbol]) -> Result<Book, u8> {
    read(
        vec![operator(0), operator(1), operator(2)],
        vec![rule(left, right)],
    )
}

#[test]
fn bits_that_run_out() {
    assert_eq!(read_book(&[]), Err(1));
    assert_eq!(read_book(&[1]), Err(1));
    assert_eq!(read_book(&[1, 0]), Err(1));
    let whole = book_p().encode();
    for length in 0..whole.len() {
        assert_eq!(read_book(&whole[..length]), Err(1), "{length} bytes");
    }
}

#[test]
fn strategies() {
    assert!(read_list(2, &[]).is_ok());
    assert!(read_list(2, &[8, 9, 8, 1, 1, 9, 0, 2, 0, 0]).is_ok());
    for list in [
        &[10, 0][..],
        &[15],
        &[8, 8, 9, 9, 0],
        &[9, 0],
        &[8, 0, 9, 0],
        &[3, 0],
        &[8, 3, 9, 0],
        &[1],
        &[8, 1, 9],
        &[8],
        &[0, 8, 0],
    ] {
        assert_eq!(read_list(2, list), Err(3), "{list:?}");
    }
}

#[test]
fn last_item_is_told_when_it_is_read() {
    // Length 2: the first item is sound and the second one's bits are missing.
    assert_eq!(read_book(&[0x01, 0x31, 0x08]), Err(1));
    // Length 1 and the item 1, with nothing after it.
    assert_eq!(read_book(&[0x01, 0x30, 0x88]), Err(3));
}

#[test]
fn rules() {
    assert!(read_rule(&[op(1), X], &[X]).is_ok());
    assert_eq!(read_rule(&[op(3)], &[op(0)]), Err(4));
    assert_eq!(read_rule(&[op(1), op(255)], &[op(0)]), Err(4));
    assert_eq!(read_rule(&[X], &[op(0)]), Err(5));
    assert_eq!(read_rule(&[op(1), X], &[Y]), Err(7));
    assert_eq!(read_rule(&[op(0)], &[op(1), X]), Err(7));
}

/// Number 6 is given no longer: a variable may stand again on the left, and the
/// faults behind it are told as they come.
#[test]
fn variables_that_stand_again() {
    assert!(read_rule(&[op(2), X, X], &[X]).is_ok());
    let pair = [op(2), X];
    let row = [&pair.repeat(31)[..], &[X]].concat();
    assert!(read_rule(&row, &[X]).is_ok());
    assert_eq!(read_rule(&[op(2), X, X], &[Y]), Err(7));
    assert_eq!(read_rule(&[op(2), X, op(2), X, op(3)], &[X]), Err(4));
    assert_eq!(read_rule(&pair.repeat(32), &[X]), Err(8));
    let mut cut = Draft::new(
        vec![operator(0), operator(2)],
        vec![rule(&[op(1), X, X], &[op(1), X, X])],
    )
    .encode();
    cut.pop();
    assert_eq!(read_book(&cut), Err(1));
}

#[test]
fn side_of_64_sound_symbols_and_more_due() {
    let open = [op(1); 64];
    // No bit is left after the 64th symbol, and still 8 is told.
    assert_eq!(read_rule(&[op(1), X], &open), Err(8));
    assert_eq!(read_rule(&open, &[op(0)]), Err(8));
    // A fault in the 64th symbol itself is met first.
    let unknown = [&[op(1); 63][..], &[op(9)]].concat();
    assert_eq!(read_rule(&unknown, &[op(0)]), Err(4));
    let absent = [&[op(1); 63][..], &[Y]].concat();
    assert_eq!(read_rule(&[op(1), X], &absent), Err(7));
    // Bits that run out inside the 64th symbol.
    let mut cut = Draft::new(
        vec![operator(0), operator(1), operator(2)],
        vec![rule(&open, &[])],
    )
    .encode();
    cut.pop();
    assert_eq!(read_book(&cut), Err(1));
}

#[test]
fn left_variable_cut_short() {
    // One constant and one rule; then the variable bit and three of its four
    // bits.
    assert_eq!(read_book(&[0x01, 0x00, 0x18]), Err(1));
}

#[test]
fn book_end() {
    assert_eq!(read_book(&[0x01, 0x00, 0x01]), Err(9));
    assert_eq!(read_book(&[0x01, 0x00, 0x08]), Err(9));
    assert_eq!(read_book(&[0x01, 0x00, 0x00, 0x00]), Err(9));
    // Two operators leave no padding.
    assert!(read_book(&[0x02, 0x00, 0x00]).is_ok());
    assert_eq!(read_book(&[0x02, 0x00, 0x00, 0x00]), Err(9));
}

#[test]
fn lines() {
    let line = |line: &[u8]| ask(&book_p(), line, 1, 9, &[]).map(|found| found.term);
    assert_eq!(line(&LINE_P), Ok(LINE_P.to_vec()));
    assert_eq!(line(&[]), Err(10));
    assert_eq!(line(&[2, 0]), Err(10));
    assert_eq!(line(&[0, 0]), Err(10));
    assert_eq!(line(&[3]), Err(11));
    assert_eq!(line(&[2, 255]), Err(11));
    // No symbol is due after a complete term.
    assert_eq!(line(&[0, 255]), Err(10));
    assert_eq!(line(&[255; 1025]), Err(12));
    assert_eq!(line(&[255; 1024]), Err(11));
}

#[test]
fn places_from_top_to_bottom() {
    let refused =
        |units, [work, net, output]: [usize; 3], book: &[u8], line: &[u8], schedule: &[u8]| {
            let (lent, asked) = (Lengths { work, net, output }, Lengths::of_areas(100, 50));
            answer(book, line, units, 9, 0, schedule, lent, asked).unwrap_err()
        };
    let book = book_p().encode();
    let long = [0; 1025];
    assert_eq!(refused(0, [99, 49, 1023], &[], &long, &[9]), 13);
    assert_eq!(refused(1, [99, 50, 1023], &[], &long, &[9]), 15);
    assert_eq!(refused(1, [100, 49, 1023], &[], &long, &[9]), 15);
    assert_eq!(refused(1, [100, 50, 1023], &[], &long, &[9]), 16);
    assert_eq!(refused(1, [100, 50, 1024], &[], &long, &[9]), 1);
    assert_eq!(refused(1, [100, 50, 1024], &book, &long, &[9]), 12);
    assert_eq!(refused(1, [100, 50, 1024], &book, &[0, 9], &[9]), 10);
    assert_eq!(refused(1, [100, 50, 1024], &book, &LINE_P, &[9]), 14);
    assert_eq!(refused(1, [100, 50, 1024], &book, &LINE_P, &[1]), 14);
}

#[test]
fn schedule_is_checked_to_its_end() {
    let schedule = [vec![0; 400], vec![2]].concat();
    assert_eq!(ask(&book_p(), &LINE_P, 2, 9, &schedule), Err(14));
}

#[test]
fn writer_tells_the_books_faults_first() {
    assert_eq!(written(&[0], 0), Err(1));
    assert_eq!(written(&[0, 0], 0), Err(2));
    assert_eq!(written(&[0x01, 0x00, 0x01], 0), Err(9));
    assert_eq!(written(&[0x01, 0x00, 0x00], 2), Err(16));
    assert_eq!(written(&[0x01, 0x00, 0x00], 3), Ok(vec![0x01, 0x00, 0x00]));
}

fn page_text(input: &[u8]) -> String {
    String::from_utf8(page(input)).unwrap()
}

#[test]
fn input_cut_short_anywhere_before_the_schedule() {
    let whole = input(&book_p().encode(), &LINE_P, 1, 9, &[]);
    for length in 0..whole.len() {
        assert_eq!(
            page_text(&whole[..length]),
            "REDUCE 1\nrefused 17\n",
            "{length} bytes"
        );
    }
    assert!(page_text(&whole).starts_with("REDUCE 1\nend 3\n"));
}

#[test]
fn schedules_of_32768_and_32769_bytes() {
    let with =
        |length: usize| page_text(&input(&book_p().encode(), &LINE_P, 1, 9, &vec![0; length]));
    assert!(with(32_768).starts_with("REDUCE 1\nend 0\n"));
    assert_eq!(with(32_769), "REDUCE 1\nrefused 17\n");
    // 17 is told before the rest.
    let many = input(&[], &[], 0, 0, &vec![9; 32_769]);
    assert_eq!(page_text(&many), "REDUCE 1\nrefused 17\n");
}

#[test]
fn refusals_on_the_page() {
    assert_eq!(
        page_text(&input(&[], &[], 0, 0, &[9])),
        "REDUCE 1\nrefused 13\n"
    );
    assert_eq!(
        page_text(&input(&[], &[], 1, 0, &[9])),
        "REDUCE 1\nrefused 1\n"
    );
    let long = vec![0; 1025];
    assert_eq!(
        page_text(&input(&book_p().encode(), &long, 1, 0, &[])),
        "REDUCE 1\nrefused 12\n"
    );
}
