//! Texts: their terms and runs, what refuses them and in which order, and what becomes of the lent buffers.

mod common;

use common::*;
use kurvneist::{
    payee, raw, reduce, Answer, Ending, Engine, Refusal, Request, NET_LENGTH, OUTPUT_LENGTH,
    WORK_LENGTH,
};

fn with_arity(place: usize, arity: u8) -> Vec<u8> {
    let mut operators = class_operators();
    operators[place] = (arity, None);
    book(&operators, &[])
}

fn request<'a>(book: &'a [u8], text: &'a [u8], schedule: &'a [u8]) -> Request<'a> {
    page(book, schedule).line(text)
}

/// Runs in buffers full of junk; sees that the areas are then zero and the output changed at its front only.
fn run(request: &Request) -> (Answer, Vec<u8>) {
    let mut lent = Lent::new(LENGTHS);
    let answer = payee(request, &mut lent.work, &mut lent.net, &mut lent.output);
    let answer = answer.expect("nothing to refuse");
    lent.check_run(answer.length);
    (answer, lent.output[..answer.length].to_vec())
}

fn term(text: &[u8]) -> Vec<u8> {
    run(&request(&class_book(&[]), text, &[])).1
}

/// Puts a text in buffers of these lengths and sees that it is refused and nothing changes.
fn check_refused(due: u8, request: &Request, lengths: [usize; 3]) {
    let Lent {
        mut work,
        mut net,
        mut output,
    } = Lent::new(lengths);
    let mut values = [u64::MAX; raw::ANSWER_LENGTH];
    let number = raw::payee(request, &mut work, &mut net, &mut output, &mut values);
    assert_eq!((number, values), (due, [0; raw::ANSWER_LENGTH]));
    assert_eq!(
        payee(request, &mut work, &mut net, &mut output).map_err(Refusal::number),
        Err(due)
    );
    Lent { work, net, output }.check_unchanged(due);
}

fn check_refused_in_sound_frame(due: u8, request: &Request) {
    check_refused(due, request, LENGTHS);
}

#[test]
fn terms_of_texts() {
    assert_eq!(term(b"AZaz09"), [1, 26, 1, 26, 32, 41, 0]);
    assert_eq!(term(b"Caf\xE9 7"), [3, 1, 6, 5, 42, 39, 0]);
    assert_eq!(term(b"\xC6\xD0\xD8\xDE\xDF"), [27, 28, 29, 30, 31, 0]);
    assert_eq!(term(b"\xE6\xF0\xF8\xFE\xFF"), [27, 28, 29, 30, 25, 0]);
    assert_eq!(term(b"a\xD7b\xF7c"), [1, 42, 2, 42, 3, 0]);
    assert_eq!(term(b" .a - b,, "), [1, 42, 2, 0]);
    for without_letters in [&b""[..], b" ", b"\xD7\xF7\x00\xBF"] {
        assert_eq!(term(without_letters), [0]);
    }
}

#[test]
fn a_run_from_a_text_is_that_of_its_term() {
    // A(X) gives X.
    let book = class_book(&[(&[op(1), X], &[X])]);
    let of_text = request(&book, b"\xC5 bad", &[0; 40]);
    let of_term = of_text.line(&[1, 42, 2, 1, 4, 0]);
    let (answer, term) = run(&of_text);
    assert_eq!((answer.ending, answer.rewrites), (Ending::Finished, 2));
    assert_eq!(term, [42, 2, 4, 0]);
    let mut lent = Lent::new(LENGTHS);
    assert_eq!(
        reduce(&of_term, &mut lent.work, &mut lent.net, &mut lent.output),
        Ok(answer)
    );
    assert_eq!(lent.output[..answer.length], term);
}

#[test]
fn an_engine_posts_terms_and_texts_in_turn() {
    let book = class_book(&[(&[op(1), X], &[X])]);
    let (as_text, as_term) = (
        request(&book, b"a\xC4\xE5b", &[0; 40]),
        request(&book, &[2, 0], &[0; 40]),
    );
    let mut engine = Engine::new();
    for _ in 0..3 {
        assert_eq!(engine.post_payee(&as_text).unwrap().term, [2, 0]);
        assert_eq!(engine.post(&as_term).unwrap().term, [2, 0]);
        // A refusal in between leaves no trace.
        let as_wrong_term = engine.post(&as_text).map_err(Refusal::number);
        assert_eq!(as_wrong_term.map(|posting| posting.answer), Err(11));
    }
}

#[test]
fn long_texts_18() {
    let book = class_book(&[]);
    for length in [1024, 1025, 65_535, 100_000] {
        check_refused_in_sound_frame(18, &request(&book, &vec![b'x'; length], &[]));
    }
    // 1,023 letters and `end` are 1,024 symbols, whatever stands around them.
    let most = [b" ".repeat(70_000), vec![b'x'; 1023], b" ".repeat(70_000)].concat();
    assert_eq!(term(&most), [vec![24; 1023], vec![0]].concat());
    // So are 512 letters with 511 runs of separators between them.
    let words = b"x - ".repeat(512);
    assert_eq!(term(&words).len(), 1024);
    let more = [&words[..], b"x"].concat();
    check_refused_in_sound_frame(18, &request(&book, &more, &[]));
}

#[test]
fn books_without_the_class_operators_19() {
    for place in 0..=42 {
        let due = u8::from(place > 0);
        for arity in (0..=7).filter(|&arity| arity != due) {
            check_refused_in_sound_frame(19, &request(&with_arity(place, arity), b"", &[]));
        }
    }
    for count in 1..=42 {
        let fewer = book(&class_operators()[..count], &[]);
        check_refused_in_sound_frame(19, &request(&fewer, b"a", &[]));
    }
    check_refused_in_sound_frame(19, &request(&book_p(), b"a", &[]));
}

#[test]
fn further_operators_and_strategies_are_free() {
    let mut operators = class_operators();
    operators[1] = (1, Some(&[0]));
    operators[42] = (1, Some(&[]));
    operators.push((7, None));
    operators.push((0, Some(&[])));
    let book = book(&operators, &[]);
    assert_eq!(run(&request(&book, b"a b", &[])).1, [1, 42, 2, 0]);
}

/// What a line is refused for by 10, 11 and 12 is a text, refused by its length only.
#[test]
fn lines_that_are_refused_are_texts() {
    let book = class_book(&[]);
    let lines: [(u8, &[u8], u8); 4] = [
        (10, &[], 0),
        (10, &[0, 0], 0),
        (11, &[255; 1024], 18),
        (12, &[0; 5000], 0),
    ];
    let mut engine = Engine::new();
    for (of_line, line, of_text) in lines {
        let asked = request(&book, line, &[]);
        assert_eq!(
            engine.post(&asked).map_or_else(Refusal::number, |_| 0),
            of_line
        );
        assert_eq!(
            engine
                .post_payee(&asked)
                .map_or_else(Refusal::number, |_| 0),
            of_text
        );
    }
}

#[test]
fn places_from_top_to_bottom() {
    let (lacking, sound) = (with_arity(42, 0), class_book(&[]));
    let long = [b'a'; 1024];
    let refused = |due, units, book: &[u8], text: &[u8], lengths| {
        let request = request(book, text, &[9]).units(units);
        check_refused(due, &request, lengths);
    };
    refused(13, 0, &[], &long, [0; 3]);
    refused(13, 9, &lacking, &long, [0; 3]);
    refused(15, 1, &[], &long, [WORK_LENGTH - 1, NET_LENGTH, 0]);
    refused(15, 1, &[], &long, [WORK_LENGTH, NET_LENGTH - 1, 0]);
    let short = [WORK_LENGTH, NET_LENGTH, OUTPUT_LENGTH - 1];
    refused(16, 1, &[], &long, short);
    refused(1, 1, &[], &long, LENGTHS);
    let further_byte = [&lacking[..], &[0]].concat();
    refused(9, 1, &further_byte, &long, LENGTHS);
    refused(19, 1, &lacking, &long, LENGTHS);
    refused(19, 1, &lacking, b"a", LENGTHS);
    refused(18, 1, &sound, &long, LENGTHS);
    refused(14, 1, &sound, b"a", LENGTHS);
}

#[test]
fn refusals_of_texts_in_words() {
    let words = |number| Refusal::new(number).unwrap().to_string();
    assert_eq!(
        words(18),
        "refused 18: the text's term would have over 1,024 symbols"
    );
    assert_eq!(
        words(19),
        "refused 19: the book lacks the operators of texts: 0 without arguments, and 1 to 42 with one argument each"
    );
}
