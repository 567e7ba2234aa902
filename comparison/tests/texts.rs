//! Change 1: payees' texts, the table of their classes, and what refuses them.

mod common;

use common::*;
use comparison::draft::{Case, Draft, OperatorDraft, RuleDraft};
use comparison::model::*;
use comparison::random::{text_case, Random};

/// The class operators and no rules.
fn class_operators() -> Vec<OperatorDraft> {
    [vec![operator(0)], vec![operator(1); 42]].concat()
}

fn class_book(rules: &[RuleDraft]) -> Draft {
    Draft::new(class_operators(), rules.to_vec())
}

fn with_arity(place: usize, arity: u8) -> Draft {
    let mut draft = class_book(&[]);
    draft.operators[place] = operator(arity);
    draft
}

/// Asks the model for a run from a text in a sound frame.
fn ask_text(draft: &Draft, text: &[u8], schedule: &[u8]) -> Result<Answer, u8> {
    let book = draft.encode();
    let lengths = Lengths::LEAST;
    answer_to(Form::Text, &book, text, 1, 9, 0, schedule, lengths, lengths)
}

/// The term of a text, as a run that is cut at once shows it.
fn term(text: &[u8]) -> Vec<u8> {
    let cut = ask_text(&class_book(&[]), text, &[]).unwrap();
    assert_eq!((cut.ending, cut.rewrites), (ending::CUT, 0));
    cut.term
}

// ---------------------------------------------------------------------------
// The table

#[test]
fn a_small_letter_has_its_capitals_class() {
    let capitals = (b'A'..=b'Z').chain(0xC0..=0xDE);
    for capital in capitals {
        assert_eq!(class(capital + 0x20), class(capital), "{capital:02X}");
    }
}

#[test]
fn letters_and_digits_in_order() {
    let classes = |bytes: &[u8]| bytes.iter().map(|&byte| class(byte)).collect::<Vec<_>>();
    let numbers = |numbers: std::ops::RangeInclusive<u8>| numbers.map(Some).collect::<Vec<_>>();
    assert_eq!(classes(b"ABCDEFGHIJKLMNOPQRSTUVWXYZ"), numbers(1..=26));
    assert_eq!(classes(b"\xC6\xD0\xD8\xDE\xDF"), numbers(27..=31));
    assert_eq!(classes(b"0123456789"), numbers(32..=41));
}

/// By the names of ISO 8859-1: its bytes are the characters of the same numbers.
#[test]
fn accented_letters_have_their_base_letters_class() {
    let bases = [
        ('A', "ÀÁÂÃÄÅàáâãäå"),
        ('C', "Çç"),
        ('E', "ÈÉÊËèéêë"),
        ('I', "ÌÍÎÏìíîï"),
        ('N', "Ññ"),
        ('O', "ÒÓÔÕÖòóôõö"),
        ('U', "ÙÚÛÜùúûü"),
        ('Y', "Ýýÿ"),
    ];
    for (base, accented) in bases {
        for letter in accented.chars() {
            let byte = u8::try_from(letter).unwrap();
            assert_eq!(class(byte), class(base as u8), "{letter}");
        }
    }
}

#[test]
fn pairs_and_those_without_one() {
    let of = |letter: char| class(u8::try_from(letter).unwrap());
    let pairs = [
        ('Æ', 'æ', 27),
        ('Ð', 'ð', 28),
        ('Ø', 'ø', 29),
        ('Þ', 'þ', 30),
    ];
    for (capital, small, number) in pairs {
        assert_eq!((of(capital), of(small)), (Some(number), Some(number)));
    }
    assert_eq!(of('ß'), Some(31));
    assert_eq!(of('ÿ'), of('Y'));
}

#[test]
fn every_other_byte_separates() {
    assert_eq!((class(0xD7), class(0xF7)), (None, None));
    let letter = |byte: u8| {
        let character = char::from(byte);
        byte.is_ascii_alphanumeric() || byte >= 0xC0 && character.is_alphabetic()
    };
    for byte in 0..=255 {
        assert_eq!(class(byte).is_some(), letter(byte), "{byte:02X}");
    }
    let separators = (0..=255).filter(|&byte| class(byte).is_none());
    assert_eq!(separators.count(), 256 - 26 - 26 - 10 - 62);
}

// ---------------------------------------------------------------------------
// Terms

#[test]
fn a_texts_term() {
    assert_eq!(term(b"Caf\xE9 7"), [3, 1, 6, 5, 42, 39, 0]);
    assert_eq!(term(b"CAFE 7"), term(b"caf\xC9\xD7\xF7 - 7"));
    assert_ne!(term(b"CAFE7"), term(b"CAFE 7"));
    assert_eq!(term(b"Wei\xDF"), [23, 5, 9, 31, 0]);
    assert_eq!(term(b"\xFF"), [25, 0]);
}

#[test]
fn an_empty_text_and_separators_alone_are_end() {
    assert_eq!(term(b""), [0]);
    assert_eq!(term(b" "), [0]);
    assert_eq!(term(b"\x00\xD7,;\xF7\n"), [0]);
}

#[test]
fn no_gap_at_the_ends_and_one_for_each_run() {
    assert_eq!(term(b"  a b  "), [1, 42, 2, 0]);
    assert_eq!(term(b"a . / b"), [1, 42, 2, 0]);
    assert_eq!(term(b",a"), [1, 0]);
    assert_eq!(term(b"a,"), [1, 0]);
}

/// Two texts give one term exactly if their squeezed classes agree.
#[test]
fn one_term_exactly_if_the_squeezed_classes_agree() {
    let texts: [&[u8]; 8] = [b"", b"-", b"ab", b"AB ", b"a b", b"a--b", b"\xE0b", b"ab0"];
    for one in texts {
        for other in texts {
            let agree = squeezed(one) == squeezed(other);
            assert_eq!(term(one) == term(other), agree, "{one:?} {other:?}");
        }
    }
}

#[test]
fn a_run_from_a_text_is_that_of_its_term() {
    // a(X) gives X: every A is dropped, from the right.
    let draft = class_book(&[rule(&[op(1), X], &[X])]);
    let found = ask_text(&draft, b"\xC5 bad", &[0; 40]).unwrap();
    assert_eq!((found.ending, found.rewrites), (ending::FINISHED, 2));
    assert_eq!(found.term, [42, 2, 4, 0]);
    assert_eq!(ask(&draft, &[1, 42, 2, 1, 4, 0], 1, 9, &[0; 40]), Ok(found));
}

// ---------------------------------------------------------------------------
// Refusals

#[test]
fn terms_of_1024_symbols_and_1025() {
    let book = class_book(&[]);
    let most = ask_text(&book, &[b'x'; 1023], &[]).unwrap();
    assert_eq!(most.term, [vec![24; 1023], vec![0]].concat());
    assert_eq!(ask_text(&book, &[b'x'; 1024], &[]), Err(18));
    assert_eq!(
        ask_text(&book, &[b'x'; 1022], &[]).unwrap().term.len(),
        1023
    );
    // A run of separators is a symbol: 511 gaps between 512 letters.
    let words = b"x  ".repeat(512);
    assert_eq!(ask_text(&book, &words, &[]).unwrap().term.len(), 1024);
    assert_eq!(ask_text(&book, &[&words[..], b"x"].concat(), &[]), Err(18));
}

#[test]
fn a_text_may_be_far_longer_than_its_term() {
    let book = class_book(&[]);
    let spread = [
        vec![b' '; 30_000],
        b"a".to_vec(),
        vec![0xD7; 35_533],
        b"b".to_vec(),
    ]
    .concat();
    assert_eq!(spread.len(), 65_535);
    assert_eq!(ask_text(&book, &spread, &[]).unwrap().term, [1, 42, 2, 0]);
    assert_eq!(ask_text(&book, &[b'a'; 65_535], &[]), Err(18));
}

#[test]
fn books_without_the_class_operators() {
    for place in 0..=42 {
        let due = u8::from(place > 0);
        for arity in (0..=7).filter(|&arity| arity != due) {
            let book = with_arity(place, arity);
            assert_eq!(ask_text(&book, b"", &[]), Err(19), "{place}: {arity}");
        }
    }
    let mut fewer = class_book(&[]);
    while fewer.operators.len() > 1 {
        fewer.operators.pop();
        assert_eq!(ask_text(&fewer, b"a", &[]), Err(19));
    }
    assert_eq!(ask_text(&book_p(), b"", &[]), Err(19));
}

#[test]
fn operators_beyond_42_and_strategies_are_free() {
    let mut draft = class_book(&[]);
    draft.operators.extend([operator(0), operator(7)]);
    draft.operators[1] = with_strategy(1, &[0]);
    draft.operators[42] = with_strategy(1, &[]);
    assert_eq!(ask_text(&draft, b"a b", &[]).unwrap().term, [1, 42, 2, 0]);
}

#[test]
fn places_from_top_to_bottom() {
    let refused = |units, [work, net, output]: [usize; 3], book: &[u8], text: &[u8]| {
        let (lent, asked) = (Lengths { work, net, output }, Lengths::of_areas(100, 50));
        answer_to(Form::Text, book, text, units, 9, 0, &[9], lent, asked).unwrap_err()
    };
    let (lacking, sound) = (with_arity(42, 0).encode(), class_book(&[]).encode());
    let long = [b'a'; 1024];
    assert_eq!(refused(0, [99, 49, 1023], &[], &long), 13);
    assert_eq!(refused(1, [99, 50, 1023], &[], &long), 15);
    assert_eq!(refused(1, [100, 49, 1023], &[], &long), 15);
    assert_eq!(refused(1, [100, 50, 1023], &[], &long), 16);
    assert_eq!(refused(1, [100, 50, 1024], &[], &long), 1);
    let padded = [&lacking[..], &[0]].concat();
    assert_eq!(refused(1, [100, 50, 1024], &padded, &long), 9);
    assert_eq!(refused(1, [100, 50, 1024], &lacking, &long), 19);
    assert_eq!(refused(1, [100, 50, 1024], &lacking, b"a"), 19);
    assert_eq!(refused(1, [100, 50, 1024], &sound, &long), 18);
    assert_eq!(refused(1, [100, 50, 1024], &sound, b"a"), 14);
}

// ---------------------------------------------------------------------------
// The page

fn page_text(input: &[u8]) -> String {
    String::from_utf8(page_of(Form::Text, input)).unwrap()
}

#[test]
fn the_page_is_the_same() {
    let book = class_book(&[rule(&[op(1), X], &[X])]).encode();
    assert_eq!(
        page_text(&input(&book, b"K\xE4se", 1, 9, &[0; 40])),
        "REDUCE 1\nend 0\nrewrites 1\nentries 12\ngranted 0\nkept 0\nterm 11 19 5 0\n"
    );
    assert_eq!(
        page_text(&input(&book, &[b'a'; 65_535], 1, 9, &[9])),
        "REDUCE 1\nrefused 18\n"
    );
    assert_eq!(
        page_text(&input(&book_p().encode(), b"", 1, 9, &[9])),
        "REDUCE 1\nrefused 19\n"
    );
}

#[test]
fn input_cut_short_anywhere_before_the_schedule() {
    let whole = input(&class_book(&[]).encode(), b"Caf\xE9", 1, 9, &[]);
    for length in 0..whole.len() {
        assert_eq!(page_text(&whole[..length]), "REDUCE 1\nrefused 17\n");
    }
    assert!(page_text(&whole).ends_with("term 3 1 6 5 0\n"));
    let many = input(&[], b"", 0, 0, &vec![9; 32_769]);
    assert_eq!(page_text(&many), "REDUCE 1\nrefused 17\n");
}

// ---------------------------------------------------------------------------
// Random texts

fn random_texts() -> impl Iterator<Item = Case> {
    (0..3000).map(|number| text_case(&mut Random::for_case(41, number)))
}

#[test]
fn random_texts_have_every_byte_and_length() {
    let mut bytes = [false; 256];
    let mut lengths = Vec::new();
    let (mut runs, mut longest) = (0, 0);
    for case in random_texts() {
        for &byte in &case.line {
            bytes[usize::from(byte)] = true;
        }
        lengths.push(squeezed(&case.line).len() + 1);
        runs += usize::from(case.line.windows(30).any(|run| squeezed(run).is_empty()));
        longest += usize::from(case.line.len() == 65_535);
    }
    assert_eq!(bytes, [true; 256]);
    for length in [1, 2, 1023, 1024, 1025] {
        let met = lengths.iter().filter(|&&other| other == length).count();
        assert!(met >= 10, "{met} texts of {length} symbols");
    }
    assert!(runs >= 100, "{runs} texts with a run of 30 separators");
    assert!(longest >= 50, "{longest} texts of 65,535 bytes");
}

/// The refusals of texts are due together with those before and after them.
#[test]
fn random_texts_show_the_order_of_checks() {
    let mut met = [0; 5];
    for case in random_texts() {
        let lacking = match read_book(&case.book()) {
            Ok(book) => check_class_operators(&book).is_err(),
            Err(_) => continue,
        };
        let long = squeezed(&case.line).len() + 1 > TERM_LIMIT;
        let wrong_entry = check_schedule(&case.schedule, case.units).is_err();
        let wrong_frame = !(1..=8).contains(&case.units);
        met[0] += usize::from(wrong_frame && lacking);
        met[1] += usize::from(lacking && long);
        met[2] += usize::from(lacking && wrong_entry);
        met[3] += usize::from(long && wrong_entry);
        met[4] += usize::from(lacking && long && wrong_entry);
    }
    assert!(met.iter().all(|&met| met >= 1), "{met:?}");
}

#[test]
fn random_books_lack_class_operators_in_every_way() {
    let (mut one_less, mut wrong) = (0, [false; 43]);
    for case in random_texts() {
        let arities = case.draft.operators.iter().map(|operator| operator.arity);
        let arities: Vec<u8> = arities.collect();
        one_less += usize::from(arities.len() == 42);
        for (place, &arity) in arities.iter().enumerate().take(43) {
            // Any other book has wrong arities too; those don't count here.
            let others = arities[1..].iter().filter(|&&arity| arity == 1).count();
            wrong[place] |= others >= 41 && arity != u8::from(place > 0);
        }
    }
    assert!(one_less >= 20, "{one_less} books of 42 operators");
    assert!(
        [0, 1, 41, 42].iter().all(|&place| wrong[place]),
        "{wrong:?}"
    );
    assert!(
        wrong.iter().filter(|&&wrong| wrong).count() >= 25,
        "{wrong:?}"
    );
}
