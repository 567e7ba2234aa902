//! Payees' texts: `--payee`, `op letters`, and what is told about them.

mod common;

use common::{file, kurvneist, kurvneist_with};
use comparison::model::{class, read_book, squeezed, Form};
use comparison::random::{text_case, Random};
use comparison::texts;
use kurvneist::{Engine, Request};
use workbench::letters;
use workbench::line;
use workbench::names::Names;
use workbench::progress::Progress;
use workbench::text::{check, printer};
use workbench::trace::{self, Failure};

const PAYEES: &str = "examples/payees.book";

/// A book of letters, and of what is written behind them.
fn lettered(more: &str) -> check::Named {
    check::read(&format!("op letters\n{more}")).unwrap()
}

/// The engine's term of a text.
fn term(named: &check::Named, text: &[u8]) -> Vec<u8> {
    let request = Request::new(&named.book, text);
    Engine::new().post_payee(&request).unwrap().term.to_vec()
}

// ---------------------------------------------------------------------------
// The letters

#[test]
fn letters_are_called_as_the_engine_numbers_them() {
    let named = lettered("");
    assert_eq!(named.names.len(), 43);
    assert!(named.names.have_letters());
    for byte in 0..=255 {
        let character = char::from(byte);
        let shown = printer::term(&term(&named, &[byte]), &named.names);
        let letter = letters::letter(character).unwrap();
        match class(byte) {
            Some(_) => assert_eq!(shown, format!("{letter}(end)"), "{byte:02X}"),
            None => assert_eq!((shown.as_str(), letter), ("end", "_"), "{byte:02X}"),
        }
    }
    assert_eq!(letters::letter('€'), None);
    let between = term(&named, b"a - b");
    assert_eq!(printer::term(&between, &named.names), "\"a b\"");
}

#[test]
fn op_letters_is_short_for_43_operators() {
    let long = "op end/0
        op a b c d e f g h i j k l m n o p q r s t u v w x y z/1
        op æ ð ø þ ß 0 1 2 3 4 5 6 7 8 9 _/1
        op account/2";
    let long = check::read(long).unwrap();
    let short = lettered("op account/2");
    assert_eq!(long.book, short.book);
    assert!(long.names.all().eq(short.names.all()));
}

/// Before an arity or another name it is a name as any other.
#[test]
fn letters_may_still_be_a_name() {
    for source in ["op letters/1", "op letters more/0", "op more letters/2"] {
        let named = check::read(source).unwrap();
        assert!(named.names.number("letters").is_some(), "{source}");
        assert!(!named.names.have_letters());
    }
    let both = check::read("op letters op letters/1 var X rule letters(X) = X").unwrap();
    assert_eq!(both.names.len(), 44);
}

/// A text with one mistake, its place, and the message.
const TABLE: &[(&str, (usize, usize), &str)] = &[
    (
        "op tick/1\nop letters\nrule \"ab\" = a(end)",
        (2, 4),
        "'op letters' stands behind another operator; expected it before all others: texts take operators 0 to 42",
    ),
    (
        "op letters op letters",
        (1, 15),
        "'op letters' stands behind another operator; expected it before all others: texts take operators 0 to 42",
    ),
    (
        "op letters\nop end/0",
        (2, 4),
        "'end' is declared already on line 1; expected a new name",
    ),
    (
        "op letters\nvar e",
        (2, 5),
        "'e' is declared already on line 1; expected a new name",
    ),
    (
        "op letters (0)\nrule \"ab\" = a(end)",
        (1, 12),
        "found '('; expected 'op', 'var', 'rule' or 'from' after 'op letters'",
    ),
    // One mistyping, however many letters the rules use.
    (
        "op lettres\nop tick/1\nrule \"ab\" = c(end)",
        (2, 1),
        "'op' begins a statement; expected '/' and the arity, as in 'both/2'",
    ),
    (
        "op letters\nrule \"ab€\" = end",
        (2, 9),
        "the string needs the operator '€', which is not declared; expected a one-argument operator for each \
         character, '_' for a space, and 'end'",
    ),
    (
        "op letters\nrule \"e\u{301}\" = end",
        (2, 8),
        "an accent stands apart from its letter (U+0301); expected letter and accent as one character",
    ),
];

/// Of the letters' mistaken declaration, no use of a letter is told.
#[test]
fn a_spoiled_declaration_is_one_mistake() {
    let book = std::fs::read_to_string(PAYEES).unwrap();
    assert!(check::read(&book).is_ok());
    for spoiled in [
        "op lettres",
        "op letter",
        "op letters (0)",
        "op tick/1 op letters",
        "var e op letters",
        "letters",
    ] {
        let source = book.replace("op letters\n", &format!("{spoiled}\n"));
        let mistakes = check::read(&source).expect_err(spoiled);
        let all: Vec<String> = mistakes.iter().map(|mistake| mistake.message()).collect();
        assert_eq!(mistakes.len(), 1, "{spoiled}\n{all:?}");
    }
}

#[test]
fn mistakes_about_letters_are_told_once() {
    for (source, place, message) in TABLE {
        let mistakes = check::read(source).expect_err(source);
        assert_eq!(mistakes.len(), 1, "{source}\n{mistakes:?}");
        assert_eq!(mistakes[0].message(), *message, "{source}");
        assert_eq!(mistakes[0].place(source), *place, "{source}");
    }
}

// ---------------------------------------------------------------------------
// Strings in a book with letters

#[test]
fn characters_of_strings_are_letters_of_their_class() {
    let named = lettered("op ./1");
    let symbols = |text: &str| line::read(text, &named.names).unwrap();
    assert_eq!(symbols("\"Café-Étoile\""), symbols("\"cafe etoile\""));
    assert_eq!(symbols("\"×÷\""), symbols("\"  \""));
    // What is declared stands for itself, but a name outside strings is no class.
    let dot = named.names.number(".").unwrap();
    assert_eq!(symbols("\"a.\""), [1, dot, 0]);
    assert!(line::read("É(end)", &named.names).is_err());
    assert!(line::read("\"a€\"", &named.names).is_err());
}

#[test]
fn characters_of_rules_are_letters_too() {
    let typed = lettered("var X rule \"Xá\"(X) = \"É\"(X)");
    let plain = lettered("var Y rule x(a(Y)) = e(Y)");
    assert_eq!(typed.book, plain.book);
}

/// In a string every character counts, so a text without runs and ends of
/// separators is the string that it looks like.
#[test]
fn a_squeezed_text_is_its_string() {
    let named = lettered("");
    for text in ["Café Étoile 7", "Weiß", "ÆÐØÞ æðøþ", "ÿ", "x"] {
        let bytes = line::read_payee(text).unwrap();
        let string = line::read(&format!("\"{text}\""), &named.names).unwrap();
        assert_eq!(term(&named, &bytes), string, "{text}");
    }
}

/// Without letters in the book, characters are what they were.
#[test]
fn other_books_spell_as_before() {
    let named = check::read("op end/0 op e é/1").unwrap();
    assert_eq!(line::read("\"eé\"", &named.names), Ok(vec![1, 2, 0]));
    assert!(line::read("\"É\"", &named.names).is_err());
}

// ---------------------------------------------------------------------------
// Books with letters, printed

#[test]
fn letters_are_printed_as_such_unless_they_have_strategies() {
    let printed = |source: &str| {
        let named = check::read(source).unwrap();
        let book = read_book(&named.book).unwrap();
        let text = printer::book(&book, &named.names);
        let again = check::read(&text).unwrap();
        assert_eq!(again.book, named.book, "{text}");
        assert!(again.names.all().eq(named.names.all()), "{text}");
        text
    };
    let text = printed("op letters op both/2 var X rule both(X, end) = \"ab\"(X)");
    assert_eq!(
        text,
        "op letters\nop both/2\n\nvar X0\nrule both(X0, end) = \"ab\"(X0)\n"
    );
    let letters = letters::NAMES[1..].join(" ");
    let text = printed(&format!("op end/0 op {letters}/1 (0)"));
    assert!(text.starts_with("op end/0\nop a/1 (0)\n"), "{text}");
    let text = printed(&format!("op end/0 op {letters}/1"));
    assert_eq!(text, "op letters\n");
}

#[test]
fn random_books_with_letters_are_printed_and_read() {
    let mut with_letters = 0;
    for number in 0..300 {
        let mut random = Random::for_case(17, number);
        let alphabet = texts::alphabet(&mut random);
        let draft = texts::draft(&mut random, &alphabet);
        let written = kurvneist::written_book(&draft.encode()).unwrap();
        let book = read_book(&written).unwrap();
        let names = Names::generated_with_letters(&book);
        let text = printer::book(&book, &names);
        let again = check::read(&text).unwrap_or_else(|mistakes| panic!("{mistakes:?}\n{text}"));
        assert_eq!(again.book, written, "{text}");
        assert!(again.names.all().eq(names.all()), "{text}");
        with_letters += usize::from(text.starts_with("op letters\n"));

        // A random text's term is shown as a line that is read as that term.
        let typed = texts::text(&mut random, &alphabet, &draft);
        if !names.have_letters() || squeezed(&typed).len() > 1023 {
            continue;
        }
        let term = term(&again, &typed);
        let shown = printer::term(&term, &names);
        assert_eq!(line::read(&shown, &names), Ok(term), "{shown}");
    }
    assert!(with_letters > 50, "{with_letters}");
}

// ---------------------------------------------------------------------------
// The commands

#[test]
fn the_typed_payees_give_their_postings_on_any_number_of_units() {
    let expected = std::fs::read_to_string("examples/typed.postings").unwrap();
    for units in ["1", "2", "8"] {
        let typed = "examples/typed.payees";
        let ran = kurvneist(&["batch", PAYEES, typed, "--payee", "--units", units]);
        assert_eq!((ran.status, ran.output), (0, expected.clone()));
    }
}

#[test]
fn a_payee_is_posted_as_it_is_typed() {
    for typed in ["Café Étoile", "CAFE ETOILE", "*** café-étoile SARL."] {
        let ran = kurvneist(&["post", PAYEES, typed, "--payee"]);
        assert_eq!(ran.status, 0, "{}", ran.errors);
        assert!(ran.output.ends_with("term Café-Étoile\n"), "{}", ran.output);
    }
    let ran = kurvneist(&["post", PAYEES, "", "--payee"]);
    assert_eq!(
        (ran.status, ran.output.as_str()),
        (
            0,
            "end finished\nrewrites 0\nentries 3\ngranted 0\nkept 0\nterm end\n"
        )
    );
    // Without --payee it is a term by names, and mistyped.
    assert_eq!(kurvneist(&["post", PAYEES, "Café Étoile"]).status, 1);
}

#[test]
fn a_payees_trace_shows_letters() {
    let ran = kurvneist(&["trace", PAYEES, "Käse & Co.", "--payee"]);
    assert_eq!(ran.status, 0, "{}", ran.errors);
    let line = ran.output.lines().nth(1).unwrap();
    assert!(line.ends_with("the line                                       \"kase co\""));
    assert!(ran.output.contains("replaced by rule"), "{}", ran.output);
    let picture = file("payee.svg", "");
    let arguments = ["trace", PAYEES, "Käse", "--payee", "--no-text", "--svg"];
    let ran = kurvneist(&[&arguments[..], &[&picture]].concat());
    assert_eq!((ran.status, ran.output.as_str()), (0, ""));
    assert!(std::fs::read_to_string(picture).unwrap().contains("kase"));
}

/// The comparison's cost grows with the square of the entries.
const ENTRIES: usize = 200;

#[test]
fn traces_of_random_texts_equal_the_engine() {
    let (mut traced, mut refused, mut rewrites) = (0, 0, 0);
    for number in 0..200 {
        let case = text_case(&mut Random::for_case(18, number));
        let book = case.book();
        let request = Request::new(&book, &case.line)
            .units(case.units)
            .budget(case.budget)
            .day(case.day)
            .schedule(&case.schedule[..case.schedule.len().min(ENTRIES)]);
        match trace::run_form(Form::Text, &request, 1, &mut Progress::hidden()) {
            Ok(trace) => {
                traced += 1;
                rewrites += trace.rewrites;
            }
            Err(Failure::Refused(_)) => refused += 1,
            Err(difference) => panic!("case {number}: {difference}"),
        }
    }
    assert!(traced > 80 && refused > 20, "{traced} {refused}");
    assert!(rewrites > 100, "{rewrites}");
}

#[test]
fn a_character_that_iso_8859_1_lacks_is_told_with_its_place() {
    for command in ["post", "trace"] {
        let ran = kurvneist(&[command, PAYEES, "Café\nÉtoile 12 €", "--payee"]);
        assert_eq!((ran.status, ran.output.as_str()), (1, ""));
        assert_eq!(
            ran.errors,
            "LINE:2:11: ISO 8859-1 does not have '€' (U+20AC); expected a payee in characters that it has\n   \
             2 | Étoile 12 €\n     |           ^\n"
        );
    }
    for lacking in ['Œ', 'š', 'Ÿ', '“', '\u{100}', '東', '\u{1f600}'] {
        let mistake = line::read_payee(&format!("né{lacking}")).unwrap_err();
        assert_eq!(mistake.place(&format!("né{lacking}")), (1, 3));
    }
    let mistake = line::read_payee("Cafe\u{301}").unwrap_err();
    assert_eq!(
        mistake.message(),
        "an accent stands apart from its letter (U+0301); expected letter and accent as one character"
    );
    let all: String = (0..=255).map(char::from).collect();
    assert_eq!(line::read_payee(&all), Ok((0..=255).collect()));
}

#[test]
fn a_batch_of_payees_loses_nothing() {
    let input = "\u{feff}Café Étoile\r\n\r\n# a note\r\nŒuvre\r\n  # another\nKönig\n \nx";
    let long = format!("{input}\n{}\n{}\n", "y".repeat(1023), "y".repeat(1024));
    let ran = kurvneist_with(&["batch", PAYEES, "-", "--payee"], long.as_bytes());
    let due = [
        "Café-Étoile",
        "",
        "# a note",
        "! column 1: ISO 8859-1 does not have 'Œ' (U+0152); expected a payee in characters that it has",
        "  # another",
        "König",
        " ",
        "x(end)",
        &format!("\"{}\"", "y".repeat(1023)),
        "! refused 18: the text's term would have over 1,024 symbols",
    ];
    assert_eq!(ran.output.lines().collect::<Vec<_>>(), due);
    assert_eq!(ran.status, 1);
    assert!(ran
        .errors
        .starts_with("10 lines: 4 posted, 2 not, 4 blank or comment\n"));
    assert!(ran.errors.contains("1 refused, 1 mistyped"));
}

/// A bank's file is ISO 8859-1 already: every byte is a character of it.
#[test]
fn payees_in_latin1() {
    let input = b"Caf\xe9 \xc9toile\nRen\xe9e Wei\xdf\n\x80\xff\n";
    let ran = kurvneist_with(&["batch", PAYEES, "-", "--payee", "--latin1"], input);
    assert_eq!(
        (ran.status, ran.output.as_str()),
        (0, "Café-Étoile\nWeiß\ny(end)\n")
    );
    let ran = kurvneist_with(&["batch", PAYEES, "-", "--payee"], input);
    assert!(ran.output.starts_with(
        "! column 4: the byte E9 is not UTF-8; expected UTF-8, or --encoding with the file's\n"
    ));
}

#[test]
fn a_book_without_letters_is_told() {
    let told = "refused 19: the book lacks the operators of texts: 0 without arguments, and 1 to 42 with one \
                argument each; 'op letters' declares them";
    for command in ["post", "trace"] {
        let ran = kurvneist(&[command, "examples/ticks.book", "tick", "--payee"]);
        assert_eq!(
            (ran.status, ran.errors.trim_end()),
            (1, told),
            "{}",
            ran.output
        );
    }
    let ran = kurvneist_with(&["batch", "examples/ticks.book", "-", "--payee"], b"tick\n");
    assert_eq!((ran.status, ran.output), (1, format!("! {told}\n")));
}

#[test]
fn a_packed_book_has_letters_where_it_has_no_names() {
    let packed = file("letters.packed", "");
    assert_eq!(kurvneist(&["book", PAYEES, "-o", &packed]).status, 0);
    let post = |more: &[&str]| {
        let arguments = ["post", &packed, "Haus König", "--payee", "--packed"];
        kurvneist(&[&arguments[..], more].concat()).output
    };
    assert!(post(&["--names", PAYEES]).ends_with("term \"haus \"(König)\n"));
    assert!(post(&[]).ends_with("term \"haus \"(f52)\n"));
}
