//! Characters: quotes in strings, those that can't be seen, accents, widths,
//! encodings, line ends.

mod common;

use common::{file, kurvneist, kurvneist_with};
use workbench::compose::{composed, one};
use workbench::encoding::Encoding;
use workbench::letters;
use workbench::line;
use workbench::mistake::{Mistake, Span};
use workbench::text::{check, printer};
use workbench::told::{counted, quoted};
use workbench::width::width;

const PAYEES: &str = "examples/payees.book";

// ---------------------------------------------------------------------------
// Strings

#[test]
fn a_quote_in_a_string_is_doubled() {
    let named =
        check::read("op end/0 op a \"\"\"\" \",\"/1 var X\nrule \"a\"\"\"(X) = \"\"\"a\"(X)")
            .unwrap();
    let quote = named.names.number("\"").unwrap();
    let symbols = |text: &str| line::read(text, &named.names).unwrap();
    assert_eq!(symbols("\"\"\"\""), [quote, 0]);
    assert_eq!(symbols("\"a\"\"\"\"a\""), [1, quote, quote, 1, 0]);
    assert_eq!(symbols("\"\"\"\"(\"a\"\"\")"), [quote, 1, quote, 0]);
    assert_eq!(symbols("\"\""), [0]);
    for text in ["\"a\"\"\"", "\"\"\"\"", "\"\"\"a,\"\"\""] {
        assert_eq!(printer::term(&symbols(text), &named.names), text);
    }
    let book = comparison::model::read_book(&named.book).unwrap();
    let printed = printer::book(&book, &named.names);
    assert!(printed.contains("op \"\"\"\"/1\n"), "{printed}");
    assert_eq!(check::read(&printed).unwrap().book, named.book);
}

#[test]
fn a_string_that_ends_in_a_doubled_quote_is_open() {
    let source = "op end/0 op a/1\nrule \"a\"\" = end";
    let mistakes = check::read(source).unwrap_err();
    assert_eq!(mistakes[0].wrong, "a string isn't closed");
    assert_eq!(mistakes[0].place(source), (2, 6));
    let lacking = line::read("\"a\"\"\"", &check::read("op end/0 op a/1").unwrap().names);
    assert!(lacking
        .unwrap_err()
        .wrong
        .contains("needs the operator '\"'"));
}

/// In a book with letters a quote separates words, as in a text.
#[test]
fn a_quote_separates_words() {
    let named = check::read("op letters").unwrap();
    assert_eq!(
        line::read("\"a\"\"b\"", &named.names),
        Ok(vec![1, 42, 2, 0])
    );
}

// ---------------------------------------------------------------------------
// Characters that can't be seen

#[test]
fn what_can_not_be_seen_is_told_by_code_point() {
    for (text, told) in [
        ("\u{a0}", "U+00A0 (no-break space)"),
        ("\t", "U+0009 (tab)"),
        ("\u{200b}", "U+200B (zero-width space)"),
        ("\u{200d}", "U+200D (zero-width joiner)"),
        ("\u{ad}", "U+00AD (soft hyphen)"),
        ("\u{7}", "U+0007 (control character)"),
        ("\u{85}", "U+0085 (control character)"),
        ("\u{2003}", "U+2003 (kind of space)"),
        ("\u{202e}", "U+202E (zero-width character)"),
        ("a\u{200b}b", "'a<U+200B>b'"),
        ("é", "'é'"),
        (" ", "' '"),
        ("", "''"),
    ] {
        assert_eq!(quoted(text), told);
    }
    let named = check::read("op end/0 op a/1").unwrap();
    for (unseen, told) in [
        ('\u{a0}', "U+00A0 (no-break space)"),
        ('\t', "U+0009 (tab)"),
        ('\u{200b}', "U+200B (zero-width space)"),
        ('\u{1}', "U+0001 (control character)"),
    ] {
        let mistake = line::read(&format!("\"a{unseen}\""), &named.names).unwrap_err();
        let due = format!("the string needs the operator {told}, which is not declared");
        assert_eq!(mistake.wrong, due);
    }
    let mistake = line::read("a\u{200b}(end)", &named.names).unwrap_err();
    assert_eq!(mistake.wrong, "found U+200B (zero-width space)");
    let mistake = line::read_payee("K\u{200b}").unwrap_err();
    assert_eq!(
        mistake.wrong,
        "ISO 8859-1 does not have U+200B (zero-width space)"
    );
    let mistakes = check::read("op \"\u{a0}\"/2").unwrap_err();
    assert_eq!(
        mistakes[0].wrong,
        "U+00A0 (no-break space) can stand in strings only"
    );
    let mistakes = check::read("op \"\u{a0}\" \"\u{a0}\"/1").unwrap_err();
    assert_eq!(
        mistakes[0].wrong,
        "U+00A0 (no-break space) is declared already on line 1"
    );
}

// ---------------------------------------------------------------------------
// Accents behind their letters

/// The letters of ISO 8859-1 and Latin Extended-A that no accent makes.
const WHOLE: &str = "ÆÐ×ØÞßæð÷øþĐđĦħıĲĳĸĿŀŁłŉŊŋŒœŦŧſ";

/// Every other letter is made once, of a letter of its class.
#[test]
fn letters_and_accents_are_composed() {
    let mut made = Vec::new();
    for letter in ('A'..='Z').chain('a'..='z') {
        for accent in '\u{300}'..='\u{36f}' {
            if let Some(both) = one(letter, accent) {
                made.push(both);
                if both <= 'ÿ' {
                    assert_eq!(letters::letter(both), letters::letter(letter), "{both}");
                }
                let text = format!("x{letter}{accent}y");
                assert_eq!(composed(&text), format!("x{both}y"));
                assert_eq!(both.to_lowercase().count() == 1, both != 'İ');
            }
        }
    }
    made.sort_unstable();
    let due: Vec<char> = ('À'..='ſ')
        .filter(|letter| !WHOLE.contains(*letter))
        .collect();
    assert_eq!(made, due);
    let pairs = [
        ("e\u{301}", "é"),
        ("u\u{308}", "ü"),
        ("c\u{327}", "ç"),
        ("n\u{303}", "ñ"),
        ("a\u{30a}", "å"),
    ];
    for (apart, both) in pairs {
        assert_eq!(composed(apart), both);
    }
}

#[test]
fn other_accents_stay_to_be_told() {
    for text in ["\u{301}e", "x\u{301}", "é\u{301}", "\"\u{301}"] {
        assert_eq!(composed(text), text);
    }
    assert_eq!(composed("u\u{308}\u{301}"), "ü\u{301}");
}

#[test]
fn books_and_lines_may_have_accents_apart() {
    let book = file(
        "apart.book",
        "op end/0 op Cafe\u{301} Mu\u{308}ller/1\nvar X\nrule Café(X) = Müller(X)\n",
    );
    let ran = kurvneist(&["post", &book, "Cafe\u{301}(end)"]);
    assert_eq!(
        (ran.status, ran.output.ends_with("term Müller(end)\n")),
        (0, true),
        "{}",
        ran.errors
    );
    for form in ["Cafe\u{301} E\u{301}toile", "Café Étoile"] {
        let ran = kurvneist(&["post", PAYEES, form, "--payee"]);
        assert!(ran.output.ends_with("term Café-Étoile\n"), "{}", ran.errors);
        let input = format!("{form}\n# {form}\nline\n");
        let ran = kurvneist_with(&["batch", PAYEES, "-", "--payee"], input.as_bytes());
        assert_eq!(ran.output, format!("Café-Étoile\n# {form}\n\"line\"\n"));
    }
    let twice = file("twice.book", "op é/0\nop e\u{301}/0\n");
    let ran = kurvneist(&["book", &twice]);
    assert!(
        ran.errors
            .contains(":2:4: 'é' is declared already on line 1"),
        "{}",
        ran.errors
    );
}

/// Its place counts characters as they are seen.
#[test]
fn a_composed_character_that_iso_8859_1_lacks_is_told() {
    let ran = kurvneist(&["post", PAYEES, "e\u{301}s\u{30c}", "--payee"]);
    assert_eq!(
        (ran.status, ran.errors.as_str()),
        (
            1,
            "LINE:1:2: ISO 8859-1 does not have 'š' (U+0161); expected a payee in characters that it has\n   \
             1 | éš\n     |  ^\n"
        )
    );
    let ran = kurvneist(&["post", PAYEES, "x\u{30c}", "--payee"]);
    assert!(ran
        .errors
        .starts_with("LINE:1:2: an accent stands apart from its letter (U+030C)"));
}

// ---------------------------------------------------------------------------
// Carets

fn caret(line: &str, at: &str) -> String {
    let start = line.find(at).unwrap();
    let mistake = Mistake::new(Span::new(start, start + at.len()), "wrong", "right");
    mistake.show("x", line).lines().nth(2).unwrap().to_owned()
}

#[test]
fn carets_stand_under_wide_and_combining_characters() {
    for (line, at, due) in [
        ("東京 x", "x", "     |      ^"),
        ("東京 x", "京", "     |   ^^"),
        ("東京 x", "東京", "     | ^^^^"),
        ("ｆｕｌｌ x", "x", "     |          ^"),
        ("🏠 x", "x", "     |    ^"),
        ("한국 x", "x", "     |      ^"),
        ("x\u{301}y\u{308}z", "z", "     |   ^"),
        ("x\u{301}y", "\u{301}", "     | ^"),
        ("x\u{301}y", "x\u{301}y", "     | ^^"),
        ("a\u{200b}b", "b", "     |   ^"),
        ("a\u{200b}b", "\u{200b}", "     |  ^"),
        ("\u{301}", "\u{301}", "     | ^"),
        ("König x", "x", "     |       ^"),
    ] {
        assert_eq!(caret(line, at), due, "{line} {at}");
    }
    let long = format!("{}x{}", "東".repeat(200), "京".repeat(200));
    let shown = Mistake::new(Span::new(600, 601), "wrong", "right").show("x", &long);
    let lines: Vec<&str> = shown.lines().collect();
    let before: usize = lines[1]
        .chars()
        .take_while(|one| *one != 'x')
        .map(width)
        .sum();
    assert_eq!(lines[2].find('^'), Some(before), "{shown}");
    assert!(lines[1].chars().map(width).sum::<usize>() <= 7 + 120);
}

#[test]
fn widths() {
    for (character, cells) in [
        ('a', 1),
        ('é', 1),
        ('€', 1),
        ('\u{301}', 0),
        ('\u{20dd}', 0),
        ('\u{fe0f}', 0),
        ('ᄀ', 2),
        ('東', 2),
        ('가', 2),
        ('、', 2),
        ('！', 2),
        ('ｱ', 1),
        ('🏠', 2),
        ('𠀀', 2),
        ('\u{ff61}', 1),
    ] {
        assert_eq!(width(character), cells, "{character}");
    }
}

// ---------------------------------------------------------------------------
// Encodings

#[test]
fn encodings_by_name() {
    for (name, due) in [
        ("utf-8", Encoding::Utf8),
        ("UTF8", Encoding::Utf8),
        ("latin-1", Encoding::Latin1),
        ("ISO-8859-1", Encoding::Latin1),
        ("windows-1252", Encoding::Windows1252),
        ("cp1252", Encoding::Windows1252),
    ] {
        assert_eq!(Encoding::named(name), Ok(due));
    }
    assert!(Encoding::named("utf-16")
        .unwrap_err()
        .contains("expected utf-8, latin-1 or windows-1252"));
}

#[test]
fn every_byte_of_an_encoding() {
    let all: Vec<u8> = (0..=255).collect();
    let latin1 = Encoding::Latin1.decode(&all).unwrap();
    assert!(latin1.chars().map(u32::from).eq(0..256));
    let mut lacking = Vec::new();
    for byte in all {
        match Encoding::Windows1252.decode(&[byte]) {
            Ok(text) if !(0x80..0xa0).contains(&byte) => {
                assert_eq!(text, char::from(byte).to_string())
            }
            Ok(text) => assert!(text.chars().all(|one| u32::from(one) > 255)),
            Err(bad) => lacking.push(bad.byte),
        }
    }
    assert_eq!(lacking, [0x81, 0x8d, 0x8f, 0x90, 0x9d]);
    assert_eq!(
        Encoding::Windows1252
            .decode(b"\x80\x84\x8a\x92\x9f")
            .unwrap(),
        "€„Š’Ÿ"
    );
    let bad = Encoding::Windows1252.decode(b"\xe9\x81").unwrap_err();
    assert_eq!(
        (bad.before.as_str(), bad.to_string().as_str()),
        ("é", "the byte 81 is not Windows-1252")
    );
}

#[test]
fn books_in_other_encodings() {
    let book = file(
        "windows.book",
        b"op end/0 op Caf\xe9 \x8aumava \"\x80\"/1\nvar X\nrule Caf\xe9(X) = \x8aumava(X)\n",
    );
    let post = |encoding: &[&str]| kurvneist(&[&["post", &book, "Café(\"€\")"], encoding].concat());
    let ran = post(&["--encoding", "windows-1252"]);
    assert_eq!(
        (ran.status, ran.output.ends_with("term Šumava(\"€\")\n")),
        (0, true),
        "{}",
        ran.errors
    );
    let ran = post(&[]);
    assert_eq!(ran.status, 3);
    assert!(
        ran.errors.contains(":1:16: the byte E9 is not UTF-8"),
        "{}",
        ran.errors
    );
    let ran = kurvneist(&["book", &book, "--encoding", "windows-1252"]);
    assert!(
        ran.output
            .ends_with(": 4 operators, 1 rule, 8 bytes packed\n"),
        "{}",
        ran.output
    );
    let lines = file("windows.lines", b"Caf\xe9(\"\x80\")\r\n\x81\r\n");
    let both = ["--book-encoding", "cp1252", "--encoding", "windows-1252"];
    let ran = kurvneist(&[&["batch", &book, &lines], &both[..]].concat());
    assert_eq!(
        ran.output,
        "Šumava(\"€\")\r\n! column 1: the byte 81 is not Windows-1252; expected a character of it\r\n"
    );
    let bad = file("bad.book", b"# \xe9\nop a\x81/0");
    let ran = kurvneist(&["book", &bad, "--encoding", "windows-1252"]);
    let told = ":2:5: the byte 81 is not Windows-1252; expected a text in Windows-1252";
    assert!(ran.errors.contains(told), "{}", ran.errors);
    assert!(
        ran.errors.contains("   2 | op a\u{fffd}/0\n     |     ^\n"),
        "{}",
        ran.errors
    );
}

// ---------------------------------------------------------------------------
// Line ends

#[test]
fn lines_end_as_they_did() {
    for (input, due) in [
        ("end\r\ntick(end)\r\n", "end\r\ntick(end)\r\n"),
        ("end\r\ntick(end)", "end\r\ntick(end)\r\n"),
        ("end\n# note\r\n\r\nend\n", "end\n# note\r\n\r\nend\n"),
        ("tik\r\nend", "! column 1: 'tik' is unknown; expected an operator that is declared, such as 'tick'\r\nend\r\n"),
        ("end", "end\n"),
    ] {
        let ran = kurvneist_with(&["batch", "examples/ticks.book", "-"], input.as_bytes());
        assert_eq!(ran.output, due);
    }
}

#[test]
fn a_book_with_line_ends_of_windows() {
    let book = "op f/1 op end/0\r\nvar X\r\nrule f(\"ab\r\n";
    let book = file("crlf.book", book);
    let ran = kurvneist(&["book", &book]);
    let due = format!(
        "{book}:3:8: a string isn't closed; expected '\"' on the same line\n   3 | rule f(\"ab\n     |        ^^^\n"
    );
    assert_eq!(ran.errors, due);
}

// ---------------------------------------------------------------------------
// Counts

#[test]
fn one_is_singular() {
    assert_eq!(counted(1, "rule", "rules"), "1 rule");
    assert_eq!(counted(0, "rule", "rules"), "0 rules");
    let book = file("one.book", "op a/0\nrule a = a\n");
    assert!(kurvneist(&["book", &book])
        .output
        .ends_with(": 1 operator, 1 rule, 5 bytes packed\n"));
    let arguments = ["batch", "examples/ticks.book", "-", "--quiet"];
    let told = |more: &[&str]| {
        let line = b"both(tick(tick(end)), end)\n";
        kurvneist_with(&[&arguments[..], more].concat(), line).output
    };
    assert!(told(&["--budget", "1"]).starts_with("! spent after 1 rewrite at "));
    assert!(told(&["--budget", "2"]).starts_with("! spent after 2 rewrites at "));
    assert!(told(&["--schedule", "0"]).starts_with("! cut after 1 entry ("));
}
