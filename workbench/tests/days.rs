//! Rules with days: their text form, `--day`, and what the commands say of the
//! rules that stand.

mod common;

use common::{file, kurvneist, kurvneist_with};
use workbench::text::check;
use workbench::warnings::{self, Kind};

const BOOK: &str = "\
op König invoice/0 op line/2
op 70010 70015 70099/0
var Payee Purpose X

from 2024-01-01
rule line(König, invoice) = 70010
from 2026-07-01
rule line(König, invoice) = 70015
from 2024-01-01
rule line(Payee, Purpose) = 70099
";

const LINE: &str = "line(König, invoice)";

fn posted(book: &str, line: &str, day: &str) -> String {
    let ran = kurvneist(&["post", book, line, "--day", day]);
    assert_eq!((ran.status, ran.errors.as_str()), (0, ""), "{day}");
    ran.output.lines().last().unwrap().to_owned()
}

#[test]
fn a_line_is_posted_by_the_rules_of_its_day() {
    let book = file("dated.book", BOOK);
    assert_eq!(posted(&book, LINE, "2023-12-31"), format!("term {LINE}"));
    assert_eq!(posted(&book, LINE, "2024-01-01"), "term 70010");
    assert_eq!(posted(&book, LINE, "2026-06-30"), "term 70010");
    assert_eq!(posted(&book, LINE, "2026-07-01"), "term 70015");
    assert_eq!(posted(&book, LINE, "20635"), "term 70015");
    assert_eq!(posted(&book, LINE, "20634"), "term 70010");
    assert_eq!(posted(&book, LINE, "2149-06-06"), "term 70015");
}

/// Postings must not depend on the clock, so the day is asked for.
#[test]
fn a_dated_book_asks_for_the_day() {
    let book = file("asked.book", BOOK);
    let lines = file("asked.lines", LINE);
    for words in [
        ["post", &book, LINE],
        ["explain", &book, LINE],
        ["trace", &book, LINE],
        ["batch", &book, &lines],
    ] {
        let ran = kurvneist(&words);
        assert_eq!((ran.status, ran.output.as_str()), (2, ""), "{words:?}");
        let due = "kurvneist: the book is dated, 2024-01-01 to 2026-07-01; expected --day with \
            a date from 1970-01-01 to 2149-06-06, or a number from 0 to 65535\n";
        assert_eq!(ran.errors, due);
    }
    assert_eq!(kurvneist(&["check", &book]).status, 0);
    let ran = kurvneist(&["post", &book, LINE, "--day", "2026-06-31"]);
    assert_eq!((ran.status, ran.output.as_str()), (2, ""));
    assert_eq!(
        ran.errors,
        "kurvneist: --day 2026-06-31: there is no 2026-06-31 in the calendar; expected \
         a date from 1970-01-01 to 2149-06-06, or a number from 0 to 65535\n"
    );
}

#[test]
fn an_undated_book_ignores_the_day_and_says_so() {
    let lines = file("ignored.lines", "both(tick(end), end)\n");
    let book = "examples/ticks.book";
    let term = "both(tick(end), end)";
    for words in [
        vec!["post", book, term],
        vec!["explain", book, term],
        vec!["trace", book, term],
        vec!["batch", book, &lines, "--quiet"],
        vec!["check", book],
    ] {
        let plain = kurvneist(&words);
        let ran = kurvneist(&[&words[..], &["--day", "2026-07-01"]].concat());
        assert_eq!((ran.status, ran.output), (plain.status, plain.output));
        let due = "the book is undated: --day is ignored\n";
        assert_eq!((ran.errors, plain.errors), (due.into(), String::new()));
    }
}

#[test]
fn many_lines_of_a_day() {
    let book = file("batch.book", BOOK);
    let lines = "line(König, invoice)\nline(invoice, invoice)\n";
    let batch = |day| {
        let words = ["batch", &book, "-", "--day", day];
        kurvneist_with(&words, lines.as_bytes()).output
    };
    assert_eq!(batch("2026-06-30"), "70010\n70099\n");
    assert_eq!(batch("2026-07-01"), "70015\n70099\n");
    let profile = file("days.profile", "");
    let output = file("days.postings", "");
    let words = ["batch", &book, "-", "--day", "2026-07-01", "-o", &output];
    let words = [&words[..], &["--profile", &profile]].concat();
    assert_eq!(kurvneist_with(&words, lines.as_bytes()).status, 0);
    let counted = std::fs::read_to_string(&profile).unwrap();
    let due = "\
rewrites   lines  rule
       1       1  rule 2 (line 8), from 2026-07-01: line(König, invoice) = 70015
       1       1  rule 3 (line 10), from 2024-01-01: line(Payee, Purpose) = 70099
       0       0  rule 1 (line 6), from 2024-01-01: line(König, invoice) = 70010
";
    assert_eq!(counted, due);
}

/// The text says dates and numbers; either gives the book.
#[test]
fn a_packed_book_keeps_its_days() {
    let packed = file("days.packed", "");
    let book = file("packed.book", BOOK);
    assert_eq!(kurvneist(&["book", &book, "-o", &packed]).status, 0);
    let text = kurvneist(&["text", &packed, "--names", &book]);
    let rules = text.output.split_once("\n\n").unwrap().1;
    let due = "\
var X0 X1
from 2024-01-01 # day 19723
rule line(König, invoice) = 70010
from 2026-07-01 # day 20635
rule line(König, invoice) = 70015
from 2024-01-01 # day 19723
rule line(X0, X1) = 70099
";
    assert_eq!(rules, due);
    let numbers = BOOK
        .replace("2024-01-01", "19723")
        .replace("2026-07-01", "20635");
    let [dates, numbers] = [BOOK, &numbers].map(|text| check::read(text).unwrap());
    assert_eq!(dates.book, numbers.book);
    assert_eq!(dates.days, Some(vec![19_723, 20_635, 19_723]));
    let told = kurvneist(&["book", &book]).output;
    let due = ": 6 operators, 3 rules, 25 bytes packed, dated, 2024-01-01 to 2026-07-01\n";
    assert!(told.ends_with(due), "{told}");
    let posted = kurvneist(&["post", &packed, "f2(f0, f1)", "--packed", "--day", "20635"]);
    assert!(posted.output.ends_with("term f4\n"), "{}", posted.output);
}

/// `from` begins a statement where a line begins with it and a day; elsewhere
/// it is a name as any other.
#[test]
fn from_may_be_a_name() {
    for text in [
        "op from to/0 rule from = to",
        "op a/0 op from/1 var X\nrule\nfrom(X) = a",
        "op a/0 op f/1 var from X rule f(from) = a rule f(X) = X",
        "op letters op from/0 rule from = end",
        "op a/0 op f/2 var X\nfrom rule f(X, from) = a",
    ] {
        let named = check::read(text).unwrap_or_else(|all| panic!("{text}: {all:?}"));
        assert_eq!(named.days, None, "{text}");
    }
    for (text, days) in [
        ("op letters\nfrom 7", vec![]),
        ("op a/0 var X Y\nfrom 7\nrule a = a", vec![7]),
        ("op a b/0 from 7 rule a = b from 8 rule a = a", vec![7, 8]),
        (
            "op from/0\nfrom 7 rule from = from\nfrom 8\nrule from = from",
            vec![7, 8],
        ),
        ("from 1970-01-02 op a/0 rule a = a", vec![1]),
    ] {
        let named = check::read(text).unwrap_or_else(|all| panic!("{text}: {all:?}"));
        assert_eq!(named.days, Some(days), "{text}");
    }
}

#[test]
fn an_explanation_names_the_rules_that_stand() {
    let book = file("explained.book", BOOK);
    let explained = |day, more: &[&str]| {
        let words = ["explain", &book, LINE, "--day", day];
        let ran = kurvneist(&[&words[..], more].concat());
        assert_eq!((ran.status, ran.errors.as_str()), (0, ""));
        ran.output
    };
    let due = "\
line line(König, invoice)
on 2026-07-01 (day 20635): rules 2 and 3 of 3 stand

1. rule 2 (line 8), from 2026-07-01: line(König, invoice) = 70015
  at    the root (entry 6, unit 0)
  from  [line(König, invoice)]
  to    [70015]

finished: rewrites 1, entries 9, FORKs granted 0, kept 0
term 70015
";
    assert_eq!(explained("2026-07-01", &[]), due);
    let rules = explained("2026-06-30", &["--rules-only"]);
    let due = "\
on 2026-06-30 (day 20634): rules 1 and 3 of 3 stand
1. rule 1 (line 6), from 2024-01-01 at the root
";
    assert!(rules.starts_with(due), "{rules}");
    let none = explained("2020-01-01", &["--rules-only"]);
    let due = "on 2020-01-01 (day 18262): no rule of 3 stands\nfinished";
    assert!(none.starts_with(due), "{none}");
    let json = explained("2026-07-01", &["--json", "--rules-only"]);
    let due = r#"{"line":"line(König, invoice)","day":20635,"date":"2026-07-01","standing":[2,3],"steps":[{"step":1,"rule":2,"rule_line":8,"rule_day":20635,"position":[]}],"#;
    assert!(json.starts_with(due), "{json}");
    let trace = kurvneist(&["trace", &book, LINE, "--day", "2026-07-01", "--rules-only"]);
    assert!(trace.output.contains("rule 2 (line 8)"), "{}", trace.output);
}

fn warned(source: &str, day: Option<u16>) -> Vec<(Kind, usize)> {
    let named = check::read(source).unwrap();
    let found = warnings::of(source, &named, day);
    let rules = found.iter().filter(|one| one.kind != Kind::UnusedOperator);
    rules
        .map(|one| (one.kind, one.mistake.place(source).0))
        .collect()
}

/// What replaces a rule stands at its own place of the book, and not at that of
/// the rule.
#[test]
fn a_rule_for_anything_before_the_new_one() {
    let source = "\
op a b c/0 op f/1 var X
from 1
rule f(a) = b
rule f(X) = c
from 3
rule f(a) = c
";
    assert_eq!(warned(source, None), [(Kind::NeverFirst, 6)]);
    assert_eq!(warned(source, Some(1)), []);
    assert_eq!(warned(source, Some(3)), [(Kind::NeverFirst, 6)]);
    assert_eq!(warned(source, Some(0)), []);
    let book = file("anything.book", source);
    let ran = kurvneist(&["check", &book, "--day", "3", "--strict"]);
    assert_eq!(ran.status, 3);
    assert_eq!(
        kurvneist(&["check", &book, "--day", "2", "--strict"]).status,
        0
    );
}

/// Without a day, a warning is of what is so on every day.
#[test]
fn warnings_of_some_days_only() {
    // The last rule never comes first from day 2 on, but it does on day 1.
    let source = "op a b/0 op f/1 var X\nfrom 2\nrule f(X) = b\nfrom 1\nrule f(a) = b\n";
    assert_eq!(warned(source, None), []);
    assert_eq!(warned(source, Some(1)), []);
    assert_eq!(warned(source, Some(2)), [(Kind::NeverFirst, 5)]);
    // Two of a day: the first stands never.
    let source = "op a b/0 op f/1 var X Y\nfrom 2\nrule f(X) = b\nrule f(Y) = a\n";
    assert_eq!(warned(source, None), [(Kind::Replaced, 3)]);
    assert_eq!(warned(source, Some(2)), []);
    // The right side that is the left one is so on every day.
    let source = "op a b/0 op f/1 var X Y\nfrom 2\nrule f(X) = f(X)\nfrom 3\nrule f(Y) = a\n";
    assert_eq!(warned(source, None), [(Kind::SameSides, 3)]);
    assert_eq!(warned(source, Some(3)), []);
}
