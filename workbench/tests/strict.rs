//! The strict profile: what it admits, and what is told where it does not.

mod common;

use common::json::{read_line, Value};
use common::{file, kurvneist, kurvneist_with};
use comparison::draft::Symbol;
use comparison::model::{self, refusal, write_book, Book, Form, Pattern};
use comparison::parted::{rearranged, spoil, strict_draft, strict_text_draft};
use comparison::random::Random;
use comparison::strict::first_constant;
use comparison::texts;
use kurvneist::{strict_book, Engine, Request};
use workbench::line;
use workbench::names::Names;
use workbench::text::check::{self, Named};
use workbench::text::printer;
use workbench::warnings::strict::{faults, Fault};

/// The faults of a text, each with line, column and message.
fn told(source: &str) -> Vec<(usize, usize, String)> {
    let named = check::read(source).expect(source);
    let faults = faults(source, &named).unwrap();
    let told = faults.iter().map(|fault| {
        let (line, column) = fault.mistake.place(source);
        (line, column, fault.mistake.message())
    });
    told.collect()
}

const BEGIN: &str = "op a b/0 op f/1 op g/2 var X Y Z\n";

#[test]
fn admitted_texts() {
    for rules in [
        "",
        "rule g(X, Y) = X",
        "rule a = b rule b = f(b)",
        "rule g(a, X) = X rule g(b, X) = X rule g(f(X), Y) = X rule g(g(X, Y), Z) = Y",
        "rule g(X, a) = X rule g(f(f(Y)), b) = Y",
    ] {
        assert_eq!(told(&format!("{BEGIN}{rules}")), []);
    }
}

/// Rules, and what is told of the second of two: its place, the term and the
/// first.
const OVERLAPS: &[(&str, (usize, usize), &str, &str)] = &[
    (
        "rule f(X) = a\nrule f(a) = b",
        (3, 6),
        "f(a)",
        "rule 1 (line 2)",
    ),
    (
        "rule f(a) = a rule f(X) = b",
        (2, 20),
        "f(a)",
        "rule 1 (line 2)",
    ),
    (
        "rule a = b\nrule b = a\nrule a = a",
        (4, 6),
        "a",
        "rule 1 (line 2)",
    ),
    (
        "rule g(X, Y) = X\nrule g(Y, Z) = Y",
        (3, 6),
        "g(a, a)",
        "rule 1 (line 2)",
    ),
    (
        "rule a = b\nrule g(X, b) = X\nrule g(f(Y), X) = Y",
        (4, 6),
        "g(f(a), b)",
        "rule 2 (line 3)",
    ),
    (
        "rule f(f(f(X))) = X\nrule f(f(Y)) = Y",
        (3, 6),
        "\"fff\"(a)",
        "rule 1 (line 2)",
    ),
];

#[test]
fn the_first_two_rules_and_a_term() {
    for (rules, (line, column), term, first) in OVERLAPS {
        let message = format!(
            "{term} is matched by {first} and by this rule; expected no term that two rules match (refusal 25)"
        );
        let due = [(*line, *column, message)];
        assert_eq!(told(&format!("{BEGIN}{rules}")), due, "{rules}");
    }
}

#[test]
fn all_that_is_outside_the_profile() {
    let again = |name: &str| {
        format!("the variable '{name}' stands here again; expected each variable once in a left side, for the strict profile (refusal 24)")
    };
    let dated =
        "the book is dated; expected no day: the strict profile is for undated books (refusal 24)"
            .to_owned();
    let formless =
        "no operator has arity 0; expected a constant: without one there are no terms (refusal 24)"
            .to_owned();
    let source =
        format!("{BEGIN}rule g(X, X) = X\nrule f(a) = b\nrule f(X) = b\nrule g(f(Y), g(Y, Y)) = Y");
    assert_eq!(told(&source), [(2, 11, again("X")), (5, 16, again("Y"))]);
    let source = format!("{BEGIN}from 7 rule g(Z, Z) = Z\nfrom 8 rule f(X) = X");
    assert_eq!(told(&source), [(2, 1, dated.clone()), (2, 18, again("Z"))]);
    assert_eq!(told("op a/0 from 3"), [(1, 8, dated)]);
    let source = "var X\nop g/2\nop f/1 rule f(X) = X rule f(X) = f(f(X))";
    assert_eq!(told(source), [(2, 4, formless)]);
}

#[test]
fn the_command_tells_the_profile() {
    let free = file("free.book", "op a b/0\nrule a = b\n");
    let ran = kurvneist(&["check", &free, "--strict-profile"]);
    let due = format!("{free}: no warnings; the order of the rules is free\n");
    assert_eq!((ran.status, ran.output, ran.errors.as_str()), (0, due, ""));
    let ran = kurvneist(&["check", &free, "--strict-profile", "--strict"]);
    let due = format!("{free}: no errors; the order of the rules is free\n");
    assert_eq!((ran.status, ran.output), (0, due));
    let ran = kurvneist(&["check", &free]);
    assert_eq!(ran.output, format!("{free}: no warnings\n"));

    let text = file(
        "argued.book",
        "op a b/0\nop f/1\nvar X\nrule f(X) = a\nrule f(a) = b\n",
    );
    let shown = format!(
        "{text}:5:6: f(a) is matched by rule 1 (line 4) and by this rule; expected no term that two rules match (refusal 25)\n   \
         4 | rule f(X) = a\n     |      ^^^^\n   \
         5 | rule f(a) = b\n     |      ^^^^\n"
    );
    let ran = kurvneist(&["check", &text, "--strict-profile"]);
    assert_eq!((ran.status, ran.errors.as_str()), (3, ""));
    assert!(ran.output.contains(&shown), "{}", ran.output);
    assert!(ran
        .output
        .contains("5:6: warning: rule 1 (line 4) comes first"));
    assert!(ran
        .output
        .ends_with(&format!("{text}: 1 error and 1 warning\n")));
    let ran = kurvneist(&["check", &text, "--strict-profile", "--strict"]);
    assert_eq!(ran.status, 3);
    assert!(ran.output.ends_with(&format!("{text}: 2 errors\n")));
    // Warnings may be left out, and this is none.
    let ran = kurvneist(&["check", &text, "--strict-profile", "--allow", "never-first"]);
    assert_eq!(ran.status, 3);
    assert_eq!(ran.output, format!("{shown}{text}: 1 error\n"));
    let ran = kurvneist(&["check", &text, "--allow", "never-first"]);
    assert_eq!(ran.status, 0);

    let ran = kurvneist_with(
        &["check", "-", "--strict-profile"],
        b"op a/0 from 1 rule a = a",
    );
    assert_eq!(ran.status, 3);
    assert!(ran
        .output
        .starts_with("-:1:8: the book is dated; expected no day"));
    let mistaken = kurvneist(&["check", "examples/mistaken.book", "--strict-profile"]);
    let plain = kurvneist(&["check", "examples/mistaken.book"]);
    assert_eq!(
        (mistaken.status, mistaken.errors),
        (plain.status, plain.errors)
    );
    let ran = kurvneist(&["check", &text, "--strict-profil"]);
    assert!(
        ran.errors.contains("did you mean '--strict-profile'?"),
        "{}",
        ran.errors
    );
}

#[test]
fn the_profile_in_json() {
    let names = ["book", "errors", "warnings", "order_free", "diagnostics"];
    let ran = kurvneist(&["check", "examples/ticks.book", "--strict-profile", "--json"]);
    let told = read_line(&ran.output);
    assert_eq!((ran.status, told.names()), (0, names.to_vec()));
    assert_eq!(told.get("order_free"), &Value::Bool(true));
    assert!(told.get("diagnostics").list().is_empty());

    let source = "op a/0\nop f/1\nvar X\nrule a = f(a)\nrule f(X) = a\nrule f(f(X)) = X\n";
    let text = file("argued-json.book", source);
    let ran = kurvneist(&[
        "check",
        &text,
        "--strict-profile",
        "--json",
        "--allow",
        "never-first",
    ]);
    assert_eq!((ran.status, ran.errors.as_str()), (3, ""));
    let told = read_line(&ran.output);
    assert_eq!(told.names(), names);
    assert_eq!(told.get("order_free"), &Value::Bool(false));
    assert_eq!(
        ["errors", "warnings"].map(|name| told.get(name).number()),
        [1, 0]
    );
    let [only] = told.get("diagnostics").list() else {
        panic!("{told:?}")
    };
    let fields = [
        "level", "kind", "certain", "line", "column", "message", "refusal", "rules", "term",
    ];
    assert_eq!(only.names(), fields);
    assert_eq!(
        ["level", "kind"].map(|name| only.get(name).text()),
        ["error", "strict-profile"]
    );
    assert_eq!(
        ["line", "column", "refusal"].map(|name| only.get(name).number()),
        [6, 6, 25]
    );
    assert_eq!(only.get("term").text(), "\"ff\"(a)");
    let rules: Vec<_> = only.get("rules").list().iter().collect();
    assert_eq!(rules.len(), 2);
    for (rule, number, line, sides) in [
        (rules[0], 2, 5, "f(X) = a"),
        (rules[1], 3, 6, "\"ff\"(X) = X"),
    ] {
        assert_eq!(rule.names(), ["rule", "rule_line", "sides"]);
        assert_eq!(
            [rule.get("rule").number(), rule.get("rule_line").number()],
            [number, line]
        );
        assert_eq!(rule.get("sides").text(), sides);
    }

    let ran = kurvneist(&[
        "check",
        "examples/suppliers.book",
        "--strict-profile",
        "--json",
    ]);
    let told = read_line(&ran.output);
    let [only] = told.get("diagnostics").list() else {
        panic!("{told:?}")
    };
    assert_eq!(only.names(), fields[..7]);
    assert_eq!(only.get("refusal").number(), 24);
    // A mistaken book is not looked at.
    let ran = kurvneist(&[
        "check",
        "examples/mistaken.book",
        "--strict-profile",
        "--json",
    ]);
    let told = read_line(&ran.output);
    assert_eq!(told.names(), ["book", "errors", "warnings", "diagnostics"]);
}

/// A random book as a text, and read from it.
fn random_text(random: &mut Random, number: u64) -> (String, Named) {
    let mut draft = match number % 4 {
        0 => {
            let alphabet = texts::alphabet(random);
            strict_text_draft(random, &alphabet)
        }
        _ => strict_draft(random),
    };
    spoil(random, &mut draft);
    let book = model::read_book(&draft.encode()).unwrap();
    let source = printer::book(&book, &Names::generated(&book));
    let named = check::read(&source).unwrap();
    (source, named)
}

/// Every book that the engine doesn't admit has its reason in the text, and the
/// term that is told of two rules is one that the text's names say and that both
/// match.
#[test]
fn random_texts_have_their_reasons() {
    let mut met = [0; 3];
    for number in 0..400 {
        let random = &mut Random::for_case(51, number);
        let (source, named) = random_text(random, number);
        let found = faults(&source, &named).unwrap();
        let due = strict_book(&named.book)
            .err()
            .map(|fault| fault.refusal.number());
        let numbers = found.iter().map(|fault| fault.mistake.refusal);
        assert!(numbers.clone().all(|number| number == due), "{source}");
        assert_eq!(numbers.count() == 0, due.is_none());
        for fault in &found {
            assert!(!fault.show("B", &source).is_empty());
            check_term(fault, &named);
        }
        met[match due {
            None => 0,
            Some(refusal::OUTSIDE_STRICT) => 1,
            _ => 2,
        }] += 1;
    }
    assert!(met.iter().all(|count| *count > 40), "{met:?}");
}

fn check_term(fault: &Fault, named: &Named) {
    let Some(overlap) = &fault.overlap else {
        return;
    };
    let (written, _) = fault.mistake.wrong.split_once(" is matched by ").unwrap();
    let symbols = line::read(written, &named.names).unwrap();
    let book = model::read_book(&named.book).unwrap();
    let term = Form::Line.read(&book, &symbols).unwrap();
    for place in [overlap.first, overlap.second] {
        let left = &book.rules[place].left;
        assert!(left.matches(&term, &mut [None; 16]), "{written}");
    }
}

/// The rules of an admitted text in another order: admitted, and the engine
/// answers alike.
#[test]
fn rearranged_texts_post_alike() {
    let mut posted = 0;
    for number in 0..200 {
        let random = &mut Random::for_case(52, number);
        let (_, named) = random_text(random, number);
        if strict_book(&named.book).is_err() {
            continue;
        }
        let book = model::read_book(&named.book).unwrap();
        let other = write_book(&rearranged(&book, random.draw()));
        assert_eq!(strict_book(&other), Ok(()));
        let schedule: Vec<u8> = (0..400).map(|_| random.below(3) as u8).collect();
        for rule in book.rules.iter().take(5) {
            let line = ground(&rule.left, &book);
            let answer = |bytes: &[u8]| {
                let request = Request::new(bytes, &line).units(3).schedule(&schedule);
                let mut engine = Engine::new();
                let posting = engine.post(&request).unwrap();
                (posting.answer, posting.term.to_vec())
            };
            assert_eq!(answer(&named.book), answer(&other));
            posted += 1;
        }
    }
    assert!(posted > 200, "{posted}");
}

/// A left side with the first constant for its variables.
fn ground(side: &Pattern, book: &Book) -> Vec<u8> {
    let constant = first_constant(book).unwrap();
    let symbols = printer::preorder(side)
        .into_iter()
        .map(|symbol| match symbol {
            Symbol::Operator(operator) => operator,
            Symbol::Variable(_) => constant,
        });
    symbols.collect()
}
