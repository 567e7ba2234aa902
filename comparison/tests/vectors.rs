//! The model on the vectors from outside.

use std::path::Path;

use comparison::model::Form;
use comparison::vectors::{run, Kind};

const LINE: Kind = Kind::Page(Form::Line);
const TEXT: Kind = Kind::Page(Form::Text);

fn check(kind: Kind, folder: &str, count: usize) {
    let folder = Path::new("../vectors").join(folder);
    let outcome = run(kind, &folder).unwrap();
    assert!(outcome.failed.is_empty(), "{:?}", outcome.failed);
    assert_eq!(outcome.passed, count);
}

#[test]
fn base() {
    check(LINE, "base", 382);
}

#[test]
fn lines_of_change_1() {
    check(LINE, "changes-1/line", 200);
}

#[test]
fn texts_of_change_1() {
    check(TEXT, "changes-1/payee", 120);
}

#[test]
fn lines_of_change_2() {
    check(LINE, "changes-2/line", 200);
}

#[test]
fn texts_of_change_2() {
    check(TEXT, "changes-2/payee", 120);
}

#[test]
fn lines_of_change_3() {
    check(LINE, "changes-3/line", 200);
}

#[test]
fn texts_of_change_3() {
    check(TEXT, "changes-3/payee", 120);
}

#[test]
fn lines_of_change_4() {
    check(LINE, "changes-4/line", 200);
}

#[test]
fn texts_of_change_4() {
    check(TEXT, "changes-4/payee", 120);
}

#[test]
fn lines_of_change_5() {
    check(LINE, "changes-5/line", 200);
}

#[test]
fn texts_of_change_5() {
    check(TEXT, "changes-5/payee", 120);
}

#[test]
fn lines_of_change_9() {
    check(LINE, "changes-9/line", 200);
}

#[test]
fn texts_of_change_9() {
    check(TEXT, "changes-9/payee", 120);
}

#[test]
fn lines_of_change_10() {
    check(LINE, "changes-10/line", 200);
}

#[test]
fn texts_of_change_10() {
    check(TEXT, "changes-10/payee", 120);
}

#[test]
fn books_of_change_5() {
    check(Kind::Write, "changes-5/write", 80);
}

/// The other program's inputs don't pass: a run of them shows something.
#[test]
fn inputs_of_the_other_program() {
    let folder = Path::new("../vectors/changes-10");
    let failed = |kind, name| run(kind, &folder.join(name)).unwrap().failed.len();
    assert!(failed(TEXT, "line") > 50);
    assert!(failed(LINE, "payee") > 50);
}
