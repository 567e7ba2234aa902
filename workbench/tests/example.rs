//! The worked example, and the commands on it.

mod common;

use common::{file, kurvneist};

#[test]
fn the_lines_give_their_postings_on_any_number_of_units() {
    let expected = std::fs::read_to_string("examples/payees.postings").unwrap();
    for units in ["1", "2", "3", "8"] {
        let ran = kurvneist(&[
            "batch",
            "examples/payees.book",
            "examples/payees.lines",
            "--units",
            units,
        ]);
        assert_eq!(ran.status, 0);
        assert_eq!(ran.output, expected);
    }
    for schedule in ["random:1:20000", "bursts:50:32768"] {
        let ran = kurvneist(&[
            "batch",
            "examples/payees.book",
            "examples/payees.lines",
            "--units=5",
            "--schedule",
            schedule,
        ]);
        assert_eq!((ran.status, ran.output), (0, expected.clone()));
    }
}

/// Lines under one heading are spellings of one payee, so the example's
/// comments are checked too: the caretaker's four have one account.
#[test]
fn spellings_of_one_payee_have_one_account() {
    let postings = std::fs::read_to_string("examples/payees.postings").unwrap();
    let caretaker: Vec<&str> = postings.lines().skip(1).take(4).collect();
    assert_eq!(caretaker, ["70010-König-caretaker"; 4]);
}

#[test]
fn lines_with_mistakes_are_told_in_place() {
    let ran = kurvneist(&["batch", "examples/payees.book", "examples/mixed.lines"]);
    assert_eq!(ran.status, 1);
    assert_eq!(
        ran.output,
        std::fs::read_to_string("examples/mixed.postings").unwrap()
    );
}

/// The page of document 01, by names.
#[test]
fn a_posting_by_names() {
    let post = |more: &[&str]| {
        let line = "both(tick(end), tick(end))";
        kurvneist(&[&["post", "examples/ticks.book", line][..], more].concat())
    };
    let ran = post(&["--budget", "9", "--schedule", "0*29"]);
    let finished =
        "end finished\nrewrites 2\nentries 22\ngranted 0\nkept 2\nterm tick(tick(end))\n";
    assert_eq!((ran.status, ran.output.as_str()), (0, finished));
    let ran = post(&["--budget", "9", "--schedule", "0*21"]);
    assert_eq!(
        (ran.status, ran.output.lines().next()),
        (1, Some("end cut"))
    );
    let ran = post(&["--budget", "1"]);
    let spent =
        "end spent\nrewrites 1\nentries 19\ngranted 0\nkept 2\nterm tick(both(end, tick(end)))\n";
    assert_eq!((ran.status, ran.output.as_str()), (1, spent));
    let ran = post(&["--units", "2", "--schedule", "0*100"]);
    let cut =
        "end cut\nrewrites 0\nentries 100\ngranted 1\nkept 0\nterm both(tick(end), tick(end))\n";
    assert_eq!((ran.status, ran.output.as_str()), (1, cut));
}

#[test]
fn a_packed_book_is_used_with_or_without_names() {
    let packed = file("ticks.packed", "");
    assert_eq!(
        kurvneist(&["book", "examples/ticks.book", "-o", &packed]).status,
        0
    );
    let ran = kurvneist(&["post", &packed, "f2(f1(f0), f1(f0))", "--packed"]);
    assert!(ran.output.ends_with("term f1(f1(f0))\n"), "{}", ran.output);
    let line = "both(tick(end), tick(end))";
    let names = ["--packed", "--names", "examples/ticks.book"];
    let ran = kurvneist(&[&["post", &packed, line][..], &names].concat());
    assert!(
        ran.output.ends_with("term tick(tick(end))\n"),
        "{}",
        ran.output
    );
    let ran = kurvneist(&["post", "examples/ticks.book", line, "--names", "x"]);
    assert_eq!((ran.status, ran.errors.contains("--packed")), (2, true));
}

#[test]
fn a_line_that_is_too_long_is_refused_by_number() {
    let line = format!("{}end{}", "tick(".repeat(1024), ")".repeat(1024));
    for command in ["post", "trace"] {
        let ran = kurvneist(&[command, "examples/ticks.book", &line]);
        assert_eq!((ran.status, ran.output.as_str()), (1, ""));
        assert!(ran.errors.starts_with("refused 12: "), "{}", ran.errors);
    }
}
