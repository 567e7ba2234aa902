//! The help says all there is, and wrong command lines are told.

mod common;

use common::kurvneist;
use workbench::cli::options::COMMANDS;

#[test]
fn help_names_every_command_and_option() {
    let general = kurvneist(&["--help"]);
    assert_eq!((general.status, general.errors.as_str()), (0, ""));
    assert_eq!(kurvneist(&["help"]).output, general.output);
    assert_eq!(kurvneist(&[]).output, general.output);
    for command in COMMANDS {
        let own = kurvneist(&[command.name, "--help"]);
        assert_eq!(own.status, 0);
        assert_eq!(kurvneist(&["help", command.name]).output, own.output);
        assert!(general
            .output
            .contains(&format!("kurvneist {} ", command.name)));
        for flag in command.flags {
            let written = format!("  {} {}", flag.name, flag.value.unwrap_or(""));
            let line = |text: &str| {
                text.lines()
                    .any(|line| line.starts_with(&written) && line.ends_with(flag.help))
            };
            assert!(line(&own.output), "{written}\n{}", own.output);
            assert!(line(&general.output), "{written}");
        }
        for (name, what) in command.arguments {
            assert!(own.output.contains(name) && own.output.contains(what));
        }
    }
    for part in [
        "The text form of a book",
        "Exit status",
        "Forms of a schedule",
    ] {
        assert!(general.output.contains(part), "{part}");
    }
    assert!(general
        .output
        .lines()
        .all(|line| line.chars().count() <= 84));
}

/// The book in the help is one.
#[test]
fn the_helps_example_is_a_book() {
    let help = kurvneist(&["help", "book"]).output;
    let start = help.find("  op end/0").unwrap();
    let end = start + help[start..].find("\n\n").unwrap();
    let named = workbench::text::check::read(&help[start..end]).unwrap();
    assert_eq!(named.names.len(), 3);
}

/// A command line, and what is said about it.
const WRONG: &[(&[&str], &str)] = &[
    (
        &["bok", "x"],
        "'bok' is no command; expected book, text, check, post, bound, resume, points, explain, trace, batch, fees or help",
    ),
    (&["bok", "x"], "; did you mean 'book'?"),
    (&["halp"], "; did you mean 'help'?"),
    (
        &["post", "x", "y", "--unit=2"],
        "'--unit' is no option of this command; did you mean '--units'?",
    ),
    (
        &["batch", "x", "y", "--colunm", "2"],
        "'--colunm' is no option of this command; did you mean '--column'?",
    ),
    (&["book"], "TEXT is missing"),
    (&["post", "x"], "LINE is missing"),
    (&["book", "x", "y"], "'y' is one argument too many"),
    (
        &["book", "x", "--units", "2"],
        "'--units' is no option of this command",
    ),
    (&["post", "x", "y", "--units"], "--units lacks its U"),
    (
        &["post", "x", "y", "--units", "2", "--units=3"],
        "--units is given twice",
    ),
    (&["batch", "x", "y", "--quiet=1"], "--quiet has no value"),
    (
        &["post", "x", "y", "--units", "9"],
        "from 1 to 8 (refusal 13)",
    ),
    (
        &["post", "x", "y", "--units", "0"],
        "from 1 to 8 (refusal 13)",
    ),
    (
        &["post", "x", "y", "--budget", "4294967296"],
        "expected a number from 0 to 4294967295",
    ),
    (
        &["trace", "x", "y", "--check", "0"],
        "expected a number from 1 to 4294967295",
    ),
    (
        &["post", "x", "y", "--schedule", "0,1"],
        "names unit 1; expected units 0 to 0 (refusal 14)",
    ),
    (
        &["post", "x", "y", "--schedule", "often"],
        "'often' is no schedule; the forms are",
    ),
    (
        &["post", "x", "y", "--schedule", "round-robin:x"],
        "'x' is no number",
    ),
    (
        &["post", "x", "y", "--schedule", "a:b:c:d"],
        "is no schedule; the forms are",
    ),
];

/// The same, for files that are named twice or for nothing.
const LOSING: &[(&[&str], &str)] = &[
    (
        &["batch", "-", "-"],
        "BOOK and LINES are both standard input",
    ),
    (
        &["text", "-", "--names", "-"],
        "BOOK and --names are both standard input",
    ),
    (
        &["trace", "x", "y", "--no-text"],
        "--no-text leaves nothing to write; expected --svg FILE",
    ),
    (
        &["trace", "x", "y", "--no-text", "--svg", "a", "-o", "b"],
        "-o is for the text, which --no-text leaves out",
    ),
    (
        &["trace", "x", "y", "--svg", "-"],
        "the text and the picture both go to standard output",
    ),
    (
        &["trace", "x", "y", "--svg=-", "-o", "-"],
        "--svg - and -o - are one file",
    ),
    (
        &["trace", "x", "y", "--svg", "a", "-o", "./a"],
        "--svg a and -o ./a are one file",
    ),
    (
        &["trace", "x", "y", "--svg", "a", "-o", "examples/../a"],
        "are one file",
    ),
    (
        &["trace", "x", "y", "--no-text", "--svg", "a", "--rules-only"],
        "--rules-only is for the text, which --no-text leaves out",
    ),
    (
        &["batch", "x", "y", "--profile", "-"],
        "the postings and the profile both go to standard output; expected -o FILE",
    ),
    (
        &["batch", "x", "y", "--profile", "a", "-o", "./a"],
        "-o ./a and --profile a are one file",
    ),
    (
        &["batch", "x", "y", "--jobs", "0"],
        "--jobs 0: expected a number from 1 to 256",
    ),
    (
        &["batch", "x", "y", "--jobs", "257"],
        "expected a number from 1 to 256",
    ),
];

/// Help, tour and README say the same.
#[test]
fn the_exit_statuses_are_documented_once() {
    let table = workbench::cli::help::STATUS.trim_end();
    let (_, table) = table.split_once('\n').unwrap();
    assert!(kurvneist(&["--help"]).output.contains(table));
    for page in ["TOUR.md", "../README.md"] {
        let text = std::fs::read_to_string(page).unwrap();
        assert!(text.contains(table), "{page}");
    }
}

#[test]
fn wrong_command_lines_are_told() {
    for (arguments, told) in WRONG.iter().chain(LOSING) {
        let ran = kurvneist(arguments);
        assert_eq!((ran.status, ran.output.as_str()), (2, ""), "{arguments:?}");
        assert!(ran.errors.contains(told), "{arguments:?}\n{}", ran.errors);
    }
    assert_eq!(kurvneist(&["--version"]).output, "kurvneist 0.1.0\n");
}

/// A line may look like an option.
#[test]
fn options_end_behind_two_dashes() {
    let book = common::file("dash.book", "op end/0 op -/1 var X rule -(X) = X");
    let ran = kurvneist(&["post", &book, "--units=2", "--", "-(end)"]);
    assert_eq!((ran.status, ran.output.ends_with("term end\n")), (0, true));
    let ran = kurvneist(&["post", &book, "-(end)"]);
    assert_eq!(ran.status, 2);
}

#[test]
fn forms_of_a_schedule() {
    let read = |form, units| workbench::schedule::read(form, units).unwrap();
    assert_eq!(read("round-robin:5", 2), [0, 1, 0, 1, 0]);
    assert_eq!(read("bursts:2:7", 3), [0, 0, 1, 1, 2, 2, 0]);
    assert_eq!(read("0,1*3, 0", 2), [0, 1, 1, 1, 0]);
    assert_eq!(read("", 1), []);
    assert_eq!(read("round-robin:0", 8), []);
    assert_eq!(read("random:3:100", 4), read("random:3:100", 4));
    assert_ne!(read("random:3:100", 4), read("random:4:100", 4));
    let name = common::file("schedule", [0, 1, 1]);
    assert_eq!(read(&format!("file:{name}"), 2), [0, 1, 1]);
}
