//! Many lines on many threads, and what a terminal is shown of it.

mod common;

use std::process::Command;
use std::time::Duration;

use common::{doubled, file, kurvneist, DOUBLING};
use workbench::jobs::in_order;
use workbench::progress::State;

#[test]
fn results_come_in_order() {
    let mut made = Vec::new();
    let mut items = 0..1000u64;
    let done: Result<(), ()> = in_order(
        7,
        || Ok(items.next()),
        || 0,
        |count, item| {
            *count += 1;
            // Later items are often done earlier.
            std::thread::sleep(Duration::from_micros(item * 7919 % 400));
            (item, *count)
        },
        |result| {
            made.push(result);
            Ok(())
        },
    );
    assert_eq!(done, Ok(()));
    assert!(made.iter().map(|(item, _)| *item).eq(0..1000));
    let most = made.iter().map(|(_, count)| *count).max();
    assert_eq!(most, Some(143), "each of 7 threads has its share");
}

/// However many items there are, few are under way.
#[test]
fn nothing_runs_far_ahead() {
    let (taken, put) = (std::cell::Cell::new(0), std::cell::Cell::new(0));
    let done = in_order(
        3,
        || {
            taken.set(taken.get() + 1);
            assert!(taken.get() - put.get() <= 13);
            Ok(Some(()))
        },
        || (),
        |(), ()| (),
        |()| {
            put.set(put.get() + 1);
            match put.get() {
                500 => Err("full"),
                _ => Ok(()),
            }
        },
    );
    assert_eq!(done, Err("full"));
    assert!(taken.get() <= 512);
}

#[test]
fn jobs_change_nothing_but_the_time() {
    let lines = std::fs::read_to_string("examples/payees.lines").unwrap();
    let mixed = std::fs::read_to_string("examples/mixed.lines").unwrap();
    let lines = file("many.lines", (lines + &mixed).repeat(40));
    let run = |jobs: &str| {
        let words = ["batch", "examples/payees.book", &lines, "--units=3"];
        let ran = kurvneist(&[&words[..], &["--counts", "--jobs", jobs]].concat());
        let (summary, _) = ran.errors.rsplit_once(", ").unwrap();
        (ran.status, ran.output, summary.to_owned())
    };
    let one = run("1");
    assert_eq!(one.0, 1);
    assert!(
        one.2.starts_with("1960 lines: 1200 posted, 160 not, 600"),
        "{}",
        one.2
    );
    for jobs in ["2", "3", "16"] {
        assert!(run(jobs) == one, "{jobs}");
    }
}

#[test]
fn progress_says_rate_and_time_left() {
    let state = State {
        count: 1000,
        kind: "lines",
        note: ", 3 not posted",
        done: 1,
        whole: Some(4),
        time: Duration::from_secs(10),
    };
    let told = "1000 lines, 3 not posted, 100/s, 30 s left";
    let bar = format!("[{}{}] ", "=".repeat(7), " ".repeat(23));
    assert_eq!(state.line(200), format!("{bar}{told}"));
    assert_eq!(state.line(50), format!("[=    ] {told}"));
    assert_eq!(state.line(49), told);
    assert_eq!(state.line(40), "[==       ] 1000 lines, 100/s, 30 s left");
    assert_eq!(state.line(27), "1000 lines, 30 s left");
    assert_eq!(state.line(12), "1000 lines");
    assert_eq!(state.line(4), "1000");
    assert_eq!(state.line(0), "");
    for columns in 0..200 {
        assert!(state.line(columns).chars().count() <= columns);
    }
    let piped = State {
        whole: None,
        ..state
    };
    assert_eq!(piped.line(200), "1000 lines, 3 not posted, 100/s");
    let slow = State {
        whole: Some(1000),
        ..piped
    };
    assert!(slow.line(200).ends_with(", 2 h left"));
    let empty = State {
        done: 0,
        whole: Some(0),
        ..slow
    };
    assert!(empty.line(80).ends_with(", 0 s left"));
}

/// Runs a command on a terminal and prints what the terminal got.
const TERMINAL: &str = "
import os, pty, sys
child, terminal = pty.fork()
if child == 0:
    os.execv(sys.argv[1], sys.argv[1:])
while True:
    try:
        got = os.read(terminal, 65536)
    except OSError:
        break
    if not got:
        break
    sys.stdout.buffer.write(got)
sys.exit(os.waitstatus_to_exitcode(os.waitpid(child, 0)[1]))
";

fn on_terminal(arguments: &[&str], term: &str, columns: &str) -> String {
    let done = Command::new("python3")
        .args(["-c", TERMINAL, env!("CARGO_BIN_EXE_kurvneist")])
        .args(arguments)
        .env("TERM", term)
        .env("COLUMNS", columns)
        .output()
        .unwrap();
    assert_eq!(done.status.code(), Some(0), "{done:?}");
    String::from_utf8(done.stdout).unwrap()
}

/// The batch takes over half a second, and progress is drawn each tenth.
#[test]
fn a_terminal_is_shown_progress_in_its_width() {
    let book = file("slow.book", DOUBLING);
    let lines = file("slow.lines", (doubled(11) + "\n").repeat(1500));
    let output = file("slow.postings", "");
    let batch = ["batch", &book, &lines, "-o", &output];
    for columns in [80, 30] {
        let shown = on_terminal(&batch, "xterm", &columns.to_string());
        let drawn: Vec<&str> = shown.split("\r\u{1b}[K\u{1b}[?7l").skip(1).collect();
        assert!(drawn.len() > 2, "{shown:?}");
        for line in &drawn {
            let (line, _) = line.split_once("\u{1b}[?7h").unwrap();
            assert!(line.chars().count() < columns, "{line:?}");
            assert!(line.is_empty() || line.contains(" left"), "{line:?}");
        }
        assert!(drawn.last().unwrap().contains("1500 lines: 1500 posted"));
    }
    for (term, more) in [("dumb", "--counts"), ("", "--counts"), ("xterm", "--quiet")] {
        let shown = on_terminal(&[&batch[..], &[more]].concat(), term, "80");
        assert!(!shown.contains('\u{1b}'), "{term}: {shown:?}");
    }
}
