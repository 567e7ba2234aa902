//! Batches lose nothing.

mod common;

use std::io::{self, BufRead, BufReader, Read, Write};
use std::process::{Command, Stdio};
use std::time::Duration;

use common::{file, kurvneist, kurvneist_with};
use comparison::random::Random;
use kurvneist::{Ending, Engine, Request};
use workbench::batch::{run, Failure, Settings, Summary};
use workbench::blocks::{paced, Blocks, MOST};
use workbench::items::Reading;
use workbench::line;
use workbench::lines::Lines;
use workbench::posting::Schedules;
use workbench::progress::Progress;
use workbench::text::check;
use workbench::text::printer;

const BOOK: &str = include_str!("../examples/ticks.book");

/// A random line: a term, a mistake, nothing, a comment, bytes.
fn random_line(random: &mut Random) -> Vec<u8> {
    let ticks = |random: &mut Random| {
        let count = random.below(5);
        format!("{}end{}", "tick(".repeat(count), ")".repeat(count))
    };
    match random.below(10) {
        0 => b"".to_vec(),
        1 => b"  # a comment".to_vec(),
        2 => b"both(end, ti\xe9(end))".to_vec(),
        3 => b"both(end, tik(end))".to_vec(),
        4 => format!("{}end{}", "tick(".repeat(1024), ")".repeat(1024)).into_bytes(),
        _ => format!("both({}, both({}, end))", ticks(random), ticks(random)).into_bytes(),
    }
}

/// Runs a batch by three units over an input, with what it wrote.
fn batch(input: &mut dyn Read, jobs: usize) -> (Result<Summary, Failure>, String) {
    let named = check::read(BOOK).unwrap();
    let schedules = Schedules::new(3, Some([0, 1, 2].repeat(2000)));
    let settings = Settings {
        named: &named,
        budget: 5,
        day: 0,
        schedules: &schedules,
        counts: false,
        reading: &Reading::lines(),
        json: false,
        profile: None,
        charging: None,
        jobs,
    };
    let mut output = Vec::new();
    let summary = run(input, &settings, &mut output, &mut Progress::hidden());
    (summary, String::from_utf8(output).unwrap())
}

#[test]
fn output_line_k_belongs_to_input_line_k() {
    let mut random = Random::new(5);
    for (ending, jobs) in [("", 1), ("\n", 1), ("\r\n", 1), ("\n", 2), ("\r\n", 5)] {
        let lines: Vec<Vec<u8>> = (0..300).map(|_| random_line(&mut random)).collect();
        let separator = if ending == "\r\n" { "\r\n" } else { "\n" };
        let mut input = lines.join(separator.as_bytes());
        input.extend(ending.as_bytes());
        let last_lost = ending.is_empty() && lines.last().is_some_and(Vec::is_empty);
        let (summary, output) = batch(&mut &input[..], jobs);
        let summary = summary.unwrap();
        let told: Vec<&str> = output.split(separator).collect();
        assert_eq!(told.len(), 301 - usize::from(last_lost));
        for (line, told) in lines.iter().zip(&told) {
            assert_eq!(*told, alone(line), "{:?}", String::from_utf8_lossy(line));
        }
        assert_eq!(summary.lines, told.len() - 1);
        let all = summary.posted + summary.empty + summary.not_posted();
        assert_eq!(all, summary.lines);
        assert!(summary.posted > 50 && summary.refused > 10 && summary.mistaken > 20);
    }
}

/// Answers so many bytes at once at most.
struct Pieces<'a> {
    left: &'a [u8],
    most: usize,
}

impl Read for Pieces<'_> {
    fn read(&mut self, buffer: &mut [u8]) -> io::Result<usize> {
        let most = self.most.min(buffer.len());
        self.left.read(&mut buffer[..most])
    }
}

/// Wherever the blocks end: by their number of lines, and by what is there when
/// lines are asked for.
#[test]
fn blocks_leave_no_trace() {
    let mut random = Random::new(22);
    for count in [0, 1, 2, 3, 7, 8, MOST - 1, MOST, MOST + 1, 3 * MOST] {
        let lines: Vec<Vec<u8>> = (0..count).map(|_| random_line(&mut random)).collect();
        let told: Vec<String> = lines.iter().map(|line| alone(line)).collect();
        let input: Vec<u8> = lines
            .iter()
            .flat_map(|line| [line, &b"\n"[..]].concat())
            .collect();
        for most in [1, 20, 5000, input.len() + 1] {
            for jobs in [1, 2, 3] {
                let left = &input[..];
                let (summary, output) = batch(&mut Pieces { left, most }, jobs);
                assert_eq!(summary.unwrap().lines, count);
                assert_eq!(
                    output,
                    told.iter()
                        .map(|told| told.clone() + "\n")
                        .collect::<String>()
                );
            }
        }
    }
}

/// The blocks' numbers of lines.
fn sizes(input: &[u8], piece: usize, most: usize) -> Vec<usize> {
    let mut input = Pieces {
        left: input,
        most: piece,
    };
    let reading = Reading::lines();
    let mut blocks = Blocks::new(Lines::new(&mut input), &reading);
    let mut sizes = Vec::new();
    while let Some(block) = blocks.next(most).unwrap() {
        sizes.push(block.items.len());
    }
    sizes
}

#[test]
fn a_block_ends_where_it_is_full_or_would_wait() {
    let six = b"a\n".repeat(6);
    assert_eq!(sizes(b"", 99, 3), []);
    assert_eq!(sizes(&six, 99, 7), [6]);
    assert_eq!(sizes(&six, 99, 6), [6]);
    assert_eq!(sizes(&six, 99, 4), [4, 2]);
    assert_eq!(sizes(&six, 99, 3), [3, 3]);
    assert_eq!(sizes(&six, 99, 1), [1; 6]);
    assert_eq!(sizes(&six, 2, 6), [1; 6], "each line is read by itself");
    assert_eq!(
        sizes(&six, 5, 6),
        [2, 3, 1],
        "one is there in part, and then whole"
    );
    assert_eq!(sizes(b"a\na\na", 99, 6), [2, 1], "the last may go on");
    let long = [&b"-".repeat(1 << 20)[..], b"\n", &six].concat();
    assert_eq!(sizes(&long, long.len(), 6), [1, 6]);
}

#[test]
fn blocks_take_about_a_tenth_of_a_second() {
    let milliseconds = Duration::from_millis;
    assert_eq!(paced(1, 1, Duration::ZERO), 2);
    assert_eq!(paced(2, 2, milliseconds(1)), 4);
    assert_eq!(paced(4, 1, milliseconds(1)), 8, "the input had no more");
    assert_eq!(paced(MOST, MOST, milliseconds(1)), MOST);
    assert_eq!(paced(MOST, 200, milliseconds(1000)), 20);
    assert_eq!(paced(MOST, 3, milliseconds(60_000)), 1);
    assert_eq!(paced(1, 1, Duration::MAX), 1);
}

/// Fails where it is read.
struct Broken;

impl Read for Broken {
    fn read(&mut self, _: &mut [u8]) -> io::Result<usize> {
        Err(io::Error::other("broken"))
    }
}

#[test]
fn what_comes_before_a_failure_is_told() {
    let lines = b"end\nboth(end, end)\n".repeat(5);
    let (summary, output) = batch(&mut Read::chain(&lines[..], Broken), 1);
    assert!(matches!(summary, Err(Failure::Read(error)) if error.to_string() == "broken"));
    assert_eq!(output, "end\n".repeat(10));

    let columns = ["--column", "Payee", "--payee"];
    let ran = kurvneist_with(
        &[&["batch", "examples/payees.book", "-"], &columns[..]].concat(),
        b"\n\n\nDate\n",
    );
    assert_eq!((ran.status, ran.output.as_str()), (3, "\n\n\n"));
}

/// What a line gives by itself, in an engine of its own.
fn alone(line: &[u8]) -> String {
    let named = check::read(BOOK).unwrap();
    let Ok(text) = std::str::from_utf8(line) else {
        let expected = "UTF-8, or --encoding with the file's";
        return format!("! column 13: the byte E9 is not UTF-8; expected {expected}");
    };
    if text.trim_start().is_empty() || text.trim_start().starts_with('#') {
        return text.into();
    }
    let symbols = match line::read(text, &named.names) {
        Ok(symbols) => symbols,
        Err(mistake) => {
            return format!("! column {}: {}", mistake.place(text).1, mistake.message())
        }
    };
    let mut engine = Engine::new();
    let schedule = [0, 1, 2].repeat(2000);
    let request = Request::new(&named.book, &symbols)
        .units(3)
        .budget(5)
        .schedule(&schedule);
    match engine.post(&request) {
        Err(refusal) => format!("! {refusal}"),
        Ok(posting) => {
            let term = printer::term(posting.term, &named.names);
            match posting.answer.ending {
                Ending::Finished => term,
                Ending::Spent => format!("! spent after 5 rewrites at {term}"),
                other => panic!("{other:?}"),
            }
        }
    }
}

#[test]
fn the_command_tells_all_in_place_and_sums_up() {
    let lines = "both(end, end)\n\n# note\nboth(end)\ntick(both(tick(tick(end)), end))";
    let lines = file("mixed.lines", lines);
    let ran = kurvneist(&["batch", "examples/ticks.book", &lines, "--budget", "2"]);
    assert_eq!(ran.status, 1);
    assert_eq!(
        ran.output,
        "end\n\n# note\n! column 1: 'both' stands with 1 argument; expected 2\n\
         ! spent after 2 rewrites at tick(tick(tick(both(end, end))))\n"
    );
    assert!(ran
        .errors
        .starts_with("5 lines: 1 posted, 2 not, 2 blank or comment\n"));
    assert!(ran
        .errors
        .contains("not posted: 1 spent, 0 full, 0 cut, 0 refused, 1 mistyped\n"));
    assert!(
        !ran.errors.contains('\r'),
        "no bar where there is no terminal"
    );

    let ran = kurvneist(&["batch", "examples/ticks.book", &lines, "--quiet"]);
    assert_eq!((ran.status, ran.errors.as_str()), (1, ""));
}

#[test]
fn a_batch_from_standard_input_to_a_file() {
    let output = file("postings", "");
    let arguments = [
        "batch",
        "examples/ticks.book",
        "-",
        "--counts",
        "-o",
        &output,
    ];
    let ran = kurvneist_with(&arguments, b"both(tick(end), tick(end))\n");
    assert_eq!((ran.status, ran.output.as_str()), (0, ""));
    let told = std::fs::read_to_string(output).unwrap();
    assert_eq!(
        told,
        "tick(tick(end))  # rewrites 2, entries 22, granted 0, kept 2\n"
    );
    assert!(ran
        .errors
        .starts_with("1 line: 1 posted, 0 not, 0 blank or comment\nrewrites 2, entries 22, FORKs granted 0, kept 2, "));
    assert_eq!(
        kurvneist_with(&["batch", "examples/ticks.book", "-"], b"").output,
        ""
    );
}

/// As an editor on Windows saves it.
#[test]
fn a_file_may_begin_with_a_mark() {
    let input = "\u{feff}# note\r\nend\r\n";
    let ran = kurvneist_with(&["batch", "examples/ticks.book", "-"], input.as_bytes());
    assert_eq!(
        (ran.status, ran.output.as_str()),
        (0, "\u{feff}# note\r\nend\r\n")
    );
    let book = file("marked.book", "\u{feff}op a/0\r\nrule a = a\r\n");
    assert_eq!(kurvneist(&["book", &book]).status, 0);
}

#[test]
fn lines_in_latin1() {
    let input = b"line(payee(\"Ren\xe9e Wei\xdf\"), purpose(\"Miete\"))\n";
    let plain = ["batch", "examples/payees.book", "-"];
    let ran = kurvneist_with(&plain, input);
    assert_eq!(
        (
            ran.status,
            ran.output.starts_with("! column 16: the byte E9")
        ),
        (1, true)
    );
    let ran = kurvneist_with(&[&plain[..], &["--latin1"]].concat(), input);
    assert_eq!((ran.status, ran.output.as_str()), (0, "8400-Weiß-2.OG\n"));
}

/// A line among many has at most 65,535 bytes; a longer one is posted too.
#[test]
fn a_line_of_any_length_is_the_engines_to_judge() {
    let between = |spaces| format!("{}König\n", " ".repeat(spaces));
    let letters = |count| "x".repeat(count);
    let too_long = "! refused 18: the text's term would have over 1,024 symbols\n";
    let payees = format!(
        "{}{}{}{}\n{}\nWeiß\n",
        between(65_529),
        between(65_530),
        between(65_531),
        letters(65_535),
        letters(65_536)
    );
    let told = [
        "König\n".repeat(3),
        too_long.repeat(2),
        "\"weiss\"\n".into(),
    ]
    .concat();
    let terms = [1023, 1024, 65_535, 65_536].map(|count| format!("\"{}\"\n", letters(count)));
    let refused = "! refused 12: the line has over 1,024 bytes\n";
    for jobs in ["1", "2"] {
        let batch = ["batch", "examples/payees.book", "-", "--jobs", jobs];
        let ran = kurvneist_with(&[&batch[..], &["--payee"]].concat(), payees.as_bytes());
        assert_eq!((ran.status, ran.output.as_str()), (1, told.as_str()));
        let ran = kurvneist_with(&batch, terms.concat().as_bytes());
        assert_eq!(ran.output, [&terms[0], &refused.repeat(3)[..]].concat());
    }
    let without = ["batch", "examples/ticks.book", "-", "--payee"];
    let ran = kurvneist_with(&without, payees.as_bytes());
    let told: Vec<&str> = ran.output.lines().collect();
    assert!(told.iter().all(|told| told.starts_with("! refused 19: ")));
    assert_eq!(told.len(), 6);
}

#[test]
fn an_empty_file_is_a_batch_of_no_lines() {
    let lines = file("empty.lines", "");
    for jobs in ["1", "2", "256"] {
        let ran = kurvneist(&["batch", "examples/ticks.book", &lines, "--jobs", jobs]);
        assert_eq!((ran.status, ran.output.as_str()), (0, ""));
        let told = "0 lines: 0 posted, 0 not, 0 blank or comment\nrewrites 0, ";
        assert!(ran.errors.starts_with(told), "{}", ran.errors);
    }
}

/// Who types lines sees each posting before the next line, and of lines that
/// come together all but one that has no end yet.
#[test]
fn postings_dont_wait_for_more_lines() {
    let mut child = Command::new(env!("CARGO_BIN_EXE_kurvneist"))
        .args(["batch", "examples/ticks.book", "-", "--quiet"])
        .current_dir(env!("CARGO_MANIFEST_DIR"))
        .stdin(Stdio::piped())
        .stdout(Stdio::piped())
        .spawn()
        .unwrap();
    let mut input = child.stdin.take().unwrap();
    let mut output = BufReader::new(child.stdout.take().unwrap()).lines();
    for (typed, postings) in [
        ("both(end, end)\n", ["end"].as_slice()),
        (
            "tick(end)\n# note\n\nboth(tick",
            &["tick(end)", "# note", ""],
        ),
        ("(end), end)\n", &["tick(end)"]),
        ("end", &[]),
    ] {
        input.write_all(typed.as_bytes()).unwrap();
        for posting in postings {
            assert_eq!(output.next().unwrap().unwrap(), *posting);
        }
    }
    drop(input);
    assert_eq!(output.next().unwrap().unwrap(), "end");
    assert!(output.next().is_none());
    assert_eq!(child.wait().unwrap().code(), Some(0));
}
