//! Good lines don't fail: not by a schedule's length, not by more units.

mod common;

use common::{doubled, doubled_rewrites, file, kurvneist, kurvneist_with, DOUBLING};
use comparison::model::Form;
use kurvneist::{Batch, Engine, Refusal};
use workbench::line;
use workbench::posting::Schedules;
use workbench::text::check;

fn value(page: &str, name: &str) -> u64 {
    let line = page.lines().find_map(|line| line.strip_prefix(name));
    line.unwrap().trim().parse().unwrap()
}

#[test]
fn a_longer_schedule_is_found() {
    let book = file("longer.book", DOUBLING);
    for (ticks, least) in [(12, 32_768), (15, 262_144)] {
        let line = doubled(ticks);
        let mut postings = Vec::new();
        for units in ["1", "2", "8"] {
            let ran = kurvneist(&["post", &book, &line, "--units", units]);
            assert_eq!((ran.status, ran.errors.as_str()), (0, ""));
            assert!(value(&ran.output, "entries ") > least, "{}", ran.output);
            let rewrites = doubled_rewrites(ticks as u32);
            assert_eq!(value(&ran.output, "rewrites "), rewrites);
            postings.push(ran.output.lines().last().unwrap().to_owned());

            let input = format!("{line}\ntick(end)\n");
            let batch = ["batch", &book, "-", "--units", units];
            let ran = kurvneist_with(&batch, input.as_bytes());
            assert_eq!(ran.status, 0);
            let posting = postings[0].strip_prefix("term ").unwrap();
            assert_eq!(ran.output, format!("{posting}\ntick(end)\n"));
        }
        assert_eq!(postings, vec![postings[0].clone(); 3]);
    }
}

#[test]
fn a_trace_is_as_long_as_its_run() {
    let (book, line) = (file("traced.book", DOUBLING), doubled(12));
    let trace = |more: &[&str]| {
        let words = ["trace", &book, &line, "--check", "100000"];
        kurvneist(&[&words[..], more].concat())
    };
    let ran = trace(&["--units", "2"]);
    assert_eq!((ran.status, ran.errors.as_str()), (0, ""));
    let last = ran.output.lines().last().unwrap();
    assert!(
        last.starts_with("finished: rewrites 12286, entries "),
        "{last}"
    );
    let entries: u64 = last.split([' ', ',']).nth(5).unwrap().parse().unwrap();
    assert!(entries > 32_768);

    let ran = trace(&["--schedule", "0*50"]);
    assert_eq!(ran.status, 1);
    assert_eq!(
        ran.errors,
        "cut after 50 entries: try a longer --schedule in which every unit acts, or none\n"
    );
}

#[test]
fn a_given_schedule_is_kept_and_the_message_says_what_to_try() {
    let advice = "try a longer --schedule in which every unit acts, or none";
    let (book, line) = (file("given.book", DOUBLING), doubled(12));
    let schedule = ["--schedule", "round-robin:32768"];
    let post = ["post", &book, &line];
    let ran = kurvneist(&[&post[..], &schedule].concat());
    assert_eq!((ran.status, value(&ran.output, "entries ")), (1, 32_768));
    assert_eq!(ran.errors, format!("cut after 32768 entries: {advice}\n"));
    let batch = ["batch", &book, "-"];
    let ran = kurvneist_with(&[&batch[..], &schedule].concat(), line.as_bytes());
    let told = format!("! cut after 32768 entries ({advice}) at ");
    assert_eq!((ran.status, ran.output.starts_with(&told)), (1, true));
    assert!(ran.errors.contains("0 full, 1 cut, "));
}

/// No schedule is long enough for a run that goes on for ever.
#[test]
fn the_limit_is_kept() {
    let book = file("ever.book", "op a/0 rule a = a");
    let post = ["post", &book, "a"];
    let ran = kurvneist(&[&post[..], &["--budget", "4294967295", "--units", "2"]].concat());
    assert_eq!(
        (ran.status, value(&ran.output, "entries ")),
        (1, 16_777_216)
    );
    let told = "cut after 16777216 entries: the most without --schedule; file:NAME takes";
    assert!(ran.errors.starts_with(told), "{}", ran.errors);
    let ran = kurvneist(&post);
    assert_eq!(ran.output.lines().next(), Some("end spent"));
    let ran = kurvneist(&["trace", &book, "a", "--check", "1000000"]);
    let last = ran.output.lines().last().unwrap();
    assert_eq!(
        ran.errors,
        "cut after 32768 entries: to see more takes a --schedule, such as round-robin:1000000\n"
    );
    assert!(
        last.starts_with("cut: rewrites 16384, entries 32768, "),
        "{last}"
    );
}

/// Each part grows to over 512 symbols before it shrinks: one unit does one
/// after the other, two units do both at once.
fn wide() -> (String, String) {
    let sixty = "t(".repeat(60) + "Y" + &")".repeat(60);
    let book = format!(
        "op z/0 op s t drop/1 op grow/2 (0) op pair/2 ({{1 2}} 0)\n\
         var X Y\nrule grow(s(X), Y) = grow(X, {sixty})\n\
         rule grow(z, Y) = z\n"
    );
    let part = format!("grow({}z{}, z)", "s(".repeat(10), ")".repeat(10));
    (book, format!("pair({part}, {part})"))
}

#[test]
fn more_units_never_make_a_line_fail() {
    let (book, line) = wide();
    let book = file("wide.book", book);
    let post = |more: &[&str]| kurvneist(&[&["post", &book, &line][..], more].concat());
    let one = post(&[]);
    assert_eq!((one.status, one.errors.as_str()), (0, ""));
    let given = post(&["--units", "2", "--schedule", "round-robin:1000"]);
    assert_eq!(given.output.lines().next(), Some("end full"));
    let two = post(&["--units", "2"]);
    assert_eq!((two.status, &two.output), (0, &one.output));
    assert_eq!(
        two.errors,
        "posted by one unit, since the run by 2 ended full\n"
    );

    let batch = ["batch", &book, "-", "--units", "2"];
    let ran = kurvneist_with(&batch, line.as_bytes());
    assert_eq!((ran.status, ran.output.as_str()), (0, "pair(z, z)\n"));
    let told = "posted by one unit, where more ended full or cut: 1\n";
    assert!(ran.errors.contains(told), "{}", ran.errors);
}

/// Also where they are run again, longer or by one unit, or are refused.
#[test]
fn lines_together_are_posted_as_each_by_itself() {
    let (wide_book, wide_line) = wide();
    let doubled_lines = [0, 12, 3, 15, 1025, 12, 1].map(doubled).to_vec();
    let wide_lines = vec!["z".into(), wide_line.clone(), "s(z)".into(), wide_line];
    for (book, lines) in [(DOUBLING, doubled_lines), (&wide_book, wide_lines)] {
        let named = check::read(book).unwrap();
        let read = |text: &String| line::read(text, &named.names).unwrap();
        let lines: Vec<Vec<u8>> = lines.iter().map(read).collect();
        let lines: Vec<&[u8]> = lines.iter().map(Vec::as_slice).collect();
        for (units, given) in [
            (1, None),
            (2, None),
            (8, None),
            (2, Some([0, 1].repeat(50))),
        ] {
            let schedules = Schedules::new(units, given);
            let batch = Batch::new(&named.book).budget(100_000);
            let mut engine = Engine::new();
            let together = schedules.post_all(&mut engine, Form::Line, &batch, &lines);
            assert_eq!(together.len(), lines.len());
            for (line, among) in lines.iter().zip(together) {
                let alone = schedules.post(&mut engine, Form::Line, &batch.line(line));
                assert_eq!(among, alone);
            }
        }
    }
}

#[test]
fn a_refused_book_refuses_each_line() {
    let schedules = Schedules::new(1, None);
    let mut engine = Engine::new();
    let lines: [&[u8]; 2] = [&[0], &[7]];
    let posted = schedules.post_all(&mut engine, Form::Line, &Batch::new(&[]), &lines);
    let refused = || Err(Refusal::BookRunsOut);
    assert_eq!(posted, [refused(), refused()]);
    assert_eq!(
        schedules.post_all(&mut engine, Form::Line, &Batch::new(&[]), &[]),
        []
    );
}
