//! How long a schedule suffices: what is said, that it is enough, and that runs
//! without a schedule are sized by it.

mod common;

use common::json::{self, Value};
use common::{doubled, file, kurvneist, kurvneist_with, Ran, DOUBLING};
use comparison::model::Form;
use kurvneist::{Bound, Ending, Engine, Refusal, Request};
use workbench::line;
use workbench::posting::{Posted, Runner, Schedules, LENGTHS};
use workbench::text::check;

const TICKS: [&str; 2] = ["examples/ticks.book", "both(tick(end), tick(end))"];

fn bound(words: &[&str], more: &[&str]) -> Ran {
    kurvneist(&[&["bound"], words, more].concat())
}

/// A number of what is printed.
fn value(page: &str, name: &str) -> u64 {
    let line = page.lines().find_map(|line| line.strip_prefix(name));
    line.unwrap().trim().parse().unwrap()
}

#[test]
fn rounds_and_entries_are_told() {
    let due = |entries| {
        format!("end finished\norders 22\nforks 2\nmost-orders 28\nrounds 30\nentries {entries}\n")
    };
    for (units, entries) in [("1", 30), ("2", 60), ("8", 240)] {
        let ran = bound(&TICKS, &["--units", units]);
        assert_eq!((ran.status, ran.errors.as_str()), (0, ""));
        assert_eq!(ran.output, due(entries));
    }
    assert_eq!(bound(&TICKS, &[]).output, due(30));
    assert_eq!(bound(&TICKS, &["--budget", "2"]).output, due(30));
    let ran = bound(&TICKS, &["--units", "2", "--json"]);
    assert_eq!(
        ran.output,
        "{\"end\":\"finished\",\"orders\":22,\"forks\":2,\"most_orders\":28,\"rounds\":30,\
         \"units\":2,\"entries\":60}\n"
    );
}

/// The entries that are printed are enough, for any number of units.
#[test]
fn a_schedule_of_so_many_entries_finishes() {
    let statement = "statement(line(payee(\"König GmbH\"), purpose(\"Rg. 1\")), \
        line(payee(\"Renée Weiß\"), purpose(\"Miete\")), 1600-deposits, 1600-deposits)";
    let lines = [TICKS, ["examples/payees.book", statement]];
    for (words, units) in lines
        .iter()
        .flat_map(|words| (1..=8).map(move |units| (words, units)))
    {
        let units = units.to_string();
        let told = bound(words, &["--units", &units]).output;
        let (entries, forks) = (value(&told, "entries "), value(&told, "forks "));
        let schedule = format!("round-robin:{entries}");
        let post = [&["post"], &words[..], &["--units", &units]].concat();
        let given = kurvneist(&[&post[..], &["--schedule", &schedule]].concat());
        assert_eq!(given.status, 0, "{words:?} on {units}");
        assert_eq!(given.output, kurvneist(&post).output);
        let [granted, kept] = ["granted ", "kept "].map(|name| value(&given.output, name));
        assert_eq!(granted + kept, forks);
        assert!(value(&given.output, "entries ") <= entries);
    }
}

#[test]
fn payees_days_and_packed_books() {
    let payee = ["examples/payees.book", "König AG"];
    let ran = bound(&payee, &["--payee", "--units", "3"]);
    assert_eq!(ran.status, 0);
    assert_eq!(
        [
            value(&ran.output, "orders "),
            value(&ran.output, "entries ")
        ],
        [23, 69]
    );
    let dated = ["examples/suppliers.book", "line(payee(\"König\"), invoice)"];
    let ran = bound(&dated, &["--day", "2026-07-01", "--json"]);
    assert!(
        ran.output
            .starts_with("{\"end\":\"finished\",\"orders\":25,\"forks\":1,"),
        "{}",
        ran.output
    );
    let ran = bound(&dated, &[]);
    assert_eq!((ran.status, ran.output.as_str()), (2, ""));
    assert!(ran.errors.contains("the book is dated"), "{}", ran.errors);
    let packed = file("bound.packed", "");
    kurvneist(&["book", TICKS[0], "-o", &packed]);
    let ran = bound(&[&packed, "f2(f1(f0), f1(f0))"], &["--packed"]);
    assert_eq!(value(&ran.output, "rounds "), 30);
}

/// A book by which a line grows for ever, one by which it stays, and what is said
/// of them.
#[test]
fn where_nothing_is_known_it_says_why() {
    let grows = file("grows.book", "op end/0 op f/1 var X rule f(X) = f(f(X))");
    let stays = file("stays.book", "op a/0 rule a = a");
    let most = "4294967295";
    let cases: [([&str; 2], &str, &str, &str); 4] = [
        (TICKS, "1", "spent", "one unit ends spent: the line takes more than the budget's 1 rewrite, so no schedule finishes it"),
        ([&grows, "f(end)"], most, "full", "one unit ends full; another order of units might keep the limit of 1,024 symbols"),
        ([&stays, "a"], most, "cut", "one unit ends cut, after 65536 orders, and no more are tried"),
        ([&stays, "a"], "1000", "spent", "one unit ends spent: the line takes more than the budget's 1000 rewrites, so no schedule finishes it"),
    ];
    for (words, budget, ending, why) in cases {
        let ran = bound(&words, &["--units", "2", "--budget", budget]);
        assert_eq!(ran.status, 1);
        assert_eq!(ran.output, format!("end {ending}\nrounds not known\n"));
        assert_eq!(
            ran.errors,
            format!("how long a schedule suffices is not known: {why}\n")
        );
        let ran = bound(&words, &["--budget", budget, "--json"]);
        assert_eq!((ran.status, ran.errors.as_str()), (1, ""));
        let object = json::read_line(&ran.output);
        assert_eq!(object.get("end").text(), ending);
        for name in ["orders", "forks", "most_orders", "rounds", "entries"] {
            assert_eq!(*object.get(name), Value::Null);
        }
        assert_eq!(object.get("message").text(), why);
    }
}

/// One unit ends full, and two units that take turns in another way do not: the
/// long second argument is shrunk before the first one grows.
#[test]
fn one_unit_ends_full_where_another_order_does_not() {
    let grown = format!("long({}end{})", "row(".repeat(62), ")".repeat(62));
    let book = format!(
        "op end short/0 op long/1 op both/2 ({{1 2}} 0) op row/1 () var X\n\
         rule short = {grown}\nrule long(X) = end\n"
    );
    let book = file("order.book", book);
    let line = format!(
        "both(short, long({}end{}))",
        "row(".repeat(1000),
        ")".repeat(1000)
    );
    let ran = bound(&[&book, &line], &["--units", "2"]);
    assert_eq!(
        (ran.status, ran.output.as_str()),
        (1, "end full\nrounds not known\n")
    );
    let post = ["post", &book, &line, "--units", "2", "--schedule"];
    let ran = kurvneist(&[&post[..], &["0*50,1*50,0*50"]].concat());
    assert_eq!(ran.status, 0, "{}", ran.output);
}

#[test]
fn refused_and_mistyped_lines_are_told_as_in_post() {
    let long = format!("{}end{}", "tick(".repeat(1024), ")".repeat(1024));
    for (line, told) in [(long.as_str(), "refused 12: "), ("both(tick", "LINE:1:")] {
        for more in [&[][..], &["--json"]] {
            let [bound, post] = ["bound", "post"]
                .map(|command| kurvneist(&[&[command, TICKS[0], line], more].concat()));
            assert_eq!((bound.status, bound.output), (1, post.output));
            assert_eq!(bound.errors, post.errors);
            assert!(
                !more.is_empty() || bound.errors.starts_with(told),
                "{}",
                bound.errors
            );
        }
    }
    let ran = bound(&TICKS, &["--schedule", "0*9"]);
    assert_eq!(ran.status, 2);
    assert!(ran
        .errors
        .contains("'--schedule' is no option of this command"));
}

/// What was asked of the engine: the entries of each run, and how often how many
/// suffice.
#[derive(Default)]
struct Recorded {
    runs: Vec<usize>,
    bounds: usize,
}

struct Recorder {
    engine: Engine,
    recorded: Recorded,
}

impl Runner for Recorder {
    fn run(&mut self, form: Form, request: &Request) -> Result<Posted, Refusal> {
        self.recorded.runs.push(request.schedule.len());
        self.engine.run(form, request)
    }

    fn bound(&mut self, form: Form, request: &Request) -> Result<Bound, Refusal> {
        self.recorded.bounds += 1;
        Runner::bound(&mut self.engine, form, request)
    }
}

/// What becomes of a line by the doubling book, and what was asked for it.
fn posted(units: u8, given: Option<Vec<u8>>, term: &str) -> (Posted, Recorded) {
    let named = check::read(DOUBLING).unwrap();
    let line = line::read(term, &named.names).unwrap();
    let mut runner = Recorder {
        engine: Engine::new(),
        recorded: Recorded::default(),
    };
    let request = Request::new(&named.book, &line);
    let schedules = Schedules::new(units, given);
    let posted = schedules.post(&mut runner, Form::Line, &request).unwrap();
    let (used_units, used) = schedules.used(&posted);
    assert_eq!(
        (used_units, used.len() as u64),
        (units, posted.answer.entries)
    );
    (posted, runner.recorded)
}

#[test]
fn a_line_that_is_cut_gets_as_many_rounds_as_suffice() {
    let named = check::read(DOUBLING).unwrap();
    let term = line::read(&doubled(12), &named.names).unwrap();
    let request = Request::new(&named.book, &term);
    let enough = Engine::new().bound(&request).unwrap().told().unwrap();
    assert!(enough.orders > LENGTHS[0] as u64);
    for units in [1, 2, 8] {
        let (posted, recorded) = posted(units, None, &doubled(12));
        assert_eq!(posted.answer.ending, Ending::Finished);
        assert_eq!(recorded.runs, [LENGTHS[0], enough.entries(units) as usize]);
        assert_eq!(recorded.bounds, 1);
    }
    // One that isn't cut is not asked about, nor one whose schedule is given.
    let (posted_short, recorded) = posted(2, None, &doubled(3));
    assert_eq!(posted_short.answer.ending, Ending::Finished);
    assert_eq!((recorded.runs, recorded.bounds), (vec![LENGTHS[0]], 0));
    let (cut, recorded) = posted(2, Some(vec![0, 1]), &doubled(3));
    assert_eq!(cut.answer.ending, Ending::Cut);
    assert_eq!((recorded.runs, recorded.bounds), (vec![2], 0));
}

/// Over 65,536 orders of one unit: the entries grow as they did.
#[test]
fn a_line_whose_bound_is_not_known_gets_more_entries() {
    let (posted, recorded) = posted(1, None, &doubled(13));
    assert_eq!(posted.answer.ending, Ending::Finished);
    assert_eq!((recorded.runs, recorded.bounds), (LENGTHS[..2].to_vec(), 1));
    let book = file("bound-doubling.book", DOUBLING);
    let ran = bound(&[&book, &doubled(13)], &[]);
    assert_eq!(
        (ran.status, ran.output.as_str()),
        (1, "end cut\nrounds not known\n")
    );
}

/// In a batch, and under a name, a line that is long is posted by its rounds and
/// the others are as they were.
#[test]
fn batches_and_names_are_sized_alike() {
    let book = file("sized.book", DOUBLING);
    let lines = format!("{}\ntick(end)\n{}\n", doubled(12), doubled(2));
    let batch = ["batch", &book, "-", "--units", "8", "--counts", "--quiet"];
    let ran = kurvneist_with(&batch, lines.as_bytes());
    assert_eq!((ran.status, ran.output.lines().count()), (0, 3));
    for (line, posting) in lines.lines().zip(ran.output.lines()) {
        let alone = kurvneist(&["post", &book, line, "--units", "8"]);
        let counts = ["rewrites ", "entries ", "granted ", "kept "];
        let counts = counts.map(|name| format!("{name}{}", value(&alone.output, name)));
        assert!(posting.ends_with(&counts.join(", ")), "{posting}");
    }
    let points = file("sized.points", "");
    std::fs::remove_file(&points).unwrap();
    let named = ["--park", "long", "--points", &points, "--units", "8"];
    let ran = kurvneist(&[&["post", &book, &doubled(12)], &named[..]].concat());
    assert_eq!(
        (ran.status, ran.output.lines().next()),
        (0, Some("end finished"))
    );
    assert!(!std::path::Path::new(&points).exists());
}
