//! Explanations: each rewrite is its rule's, at its place, and nothing is left
//! out; profiles count them.

mod common;

use std::collections::HashSet;

use common::json::{read_line, Value};
use common::{doubled, file, kurvneist, DOUBLING};
use comparison::model::{self, Form, Pattern, Term};
use comparison::random::{case, Random};
use kurvneist::{Ending, Request};
use workbench::explain::{self, Explained, Rewrite};
use workbench::line;
use workbench::profile::Profile;
use workbench::progress::Progress;
use workbench::text::check;
use workbench::trace::{Failure, Told};

/// The runs of random cases that aren't refused.
fn runs(mut with: impl FnMut(Form, &Request, Explained)) {
    for number in 0..600 {
        let case = case(&mut Random::for_case(15, number));
        let Ok(book) = kurvneist::written_book(&case.book()) else {
            continue;
        };
        let request = Request::new(&book, &case.line)
            .units(case.units)
            .budget(case.budget)
            .day(case.day)
            .schedule(&case.schedule[..case.schedule.len().min(400)]);
        match explain::run(case.form, &request, 1, &mut Progress::hidden()) {
            Ok(explained) => with(case.form, &request, explained),
            Err(Failure::Refused(_)) => {}
            Err(difference) => panic!("case {number}: {difference}"),
        }
    }
}

/// A side with its variables filled in.
fn filled(side: &Pattern, rewrite: &Rewrite, symbols: &mut Vec<u8>) {
    match side {
        Pattern::Variable(number) => {
            let mut filling = rewrite.substitution.iter();
            let (_, term) = filling.find(|(variable, _)| variable == number).unwrap();
            symbols.extend(term);
        }
        Pattern::Operator(operator, parts) => {
            symbols.push(*operator);
            for part in parts {
                filled(part, rewrite, symbols);
            }
        }
    }
}

/// The variables of a side, each once.
fn variables(side: &Pattern) -> HashSet<u8> {
    match side {
        Pattern::Variable(number) => [*number].into(),
        Pattern::Operator(_, parts) => parts.iter().flat_map(variables).collect(),
    }
}

/// The term with another part at that place.
fn replaced(term: &Term, position: &[u8], becomes: &Term) -> Term {
    let Some((argument, rest)) = position.split_first() else {
        return becomes.clone();
    };
    let mut term = term.clone();
    let part = &mut term.arguments[usize::from(*argument) - 1];
    *part = replaced(part, rest, becomes);
    term
}

#[test]
fn each_rewrite_is_the_rules() {
    let (mut explained_runs, mut rewrites, mut deep, mut stopped) = (0, 0, 0, 0);
    runs(|_, request, explained| {
        explained_runs += 1;
        let book = &explained.book.on_day(request.day);
        let mut term = explained.line.to_vec();
        let mut last = 0;
        for rewrite in &explained.rewrites {
            assert_eq!(*rewrite.before, *term);
            let before = model::read_line(book, &term).unwrap();
            let part = before.part(&rewrite.position).unwrap();
            assert_eq!(part.preorder(), rewrite.part);
            assert_eq!(term[rewrite.start..][..rewrite.part.len()], rewrite.part);
            // The rule is the first that matches, and both its sides fit.
            let (rule, _) = book.first_match(part).unwrap();
            assert_eq!(*rule, explained.book.rules[rewrite.rule - 1]);
            let [mut left, mut right] = [Vec::new(), Vec::new()];
            filled(&rule.left, rewrite, &mut left);
            filled(&rule.right, rewrite, &mut right);
            assert_eq!((left, &right), (rewrite.part.clone(), &rewrite.becomes));
            assert_eq!(rewrite.substitution.len(), variables(&rule.left).len());
            let becomes = model::read_line(book, &right).unwrap();
            term = replaced(&before, &rewrite.position, &becomes).preorder();
            assert_eq!(*rewrite.after, *term);
            assert!(rewrite.entry > last);
            last = rewrite.entry;
            deep += usize::from(rewrite.position.len() > 1);
        }
        assert_eq!(term, explained.told.term);
        assert_eq!(explained.rewrites.len() as u64, explained.told.rewrites);
        let halted = matches!(explained.told.ending, Ending::Spent | Ending::Full);
        assert_eq!(explained.stopped.is_some(), halted);
        stopped += usize::from(halted);
        rewrites += explained.rewrites.len();
    });
    assert!(
        explained_runs > 200 && stopped > 10,
        "{explained_runs} {stopped}"
    );
    assert!(rewrites > 500 && deep > 100, "{rewrites} {deep}");
}

/// The same rewrites, counted by rule.
#[test]
fn profiles_count_what_explanations_show() {
    let mut counted = 0;
    runs(|form, request, explained| {
        let profile = Profile::new(request.book, request.day);
        let mut engine = kurvneist::Engine::new();
        for _ in 0..2 {
            let posting = match form {
                Form::Line => engine.post(request),
                Form::Text => engine.post_payee(request),
            };
            let posting = posting.unwrap();
            profile.add(form, request, &Told::of(&posting.answer, posting.term));
        }
        assert!(profile.difference().is_none());
        for (rule, count) in profile.rules() {
            let of_rule = explained.rewrites.iter().filter(|one| one.rule == rule);
            let rewrites = of_rule.count() as u64;
            assert_eq!(count.rewrites, 2 * rewrites);
            assert_eq!(count.lines, 2 * u64::from(rewrites > 0));
            counted += rewrites;
        }
        let order = profile.rules();
        let sorted = order.windows(2).all(|pair| {
            let [one, other] = [pair[0], pair[1]].map(|(rule, count)| (count.rewrites, rule));
            one.0 > other.0 || one.0 == other.0 && one.1 < other.1
        });
        assert!(sorted, "{order:?}");
    });
    assert!(counted > 500, "{counted}");
}

fn ticks(line: &str, with: impl FnOnce(&Request)) {
    let named = check::read(&std::fs::read_to_string("examples/ticks.book").unwrap()).unwrap();
    let line = line::read(line, &named.names).unwrap();
    let request = Request::new(&named.book, &line).budget(9);
    with(&request.schedule(&[0; 200]));
}

/// An engine that says otherwise is told, at a rewrite and at the end.
#[test]
fn a_difference_stops_the_explanation() {
    ticks("both(tick(tick(end)), end)", |request| {
        let mut engine = kurvneist::Engine::new();
        for (rewrites, stride) in [(1, 1), (2, 2), (3, 1000)] {
            let mut lying = |asked: &Request| {
                let posting = engine.post(asked).unwrap();
                let mut told = Told::of(&posting.answer, posting.term);
                if told.rewrites == rewrites {
                    told.term[0] ^= 1;
                }
                Ok(told)
            };
            let progress = &mut Progress::hidden();
            let ran = explain::run_against(&mut lying, Form::Line, request, stride, progress);
            let told = ran.unwrap_err().to_string();
            assert!(told.starts_with("the trace differs from the engine after entry"));
        }
    });
}

/// A profile is of the engine's runs: one that ended otherwise is told.
#[test]
fn a_difference_spoils_the_profile() {
    ticks("both(tick(tick(end)), end)", |request| {
        let profile = Profile::new(request.book, request.day);
        let mut engine = kurvneist::Engine::new();
        let posting = engine.post(request).unwrap();
        let told = Told::of(&posting.answer, posting.term);
        profile.add(Form::Line, &request.budget(1), &told);
        assert!(profile.difference().is_some());
        assert!(profile.rules().iter().all(|(_, count)| count.rewrites == 0));
    });
}

#[test]
fn positions_are_written_short() {
    for (position, written) in [
        (&[][..], "the root"),
        (&[2], "2"),
        (&[2, 1, 1, 1, 7], "2.1.1.1.7"),
        (&[1, 1, 1, 1, 2, 2], "1*4.2.2"),
    ] {
        assert_eq!(explain::position(position), written);
    }
}

const LINE: &str = "both(tick(end), both(end, tick(end)))";

#[test]
fn the_command_shows_rule_place_substitution_and_terms() {
    let ran = kurvneist(&["explain", "examples/ticks.book", LINE]);
    assert_eq!((ran.status, ran.errors.as_str()), (0, ""));
    let expected = "\
line both(tick(end), both(end, tick(end)))

1. rule 1 (line 7): both(end, Y) = Y
  at    2 (entry 16, unit 0)
  with  Y = tick(end)
  from  both(tick(end), [both(end, tick(end))])
  to    both(tick(end), [tick(end)])
";
    assert!(ran.output.starts_with(expected), "{}", ran.output);
    assert!(ran.output.contains(
        "\n2. rule 2 (line 8): both(tick(X), Y) = tick(both(X, Y))\n  at    the root (entry 19, unit 0)\n  \
         with  X = end\n  with  Y = tick(end)\n  from  [both(tick(end), tick(end))]\n"
    ));
    assert!(ran
        .output
        .ends_with("FORKs granted 0, kept 3\nterm tick(tick(end))\n"));

    let ran = kurvneist(&["explain", "examples/ticks.book", LINE, "--rules-only"]);
    let rows: Vec<&str> = ran.output.lines().take(3).collect();
    let due = [
        "1. rule 1 (line 7) at 2",
        "2. rule 2 (line 8) at the root",
        "3. rule 1 (line 7) at 1",
    ];
    assert_eq!(rows, due);

    let spent = ["explain", "examples/ticks.book", LINE, "--budget", "1"];
    let ran = kurvneist(&spent);
    assert_eq!(ran.status, 1);
    assert!(ran.output.contains("\nspent: rewrites 1, "));
    assert!(ran.output.ends_with(
        "\nrule 2 (line 8) matches, but the budget is spent\nterm both(tick(end), tick(end))\n"
    ));
}

/// A packed book has no names but those it is given.
#[test]
fn packed_books_are_explained_by_names() {
    let packed = file("explained.packed", "");
    assert_eq!(
        kurvneist(&["book", "examples/ticks.book", "-o", &packed]).status,
        0
    );
    let ran = kurvneist(&["explain", &packed, "f2(f0, f1(f0))", "--packed"]);
    let made_up =
        "1. rule 1: f2(f0, X0) = X0\n  at    the root (entry 10, unit 0)\n  with  X0 = f1(f0)\n";
    assert!(ran.output.contains(made_up), "{}", ran.output);
    let names = ["--packed", "--names"];
    let line = ["explain", &packed, "both(end, tick(end))"];
    let ran = kurvneist(&[&line[..], &names, &["examples/ticks.book"]].concat());
    assert!(
        ran.output.contains("  with  Y = tick(end)\n"),
        "{}",
        ran.output
    );
    // Another book's variables are not this one's.
    let other = file(
        "other.book",
        "op end/0 op tick/1 op both/2 ({1 2} 0) var Q rule both(end, Q) = tick(Q)",
    );
    let ran = kurvneist(&[&line[..], &names, &[&other]].concat());
    assert!(
        ran.output.contains("  with  X0 = tick(end)\n"),
        "{}",
        ran.output
    );
}

#[test]
fn explanations_in_json() {
    let explained = |arguments: &[&str]| {
        let command = ["explain", "examples/ticks.book", LINE, "--json"];
        let ran = kurvneist(&[&command, arguments].concat());
        assert_eq!(ran.errors, "");
        read_line(&ran.output)
    };
    let told = explained(&[]);
    let names = [
        "line", "steps", "end", "rewrites", "entries", "granted", "kept", "term",
    ];
    assert_eq!(told.names(), names);
    assert_eq!(told.get("line").text(), LINE);
    assert_eq!(told.get("end").text(), "finished");
    assert_eq!(told.get("term").text(), "tick(tick(end))");
    let steps = told.get("steps").list();
    assert_eq!(steps.len() as u64, told.get("rewrites").number());
    let second = &steps[1];
    let names = [
        "step",
        "rule",
        "rule_line",
        "position",
        "sides",
        "entry",
        "unit",
        "substitution",
        "part",
        "becomes",
        "before",
        "after",
    ];
    assert_eq!(second.names(), names);
    let numbers = ["step", "rule", "rule_line", "entry", "unit"];
    assert_eq!(
        numbers.map(|name| second.get(name).number()),
        [2, 2, 8, 19, 0]
    );
    assert_eq!(
        second.get("sides").text(),
        "both(tick(X), Y) = tick(both(X, Y))"
    );
    let filled = second.get("substitution").list().iter();
    let filled: Vec<[&str; 2]> = filled
        .map(|one| ["variable", "term"].map(|name| one.get(name).text()))
        .collect();
    assert_eq!(filled, [["X", "end"], ["Y", "tick(end)"]]);
    let terms = ["part", "becomes", "before", "after"].map(|name| steps[2].get(name).text());
    let due = [
        "both(end, tick(end))",
        "tick(end)",
        "tick(both(end, tick(end)))",
        "tick(tick(end))",
    ];
    assert_eq!(terms, due);
    assert_eq!(
        steps[2].get("position"),
        &Value::List(vec![Value::Number(1)])
    );

    let short = explained(&["--rules-only", "--budget=2"]);
    let names = ["step", "rule", "rule_line", "position"];
    assert_eq!(short.get("steps").list()[0].names(), names);
    assert_eq!(short.get("end").text(), "spent");
    assert_eq!(short.get("stopped").get("rule").number(), 1);
}

/// A variable that stands twice on the left is told once.
#[test]
fn matched_entries_are_explained() {
    let line = r#"match(bank(payee("Koenig"), "47"), ledger(payee("König"), "47"))"#;
    let words = ["explain", "examples/payees.book", line];
    let ran = kurvneist(&words);
    assert_eq!(ran.status, 0);
    let last = "rule match(bank(Payee, Number), ledger(Payee, Number)) = settled(Payee, Number)";
    let (_, shown) = ran.output.split_once(&last["rule ".len()..]).unwrap();
    let due = "\n  at    the root (entry 61, unit 0)\n  with  Payee = payee(König)\n  with  Number = \"47\"\n  from  ";
    assert!(shown.starts_with(due), "{shown}");
    assert!(shown.ends_with("term settled(payee(König), \"47\")\n"));
    let ran = kurvneist(&[&words[..], &["--json"]].concat());
    assert_eq!(ran.output.matches("\"variable\":\"Payee\"").count(), 1);
}

#[test]
fn payees_are_explained() {
    let payee = ["explain", "examples/payees.book", "König AG", "--payee"];
    let ran = kurvneist(&payee);
    assert_eq!(ran.status, 0);
    assert!(ran
        .output
        .starts_with("line \"konig ag\"\n\n1. rule 17 (line 68): \" ag\" = end\n"));
    assert!(ran.output.ends_with("term König\n"));
    let ran = kurvneist(&["explain", "examples/ticks.book", "König", "--payee"]);
    assert_eq!(ran.status, 1);
    assert!(ran.errors.starts_with("refused 19: "), "{}", ran.errors);
}

/// Of a trace, the rows at which a rule acts, as they stand in the whole trace.
#[test]
fn traces_by_rules_only() {
    let trace = [
        "trace",
        "examples/ticks.book",
        LINE,
        "--units=2",
        "--budget=2",
    ];
    let whole = kurvneist(&trace).output;
    let ran = kurvneist(&[&trace[..], &["--rules-only"]].concat());
    assert_eq!(ran.status, 1);
    let kept = |line: &&str| {
        !line.starts_with(' ')
            || line.contains("the line")
            || line.contains("replaced by rule")
            || line.contains("budget spent")
    };
    let due: Vec<&str> = whole.lines().filter(kept).collect();
    assert_eq!(ran.output.lines().collect::<Vec<_>>(), due);
    assert_eq!(due.len(), 7, "{due:?}");
}

#[test]
fn profiles_of_a_batch() {
    let lines = file(
        "profiled.lines",
        format!("{LINE}\n# note\n\nboth(tick(end), end)\ntik\n"),
    );
    let (output, profile) = (file("profiled", ""), file("profile", ""));
    let batch = [
        "batch",
        "examples/ticks.book",
        &lines,
        "--profile",
        &profile,
    ];
    let ran = kurvneist(&[&batch[..], &["-o", &output, "--units=2"]].concat());
    assert_eq!(ran.status, 1);
    let told = std::fs::read_to_string(&profile).unwrap();
    assert_eq!(
        told,
        "rewrites   lines  rule\n       \
         3       2  rule 1 (line 7): both(end, Y) = Y\n       \
         2       2  rule 2 (line 8): both(tick(X), Y) = tick(both(X, Y))\n"
    );
    let plain = kurvneist(&["batch", "examples/ticks.book", &lines, "--units=2"]);
    assert_eq!(std::fs::read_to_string(&output).unwrap(), plain.output);

    let ran = kurvneist(&[&batch[..], &["-o", &output, "--json"]].concat());
    assert_eq!(ran.status, 1);
    let told = read_line(&std::fs::read_to_string(&profile).unwrap());
    let [first, second] = told.get("rules").list() else {
        panic!("{told:?}")
    };
    let names = ["rule", "rule_line", "sides", "rewrites", "lines"];
    assert_eq!(first.names(), names);
    assert_eq!(first.get("sides").text(), "both(end, Y) = Y");
    let numbers = |object: &Value| [0, 1, 3, 4].map(|at| object.get(names[at]).number());
    assert_eq!(
        (numbers(first), numbers(second)),
        ([1, 7, 3, 2], [2, 8, 2, 2])
    );
}

/// Threads share the counting.
#[test]
fn profiles_are_the_same_for_any_jobs() {
    let mut random = Random::new(18);
    let line = |_| {
        let count = random.below(6);
        let (ticks, close) = ("tick(".repeat(count), ")".repeat(count));
        format!("both({ticks}end{close}, end)\n")
    };
    let lines = file("jobs.lines", (0..500).map(line).collect::<String>());
    let profile = |jobs: &str| {
        let [output, profile] = ["jobs.postings", "jobs.profile"].map(|name| file(name, ""));
        let batch = [
            "batch",
            "examples/ticks.book",
            &lines,
            "--json",
            "--jobs",
            jobs,
        ];
        let places = ["-o", &output, "--profile", &profile];
        assert_eq!(kurvneist(&[&batch[..], &places].concat()).status, 0);
        [output, profile].map(|name| std::fs::read_to_string(name).unwrap())
    };
    let [postings, counts] = profile("1");
    assert_eq!(profile("3"), [postings.clone(), counts]);
    for (number, line) in (1..).zip(postings.lines()) {
        assert_eq!(common::json::read(line).get("line").number(), number);
    }
}

/// What is explained is the run that posts the line, also where that is a
/// longer one, or one unit's in the place of two that had no room.
#[test]
fn the_run_that_posts_is_explained() {
    let (book, long) = (file("long.book", DOUBLING), doubled(12));
    let ran = kurvneist(&["explain", &book, &long, "--rules-only"]);
    assert_eq!((ran.status, ran.errors.as_str()), (0, ""));
    assert!(ran.output.contains("\nfinished: rewrites 12286, entries "));

    let sixty = "t(".repeat(60) + "Y" + &")".repeat(60);
    let book = format!(
        "op z/0 op s t/1 op grow/2 (0) op pair/2 ({{1 2}} 0) var X Y\n\
         rule grow(s(X), Y) = grow(X, {sixty})\nrule grow(z, Y) = z\n"
    );
    let book = file("explained.book", book);
    let part = format!("grow({}z{}, z)", "s(".repeat(10), ")".repeat(10));
    let line = format!("pair({part}, {part})");
    let run = |command: &str| {
        let ran = kurvneist(&[command, &book, &line, "--units=2", "--json"]);
        assert_eq!(ran.status, 0);
        let note = "posted by one unit, since the run by 2 ended full\n";
        assert_eq!(ran.errors, note);
        read_line(&ran.output)
    };
    let (posted, explained) = (run("post"), run("explain"));
    assert_eq!(posted.get("instead_of").text(), "full");
    for name in ["end", "rewrites", "entries", "granted", "kept", "term"] {
        assert_eq!(posted.get(name), explained.get(name));
    }
    assert_eq!(explained.get("steps").list().len(), 22);

    // One that goes on for ever is explained as far as it can be read.
    let ever = file("ever-explained.book", "op a/0 rule a = a");
    let ran = kurvneist(&["explain", &ever, "a", "--rules-only"]);
    assert_eq!(ran.status, 1);
    assert!(ran
        .output
        .contains("\ncut: rewrites 16384, entries 32768, "));
    let advice = "to see more takes a --schedule, such as round-robin:1000000";
    assert_eq!(ran.errors, format!("cut after 32768 entries: {advice}\n"));
}
