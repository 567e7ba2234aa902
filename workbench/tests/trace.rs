//! Traces against the engine on random cases, and what they show.

mod common;

use common::{file, kurvneist};
use comparison::random::{case, Random};
use kurvneist::{Ending, Request};
use workbench::line;
use workbench::names::Names;
use workbench::progress::Progress;
use workbench::text::check::{self, Named};
use workbench::trace::{self, Deed, Failure, State, Told, Trace};

const CASES: u64 = 400;
/// The comparison's cost grows with the square of the entries.
const ENTRIES: usize = 300;

/// The runs of random cases that aren't refused, with their books.
fn runs(mut with: impl FnMut(&Named, &Request, Trace)) {
    for number in 0..CASES {
        let case = case(&mut Random::for_case(31, number));
        let Ok(book) = kurvneist::written_book(&case.book()) else {
            continue;
        };
        let read = comparison::model::read_book(&book).unwrap();
        let named = Named {
            names: Names::generated(&read),
            book,
            rule_lines: Vec::new(),
            days: read.days,
        };
        let schedule = &case.schedule[..case.schedule.len().min(ENTRIES)];
        let request = Request::new(&named.book, &case.line)
            .units(case.units)
            .budget(case.budget)
            .day(case.day)
            .schedule(schedule);
        match trace::run(&request, 1, &mut Progress::hidden()) {
            Ok(trace) => with(&named, &request, trace),
            Err(Failure::Refused(_)) => {}
            Err(difference) => panic!("case {number}: {difference}"),
        }
    }
}

fn count(trace: &Trace, deed: impl Fn(&Deed) -> bool) -> u64 {
    trace.steps.iter().filter(|step| deed(&step.deed)).count() as u64
}

#[test]
fn traces_equal_the_engine_and_count_what_it_counts() {
    let (mut traced, mut endings, mut granted, mut kept, mut helped) = (0, [0; 4], 0, 0, 0);
    let mut dropped = 0;
    runs(|named, request, trace| {
        traced += 1;
        endings[trace.ending as usize] += 1;
        granted += trace.granted;
        kept += trace.kept;
        helped += count(&trace, |deed| *deed == Deed::Fork(Some(0)));
        dropped += count(&trace, |deed| *deed == Deed::Dropped);
        let rewrites = count(&trace, |deed| matches!(deed, Deed::Rewrite(_)));
        assert_eq!(rewrites, trace.rewrites);
        let grants = count(&trace, |deed| matches!(deed, Deed::Fork(Some(_))));
        assert_eq!(grants, trace.granted);
        let keeps = count(&trace, |deed| matches!(deed, Deed::Fork(None)));
        assert_eq!(keeps, trace.kept);
        assert!(trace.steps.len() <= request.schedule.len());
        states_fit(&trace);
        queue_fits(&trace);
        pictured(named, &trace);
    });
    assert!(traced > 200, "{traced}");
    assert!(granted > 200 && kept > 200, "{granted} {kept}");
    assert!(helped > 20, "unit 0 took {helped} parts");
    assert!(dropped > 200, "{dropped} VISITs of finished parts");
    assert!(endings.iter().all(|number| *number > 0), "{endings:?}");
}

/// The queue has the units that are not busy, each once, and a part goes to the
/// first: to one that has been idle for as long as any other.
fn queue_fits(trace: &Trace) {
    let mut queue: Vec<usize> = (1..trace.units).collect();
    for (entry, step) in trace.steps.iter().enumerate() {
        for unit in 0..trace.units {
            let place = queue.iter().position(|&idle| idle == unit);
            assert_eq!(trace.place(unit, entry), place.map(|place| place + 1));
        }
        let mut due = queue;
        match step.deed {
            Deed::Fork(Some(unit)) => assert_eq!(due.remove(0), unit),
            Deed::Fork(None) => assert!(due.is_empty()),
            Deed::Exit { unit, woken, .. } if woken => due.retain(|&idle| idle != unit),
            Deed::Join(1..) | Deed::Sleep => due.push(step.unit),
            _ => {}
        }
        assert_eq!(step.queue, due);
        for (unit, state) in step.states.iter().enumerate() {
            assert_eq!(state.acts(), !due.contains(&unit));
        }
        queue = due;
    }
}

/// A unit acts exactly if it was busy, waits exactly after a JOIN that didn't
/// pass, and goes idle by SLEEP alone. What is lent goes to one that waits, and
/// so helps, or is idle.
fn states_fit(trace: &Trace) {
    let mut before = vec![State::Idle; trace.units];
    before[0] = State::Busy;
    for step in &trace.steps {
        let (was, is) = (before[step.unit], step.states[step.unit]);
        assert_eq!(step.deed == Deed::Nothing, !was.acts());
        match step.deed {
            Deed::Nothing => assert_eq!(was, is),
            Deed::Join(1..) => assert_eq!(is, State::Waiting),
            Deed::Sleep => assert_eq!(is, State::Idle),
            _ => assert!(is.acts()),
        }
        if let Deed::Fork(Some(unit)) = step.deed {
            let due = match before[unit] {
                State::Waiting => State::Helping,
                State::Idle => State::Busy,
                other => panic!("unit {unit} takes a part: {other:?}"),
            };
            assert_eq!(step.states[unit], due);
        }
        before.clone_from(&step.states);
    }
}

/// Each entry has a row of text; the picture is well formed, with an arrow for
/// each granted FORK and each EXIT.
fn pictured(named: &Named, trace: &Trace) {
    let text = trace::text::show(trace, named, 80);
    assert_eq!(text.lines().count(), trace.steps.len() + 4);
    let picture = trace::svg::draw(trace, "a < b & c", &[]);
    well_formed(&picture);
    let arrows = |class: &str| picture.matches(&format!("url(#{class})")).count() as u64;
    // One more of each is in the legend.
    assert_eq!(arrows("fork"), trace.granted + 1);
    let exits = count(trace, |deed| matches!(deed, Deed::Exit { .. }));
    assert_eq!(arrows("exit"), exits + 1);
}

/// Every element that opens closes, in order.
fn well_formed(picture: &str) {
    let mut open = Vec::new();
    for piece in picture.split('<').skip(1) {
        let (tag, text) = piece.split_once('>').unwrap();
        assert!(!text.contains('>') && !text.replace("&lt;", "").contains("& "));
        if let Some(name) = tag.strip_prefix('/') {
            assert_eq!(open.pop(), Some(name));
        } else if !tag.ends_with('/') {
            open.push(tag.split(' ').next().unwrap());
        }
    }
    assert!(open.is_empty());
}

/// An engine that is wrong somewhere is told, with the entry.
#[test]
fn a_difference_stops_the_trace() {
    let named = check::read(&std::fs::read_to_string("examples/ticks.book").unwrap()).unwrap();
    let line = line::read("both(tick(end), tick(end))", &named.names).unwrap();
    let schedule = [0, 1].repeat(40);
    let request = Request::new(&named.book, &line)
        .units(2)
        .budget(9)
        .schedule(&schedule);
    let lies: [fn(&mut Told); 6] = [
        |told| told.term[0] = 0,
        |told| told.rewrites += 1,
        |told| told.granted = 0,
        |told| told.kept += 1,
        |told| told.entries -= 1,
        |told| told.ending = Ending::Finished,
    ];
    for lie in lies {
        let mut lying = |asked: &Request| {
            let mut told = honest(asked);
            if asked.schedule.len() == 17 {
                lie(&mut told);
            }
            Ok(told)
        };
        let failure = trace::run_against(&mut lying, &request, 1, &mut Progress::hidden());
        let told = failure.unwrap_err().to_string();
        let first = "the trace differs from the engine after entry 17\nengine: ";
        assert!(told.starts_with(first), "{told}");
        // A comparison at the end alone doesn't meet this lie.
        assert!(trace::run_against(&mut lying, &request, 1000, &mut Progress::hidden()).is_ok());
    }
}

fn honest(asked: &Request) -> Told {
    let mut engine = kurvneist::Engine::new();
    let posting = engine.post(asked).unwrap();
    Told {
        ending: posting.answer.ending,
        rewrites: posting.answer.rewrites.into(),
        entries: posting.answer.entries,
        granted: posting.answer.granted,
        kept: posting.answer.kept,
        term: posting.term.to_vec(),
    }
}

/// The starred two-unit case of document 01: after 13 entries in turn the JOIN
/// has just passed.
#[test]
fn the_trace_of_document_01() {
    let ran = kurvneist(&[
        "trace",
        "examples/ticks.book",
        "both(tick(end), tick(end))",
        "--units",
        "2",
        "--schedule",
        "round-robin:13",
    ]);
    assert_eq!(ran.status, 1);
    let rows: Vec<&str> = ran.output.lines().collect();
    let first = "    1     0  VISIT  gives FORK 1, VISIT 2, JOIN of 1, WHOLE        \
                 [both(tick(end), tick(end))]";
    assert_eq!(rows[2], first);
    let third = "    3     0  FORK   unit 1 takes this part                         \
                 both([tick(end)], tick(end))";
    assert_eq!(rows[4], third);
    let last = "   13     0  JOIN   passes                                         \
                both(tick(end), tick(end))";
    assert_eq!(rows[14], last);
    assert_eq!(
        rows[16],
        "cut: rewrites 0, entries 13, FORKs granted 1, kept 0"
    );
}

#[test]
fn the_picture_is_written_to_its_file() {
    let picture = file("ticks.svg", "");
    let line = "both(tick(end), tick(end))";
    let ran = kurvneist(&[
        "trace",
        "examples/ticks.book",
        line,
        "--units=2",
        "--no-text",
        "--svg",
        &picture,
    ]);
    assert_eq!(
        (ran.status, ran.output.as_str(), ran.errors.as_str()),
        (0, "", "")
    );
    let picture = std::fs::read_to_string(picture).unwrap();
    well_formed(&picture);
    assert!(picture.contains(line));
    assert!(picture.contains("unit 0") && picture.contains("unit 1"));
    assert!(picture.contains("entry 3, unit 0: FORK unit 1 takes this part"));
}

#[test]
fn long_terms_are_cut_around_the_orders_part() {
    let last_term = |width: &str| {
        let ran = kurvneist(&[
            "trace",
            "examples/ticks.book",
            "both(both(end, end), both(both(end, tick(end)), end))",
            "--schedule=0*14",
            "--width",
            width,
        ]);
        ran.output.lines().nth(15).unwrap()[67..].to_owned()
    };
    assert_eq!(
        last_term("0"),
        "both(end, both([both(end, tick(end))], end))"
    );
    assert_eq!(last_term("24"), "…d, both([both(end, tick(…");
}

/// The payee of a line that becomes two is not walked again in either.
#[test]
fn finished_parts_are_dropped() {
    let line = "line(payee(Weiß), rent-and-charges)";
    let ran = kurvneist(&["trace", "examples/payees.book", line]);
    assert_eq!(ran.status, 0);
    let rows = ran.output.lines().filter(|row| row.contains("dropped"));
    let rows: Vec<&str> = rows.collect();
    assert_eq!(
        rows,
        [
            "   15     0  VISIT  dropped: this part is finished already         \
             both(line([payee(Weiß)], rent), line(payee(Weiß), charges))",
            "   24     0  VISIT  dropped: this part is finished already         \
             both(8400-Weiß-2.OG, line([payee(Weiß)], charges))",
        ]
    );
    // An empty strategy gives nothing to begin with.
    let book = file("empty.book", "op end/0\nop quote/1 ()\n");
    let ran = kurvneist(&["trace", &book, "quote(end)"]);
    assert!(ran
        .output
        .contains("VISIT  dropped: nothing is to be done here"));
}

/// Unit 0 waits for a line that turns out to be two, and takes one of them. Its
/// work is drawn above the JOIN, and the FORK's arrow ends there.
#[test]
fn unit_0_helps_above_its_join() {
    let picture = file("helping.svg", "");
    let line = "both(line(payee(Weiß), rent-and-charges), 1600-deposits)";
    let words = ["trace", "examples/payees.book", line, "--units=2", "--svg"];
    let ran = kurvneist(&[&words[..], &[&picture]].concat());
    assert_eq!(ran.status, 0);
    let taken: Vec<&str> = ran
        .output
        .lines()
        .filter(|row| row.contains("takes this part"))
        .collect();
    assert_eq!(taken.len(), 2, "{}", ran.output);
    let first = "    3     0  FORK   unit 1 takes this part         ";
    assert!(taken[0].starts_with(first), "{}", taken[0]);
    let second = "   26     1  FORK   unit 0 takes this part, above its JOIN         \
                  both(both([line(payee(Weiß), rent)], line(payee(Weiß), charges)), 1600-deposits)";
    assert_eq!(taken[1], second);
    let picture = std::fs::read_to_string(picture).unwrap();
    well_formed(&picture);
    assert!(picture.contains("helps: busy with another unit's part, above its own JOIN"));
    // The lane of unit 0 begins at 74: work up to 92, and 8 for the JOIN.
    let boxes = |begins: &str, ends: &str| {
        let is = |line: &&str| line.contains(begins) && line.contains(ends);
        picture.lines().filter(is).count()
    };
    assert_eq!(boxes("y=\"74.0\"", "height=\"18\" fill=\"#9ccbee\""), 1);
    assert_eq!(boxes("y=\"92.0\"", "height=\"8\" fill=\"url(#waits)\""), 1);
    assert!(picture.contains("V91.0\" stroke=\"#00664b\""));
}

/// Unit 3 was never busy, unit 0 waits for long, and unit 2 has just gone to
/// sleep: their places are drawn where they change, in the lanes that begin at
/// 74, 166 and 212.
#[test]
fn parts_go_to_the_unit_idle_longest() {
    let picture = file("queue.svg", "");
    let line = "both(line(payee(Weiß), rent-and-charges), 1600-deposits)";
    let words = ["trace", "examples/payees.book", line, "--units=4", "--svg"];
    let ran = kurvneist(&[&words[..], &[&picture]].concat());
    assert_eq!(ran.status, 0);
    let taken: Vec<&str> = ran
        .output
        .lines()
        .filter(|row| row.contains("takes"))
        .map(|row| row[..65].trim_end())
        .collect();
    assert_eq!(
        taken,
        [
            "    5     0  FORK   unit 1, idle longest, takes this part",
            "   10     1  FORK   unit 2, idle longest, takes this part",
            "   42     1  FORK   unit 3, idle longest, takes this part",
            "   48     3  FORK   unit 0, idle longest, takes it above its JOIN",
            "   50     1  FORK   unit 2 takes this part",
        ]
    );
    let picture = std::fs::read_to_string(picture).unwrap();
    well_formed(&picture);
    assert!(picture.contains("the one idle longest first: a FORK takes number 1"));
    // The number behind the last mark of each line of the lane.
    let places = |lane: f64| -> Vec<&str> {
        let mark = format!("y=\"{:.1}\" font-size=\"10\"", lane + 7.0);
        let lines = picture.lines().filter(|line| line.contains(&mark));
        lines
            .map(|line| line.strip_suffix("</text>").unwrap())
            .map(|line| line.rsplit_once('>').unwrap().1)
            .collect()
    };
    assert_eq!(places(74.0)[..2], ["2", "1"]);
    assert_eq!(places(166.0)[..2], ["2", "1"]);
    assert_eq!(places(212.0)[..3], ["3", "2", "1"]);
}

/// Of two units at most one is idle.
#[test]
fn a_picture_of_two_units_has_no_places() {
    let picture = file("two.svg", "");
    let line = "both(tick(end), tick(end))";
    let words = ["trace", "examples/ticks.book", line, "--units=2", "--svg"];
    assert_eq!(kurvneist(&[&words[..], &[&picture]].concat()).status, 0);
    let picture = std::fs::read_to_string(picture).unwrap();
    assert!(!picture.contains("class=\"place\"") && !picture.contains("idle longest"));
}

#[test]
fn a_picture_without_help_has_no_legend_for_it() {
    let picture = file("alone.svg", "");
    let line = "both(tick(end), tick(end))";
    let words = ["trace", "examples/ticks.book", line, "--units=2", "--svg"];
    assert_eq!(kurvneist(&[&words[..], &[&picture]].concat()).status, 0);
    let picture = std::fs::read_to_string(picture).unwrap();
    assert!(!picture.contains("helps"));
}
