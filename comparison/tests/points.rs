//! Parked runs: what is saved, what a resumption makes of it, and what stays.

mod common;

use common::*;
use comparison::draft::Case;
use comparison::model::*;
use comparison::point_rules::{broken, check, Slot};
use comparison::points::{check_points, park, place_for, resume};
use comparison::random::{case, text_case, Random};
use comparison::slots::{Point, Saved, POINTS_LEN, SLOTS, SLOT_LEN};
use comparison::stacks::Stacks;
use comparison::subject::Question;

const NONE: Lengths = Lengths::LEAST;

fn parked(question: &Question, name: &[u8], points: &mut [u8]) -> Result<Answer, u8> {
    park(question, name, points, NONE, NONE)
}

fn resumed(name: &[u8], schedule: &[u8], points: &mut [u8]) -> Result<Answer, u8> {
    resume(name, schedule, points, NONE, NONE)
}

fn zeros() -> Vec<u8> {
    vec![0; POINTS_LEN]
}

fn slot(points: &[u8], place: usize) -> &[u8] {
    &points[place * SLOT_LEN..][..SLOT_LEN]
}

fn point(points: &[u8], place: usize) -> Point {
    match check(slot(points, place)) {
        Slot::Holds(point) => *point,
        other => panic!("{other:?}"),
    }
}

/// The page's line by book P.
fn page<'a>(book: &'a [u8], units: u8, schedule: &'a [u8]) -> Question<'a> {
    Question {
        form: Form::Line,
        book,
        line: &LINE_P,
        units,
        budget: 9,
        day: 0,
        schedule,
    }
}

// ---------------------------------------------------------------------------
// Parked and resumed, or not parted at all

/// Random cases, of lines and of texts, that are not refused.
fn cases(seed: u64, count: u64) -> impl Iterator<Item = (Case, Vec<u8>)> {
    let all = (0..count).map(move |number| {
        let random = &mut Random::for_case(seed, number);
        match number % 4 {
            3 => text_case(random),
            _ => case(random),
        }
    });
    all.filter_map(|case| {
        let book = case.book();
        let is_run = Question::of(&case, &book).answer_in_full().is_ok();
        is_run.then_some((case, book))
    })
}

/// Some places of a schedule, in order, any of them perhaps several times.
fn cuts(random: &mut Random, used: usize) -> Vec<usize> {
    let count = *random.pick(&[1, 1, 2, 3, 6]);
    let mut cuts: Vec<usize> = (0..count).map(|_| random.below(used + 1)).collect();
    cuts.sort_unstable();
    cuts
}

/// However often it is parked, a run ends as the unbroken one: all counts, the
/// term and the ending. Where that is not cut, its place is then free.
#[test]
fn resumed_runs_end_like_the_unbroken_one() {
    let (mut endings, mut parks) = ([0; 4], 0);
    for (number, (case, book)) in (0..).zip(cases(52, 900)) {
        let random = &mut Random::for_case(53, number);
        let whole = Question::of(&case, &book);
        let due = whole.answer_in_full().unwrap();
        endings[usize::from(due.ending)] += 1;
        // Parks behind the end would find no point.
        let cuts = cuts(
            random,
            due.entries as usize - usize::from(due.ending != ending::CUT),
        );
        let mut points = zeros();
        let first = Question {
            schedule: &case.schedule[..cuts[0]],
            ..whole
        };
        let mut found = parked(&first, b"one", &mut points).unwrap();
        for (place, &cut) in cuts.iter().enumerate() {
            assert_eq!((found.ending, found.entries), (ending::CUT, cut as u64));
            assert_eq!(point(&points, 0).saved.entries, cut as u64);
            let end = cuts.get(place + 1).copied();
            let end = end.unwrap_or(case.schedule.len());
            found = resumed(b"one", &case.schedule[cut..end], &mut points).unwrap();
            parks += 1;
        }
        assert_eq!(found, due, "{case:?}");
        let is_saved = check(slot(&points, 0)) != Slot::Free;
        assert_eq!(is_saved, due.ending == ending::CUT);
        assert!(is_saved || points.iter().all(|&byte| byte == 0));
    }
    assert!(endings.iter().all(|&count| count > 8), "{endings:?}");
    assert!(parks > 1200, "{parks}");
}

/// What is saved at each entry meets every rule, is read back as it was
/// written, and goes on as the run itself.
#[test]
fn every_state_of_a_run_is_a_point() {
    let (mut states, mut most_pending, mut longest) = (0, 0, 0);
    for (case, book) in cases(54, 300) {
        let read = read_book(&book).unwrap().on_day(case.day);
        let line = case.form.read(&read, &case.line).unwrap();
        let mut run = Stacks::new(&read, line, case.units, case.budget);
        for (entry, &unit) in case.schedule.iter().enumerate() {
            if entry < 60 || entry % 97 == 0 {
                let saved = Saved::of(&run);
                let point = Point {
                    name: b"a name".to_vec(),
                    book: book.clone(),
                    day: case.day,
                    saved,
                };
                assert_eq!(broken(&point), []);
                let bytes = point.slot();
                longest = longest.max(point.bytes().len());
                assert_eq!(check(&bytes), Slot::Holds(Box::new(point.clone())));
                assert_eq!(Saved::of(&point.saved.run(&read)), point.saved);
                most_pending = most_pending.max(run.placed.len());
                states += 1;
            }
            if run.entry(unit.into()).is_some() {
                break;
            }
        }
    }
    assert!(states > 8000 && most_pending > 6, "{states} {most_pending}");
    assert!(longest < SLOT_LEN, "{longest}");
}

/// 511 nodes on eight units, by turns, parked again and again.
#[test]
fn many_pending_parts() {
    let (book, line) = (nodes(), [[1; 511].to_vec(), [0; 512].to_vec()].concat());
    let schedule: Vec<u8> = (0..8).cycle().take(30_000).collect();
    let whole = Question {
        line: &line,
        schedule: &schedule,
        ..page(&book, 8, &[])
    };
    let due = whole.answer_in_full().unwrap();
    assert_ne!(due.ending, ending::CUT);
    let mut points = zeros();
    let start = Question {
        schedule: &[],
        ..whole
    };
    let mut found = parked(&start, b"p", &mut points).unwrap();
    let (mut parts, mut most) = (schedule.chunks(110), 0);
    while found.ending == ending::CUT {
        most = most.max(point(&points, 0).saved.placed.len());
        found = resumed(b"p", parts.next().unwrap(), &mut points).unwrap();
    }
    assert_eq!(found, due);
    assert!(most > 8, "{most}");
}

/// A node with both arguments in a group, and no rules.
fn nodes() -> Vec<u8> {
    let operators = vec![operator(0), with_strategy(2, &[8, 1, 2, 9, 0])];
    comparison::draft::Draft::new(operators, vec![]).encode()
}

// ---------------------------------------------------------------------------
// Names

fn names(count: usize) -> Vec<Vec<u8>> {
    (0..count).map(|number| vec![b'a' + number as u8]).collect()
}

/// Goes on with one of the runs up to this entry of its schedule: it answers as
/// it would alone, and no other slot changes. Answers whether it is cut.
fn assert_goes_on(
    (case, book): &(Case, Vec<u8>),
    name: &[u8],
    done: Option<usize>,
    to: usize,
    points: &mut [u8],
) -> bool {
    let (before, slots) = (points.to_vec(), check_points(points).unwrap());
    let place = place_for(&slots, name).unwrap();
    let whole = Question::of(case, book);
    let schedule = &case.schedule[done.unwrap_or(0)..to];
    let found = match done {
        None => parked(&Question { schedule, ..whole }, name, points),
        Some(_) => resumed(name, schedule, points),
    };
    let schedule = &case.schedule[..to];
    let alone = Question { schedule, ..whole }.answer_in_full();
    assert_eq!(found, alone);
    for other in (0..SLOTS).filter(|&other| other != place) {
        assert_eq!(slot(points, other), slot(&before, other));
    }
    let is_cut = alone.unwrap().ending == ending::CUT;
    match is_cut {
        true => assert_eq!(point(points, place).name, name),
        false => assert!(slot(points, place).iter().all(|&byte| byte == 0)),
    }
    is_cut
}

/// Eight runs at once, parked and resumed in any order.
#[test]
fn names_beside_each_other() {
    let runs: Vec<_> = cases(55, 400)
        .filter(|(_, book)| book.len() < 400)
        .collect();
    let mut ended = 0;
    for (number, together) in (0..).zip(runs.chunks(SLOTS)) {
        let random = &mut Random::for_case(56, number);
        let mut points = zeros();
        // How many entries of each are done; none while it is not begun.
        let mut done: Vec<Option<usize>> = vec![None; together.len()];
        for _ in 0..60 {
            let one = random.below(together.len());
            let name = [b'a' + one as u8];
            let length = together[one].0.schedule.len();
            let to = random.between(done[one].unwrap_or(0), length);
            let is_cut = assert_goes_on(&together[one], &name, done[one], to, &mut points);
            done[one] = is_cut.then_some(to);
            ended += usize::from(!is_cut);
        }
    }
    assert!(ended > 300, "{ended}");
}

#[test]
fn a_new_name_takes_the_lowest_free_place() {
    let book = book_p().encode();
    let mut points = zeros();
    for name in names(8) {
        parked(&page(&book, 2, &[0, 1]), &name, &mut points).unwrap();
    }
    let found: Vec<Vec<u8>> = (0..SLOTS).map(|place| point(&points, place).name).collect();
    assert_eq!(found, names(8));
    // A ninth is refused, whatever its run would come to; an old one is not.
    let before = points.clone();
    for schedule in [&[][..], &[0; 29]] {
        let question = page(&book, 2, schedule);
        assert_eq!(parked(&question, b"z", &mut points), Err(21));
    }
    assert_eq!(points, before);
    assert!(parked(&page(&book, 1, &[0]), b"c", &mut points).is_ok());
    assert_eq!(point(&points, 2).saved.units.len(), 1);
    // Two places become free, and the lower one is taken.
    for name in [b"f", b"b"] {
        let found = resumed(name, &[0, 1].repeat(40), &mut points).unwrap();
        assert_eq!(found.ending, ending::FINISHED);
    }
    parked(&page(&book, 1, &[]), b"z", &mut points).unwrap();
    assert_eq!(point(&points, 1).name, b"z");
    assert_eq!(check(slot(&points, 5)), Slot::Free);
}

#[test]
fn a_point_is_replaced_whole() {
    let book = book_p().encode();
    let mut points = zeros();
    let long = [1; 900].into_iter().chain([0]).collect::<Vec<_>>();
    let question = Question {
        line: &long,
        ..page(&book, 8, &[0; 50])
    };
    parked(&question, b"name", &mut points).unwrap();
    parked(&page(&book, 1, &[0]), b"name", &mut points).unwrap();
    let mut afresh = zeros();
    parked(&page(&book, 1, &[0]), b"name", &mut afresh).unwrap();
    assert_eq!(points, afresh);
}

#[test]
fn a_run_that_is_not_cut_leaves_the_buffer() {
    let book = book_p().encode();
    let mut points = zeros();
    parked(&page(&book, 2, &[0, 1, 0]), b"old", &mut points).unwrap();
    let before = points.clone();
    let whole = [0; 29];
    for name in [b"old", b"new"] {
        let finished = parked(&page(&book, 1, &whole), name, &mut points).unwrap();
        assert_eq!(finished.ending, ending::FINISHED);
        let spent = Question {
            budget: 0,
            ..page(&book, 1, &whole)
        };
        let spent = parked(&spent, name, &mut points).unwrap();
        assert_eq!(spent.ending, ending::SPENT);
        assert_eq!(points, before);
    }
}

#[test]
fn names_are_bytes() {
    let book = book_p().encode();
    let mut points = zeros();
    let names: [&[u8]; 5] = [b"a", b"a\0", b"\0", &[0; 16], b"sixteen letters!"];
    for (entries, name) in names.iter().enumerate() {
        parked(&page(&book, 1, &vec![0; entries]), name, &mut points).unwrap();
    }
    for (entries, name) in names.iter().enumerate() {
        let found = resumed(name, &[], &mut points).unwrap();
        assert_eq!(found.entries, entries as u64);
    }
    let before = points.clone();
    for name in [&b""[..], b"seventeen letters"] {
        assert_eq!(
            parked(&page(&book, 1, &[]), name, &mut points),
            Err(refusal::POINT)
        );
        assert_eq!(resumed(name, &[], &mut points), Err(refusal::POINT));
    }
    assert_eq!(resumed(b"b", &[], &mut points), Err(refusal::POINT));
    assert_eq!(points, before);
}

#[test]
fn a_free_place_may_hold_anything_behind_its_length() {
    let book = book_p().encode();
    let mut points = vec![7; POINTS_LEN + 100];
    for place in 0..SLOTS {
        points[place * SLOT_LEN] = 0;
    }
    let before = points.clone();
    parked(&page(&book, 1, &[0]), b"name", &mut points).unwrap();
    let mut afresh = zeros();
    parked(&page(&book, 1, &[0]), b"name", &mut afresh).unwrap();
    assert_eq!(points[..SLOT_LEN], afresh[..SLOT_LEN]);
    assert_eq!(points[SLOT_LEN..], before[SLOT_LEN..]);
}

// ---------------------------------------------------------------------------
// Checks

/// A buffer with one point, of which a rule is broken.
fn with_broken_point() -> Vec<u8> {
    let book = book_p().encode();
    let mut points = zeros();
    parked(&page(&book, 2, &[0, 1]), b"broken", &mut points).unwrap();
    points[18] ^= 1; // the book is one byte longer
    assert!(matches!(check(slot(&points, 0)), Slot::Broken(_)));
    points
}

const ASKED: Lengths = Lengths::of_areas(100, 100);

fn lent(work: usize, net: usize, output: usize) -> Lengths {
    Lengths { work, net, output }
}

/// The number that a new run is refused by, which leaves the buffer.
fn told(question: &Question, lent: Lengths, points: &mut [u8], name: &[u8]) -> u8 {
    let before = points.to_vec();
    let number = park(question, name, points, lent, ASKED).unwrap_err();
    assert_eq!(points, before);
    number
}

/// One fault after the other is taken away.
#[test]
fn the_order_of_checks_before_points() {
    let book = book_p().encode();
    let faulty = Question {
        book: &[],
        line: &[9],
        ..page(&book, 0, &[9])
    };
    let mut short = vec![0; POINTS_LEN - 1];
    let units = Question { units: 2, ..faulty };
    assert_eq!(told(&faulty, lent(0, 0, 0), &mut short, b""), 13);
    assert_eq!(told(&units, lent(0, 0, 0), &mut short, b""), 15);
    assert_eq!(told(&units, lent(100, 0, 0), &mut short, b""), 15);
    assert_eq!(told(&units, lent(100, 100, 0), &mut short, b""), 16);
    let enough = lent(100, 100, OUTPUT_LEN);
    assert_eq!(told(&units, enough, &mut short, b""), 1);
    let read = Question {
        book: &book,
        ..units
    };
    assert_eq!(told(&read, enough, &mut short, b""), 11);
    let text = Question {
        form: Form::Text,
        ..read
    };
    assert_eq!(told(&text, enough, &mut short, b""), 19);
}

#[test]
fn the_order_of_checks_from_points_on() {
    let book = book_p().encode();
    let faulty = page(&book, 2, &[9]);
    let enough = lent(100, 100, OUTPUT_LEN);
    let mut short = vec![0; POINTS_LEN - 1];
    assert_eq!(told(&faulty, enough, &mut short, b""), 16);
    let mut broken = with_broken_point();
    assert_eq!(told(&faulty, enough, &mut broken, b"n"), 20);
    let mut full = zeros();
    for name in names(8) {
        parked(&page(&book, 1, &[]), &name, &mut full).unwrap();
    }
    assert_eq!(told(&faulty, enough, &mut full, b""), 20);
    assert_eq!(told(&faulty, enough, &mut full, b"z"), 21);
    assert_eq!(told(&faulty, enough, &mut full, b"a"), 14);
    let found = park(&page(&book, 2, &[]), b"a", &mut full, enough, ASKED);
    assert_eq!(found.map(|answer| answer.ending), Ok(ending::CUT));
}

#[test]
fn the_order_of_checks_of_a_resumption() {
    let book = book_p().encode();
    let mut points = zeros();
    parked(&page(&book, 2, &[]), b"a", &mut points).unwrap();
    let told = |lent, points: &mut [u8], name: &[u8]| {
        let before = points.to_vec();
        let number = resume(name, &[0, 1, 2], points, lent, ASKED).unwrap_err();
        assert_eq!(points, before);
        number
    };
    let mut short = points[..POINTS_LEN - 1].to_vec();
    assert_eq!(told(lent(0, 0, 0), &mut short, b""), 15);
    assert_eq!(told(lent(100, 0, 0), &mut short, b""), 15);
    assert_eq!(told(lent(100, 100, 0), &mut short, b""), 16);
    let enough = lent(100, 100, OUTPUT_LEN);
    assert_eq!(told(enough, &mut short, b""), 16);
    assert_eq!(told(enough, &mut with_broken_point(), b"a"), 20);
    assert_eq!(told(enough, &mut points, b""), 20);
    assert_eq!(told(enough, &mut points, b"b"), 20);
    // The point has two units.
    assert_eq!(told(enough, &mut points, b"a"), 14);
    assert!(resume(b"a", &[0, 1], &mut points, enough, ASKED).is_ok());
}

// ---------------------------------------------------------------------------
// Counts

/// Counts over all parts stay at the highest value, and nothing else depends on
/// them.
#[test]
fn counts_stay_at_the_highest() {
    let book = book_p().encode();
    let start = page(&book, 2, &[]);
    let rest = [0, 1].repeat(40);
    for (entries, granted, kept) in [
        (u64::MAX, u64::MAX, u64::MAX),
        (u64::MAX - 3, u64::MAX - 1, u64::MAX),
        (u64::MAX - 33, 0, u64::MAX - 1),
        (1 << 40, u64::MAX - 2, 7),
    ] {
        let mut points = zeros();
        parked(&start, b"n", &mut points).unwrap();
        let mut high = point(&points, 0);
        high.saved.entries = entries;
        high.saved.granted = granted;
        high.saved.kept = kept;
        points[..SLOT_LEN].copy_from_slice(&high.slot());
        let cut = resumed(b"n", &rest[..20], &mut points).unwrap();
        assert_eq!(cut.entries, entries.saturating_add(20));
        assert_eq!(point(&points, 0).saved.entries, cut.entries);
        let found = resumed(b"n", &rest[20..], &mut points).unwrap();
        let due = Question {
            schedule: &rest,
            ..start
        };
        let due = due.answer_in_full().unwrap();
        assert_eq!((due.entries, due.granted, due.kept), (33, 2, 0));
        assert_eq!(found.entries, entries.saturating_add(due.entries));
        assert_eq!(found.granted, granted.saturating_add(due.granted));
        assert_eq!(found.kept, kept.saturating_add(due.kept));
        assert_eq!((found.rewrites, found.term), (due.rewrites, due.term));
    }
}

/// The budget is for all parts together.
#[test]
fn rewrites_are_of_all_parts() {
    let book = book_p().encode();
    let start = Question {
        budget: 1,
        ..page(&book, 1, &[0; 12])
    };
    let mut points = zeros();
    assert_eq!(parked(&start, b"n", &mut points).unwrap().rewrites, 1);
    let found = resumed(b"n", &[0; 40], &mut points).unwrap();
    assert_eq!((found.ending, found.rewrites), (ending::SPENT, 1));
    assert_eq!(points, zeros());
}

// ---------------------------------------------------------------------------
// What a point copies

/// The book is copied as it was given, and its day with it: strategies are not
/// settled, and rules that don't stand stay.
#[test]
fn book_and_day_are_copied_as_given() {
    let mut draft = book_p().dated();
    draft.operators[1] = with_strategy(1, &[1, 0, 1, 0]);
    draft.rules[1].day = 300;
    let book = draft.encode();
    let mut points = zeros();
    let question = Question {
        day: 299,
        ..page(&book, 2, &[0; 3])
    };
    parked(&question, b"n", &mut points).unwrap();
    let saved = point(&points, 0);
    assert_eq!((saved.book, saved.day), (book, 299));
    // By the rules of that day both(tick(..), ..) stays.
    let found = resumed(b"n", &[0, 1].repeat(40), &mut points).unwrap();
    assert_eq!((found.ending, found.rewrites), (ending::FINISHED, 0));
    // An undated book's day is kept too, though it is ignored.
    let book = book_p().encode();
    let question = Question {
        day: 7,
        ..page(&book, 2, &[])
    };
    parked(&question, b"n", &mut points).unwrap();
    assert_eq!(point(&points, 0).day, 7);
}
