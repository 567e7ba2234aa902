//! The rules of a point: for each one, points that break it alone; points that
//! no run saved and that meet them all; points damaged at random.

use comparison::by_hand::{asleep, book, breaking, lent, longest_book, meeting, misformed};
use comparison::draft::Case;
use comparison::foreign::{built, changed};
use comparison::model::*;
use comparison::point_rules::{broken, check, Slot, OF_RUNS};
use comparison::points::{check_points, park, resume};
use comparison::random::{case, Random};
use comparison::slots::*;
use comparison::stacks::Stacks;
use comparison::subject::Question;

const NONE: Lengths = Lengths::LEAST;

// ---------------------------------------------------------------------------
// Points by hand

#[test]
fn points_by_hand_meet_the_rules() {
    for point in meeting() {
        assert_eq!(broken(&point), [], "{point:?}");
        assert_eq!(check(&point.slot()), Slot::Holds(Box::new(point.clone())));
        assert_runs(&mut Random::new(1), &point, 60);
    }
}

fn page<'a>(book: &'a [u8], schedule: &'a [u8]) -> Question<'a> {
    Question {
        form: Form::Line,
        book,
        line: &[2, 0, 0],
        units: 2,
        budget: 9,
        day: 0,
        schedule,
    }
}

/// A buffer with a sound point in front and these bytes behind it, of which 20
/// is told, whoever asks.
fn assert_refused(slot: &[u8], what: &str) {
    let book = book();
    let mut points = vec![0; POINTS_LEN];
    park(&page(&book, &[0]), b"sound", &mut points, NONE, NONE).unwrap();
    points[3 * SLOT_LEN..4 * SLOT_LEN].copy_from_slice(slot);
    let before = points.clone();
    for name in [&b"by hand"[..], b"sound", b"new"] {
        // Also of a schedule that would be refused.
        for schedule in [&[][..], &[9]] {
            let parked = park(&page(&book, schedule), name, &mut points, NONE, NONE);
            assert_eq!(parked, Err(refusal::POINT), "{what}");
            let resumed = resume(name, schedule, &mut points, NONE, NONE);
            assert_eq!(resumed, Err(refusal::POINT), "{what}");
        }
    }
    assert_eq!(points, before);
}

#[test]
fn each_rule_is_broken_alone_and_refused() {
    let list = breaking();
    for (rule, (what, point)) in &list {
        assert_eq!(broken(point), [*rule], "{what}");
        assert_eq!(check(&point.slot()), Slot::Broken(*rule), "{what}");
        assert_refused(&point.slot(), what);
    }
    for (rule, _) in OF_RUNS {
        assert!(list.iter().any(|(of, _)| *of == rule), "{rule:?}");
    }
}

#[test]
fn each_rule_of_the_form_is_refused() {
    for (rule, what, slot) in misformed() {
        assert_eq!(check(&slot), Slot::Broken(rule), "{what}");
        assert_refused(&slot, what);
    }
}

#[test]
fn what_is_behind_a_point_is_not_read() {
    let (mut slot, end) = (lent().slot(), lent().bytes().len());
    slot[end..].fill(255);
    assert_eq!(check(&slot), Slot::Holds(Box::new(lent())));
}

#[test]
fn two_points_of_one_name_are_refused() {
    let mut points = vec![0; POINTS_LEN];
    points[..SLOT_LEN].copy_from_slice(&lent().slot());
    points[5 * SLOT_LEN..6 * SLOT_LEN].copy_from_slice(&asleep(1, 2).slot());
    assert_eq!(check_points(&points), Err(refusal::POINT));
    let mut other = asleep(1, 2);
    other.name.push(0);
    points[5 * SLOT_LEN..6 * SLOT_LEN].copy_from_slice(&other.slot());
    assert!(check_points(&points).is_ok());
}

/// The longest book with as many symbols, frames and pending parts as there
/// can be, each unit as high as a stack can be counted, is shorter than a slot.
#[test]
fn the_longest_point() {
    let job = SavedFrame::Job {
        offset: 0,
        next: 0,
        count: 0,
    };
    let point = Point {
        name: vec![7; 16],
        book: longest_book(),
        day: 9,
        saved: Saved {
            budget: 0,
            rewrites: 0,
            entries: 0,
            granted: 0,
            kept: 0,
            symbols: vec![0; 1024],
            marks: vec![true; 1024],
            units: vec![
                SavedUnit {
                    rank: 7,
                    frames: vec![job; 1026],
                };
                8
            ],
            placed: vec![0; 1023],
        },
    };
    assert_eq!(point.book.len(), 41_473);
    assert_eq!(point.bytes().len(), 21 + 41_473 + 21_083);
    assert_eq!(point.slot().len(), SLOT_LEN);
}

// ---------------------------------------------------------------------------
// Points that no run saved

/// Runs on for so many entries of any units: no fault, every state meets the
/// rules, and some unit can act. Answers whether something was done.
fn assert_runs(random: &mut Random, point: &Point, entries: usize) -> bool {
    let book = read_book(&point.book).unwrap().on_day(point.day);
    let mut run = point.saved.run(&book);
    let mut acted = false;
    for _ in 0..entries {
        let units = 0..run.stacks.len();
        let busy: Vec<usize> = units.filter(|&unit| run.is_busy(unit)).collect();
        assert!(!busy.is_empty(), "{point:?}");
        acted = true;
        // An entry for an idle unit is one too.
        let unit = match random.one_in(5) {
            true => random.below(run.stacks.len()),
            false => *random.pick(&busy),
        };
        if run.entry(unit).is_some() {
            break;
        }
        let saved = Saved::of(&run);
        let after = Point {
            saved,
            ..point.clone()
        };
        assert_eq!(broken(&after), [], "{point:?}");
    }
    acted
}

/// Random books, often with groups, and short lines, which are parts of longer
/// ones.
fn small_cases(seed: u64, count: u64) -> impl Iterator<Item = (Case, Book)> {
    (0..count).filter_map(move |number| {
        let random = &mut Random::for_case(seed, number);
        let mut case = case(random);
        for operator in &mut case.draft.operators {
            if operator.arity > 1 && random.one_in(2) {
                let arguments = (1..=operator.arity).collect();
                operator.strategy = Some([vec![8], arguments, vec![9, 0]].concat());
            }
        }
        let book = read_book(&case.book()).ok()?.on_day(case.day);
        let line = read_line(&book, &case.line).ok()?;
        let limit = *random.pick(&[12, 30, 80]);
        case.line = part_within(&line, limit).preorder();
        let is_sound = (1..=8).contains(&case.units);
        is_sound.then_some((case, book))
    })
}

/// A part of at most so many symbols: of the largest argument, if the whole has
/// more.
fn part_within(term: &Term, limit: usize) -> &Term {
    if term.size() <= limit {
        return term;
    }
    let largest = term.arguments.iter().max_by_key(|part| part.size());
    part_within(largest.expect("it has more than one symbol"), limit)
}

#[test]
fn points_built_by_hand_run_without_fault() {
    let (mut built_ones, mut with_parts, mut marked) = (0, 0, 0);
    for (number, (case, book)) in (0..).zip(small_cases(61, 3000)) {
        let random = &mut Random::for_case(62, number);
        let saved = built(random, &book, &case.line);
        let point = Point {
            name: b"built".to_vec(),
            book: case.book(),
            day: case.day,
            saved,
        };
        assert_eq!(broken(&point), [], "{point:?}");
        assert_eq!(check(&point.slot()), Slot::Holds(Box::new(point.clone())));
        assert!(assert_runs(random, &point, 60));
        built_ones += 1;
        with_parts += usize::from(point.saved.placed.len() > 1);
        marked += usize::from(point.saved.marks.contains(&true));
    }
    assert!(
        built_ones > 1500 && with_parts > 100 && marked > 500,
        "{built_ones} {with_parts} {marked}"
    );
}

/// A point that some run saved, at any entry.
fn saved_point(random: &mut Random, case: &Case, book: &Book) -> Point {
    let line = read_line(book, &case.line).unwrap();
    let mut run = Stacks::new(book, line, case.units, case.budget);
    for _ in 0..random.below(120) {
        let before = run.clone();
        if run.entry(random.below(case.units.into())).is_some() {
            run = before;
            break;
        }
    }
    Point {
        name: b"saved".to_vec(),
        book: case.book(),
        day: case.day,
        saved: Saved::of(&run),
    }
}

/// A bit or several turned anywhere in the point: it is refused, or it runs
/// without fault.
#[test]
fn points_with_turned_bits_are_refused_or_run_without_fault() {
    let (mut refused, mut run_on) = (0, 0);
    for (number, (case, book)) in (0..).zip(small_cases(63, 1500)) {
        let random = &mut Random::for_case(64, number);
        let point = match random.one_in(3) {
            true => Point {
                saved: built(random, &book, &case.line),
                ..saved_point(random, &case, &book)
            },
            false => saved_point(random, &case, &book),
        };
        let length = point.bytes().len();
        // The fields, more than the book.
        let fields = BOOK_AT + point.book.len()..length;
        for _ in 0..4 {
            let mut slot = point.slot();
            for _ in 0..*random.pick(&[1, 1, 1, 2, 5]) {
                let byte = match random.below(6) {
                    0 => random.below(length),
                    _ => random.between(fields.start, fields.end - 1),
                };
                slot[byte] ^= 1 << random.below(8);
            }
            match check(&slot) {
                Slot::Free | Slot::Broken(_) => refused += 1,
                Slot::Holds(other) => {
                    assert!(assert_runs(random, &other, 25));
                    run_on += 1;
                }
            }
        }
    }
    assert!(refused > 1000 && run_on > 300, "{refused} {run_on}");
}

/// The same of changed fields.
#[test]
fn points_with_changed_fields_are_refused_or_run_without_fault() {
    let (mut run_on, mut alone) = (0, Vec::new());
    for (number, (case, book)) in (0..).zip(small_cases(65, 3000)) {
        let random = &mut Random::for_case(66, number);
        let point = match random.one_in(2) {
            true => Point {
                saved: built(random, &book, &case.line),
                ..saved_point(random, &case, &book)
            },
            false => saved_point(random, &case, &book),
        };
        for _ in 0..4 {
            let other = changed(random, &point);
            match broken(&other)[..] {
                [] => {
                    assert!(assert_runs(random, &other, 20));
                    run_on += 1;
                }
                [rule] => alone.push(rule),
                _ => {}
            }
        }
    }
    alone.sort_unstable();
    alone.dedup();
    // The others are mostly broken together with some of these.
    assert!(alone.len() >= 10, "{alone:?}");
    assert!(run_on > 1000, "{run_on}");
}
