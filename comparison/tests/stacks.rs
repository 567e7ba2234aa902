//! Stacks of frames do what lists of orders do, entry by entry.

mod common;

use common::*;
use comparison::draft::Case;
use comparison::marks::are_marked_alike;
use comparison::model::*;
use comparison::random::{case, text_case, Random};
use comparison::stacks::{steps, Frame, Stacks, Step};

/// The book of a case on its day and its line, if neither is refused.
fn read(case: &Case) -> Option<(Book, Term)> {
    let book = read_book(&case.book()).ok()?.on_day(case.day);
    let line = case.form.read(&book, &case.line).ok()?;
    check_frame(case.units, Lengths::LEAST, Lengths::LEAST).ok()?;
    check_schedule(&case.schedule, case.units).ok()?;
    Some((book, line))
}

fn assert_alike(machine: &Machine, stacks: &Stacks) {
    assert_eq!(machine.queue, stacks.queue);
    for (one, other) in machine.units.iter().zip(stacks.orders()) {
        assert_eq!((one.busy, &one.orders), (other.busy, &other.orders));
    }
    assert_eq!(machine.term, stacks.term);
    assert!(are_marked_alike(&machine.term, &stacks.term));
}

/// Every pending part has an EXIT, and the order of placing is that of the
/// EXITs on each stack.
fn assert_placed(stacks: &Stacks) {
    for (unit, stack) in stacks.stacks.iter().enumerate() {
        let is_exit = |frame: &&Frame| matches!(frame, Frame::Exit { .. });
        let exits = stack.iter().filter(is_exit).count();
        let placed = stacks.placed.iter().filter(|&&other| other == unit);
        assert_eq!(placed.count(), exits);
    }
}

#[test]
fn frames_and_orders_are_one_machine() {
    let (mut finished, mut pending, mut compared) = (0, 0, 0);
    for number in 0..1200 {
        let random = &mut Random::for_case(51, number);
        let case = match number % 4 {
            3 => text_case(random),
            _ => case(random),
        };
        let Some((book, line)) = read(&case) else {
            continue;
        };
        let mut machine = Machine::new(&book, line.clone(), case.units, case.budget);
        let mut stacks = Stacks::new(&book, line, case.units, case.budget);
        for (entry, &unit) in case.schedule.iter().enumerate() {
            let ending = machine.entry(unit.into());
            assert_eq!(stacks.entry(unit.into()), ending);
            let due = machine.answer(ending.unwrap_or(ending::CUT));
            assert_eq!(stacks.answer(due.ending), due);
            if ending.is_some() {
                finished += u64::from(ending == Some(ending::FINISHED));
                break;
            }
            if entry < 150 || entry % 50 == 0 {
                assert_alike(&machine, &stacks);
                assert_placed(&stacks);
                compared += 1;
            }
            pending += u64::from(stacks.placed.len() > 2);
        }
    }
    assert!(
        finished > 300 && pending > 2000 && compared > 50_000,
        "{finished} {pending} {compared}"
    );
}

#[test]
fn steps_of_strategies() {
    let of = |items: &[u8]| {
        let draft = comparison::draft::Draft::new(vec![with_strategy(3, items)], vec![]);
        let book = read_book(&draft.encode()).unwrap();
        steps(&book.operators[0].strategy)
    };
    assert_eq!(of(&[]), []);
    assert_eq!(of(&[0]), [Step::Whole]);
    assert_eq!(
        of(&[2, 8, 1, 3, 9, 0]),
        [
            Step::Visit(2),
            Step::Fork(1),
            Step::Visit(3),
            Step::Join(1),
            Step::Whole
        ]
    );
    assert_eq!(
        of(&[8, 3, 1, 2, 9, 0]),
        [
            Step::Fork(3),
            Step::Fork(1),
            Step::Visit(2),
            Step::Join(2),
            Step::Whole
        ]
    );
}
