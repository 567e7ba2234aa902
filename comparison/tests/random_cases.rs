//! What must hold of the model on every random case.

use std::thread;

use comparison::draft::Case;
use comparison::model::*;
use comparison::random::{case, Random};

const CASES: u64 = 3000;

fn cases(seed: u64) -> impl Iterator<Item = Case> {
    (0..CASES).map(move |number| case(&mut Random::for_case(seed, number)))
}

/// The runs of the cases that are not refused.
fn runs(seed: u64) -> impl Iterator<Item = (Case, Answer)> {
    cases(seed).filter_map(|case| {
        let answer = answer(
            &case.book(),
            &case.line,
            case.units,
            case.budget,
            case.day,
            &case.schedule,
            Lengths::LEAST,
            Lengths::LEAST,
        );
        answer.ok().map(|answer| (case, answer))
    })
}

/// Without the symbol limit terms nest deeper than a test's own stack allows.
fn on_large_stack(test: fn()) {
    thread::Builder::new()
        .stack_size(256 << 20)
        .spawn(test)
        .unwrap()
        .join()
        .unwrap();
}

#[test]
fn finished_runs_equal_reduction_one_after_the_other() {
    on_large_stack(|| {
        let mut finished = 0;
        for (case, answer) in runs(21).filter(|(_, answer)| answer.ending == ending::FINISHED) {
            let book = read_book(&case.book()).unwrap().on_day(case.day);
            let line = read_line(&book, &case.line).unwrap();
            let (term, rewrites) = reduce(&book, line, answer.rewrites).expect("no more rewrites");
            assert_eq!(
                (term.preorder(), rewrites),
                (answer.term, answer.rewrites),
                "{case:?}"
            );
            finished += 1;
        }
        assert!(finished > 100);
    });
}

#[test]
fn forks_of_a_finished_run_are_those_of_one_unit() {
    on_large_stack(|| {
        for (case, answer) in runs(22).filter(|(_, answer)| answer.ending == ending::FINISHED) {
            let book = read_book(&case.book()).unwrap().on_day(case.day);
            let line = read_line(&book, &case.line).unwrap();
            let mut alone = Machine::new(&book, line, 1, case.budget);
            alone.size_limit = usize::MAX;
            while alone.entry(0).is_none() {}
            assert_eq!(alone.granted, 0);
            assert_eq!(alone.kept, answer.granted + answer.kept, "{case:?}");
            assert_eq!(alone.rewrites, answer.rewrites);
        }
    });
}

#[test]
fn some_unit_can_act_and_joins_count_what_is_open() {
    for (case, _) in runs(23).take(600) {
        let book = read_book(&case.book()).unwrap().on_day(case.day);
        let line = read_line(&book, &case.line).unwrap();
        let mut machine = Machine::new(&book, line, case.units, case.budget);
        for &unit in &case.schedule {
            if machine.entry(unit.into()).is_some() {
                break;
            }
            assert!(machine.units.iter().any(|unit| unit.busy), "{case:?}");
            assert_joins_count_what_is_open(&machine);
        }
    }
}

/// The queue has each idle unit once, and no other; a FORK's part goes to a
/// unit that no other has been idle longer than, and of those idle as long to
/// the lowest.
#[test]
fn the_longest_idle_unit_gets_the_part() {
    let (mut grants, mut past_a_lower) = (0, 0);
    for (case, _) in runs(31).take(1000) {
        let book = read_book(&case.book()).unwrap().on_day(case.day);
        let line = read_line(&book, &case.line).unwrap();
        let mut machine = Machine::new(&book, line, case.units, case.budget);
        // The entry at which each unit became idle.
        let mut since: Vec<usize> = vec![0; machine.units.len()];
        for (entry, &unit) in (1..).zip(&case.schedule) {
            let (before, granted) = (machine.units.clone(), machine.granted);
            if machine.entry(unit.into()).is_some() {
                break;
            }
            assert_queue_is_of_idle_units(&machine, &case);
            if machine.granted > granted {
                let idle = (0..before.len()).filter(|&unit| !before[unit].busy);
                let due = idle.clone().min_by_key(|&unit| (since[unit], unit));
                assert_eq!(Some(helper(&before, &machine.units)), due, "{case:?}");
                grants += 1;
                past_a_lower += u64::from(due != idle.min());
            }
            for (number, since) in since.iter_mut().enumerate() {
                if before[number].busy && !machine.units[number].busy {
                    *since = entry;
                }
            }
        }
    }
    assert!(grants > 1000, "{grants} grants");
    assert!(past_a_lower > 100, "{past_a_lower} past a lower unit");
}

fn assert_queue_is_of_idle_units(machine: &Machine, case: &Case) {
    let mut queue: Vec<usize> = machine.queue.iter().copied().collect();
    queue.sort_unstable();
    let is_idle = |unit: &usize| !machine.units[*unit].busy;
    let idle: Vec<usize> = (0..machine.units.len()).filter(is_idle).collect();
    assert_eq!(queue, idle, "{case:?}");
}

/// When a FORK gives work to a unit, that unit has SLEEP or a JOIN with a count
/// above 0 on top, unit 0 never SLEEP. The orders below stay as they are, but
/// for the counts of JOINs, until the work has exited.
#[test]
fn work_lies_above_what_a_unit_waits_with() {
    let (mut helped, mut deepest) = (0, 0);
    for (case, _) in runs(28).take(1000) {
        let book = read_book(&case.book()).unwrap().on_day(case.day);
        let line = read_line(&book, &case.line).unwrap();
        let mut machine = Machine::new(&book, line, case.units, case.budget);
        let mut taken: Vec<Vec<Vec<Order>>> = vec![Vec::new(); machine.units.len()];
        for &unit in &case.schedule {
            let (before, granted) = (machine.units.clone(), machine.granted);
            if machine.entry(unit.into()).is_some() {
                break;
            }
            if machine.granted > granted {
                let helper = helper(&before, &machine.units);
                assert_waits(&before[helper], helper, &case);
                taken[helper].push(uncounted(&before[helper].orders));
                helped += u64::from(helper == 0);
                deepest = deepest.max(taken[helper].len());
            }
            for (unit, taken) in machine.units.iter().zip(&mut taken) {
                assert_stays(unit, taken, &case);
            }
        }
    }
    assert!(helped > 300, "unit 0 took {helped} parts");
    assert!(deepest > 3, "at most {deepest} parts on a list");
}

/// The unit that a FORK gave work to.
fn helper(before: &[Unit], after: &[Unit]) -> usize {
    let mut changed = (0..after.len()).filter(|&unit| !before[unit].busy && after[unit].busy);
    let helper = changed.next().expect("some unit became busy");
    assert_eq!(changed.next(), None);
    helper
}

fn assert_waits(unit: &Unit, number: usize, case: &Case) {
    match unit.orders.last().unwrap() {
        Order::Sleep => assert_ne!(number, 0, "{case:?}"),
        Order::Join { count } => assert!(*count > 0, "{case:?}"),
        other => panic!("{other:?} on top of a unit that takes work: {case:?}"),
    }
}

/// `taken` has, for each part that the unit took, the orders below it.
fn assert_stays(unit: &Unit, taken: &mut Vec<Vec<Order>>, case: &Case) {
    while taken
        .last()
        .is_some_and(|below| unit.orders.len() <= below.len())
    {
        let below = taken.pop().unwrap();
        assert_eq!(uncounted(&unit.orders), below, "{case:?}");
    }
    let orders = uncounted(&unit.orders);
    for below in taken {
        assert_eq!(orders[..below.len()], below[..], "{case:?}");
        assert!(matches!(orders[below.len()], Order::Exit { .. }));
    }
}

fn uncounted(orders: &[Order]) -> Vec<Order> {
    let uncounted = |order: &Order| match order {
        Order::Join { .. } => Order::Join { count: 0 },
        other => other.clone(),
    };
    orders.iter().map(uncounted).collect()
}

#[test]
fn a_run_finishes_with_nothing_left() {
    let mut finished = 0;
    for (case, answer) in runs(29).filter(|(_, answer)| answer.ending == ending::FINISHED) {
        let book = read_book(&case.book()).unwrap().on_day(case.day);
        let line = read_line(&book, &case.line).unwrap();
        let mut machine = Machine::new(&book, line, case.units, case.budget);
        let last = case.schedule[answer.entries as usize - 1];
        machine.run(&case.schedule[..answer.entries as usize - 1]);
        assert_eq!(last, 0, "{case:?}");
        assert_eq!(machine.units[0].orders, [Order::Bingo], "{case:?}");
        for unit in &machine.units[1..] {
            assert_eq!(unit.orders, [Order::Sleep], "{case:?}");
        }
        finished += 1;
    }
    assert!(finished > 100);
}

/// A JOIN's count is its FORKs still to come and its EXITs together.
fn assert_joins_count_what_is_open(machine: &Machine) {
    for (number, unit) in machine.units.iter().enumerate() {
        for (height, order) in unit.orders.iter().enumerate() {
            if let Order::Join { count } = order {
                let forks = unit
                    .orders
                    .iter()
                    .filter(|order| matches!(order, Order::Fork { join, .. } if *join == height));
                let exits = machine.units.iter().flat_map(|unit| &unit.orders).filter(|order| {
                    matches!(order, Order::Exit { unit, join } if *unit == number && *join == height)
                });
                assert_eq!(*count, forks.count() + exits.count());
            }
        }
    }
}

#[test]
fn endings_keep_their_conditions() {
    for (case, answer) in runs(24) {
        assert!(answer.rewrites <= u64::from(case.budget));
        assert!(answer.entries <= case.schedule.len() as u64);
        assert!(answer.granted + answer.kept <= answer.entries);
        assert!(answer.term.len() <= TERM_LIMIT);
        match answer.ending {
            ending::SPENT => assert_eq!(answer.rewrites, u64::from(case.budget)),
            ending::CUT => assert_eq!(answer.entries, case.schedule.len() as u64),
            ending::FULL => assert!(answer.rewrites < u64::from(case.budget)),
            _ => assert_eq!(answer.ending, ending::FINISHED),
        }
    }
}

#[test]
fn written_books_are_read_and_written_alike() {
    let (mut read, mut dated) = (0, 0);
    for case in cases(25) {
        let Ok(book) = read_book(&case.book()) else {
            continue;
        };
        let bytes = written(&case.book(), usize::MAX).unwrap();
        assert!(bytes.len() <= case.book().len());
        let again = read_book(&bytes).unwrap();
        assert_eq!((&again.rules, &again.days), (&book.rules, &book.days));
        for (one, other) in again.operators.iter().zip(&book.operators) {
            assert_eq!((one.arity, &one.strategy), (other.arity, &other.strategy));
            assert_eq!(settle(&one.strategy), one.strategy);
        }
        assert_eq!(written(&bytes, bytes.len()), Ok(bytes));
        read += 1;
        dated += u64::from(book.days.is_some());
    }
    assert!(read > 1000 && dated > 300);
}

/// Of the rules whose day has come, no two that stand agree in their left
/// sides, and each that doesn't stand has one that does, of its day or a later
/// one.
#[test]
fn one_rule_stands_for_all_that_agree() {
    let mut replaced = 0;
    for case in cases(30) {
        let Ok(book) = read_book(&case.book()) else {
            continue;
        };
        let Some(days) = &book.days else {
            continue;
        };
        let standing = book.on_day(case.day).rules;
        for (place, rule) in standing.iter().enumerate() {
            let behind = &standing[place + 1..];
            assert!(!behind.iter().any(|other| other.left.agrees(&rule.left)));
        }
        let mut rest = standing.iter().peekable();
        for (rule, day) in book.rules.iter().zip(days) {
            if rest.next_if(|next| *next == rule).is_none() && *day <= case.day {
                let stands = |other: &Rule| other.left.agrees(&rule.left);
                assert!(standing.iter().any(stands), "{case:?}");
                replaced += 1;
            }
        }
    }
    assert!(replaced > 500, "{replaced}");
}

#[test]
fn a_case_is_made_again_from_its_number() {
    let again = case(&mut Random::for_case(26, 7));
    assert_eq!(cases(26).nth(7), Some(again));
}

#[test]
fn page_agrees_with_the_answer() {
    for (case, answer) in runs(27).take(500) {
        let page = String::from_utf8(page(&case.input().unwrap())).unwrap();
        let term: Vec<String> = answer.term.iter().map(u8::to_string).collect();
        let due = format!(
            "REDUCE 1\nend {}\nrewrites {}\nentries {}\ngranted {}\nkept {}\nterm {}\n",
            answer.ending,
            answer.rewrites,
            answer.entries,
            answer.granted,
            answer.kept,
            term.join(" ")
        );
        // A fault may have made the schedule one entry too long for the page.
        if case.schedule.len() <= SCHEDULE_LIMIT {
            assert_eq!(page, due);
        }
    }
}
