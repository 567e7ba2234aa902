//! The document's cases, starred and unstarred, and the places it warns of.

mod common;

use common::*;
use comparison::draft::{Draft, OperatorDraft, RuleDraft, Symbol};
use comparison::model::*;

fn items(numbers: &[u8], arity: u8) -> Vec<Item> {
    let draft = Draft::new(vec![with_strategy(arity, numbers)], vec![]);
    let book = read_book(&draft.encode()).unwrap();
    book.operators[0].given.clone().unwrap()
}

fn settled(numbers: &[u8], arity: u8) -> Vec<u8> {
    item_numbers(&settle(&items(numbers, arity)))
}

#[test]
fn page_of_the_document() {
    let input = input(&book_p().encode(), &LINE_P, 1, 9, &[0; 29]);
    let due = "REDUCE 1\nend 0\nrewrites 2\nentries 22\ngranted 0\nkept 2\nterm 1 1 0\n";
    assert_eq!(String::from_utf8(page(&input)).unwrap(), due);
}

#[test]
fn one_entry_less_is_cut() {
    let found = ask(&book_p(), &LINE_P, 1, 9, &[0; 21]).unwrap();
    assert_eq!((found.ending, found.entries), (ending::CUT, 21));
    assert_eq!(found.term, [1, 1, 0]);
}

#[test]
fn more_entries_are_not_used() {
    let found = ask(&book_p(), &LINE_P, 1, 9, &[0; 500]).unwrap();
    assert_eq!(
        (found.ending, found.entries, found.kept),
        (ending::FINISHED, 22, 2)
    );
}

#[test]
fn budget_of_one_is_spent() {
    let found = ask(&book_p(), &LINE_P, 1, 1, &[0; 29]).unwrap();
    assert_eq!(
        (found.ending, found.rewrites, found.entries, found.kept),
        (ending::SPENT, 1, 19, 2)
    );
    assert_eq!(found.term, [1, 2, 0, 1, 0]);
}

#[test]
fn main_unit_waits_for_a_unit_that_never_acts() {
    let found = ask(&book_p(), &LINE_P, 2, 9, &[0; 100]).unwrap();
    assert_eq!(
        (found.ending, found.entries, found.granted, found.kept),
        (ending::CUT, 100, 1, 0)
    );
    assert_eq!(found.term, LINE_P);
}

#[test]
fn join_passes_at_entry_thirteen() {
    let book = read_book(&book_p().encode()).unwrap();
    let line = read_line(&book, &LINE_P).unwrap();
    let mut machine = Machine::new(&book, line, 2, 9);
    let is_join = |order: &Order| matches!(order, Order::Join { .. });
    for place in 0..12 {
        assert_eq!(machine.entry(place % 2), None);
    }
    assert!(machine.units[0].orders.last().is_some_and(is_join));
    assert_eq!(machine.entry(0), None);
    assert!(!machine.units[0].orders.iter().any(is_join));
    assert_eq!(
        (machine.granted, machine.rewrites, machine.entries),
        (1, 0, 13)
    );
}

#[test]
fn the_two_settled_lists() {
    assert_eq!(settled(&[1, 0, 1, 0], 1), [1, 0]);
    assert_eq!(settled(&[8, 1, 1, 9, 8, 9, 2, 0], 2), [1, 2, 0]);
}

#[test]
fn other_settled_lists() {
    assert_eq!(settled(&[], 2), []);
    assert_eq!(settled(&[0, 0, 0], 0), [0]);
    assert_eq!(settled(&[8, 9, 0], 3), [0]);
    assert_eq!(settled(&[2, 8, 1, 2, 3, 9, 0], 3), [2, 8, 1, 3, 9, 0]);
    assert_eq!(
        settled(&[8, 2, 1, 9, 0, 8, 1, 2, 9, 0, 1, 0], 2),
        [8, 2, 1, 9, 0]
    );
    assert_eq!(settled(&[0, 1, 0], 1), [0, 1, 0]);
}

#[test]
fn small_books_byte_by_byte() {
    let constant = read_book(&[0x01, 0x00, 0x00]).unwrap();
    assert_eq!((constant.operators.len(), constant.rules.len()), (1, 0));
    assert_eq!(constant.operators[0].arity, 0);
    assert_eq!(
        written(&[0x02, 0x03, 0x10, 0x80, 0x00], 3),
        Ok(vec![0x02, 0x02, 0x00])
    );
    assert_eq!(written(&[0x02, 0x03, 0x10, 0x80, 0x00], 2), Err(16));
    // The byte 0 says that the book is dated, and its count is missing.
    assert_eq!(read_book(&[0x00]), Err(1));
}

#[test]
fn writer_keeps_an_empty_list_even_of_a_constant() {
    let draft = Draft::new(vec![with_strategy(0, &[])], vec![]);
    assert_eq!(written(&draft.encode(), 100), Ok(draft.encode()));
    let default = Draft::new(vec![with_strategy(0, &[0])], vec![]);
    assert_eq!(written(&default.encode(), 100), Ok(vec![0x01, 0x00, 0x00]));
}

#[test]
fn book_p_is_written_as_it_stands() {
    assert_eq!(written(&book_p().encode(), 1000), Ok(book_p().encode()));
}

#[test]
fn lines_of_1024_and_1025_symbols() {
    let line = |length: usize| [vec![1; length - 1], vec![0]].concat();
    let found = ask(&book_p(), &line(1024), 1, 9, &[0; 32_768]).unwrap();
    assert_eq!(
        (found.ending, found.entries),
        (ending::FINISHED, 2 * 1024 + 1)
    );
    assert_eq!(found.term, line(1024));
    assert_eq!(ask(&book_p(), &line(1025), 1, 9, &[]), Err(12));
}

#[test]
fn sides_of_64_and_65_symbols() {
    let chain = |length: usize| [vec![op(1); length - 1], vec![op(0)]].concat();
    let mut draft = book_p();
    draft.rules = vec![rule(&chain(64), &chain(64))];
    assert!(read_book(&draft.encode()).is_ok());
    draft.rules = vec![rule(&chain(65), &chain(64))];
    assert_eq!(read_book(&draft.encode()), Err(8));
    draft.rules = vec![rule(&chain(64), &chain(65))];
    assert_eq!(read_book(&draft.encode()), Err(8));
}

#[test]
fn units_of_0_and_9() {
    assert_eq!(ask(&book_p(), &LINE_P, 0, 9, &[]), Err(13));
    assert_eq!(ask(&book_p(), &LINE_P, 9, 9, &[]), Err(13));
    assert!(ask(&book_p(), &LINE_P, 8, 9, &[7; 3]).is_ok());
}

#[test]
fn empty_schedule_is_cut_at_once() {
    let found = ask(&book_p(), &LINE_P, 3, 0, &[]).unwrap();
    assert_eq!(
        (found.ending, found.entries, found.rewrites),
        (ending::CUT, 0, 0)
    );
    assert_eq!(found.term, LINE_P);
}

#[test]
fn empty_strategy_reduces_nothing_and_takes_an_entry() {
    let draft = Draft::new(
        vec![operator(0), with_strategy(1, &[])],
        vec![rule(&[op(1), X], &[X])],
    );
    let found = ask(&draft, &[1, 1, 0], 1, 9, &[0; 9]).unwrap();
    assert_eq!(
        (found.ending, found.rewrites, found.entries),
        (ending::FINISHED, 0, 2)
    );
}

/// f(X) gives g(X, X): the copy counts in the new size.
fn copying_book() -> Draft {
    Draft::new(
        vec![
            operator(0),
            with_strategy(1, &[0]),
            with_strategy(2, &[0]),
            operator(1),
        ],
        vec![rule(&[op(1), X], &[op(2), X, X])],
    )
}

#[test]
fn full_counts_every_copy() {
    let line = |part: usize| [vec![1], vec![3; part - 1], vec![0]].concat();
    // 1 + 2 * 511 = 1023 symbols fit, 1 + 2 * 512 = 1025 do not.
    let fits = ask(&copying_book(), &line(511), 1, 9, &[0; 9]).unwrap();
    assert_eq!(
        (fits.ending, fits.rewrites, fits.term.len()),
        (ending::FINISHED, 1, 1023)
    );
    let full = ask(&copying_book(), &line(512), 1, 9, &[0; 9]).unwrap();
    assert_eq!(
        (full.ending, full.rewrites, full.entries),
        (ending::FULL, 0, 2)
    );
    assert_eq!(full.term, line(512));
}

#[test]
fn spent_is_told_before_full() {
    let line = [vec![1], vec![3; 511], vec![0]].concat();
    let found = ask(&copying_book(), &line, 1, 0, &[0; 9]).unwrap();
    assert_eq!((found.ending, found.entries), (ending::SPENT, 2));
}

#[test]
fn exactly_1024_symbols_are_not_full() {
    let draft = Draft::new(
        vec![operator(0), operator(1), with_strategy(1, &[0])],
        vec![rule(&[op(2), X], &[op(2), op(1), X])],
    );
    let found = ask(&draft, &[2, 0], 1, u32::MAX, &[0; 32_768]).unwrap();
    assert_eq!(
        (found.ending, found.rewrites, found.term.len()),
        (ending::FULL, 1022, 1024)
    );
}

#[test]
fn first_rule_in_book_order_wins() {
    let draft = Draft::new(
        vec![operator(0), operator(0), operator(1)],
        vec![rule(&[op(2), X], &[op(0)]), rule(&[op(2), op(1)], &[op(1)])],
    );
    assert_eq!(ask(&draft, &[2, 1], 1, 9, &[0; 9]).unwrap().term, [0]);
}

/// Operators 0 a, 1 b, 2 f/1, 3 pair/2, 4 triple/3, and these rules.
fn matching_book(rules: Vec<RuleDraft>) -> Draft {
    let mut operators: Vec<OperatorDraft> = [0, 0, 1, 2].map(operator).into();
    operators.push(with_strategy(3, &[8, 1, 2, 9, 3, 0]));
    Draft::new(operators, rules)
}

/// The rewrites of a line by one rule that gives `a`.
fn rewrites(left: &[Symbol], line: &[u8]) -> u64 {
    let draft = matching_book(vec![rule(left, &[op(0)])]);
    let found = ask(&draft, line, 1, 9, &[0; 99]).unwrap();
    assert_eq!(found.ending, ending::FINISHED);
    found.rewrites
}

#[test]
fn repeated_variable_matches_equal_parts() {
    let pair = |line: &[u8]| rewrites(&[op(3), X, X], line);
    assert_eq!(pair(&[3, 0, 0]), 1);
    assert_eq!(pair(&[3, 2, 2, 1, 2, 2, 1]), 1);
    // They differ in the last symbol, in the first, in between, in length.
    assert_eq!(pair(&[3, 2, 2, 1, 2, 2, 0]), 0);
    assert_eq!(pair(&[3, 2, 1, 0]), 0);
    assert_eq!(pair(&[3, 4, 0, 1, 0, 4, 0, 0, 0]), 0);
    assert_eq!(pair(&[3, 2, 0, 2, 2, 0]), 0);
    assert_eq!(pair(&[3, 2, 0, 0]), 0);
    // Equal lengths and the same symbols in another shape.
    assert_eq!(pair(&[3, 4, 2, 1, 0, 0, 4, 1, 2, 0, 0]), 0);
}

#[test]
fn every_occurrence_is_compared() {
    let triple = |line: &[u8]| rewrites(&[op(4), X, X, X], line);
    assert_eq!(triple(&[4, 1, 1, 1]), 1);
    for line in [[4, 0, 1, 1], [4, 1, 0, 1], [4, 1, 1, 0]] {
        assert_eq!(triple(&line), 0, "{line:?}");
    }
    // Each variable by itself, also where they cross.
    let crossed = |line: &[u8]| rewrites(&[op(3), op(3), X, Y, op(3), Y, X], line);
    assert_eq!(crossed(&[3, 3, 0, 1, 3, 1, 0]), 1);
    assert_eq!(crossed(&[3, 3, 0, 1, 3, 0, 1]), 0);
    // A part inside the other is none that equals it.
    let inside = |line: &[u8]| rewrites(&[op(3), X, op(2), X], line);
    assert_eq!(inside(&[3, 2, 0, 2, 2, 0]), 1);
    assert_eq!(inside(&[3, 2, 0, 2, 0]), 0);
}

#[test]
fn rule_is_passed_over_where_parts_differ() {
    let rules = vec![
        rule(&[op(3), X, X], &[op(0)]),
        rule(&[op(3), X, Y], &[op(1)]),
    ];
    let posted = |line: &[u8]| ask(&matching_book(rules.clone()), line, 1, 9, &[0; 99]);
    assert_eq!(posted(&[3, 1, 1]).unwrap().term, [0]);
    assert_eq!(posted(&[3, 1, 0]).unwrap().term, [1]);
    // The parts are compared as they stand when the rule is tried.
    let found = posted(&[3, 3, 1, 1, 3, 0, 0]).unwrap();
    assert_eq!((found.term, found.rewrites), (vec![0], 3));
}

#[test]
fn repeated_variable_inside_and_outside_a_group() {
    // Arguments 1 and 2 of the triple are a group, 3 is not.
    let book = matching_book(vec![
        rule(&[op(3), X, X], &[X]),
        rule(&[op(4), X, Y, X], &[op(3), X, Y]),
    ]);
    let line = [4, 3, 1, 1, 2, 1, 3, 1, 1];
    for units in 1..=4 {
        let schedule: Vec<u8> = (0..units).cycle().take(200).collect();
        let found = ask(&book, &line, units, 9, &schedule).unwrap();
        assert_eq!((found.ending, found.rewrites), (ending::FINISHED, 3));
        assert_eq!(found.term, [3, 1, 2, 1]);
    }
}

#[test]
fn copies_of_a_repeated_variable_are_of_its_part() {
    let draft = matching_book(vec![rule(&[op(3), X, X], &[op(4), X, X, X])]);
    let found = ask(&draft, &[3, 2, 1, 2, 1], 1, 9, &[0; 99]).unwrap();
    assert_eq!(found.term, [4, 2, 1, 2, 1, 2, 1]);
}

#[test]
fn rewrite_forgets_only_its_own_terms_orders() {
    // Operator 2 has (0 1 0): its second 0 gives way, the first argument's
    // rewrite leaves the orders of operator 3 alone.
    let draft = Draft::new(
        vec![
            operator(0),
            operator(0),
            with_strategy(1, &[0, 1, 0]),
            operator(2),
        ],
        vec![rule(&[op(2), X], &[op(1)]), rule(&[op(3), X, Y], &[Y])],
    );
    let found = ask(&draft, &[3, 2, 0, 2, 0], 1, 9, &[0; 99]).unwrap();
    assert_eq!((found.ending, found.rewrites), (ending::FINISHED, 3));
    assert_eq!(found.term, [1]);
}

#[test]
fn unit_woken_at_another_join_waits_again() {
    // Unit 1 waits at its own JOIN, takes the part of unit 0's second FORK on
    // top of it, and waits at that part's JOIN when the lower one opens.
    let draft = Draft::new(
        vec![operator(0), with_strategy(2, &[8, 1, 2, 9, 0])],
        vec![],
    );
    let line = [1, 1, 0, 1, 0, 0, 1, 0, 0];
    let schedule = [
        0, 0, 0, 1, 1, 2, 2, 2, 2, 0, 1, 1, 1, 1, 1, 0, 1, 1, 0, 0, 1, 1, 1, 1, 0, 0, 0, 0, 0,
    ];
    let book = read_book(&draft.encode()).unwrap();
    let mut machine = Machine::new(&book, read_line(&book, &line).unwrap(), 3, 9);
    let mut woken_at_another_join = false;
    for unit in schedule {
        let Some(Order::Exit { unit: parent, join }) = machine.units[unit].orders.last().cloned()
        else {
            machine.entry(unit);
            continue;
        };
        let (was_idle, top) = (
            !machine.units[parent].busy,
            machine.units[parent].orders.len() - 1,
        );
        machine.entry(unit);
        if was_idle && machine.units[parent].busy && join != top {
            woken_at_another_join = true;
            let before = machine.units[parent].orders.clone();
            machine.entry(parent);
            assert!(!machine.units[parent].busy);
            assert_eq!(machine.units[parent].orders, before);
        }
    }
    assert!(woken_at_another_join);
}

#[test]
fn at_the_start_unit_1_has_been_idle_longest() {
    let found = ask(&book_p(), &LINE_P, 8, 9, &[0, 0, 1, 1, 1, 1]).unwrap();
    assert_eq!(found.granted, 1);
    let book = read_book(&book_p().encode()).unwrap();
    let mut machine = Machine::new(&book, read_line(&book, &LINE_P).unwrap(), 8, 9);
    machine.run(&[0, 0]);
    let busy: Vec<bool> = machine.units.iter().map(|unit| unit.busy).collect();
    assert_eq!(busy, [true, true, false, false, false, false, false, false]);
    assert_eq!(machine.queue, [2, 3, 4, 5, 6, 7]);
}

/// A node with both arguments in a group, and no rules.
fn nodes() -> Draft {
    Draft::new(
        vec![operator(0), with_strategy(2, &[8, 1, 2, 9, 0])],
        vec![],
    )
}

#[test]
fn main_unit_helps_while_it_waits() {
    // Unit 1 gets the inner node and forks while unit 0 waits for that node.
    let line = [1, 1, 0, 0, 0];
    let book = read_book(&nodes().encode()).unwrap();
    let mut machine = Machine::new(&book, read_line(&book, &line).unwrap(), 2, 9);
    machine.run(&[0; 5]);
    assert!(!machine.units[0].busy);
    let waiting = machine.units[0].orders.clone();
    machine.run(&[1, 1]);
    assert!(machine.units[0].busy);
    assert_eq!((machine.granted, machine.kept), (2, 0));
    let (below, work) = machine.units[0].orders.split_at(waiting.len());
    assert_eq!(below, waiting);
    assert_eq!(
        work,
        [Order::Exit { unit: 1, join: 3 }, Order::Visit(vec![1, 1])]
    );
    // The work over, unit 0 waits at the JOIN that it waited at before.
    assert_eq!(machine.run(&[0; 4]), ending::CUT);
    assert_eq!(machine.units[0].orders, waiting);
    assert!(!machine.units[0].busy);
    assert_eq!(machine.run(&[0, 1].repeat(10)), ending::FINISHED);
}

#[test]
fn woken_unit_leaves_its_place() {
    let book = read_book(&nodes().encode()).unwrap();
    let line = [1, 1, 0, 0, 0];
    let mut machine = Machine::new(&book, read_line(&book, &line).unwrap(), 3, 9);
    // Unit 0 waits for unit 1, behind unit 2.
    machine.run(&[0; 5]);
    assert_eq!(machine.queue, [2, 0]);
    // Unit 2 gets the inner part, though unit 0 is idle; then unit 1 waits.
    machine.run(&[1; 5]);
    assert_eq!(machine.queue, [0, 1]);
    // Unit 2 wakes unit 1 from behind unit 0, and sleeps.
    machine.run(&[2; 4]);
    assert_eq!(machine.queue, [0, 2]);
    // An entry for an idle unit changes nothing.
    machine.run(&[2, 0, 2]);
    assert_eq!(machine.queue, [0, 2]);
    // Unit 1 wakes unit 0 from the front.
    machine.run(&[1; 3]);
    assert_eq!(machine.queue, [2]);
    assert_eq!(machine.run(&[1, 0, 0, 0]), ending::FINISHED);
    assert_eq!(machine.queue, [2, 1]);
}

#[test]
fn main_unit_takes_nothing_while_it_is_busy() {
    // As above, but unit 1 forks while unit 0 is still at its own argument.
    let found = ask(&nodes(), &[1, 1, 0, 0, 0], 2, 9, &[0, 0, 1, 1]).unwrap();
    assert_eq!((found.granted, found.kept), (1, 1));
}
