//! The comparison finds no difference in the model, and every slip.

use comparison::broken::{BrokenModel, Slip, SLIPS};
use comparison::compare::{compare, Comparison, Difference};
use comparison::draft::Case;
use comparison::fees::{LARGEST, WHOLE};
use comparison::model::Form;
use comparison::program::{compare_pages, Pages};
use comparison::subject::ModelSubject;

#[test]
fn the_model_agrees_with_itself_and_everything_is_met() {
    let (tally, difference) = compare(&mut ModelSubject, 31, 0..6000);
    assert!(difference.is_none());
    assert_eq!(tally.cases, 6000);
    assert!(tally.missing().is_empty(), "{tally}");
    assert!(tally.books_written > 0, "{tally}");
}

#[test]
fn every_slip_is_found_and_made_small() {
    for (name, slip) in SLIPS {
        let difference = found(slip).unwrap_or_else(|| panic!("{name} is not found"));
        let small = &difference.small;
        assert!(shows(slip, small), "{name}");
        check_batch(slip, small, name);
        check_fees(slip, small, name);
        assert_eq!(small.rounds.is_some(), slip.is_of_bounds(), "{name}");
        // What isn't about texts is shown by a line, also where a text met it.
        assert_eq!(small.form, form_of(slip), "{name}: {difference}");
        let operator_limit = match small.form {
            Form::Line => 8,
            Form::Text => 43,
        };
        assert!(small.draft.rules.len() <= 3, "{name}: {difference}");
        assert!(
            small.draft.operators.len() <= operator_limit,
            "{name}: {difference}"
        );
        assert!(small.units <= 6, "{name}: {difference}");
        assert_eq!(small.draft.dated, needs_days(slip), "{name}: {difference}");
        // Copies matter only near the symbol limit, and so does what is told at it.
        let line_limit = match slip {
            Slip::Copies | Slip::Late | Slip::Swapped | Slip::Filled => 1024,
            _ => 30,
        };
        assert!(small.line.len() <= line_limit, "{name}: {difference}");
        assert!(small.schedule.len() <= 80, "{name}: {difference}");
    }
}

/// What isn't about many lines is shown by one.
fn check_batch(slip: Slip, small: &Case, name: &str) {
    assert_eq!(small.batch.is_some(), slip.is_of_batches(), "{name}");
    if let Some(batch) = &small.batch {
        assert!(batch.lines.len() <= 3, "{name}: {batch:?}");
        assert!(batch.bytes().len() <= 20, "{name}: {batch:?}");
        assert!(small.line.is_empty(), "{name}: {:?}", small.line);
    }
}

/// What isn't about fees is shown without.
fn check_fees(slip: Slip, small: &Case, name: &str) {
    assert_eq!(small.fees.is_some(), slip.is_of_fees(), "{name}");
    if let Some(fees) = &small.fees {
        assert!(fees.term.len() <= 1, "{name}: {fees:?}");
        assert!(fees.rates.len() <= 6, "{name}: {fees:?}");
        assert!(fees.shares.len() <= 3, "{name}: {fees:?}");
        let most = match slip {
            Slip::Hasty | Slip::Limit | Slip::Sooner => 2 * LARGEST,
            _ => 2 * i64::from(WHOLE),
        };
        assert!(fees.amount.abs() <= most, "{name}: {fees:?}");
        // What a posting by itself shows needs no line.
        let line = if slip.is_of_settling() { 5 } else { 0 };
        assert!(small.line.len() <= line, "{name}: {:?}", small.line);
    }
}

/// A slip of the page shows in no answer.
fn found(slip: Slip) -> Option<Difference> {
    let mut subject = BrokenModel { slip };
    match slip.is_of_pages() {
        true => compare_pages(&subject, 36, 0..20_000).1,
        false => compare(&mut subject, 36, 0..20_000).1,
    }
}

fn shows(slip: Slip, case: &Case) -> bool {
    let mut subject = BrokenModel { slip };
    let difference = match slip.is_of_pages() {
        true => subject.check(case),
        false => Comparison::new(&mut subject).check(case),
    };
    difference.is_some()
}

fn needs_days(slip: Slip) -> bool {
    use Slip::*;
    matches!(
        slip,
        Earlier | Own | Naming | Names | Ahead | ByDay | Days | Low | AnyDay
    )
}

fn form_of(slip: Slip) -> Form {
    match slip {
        Slip::Cedilla | Slip::Sharp | Slip::Diaeresis | Slip::Tail | Slip::Front => Form::Text,
        Slip::Late | Slip::Swapped | Slip::Named => Form::Text,
        _ => Form::Line,
    }
}

#[test]
fn what_was_not_met_is_named() {
    let (tally, _) = compare(&mut ModelSubject, 31, 0..0);
    assert_eq!(
        tally.missing().len(),
        4 + 17 + 4 + 14 + 9 + 7 + 8 + 8 + 6 + 10 + 28 + 20 + 10
    );
    assert_eq!(
        tally.missing()[..5].join(", "),
        "ending 0, ending 1, ending 2, ending 3, refusal 1"
    );
    assert_eq!(
        tally.missing()[19..23].join(", "),
        "refusal 18, refusal 19, a text's ending 0, a text's ending 1"
    );
    assert_eq!(tally.missing()[48], "parts of a repeated variable equal");
    assert_eq!(tally.missing()[55], "rules or runs of a later day");
    assert_eq!(
        tally.missing()[63],
        "searches that go back to a variable's way"
    );
    assert_eq!(tally.missing()[71], "orders that visit a marked part");
    assert_eq!(tally.missing()[77], "batches done to the end");
    assert_eq!(tally.missing()[87], "charges of payments");
    assert_eq!(tally.missing()[115], "books that are admitted");
    assert_eq!(tally.missing()[135], "lines that are refused");
    let (tally, _) = compare(&mut ModelSubject, 31, 0..2000);
    assert!(tally.missing().is_empty(), "{tally}");
}
