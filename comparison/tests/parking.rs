//! The comparison of calls on points finds no difference in the model, and every
//! slip.

use comparison::broken_points::{slips, BrokenPoints, PointSlip};
use comparison::compare_points::{compare_points, PointComparison};
use comparison::parks::numbered;
use comparison::subject::ModelSubject;

#[test]
fn the_model_agrees_with_itself_and_everything_is_met() {
    let (tally, difference) = compare_points(&mut ModelSubject, 71, 0..1200);
    assert!(difference.is_none());
    assert!(tally.missing().is_empty(), "{tally}");
}

#[test]
fn what_was_not_met_is_named() {
    let (tally, _) = compare_points(&mut ModelSubject, 71, 0..0);
    assert_eq!(tally.missing().len(), 22 + 14 + 17);
    assert_eq!(tally.missing()[0], "calls that park under a new name");
    assert_eq!(tally.missing()[36], "points that break Name");
}

/// The number of the first case that shows a slip.
fn found(slip: PointSlip) -> Option<u64> {
    let mut subject = BrokenPoints { slip };
    let mut comparison = PointComparison::new(&mut subject);
    (0..3000).find(|&number| comparison.check(&numbered(72, number)).is_some())
}

#[test]
fn every_slip_is_found() {
    for slip in slips() {
        assert!(found(slip).is_some(), "{slip:?}");
    }
}

#[test]
fn differences_are_made_small() {
    for slip in [PointSlip::Stale, PointSlip::LastPart, PointSlip::Twins] {
        let (_, difference) = compare_points(&mut BrokenPoints { slip }, 73, 0..3000);
        let small = difference.expect("it is found").small;
        assert!(small.calls.len() <= 4, "{small:?}");
    }
}
