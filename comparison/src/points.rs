//! The model of named points: a run that is cut is saved under its name, and a
//! resumption goes on from there.
//!
//! The buffer of points is the caller's. It is written to only where a point is
//! saved, or where a resumed run ends otherwise than cut.

use crate::model::{self, ending, refusal, Answer, Lengths};
use crate::point_rules::{check, Slot};
use crate::slots::{Point, Saved, NAME_LIMIT, POINTS_LEN, SLOT_LEN};
use crate::stacks::Stacks;
use crate::subject::Question;

/// A new run with a name. It is saved if it ends cut; otherwise the buffer stays
/// as it is, also where there is a point of that name.
pub fn park(
    question: &Question,
    name: &[u8],
    points: &mut [u8],
    lent: Lengths,
    asked: Lengths,
) -> Result<Answer, u8> {
    model::check_frame(question.units, lent, asked)?;
    let book = model::read_book(question.book)?.on_day(question.day);
    let line = question.form.read(&book, question.line)?;
    let slots = check_points(points)?;
    check_name(name)?;
    let slot = place_for(&slots, name).ok_or(refusal::NINTH_NAME)?;
    model::check_schedule(question.schedule, question.units)?;
    let mut run = Stacks::new(&book, line, question.units, question.budget);
    let ending = run.run(question.schedule);
    if ending == ending::CUT {
        let point = Point {
            name: name.to_vec(),
            book: question.book.to_vec(),
            day: question.day,
            saved: Saved::of(&run),
        };
        slot_mut(points, slot).copy_from_slice(&point.slot());
    }
    Ok(run.answer(ending))
}

/// The run of a name goes on. Its place has its new point if it ends cut, and
/// is zeroed otherwise.
pub fn resume(
    name: &[u8],
    schedule: &[u8],
    points: &mut [u8],
    lent: Lengths,
    asked: Lengths,
) -> Result<Answer, u8> {
    // The units are the point's, so that 13 is never told.
    model::check_frame(1, lent, asked)?;
    let slots = check_points(points)?;
    check_name(name)?;
    let slot = place_of(&slots, name).ok_or(refusal::POINT)?;
    let Slot::Holds(point) = &slots[slot] else {
        unreachable!("it has a name");
    };
    model::check_schedule(schedule, point.saved.units.len() as u8)?;
    let book = model::read_book(&point.book).expect("a rule of points");
    let book = book.on_day(point.day);
    let mut run = point.saved.run(&book);
    let ending = run.run(schedule);
    let bytes = match ending {
        ending::CUT => {
            let saved = Saved::of(&run);
            Point {
                saved,
                ..Point::clone(point)
            }
            .slot()
        }
        _ => vec![0; SLOT_LEN],
    };
    slot_mut(points, slot).copy_from_slice(&bytes);
    Ok(run.answer(ending))
}

/// 16 if the buffer is too short; then 20 if a point in it breaks a rule.
pub fn check_points(points: &[u8]) -> Result<Vec<Slot>, u8> {
    let whole = points.get(..POINTS_LEN).ok_or(refusal::OUTPUT)?;
    let slots: Vec<Slot> = whole.chunks(SLOT_LEN).map(check).collect();
    let is_broken = |slot: &Slot| matches!(slot, Slot::Broken(_));
    match slots.iter().any(is_broken) || have_one_name(&slots) {
        true => Err(refusal::POINT),
        false => Ok(slots),
    }
}

/// Any bytes are a name if they are 1 to 16.
pub fn check_name(name: &[u8]) -> Result<(), u8> {
    match (1..=NAME_LIMIT).contains(&name.len()) {
        true => Ok(()),
        false => Err(refusal::POINT),
    }
}

pub fn name_of(slot: &Slot) -> Option<&[u8]> {
    match slot {
        Slot::Holds(point) => Some(&point.name),
        Slot::Free | Slot::Broken(_) => None,
    }
}

/// Do two points have one name?
pub fn have_one_name(slots: &[Slot]) -> bool {
    let mut names: Vec<&[u8]> = slots.iter().filter_map(name_of).collect();
    names.sort_unstable();
    names.windows(2).any(|pair| pair[0] == pair[1])
}

/// The slot of a name.
pub fn place_of(slots: &[Slot], name: &[u8]) -> Option<usize> {
    slots.iter().position(|slot| name_of(slot) == Some(name))
}

/// The slot of a name, or the lowest free one.
pub fn place_for(slots: &[Slot], name: &[u8]) -> Option<usize> {
    let free = || slots.iter().position(|slot| *slot == Slot::Free);
    place_of(slots, name).or_else(free)
}

pub fn slot_mut(points: &mut [u8], slot: usize) -> &mut [u8] {
    &mut points[slot * SLOT_LEN..][..SLOT_LEN]
}
