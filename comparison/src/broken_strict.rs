//! Slips in the strict profile.

use crate::broken::Slip;
use crate::model::{self, refusal, Book, Pattern};
use crate::strict::{self, repeats};
use crate::subject::Profile;

/// What the model says of a book with this slip.
pub fn profile(slip: Slip, bytes: &[u8]) -> Profile {
    let Ok(mut book) = model::read_book(bytes) else {
        return Profile::of(&strict::check(bytes));
    };
    if slip == Slip::AnyDay {
        book.days = None;
    }
    let outside = is_outside(slip, &book);
    let overlap = overlap(slip, &book);
    match (outside, overlap) {
        (true, Some(pair)) if slip == Slip::OverlapFirst => overlapping(pair),
        (true, _) => Profile {
            refusal: refusal::OUTSIDE_STRICT,
            pair: [0; 2],
        },
        (false, Some(pair)) => overlapping(pair),
        (false, None) if slip == Slip::Stale => Profile {
            refusal: 0,
            pair: [book.rules.len() as u64; 2],
        },
        (false, None) => Profile::default(),
    }
}

fn overlapping((first, second): (usize, usize)) -> Profile {
    Profile {
        refusal: refusal::OVERLAP,
        pair: [first as u64, second as u64],
    }
}

fn is_outside(slip: Slip, book: &Book) -> bool {
    let repeats = book.rules.iter().any(repeats) && slip != Slip::Repeating;
    let formless = strict::first_constant(book).is_none() && slip != Slip::Formless;
    book.days.is_some() || repeats || formless
}

fn overlap(slip: Slip, book: &Book) -> Option<(usize, usize)> {
    let count = book.rules.len();
    let pairs = (0..count).flat_map(|first| (first + 1..count).map(move |second| (first, second)));
    let is_tried = |(first, second): &(usize, usize)| match slip {
        Slip::LastPair => *first + 2 < count,
        Slip::Neighbours => first + 1 == *second,
        _ => true,
    };
    let common = |(first, second): &(usize, usize)| {
        let [one, other] = [first, second].map(|&place| &book.rules[place].left);
        is_common(slip, one, other)
    };
    let mut found = pairs.filter(is_tried).filter(common);
    match slip {
        Slip::LatestPair => found.next_back(),
        _ => found.next(),
    }
}

fn is_common(slip: Slip, one: &Pattern, other: &Pattern) -> bool {
    match slip {
        Slip::Roots => root(one) == root(other),
        Slip::SameLeft => one != other && agree(slip, one, other),
        _ => agree(slip, one, other),
    }
}

fn root(side: &Pattern) -> Option<u8> {
    match side {
        Pattern::Operator(operator, _) => Some(*operator),
        Pattern::Variable(_) => None,
    }
}

/// Side by side, whatever variables are repeated.
fn agree(slip: Slip, one: &Pattern, other: &Pattern) -> bool {
    match (one, other) {
        (Pattern::Variable(_), _) => true,
        (Pattern::Operator(..), Pattern::Variable(_)) => slip != Slip::OneSided,
        (Pattern::Operator(one, sides), Pattern::Operator(other, others)) => {
            let mut parts = sides.iter().zip(others);
            one == other && parts.all(|(side, other)| agree(slip, side, other))
        }
    }
}
