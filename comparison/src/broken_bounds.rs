//! Slips in how long a schedule suffices.

use crate::bounds::{self, Bound, Told, ENTRIES};
use crate::broken::Slip;
use crate::broken_marks;
use crate::model::{self, ending, Lengths, Machine};
use crate::subject::{Question, MODEL_PUBLISHED};

/// What the model says with this slip.
pub fn told(slip: Slip, question: &Question, lent: Lengths) -> Told {
    if slip == Slip::Crew {
        model::check_frame(question.units, lent, MODEL_PUBLISHED)?;
    }
    let asked = Question {
        budget: match slip {
            Slip::Unpaid => u32::MAX,
            _ => question.budget,
        },
        ..*question
    };
    let told = bounds::answer(&asked, lent, MODEL_PUBLISHED)?;
    Ok(match (slip, told) {
        (Slip::Unended, Ok(bound)) => Ok(Bound {
            orders: bound.orders - 1,
            ..bound
        }),
        (Slip::Granted, Ok(bound)) => Ok(Bound { forks: 0, ..bound }),
        (Slip::Filled, Err(ending::FULL)) => Ok(run(slip, question)?),
        (Slip::Unmarked, Ok(_)) => Ok(run(slip, question)?),
        (_, told) => told,
    })
}

/// What one unit carries out and forks, whatever its ending; with the slip, each
/// part is walked again whether it is marked or not.
fn run(slip: Slip, question: &Question) -> Result<Bound, u8> {
    let book = model::read_book(question.book)?.on_day(question.day);
    let term = question.form.read(&book, question.line)?;
    let mut machine = Machine::new(&book, term, 1, question.budget);
    let by = match slip {
        Slip::Unmarked => Slip::Again,
        other => other,
    };
    let mut endings = (0..ENTRIES).map(|_| broken_marks::entry(by, &mut machine, 0, &[]));
    let _ = endings.find_map(|ending| ending);
    Ok(Bound {
        orders: machine.entries,
        forks: machine.granted + machine.kept,
    })
}
