//! Slips in how many lines are answered by one book.

use crate::broken::Slip;
use crate::model::Lengths;
use crate::records::{self, stop, Answered};
use crate::subject::{Lent, Question, MODEL_PUBLISHED};

/// What the model answers with this slip.
pub fn answered(slip: Slip, question: &Question, lent: Lengths) -> Result<Answered, u8> {
    let lent = match slip {
        Slip::Tight => Lengths {
            output: lent.output.saturating_add(1),
            ..lent
        },
        _ => lent,
    };
    let mut asked = *question;
    let mut record = |line: &[u8]| broken_record(slip, &mut asked, line);
    let mut answered = records::answer_by(question, lent, MODEL_PUBLISHED, &mut record)?;
    match slip {
        Slip::Whole if answered.stop == stop::CUT => answered.stop = stop::END,
        Slip::Halt => halt(&mut answered.records),
        _ => {}
    }
    Ok(answered)
}

/// What one line leaves of budget and schedule is all that the next is asked
/// with, by some slips.
fn broken_record(slip: Slip, asked: &mut Question, line: &[u8]) -> Vec<u8> {
    let answer = Question { line, ..*asked }.answer_in_full();
    let mut record = records::record(&answer);
    if let Ok(answer) = answer {
        match slip {
            Slip::Purse => asked.budget -= answer.rewrites as u32,
            Slip::Onwards => asked.schedule = &asked.schedule[answer.entries as usize..],
            Slip::Reversed => record[2..6].reverse(),
            _ => {}
        }
    }
    record
}

/// No line behind the first that is refused.
fn halt(records: &mut Vec<Vec<u8>>) {
    let refused = records.iter().position(|record| record[0] != 0);
    records.truncate(refused.map_or(records.len(), |place| place + 1));
}

/// The last byte of the net's area is not left zero.
pub fn slip_in_buffers(slip: Slip, lent: &mut Lent) {
    if let (Slip::Rest, Some(byte)) = (slip, lent.net.last_mut()) {
        *byte = 1;
    }
}
