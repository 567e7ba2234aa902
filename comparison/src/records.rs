//! The model of many lines by one book: which of them are done, why no more,
//! and the record that each gets. A line is answered as by itself.

use crate::model::{self, Answer, Lengths, OUTPUT_LEN, TERM_LIMIT};
use crate::subject::Question;

/// No record is longer.
pub const LONGEST: usize = 32 + TERM_LIMIT;

/// The longest line whose length two bytes can tell.
pub const LONGEST_LINE: usize = 65_535;

/// Why no more lines were done.
pub mod stop {
    pub const END: u8 = 0;
    /// The next line is cut short.
    pub const CUT: u8 = 1;
    /// The longest record would not fit.
    pub const ROOM: u8 = 2;
}

/// What is answered where neither frame nor book is refused.
#[derive(Clone, Debug, PartialEq, Eq)]
pub struct Answered {
    /// One for each line that is done.
    pub records: Vec<Vec<u8>>,
    /// The bytes of these lines.
    pub read: usize,
    pub stop: u8,
}

/// Lines one after another, each behind its length.
pub fn joined(lines: &[Vec<u8>]) -> Vec<u8> {
    let counted = lines.iter().map(|line| {
        let length = u16::try_from(line.len()).expect("at most LONGEST_LINE bytes");
        [&length.to_be_bytes(), &line[..]].concat()
    });
    counted.collect::<Vec<_>>().concat()
}

fn whole_lines(mut bytes: &[u8]) -> Vec<&[u8]> {
    let mut lines = Vec::new();
    while let Ok(line) = model::take_announced(&mut bytes) {
        lines.push(line);
    }
    lines
}

/// A refusal's number alone; or 0, the run's values and its term.
pub fn record(answer: &Result<Answer, u8>) -> Vec<u8> {
    match answer {
        Err(number) => vec![*number],
        Ok(answer) => [
            &[0, answer.ending],
            &(answer.rewrites as u32).to_be_bytes()[..],
            &answer.entries.to_be_bytes(),
            &answer.granted.to_be_bytes(),
            &answer.kept.to_be_bytes(),
            &(answer.term.len() as u16).to_be_bytes(),
            &answer.term,
        ]
        .concat(),
    }
}

/// The question's line are many; the output that is lent is for the records.
pub fn answer(question: &Question, lent: Lengths, asked: Lengths) -> Result<Answered, u8> {
    let mut alone = |line: &[u8]| record(&Question { line, ..*question }.answer_in_full());
    answer_by(question, lent, asked, &mut alone)
}

/// The same in buffers that are long enough.
pub fn answer_in_full(question: &Question) -> Result<Answered, u8> {
    let room = Lengths {
        output: usize::MAX,
        ..Lengths::LEAST
    };
    answer(question, room, Lengths::LEAST)
}

/// The same where each line gets this record.
pub fn answer_by(
    question: &Question,
    lent: Lengths,
    asked: Lengths,
    record: &mut dyn FnMut(&[u8]) -> Vec<u8>,
) -> Result<Answered, u8> {
    let areas = Lengths {
        output: OUTPUT_LEN,
        ..lent
    };
    model::check_frame(question.units, areas, asked)?;
    model::read_book(question.book)?;
    let lines = whole_lines(question.line);
    let mut left = lent.output;
    let mut records = Vec::new();
    for line in &lines {
        if left < LONGEST {
            break;
        }
        let record = record(line);
        left = left.saturating_sub(record.len());
        records.push(record);
    }
    let done = &lines[..records.len()];
    let read = done.iter().map(|line| 2 + line.len()).sum();
    let stop = match (done.len() < lines.len(), read < question.line.len()) {
        (true, _) => stop::ROOM,
        (false, true) => stop::CUT,
        (false, false) => stop::END,
    };
    Ok(Answered {
        records,
        read,
        stop,
    })
}
