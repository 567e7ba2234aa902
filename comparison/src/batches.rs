//! Random batches of lines for a case's book, and what they try, so that the
//! comparison can tell.

use std::fmt::{self, Display, Formatter};

use crate::draft::{Batch, Case, Draft};
use crate::faults::{spoil_line, spoil_text};
use crate::grow::{line, near_line};
use crate::model::{self, Form};
use crate::random::Random;
use crate::records::{self, stop, Answered, LONGEST, LONGEST_LINE};
use crate::subject::Question;
use crate::texts;

// ---------------------------------------------------------------------------
// Random batches

/// Up to twelve lines, most of them sound.
pub fn batch(random: &mut Random, case: &Case) -> Batch {
    let draft = sound_draft(&case.draft);
    let count = random.from_ranges(&[(0, 2), (1, 4), (2, 6), (3, 12)]);
    let lines = (0..count).map(|_| any_line(random, case, &draft));
    let mut batch = Batch {
        lines: lines.collect(),
        cut: 0,
        room: LONGEST * (count + 1),
    };
    if random.one_in(3) {
        let length = batch.bytes().len();
        batch.cut = random.from_ranges(&[(1, 1), (1, 4), (1, length + 1)]);
    }
    batch.room = room(random, case, &batch);
    batch
}

/// Lines are grown by rules that are whole: without any, if some are not.
fn sound_draft(draft: &Draft) -> Draft {
    match model::read_book(&draft.encode()) {
        Ok(_) => draft.clone(),
        Err(_) => Draft::new(draft.operators.clone(), Vec::new()),
    }
}

/// The case's own line too, whose ending its budget or schedule is about.
fn any_line(random: &mut Random, case: &Case, draft: &Draft) -> Vec<u8> {
    let mut any = match (random.below(10), case.form) {
        (0, _) => Vec::new(),
        (1 | 2, _) => case.line.clone(),
        (_, Form::Text) => {
            let alphabet = texts::alphabet(random);
            texts::text(random, &alphabet, draft)
        }
        (3..=5, Form::Line) => near_line(random, draft),
        (_, Form::Line) => line(random, draft),
    };
    if random.one_in(5) {
        match case.form {
            Form::Line => spoil_line(random, &mut any, draft.operators.len()),
            Form::Text => spoil_text(random, &mut any),
        }
    }
    any.truncate(LONGEST_LINE);
    any
}

/// Mostly enough for all lines, or to the byte so much that one of them is the
/// last that is done, or the first that is not.
fn room(random: &mut Random, case: &Case, batch: &Batch) -> usize {
    match random.below(8) {
        0 => random.below(LONGEST + 1),
        1 => random.below(batch.room + 1),
        2 | 3 => {
            let written = written(random, case, batch);
            LONGEST + written - random.below(2)
        }
        _ => batch.room,
    }
}

/// The bytes of some of the first records.
fn written(random: &mut Random, case: &Case, batch: &Batch) -> usize {
    let (book, lines) = (case.book(), batch.bytes());
    let question = Question {
        line: &lines,
        ..Question::of(case, &book)
    };
    let records = records::answer_in_full(&question).map_or(Vec::new(), |all| all.records);
    let count = random.below(records.len() + 1);
    records[..count].concat().len()
}

// ---------------------------------------------------------------------------
// What they try

/// What is counted, each of a batch; only the last two are refused.
pub const KINDS: [&str; 10] = [
    "done to the end",
    "cut short",
    "without room for all",
    "with a refused line before a run",
    "with a schedule that names an absent unit",
    "by dated books",
    "of texts",
    "without lines",
    "refused by their frame",
    "refused by their book",
];

/// How often each kind was met.
#[derive(Clone, Debug, Default, PartialEq, Eq)]
pub struct Batches {
    pub batches: u64,
    /// Lines done.
    pub lines: u64,
    pub counts: [u64; KINDS.len()],
}

impl Batches {
    pub fn count(&mut self, question: &Question, due: &Result<Answered, u8>) {
        self.batches += 1;
        let kinds = match due {
            Ok(answered) => accepted_kinds(question, answered),
            Err(13 | 15) => vec![8],
            Err(_) => vec![9],
        };
        for kind in kinds {
            self.counts[kind] += 1;
        }
        self.lines += due.as_ref().map_or(0, |due| due.records.len() as u64);
    }
}

fn accepted_kinds(question: &Question, answered: &Answered) -> Vec<usize> {
    let ran = |record: &Vec<u8>| record[0] == 0;
    let records = &answered.records;
    let mut refused_first = records.iter().skip_while(|record| ran(record));
    let met = [
        answered.stop == stop::END && !records.is_empty(),
        answered.stop == stop::CUT,
        answered.stop == stop::ROOM,
        refused_first.any(ran),
        records.contains(&vec![model::refusal::SCHEDULE]),
        model::is_dated(question.book) && records.iter().any(ran),
        question.form == Form::Text && records.iter().any(ran),
        question.line.is_empty(),
    ];
    (0..met.len()).filter(|&kind| met[kind]).collect()
}

impl Display for Batches {
    fn fmt(&self, text: &mut Formatter) -> fmt::Result {
        writeln!(text, "batches: {}, lines {}", self.batches, self.lines)?;
        for (kind, count) in KINDS.iter().zip(self.counts) {
            writeln!(text, "batches {kind}: {count}")?;
        }
        Ok(())
    }
}
