//! What the days of a book meant for a run, so that the comparison can tell
//! whether its cases try them.

use std::fmt::{self, Display, Formatter};

use crate::model::{self, Answer, Book, Rule};
use crate::subject::Question;

/// What is counted, each of a rule in a dated book whose run is not refused;
/// the last of a run.
pub const KINDS: [&str; 8] = [
    "of a later day",
    "of the run's own day, standing",
    "replaced by a later day",
    "replaced within a day",
    "replaced under other names",
    "replaced by one before it in the book",
    "beside one that differs in repeated variables only",
    "whose day changes the answer",
];

const BESIDE: usize = 6;
const CHANGED: usize = 7;

/// How often each kind was met.
#[derive(Clone, Debug, Default, PartialEq, Eq)]
pub struct Days {
    /// Runs by dated books.
    pub runs: u64,
    pub counts: [u64; KINDS.len()],
}

impl Days {
    /// Counts the rules of a run's book, if it is dated.
    pub fn count(&mut self, question: &Question, answer: &Answer) {
        let Ok(book) = model::read_book(question.book) else {
            return;
        };
        let Some(days) = &book.days else {
            return;
        };
        self.runs += 1;
        for place in 0..book.rules.len() {
            self.look(&book, days, place, question.day);
        }
        let undated = Book {
            days: None,
            ..book.clone()
        };
        let undated = model::write_book(&undated);
        let otherwise = Question {
            book: &undated,
            ..*question
        };
        let otherwise = otherwise.answer_in_full();
        self.counts[CHANGED] += u64::from(otherwise.as_ref() != Ok(answer));
    }

    fn look(&mut self, book: &Book, days: &[u16], place: usize, day: u16) {
        if days[place] > day {
            self.counts[0] += 1;
            return;
        }
        let left = &book.rules[place].left;
        let present = (0..days.len()).filter(|&other| days[other] <= day && other != place);
        let present: Vec<usize> = present.collect();
        let agreeing = present.iter().copied();
        let agreeing = agreeing.filter(|&other| book.rules[other].left.agrees(left));
        let later = agreeing.filter(|&other| (days[other], other) > (days[place], place));
        match later.max_by_key(|&other| (days[other], other)) {
            None => self.counts[1] += u64::from(days[place] == day),
            Some(other) => {
                self.counts[if days[other] > days[place] { 2 } else { 3 }] += 1;
                self.counts[4] += u64::from(book.rules[other].left != *left);
                self.counts[5] += u64::from(other < place);
            }
        }
        let rule = &book.rules[place];
        let beside = |&other: &usize| differ_in_repeats(rule, &book.rules[other]);
        self.counts[BESIDE] += u64::from(present.iter().any(beside));
    }
}

/// Do the left sides agree where each variable is as good as any other, and
/// only there?
fn differ_in_repeats(one: &Rule, other: &Rule) -> bool {
    one.left.unnamed() == other.left.unnamed() && !one.left.agrees(&other.left)
}

impl Display for Days {
    fn fmt(&self, text: &mut Formatter) -> fmt::Result {
        writeln!(text, "runs by dated books: {}", self.runs)?;
        let (rules, run) = KINDS.split_at(CHANGED);
        for (kind, count) in rules.iter().zip(self.counts) {
            writeln!(text, "rules {kind}: {count}")?;
        }
        writeln!(text, "runs {}: {}", run[0], self.counts[CHANGED])
    }
}
