//! What the strict profile met in books, so that the comparison can tell
//! whether its cases try it.

use std::fmt::{self, Display, Formatter};

use crate::model::{self, ending, refusal, Answer, Book, Form, Pattern};
use crate::nets::{path_of, Path};
use crate::strict::{have_common, overlaps, repeats, NotStrict, Overlap};
use crate::subject::Question;

/// What is counted, each of a book; from REARRANGED on of a strict book whose
/// rules were put in another order for a run.
pub const KINDS: [&str; 20] = [
    "that are admitted",
    "that are admitted with 200 rules or more",
    "that are admitted though left sides agree for 32 symbols",
    "with a fault of their own",
    "that are dated",
    "that are dated, with rules that overlap",
    "that repeat a variable",
    "that repeat a variable, with other rules that overlap",
    "without a constant",
    "without a constant, with left sides that agree",
    "with two equal left sides",
    "with a rule that matches all that a later one does",
    "with a rule that matches all that an earlier one does",
    "with two rules that match one term, each another besides",
    "with rules of 32 symbols or more that overlap",
    "whose last two rules alone overlap, of several",
    "rearranged, by which rewrites are made and the run finishes",
    "rearranged, by which a run ends spent, full or cut",
    "rearranged, of 100 rules or more, by which rewrites are made",
    "rearranged, by which a text is rewritten",
];

const REARRANGED: usize = 16;

/// How often each kind was met.
#[derive(Clone, Debug, Default, PartialEq, Eq)]
pub struct Profiles {
    pub books: u64,
    pub counts: [u64; KINDS.len()],
}

impl Profiles {
    /// Counts a book of which this is due.
    pub fn count(&mut self, bytes: &[u8], due: &Result<(), NotStrict>) {
        self.books += 1;
        let book = model::read_book(bytes);
        let met = match (&book, due) {
            (Err(_), _) => vec![(3, true)],
            (Ok(book), Ok(())) => of_admitted(book),
            (Ok(book), Err(fault)) if fault.number == refusal::OUTSIDE_STRICT => of_outside(book),
            (Ok(book), Err(fault)) => fault.overlap.as_ref().map_or(Vec::new(), |overlap| {
                [of_pair(book, overlap), of_place(book, overlap)].concat()
            }),
        };
        self.add(&met);
    }

    /// Counts a run by an admitted book that was rearranged.
    pub fn count_rearranged(&mut self, question: &Question, rules: usize, answer: &Answer) {
        let (rewritten, finished) = (answer.rewrites > 0, answer.ending == ending::FINISHED);
        self.add(&[
            (REARRANGED, rewritten && finished),
            (REARRANGED + 1, !finished),
            (REARRANGED + 2, rewritten && rules >= 100),
            (REARRANGED + 3, rewritten && question.form == Form::Text),
        ]);
    }

    fn add(&mut self, met: &[(usize, bool)]) {
        for (kind, met) in met {
            self.counts[*kind] += u64::from(*met);
        }
    }
}

fn of_admitted(book: &Book) -> Vec<(usize, bool)> {
    let mut paths: Vec<Path> = book.rules.iter().map(|rule| path(&rule.left)).collect();
    paths.sort_unstable();
    let agree = |pair: &[Path]| agreeing(&pair[0], &pair[1]) >= 32;
    vec![
        (0, true),
        (1, book.rules.len() >= 200),
        (2, paths.windows(2).any(agree)),
    ]
}

fn path(side: &Pattern) -> Path {
    let mut path = Path::new();
    path_of(side, &mut path);
    path
}

fn agreeing(one: &Path, other: &Path) -> usize {
    let keys = one.iter().zip(other);
    keys.take_while(|(one, other)| one == other).count()
}

/// A book may be outside the profile in several ways.
fn of_outside(book: &Book) -> Vec<(usize, bool)> {
    let once: Vec<&Pattern> = book
        .rules
        .iter()
        .filter(|rule| !repeats(rule))
        .map(|rule| &rule.left)
        .collect();
    let overlap = once.iter().enumerate().any(|(place, one)| {
        once[place + 1..]
            .iter()
            .any(|other| have_common(one, other))
    });
    let dated = book.days.is_some();
    let repeating = !dated && once.len() < book.rules.len();
    let formless = !dated && !repeating;
    vec![
        (4, dated),
        (5, dated && overlap),
        (6, repeating),
        (7, repeating && overlap),
        (8, formless),
        (9, formless && overlap),
    ]
}

fn of_pair(book: &Book, overlap: &Overlap) -> Vec<(usize, bool)> {
    let one = &book.rules[overlap.first].left;
    let other = &book.rules[overlap.second].left;
    let met = (covers(one, other), covers(other, one));
    vec![
        (10, met == (true, true)),
        (11, met == (true, false)),
        (12, met == (false, true)),
        (13, met == (false, false)),
        (14, one.size().min(other.size()) >= 32),
    ]
}

fn of_place(book: &Book, overlap: &Overlap) -> Vec<(usize, bool)> {
    let count = book.rules.len();
    let last = overlap.first + 2 == count;
    vec![(15, count > 2 && last && overlaps(book).count() == 1)]
}

/// Does one side match all that the other does? They repeat no variable.
fn covers(general: &Pattern, special: &Pattern) -> bool {
    match (general, special) {
        (Pattern::Variable(_), _) => true,
        (Pattern::Operator(..), Pattern::Variable(_)) => false,
        (Pattern::Operator(one, sides), Pattern::Operator(other, others)) => {
            let mut parts = sides.iter().zip(others);
            one == other && parts.all(|(side, other)| covers(side, other))
        }
    }
}

impl Display for Profiles {
    fn fmt(&self, text: &mut Formatter) -> fmt::Result {
        writeln!(text, "books for the strict profile: {}", self.books)?;
        for (kind, count) in KINDS.iter().zip(self.counts) {
            writeln!(text, "books {kind}: {count}")?;
        }
        Ok(())
    }
}
