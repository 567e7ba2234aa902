//! The model of the strict profile: a book is admitted if no term is matched by
//! two of its rules, so that their order is free.
//!
//! Whether two left sides have a common term is found by solving equations, and
//! the term that comes of it is put to the model's own matcher.

use crate::model::{self, refusal, Book, Pattern, Rule, Term};

/// Why a book is not admitted.
#[derive(Clone, Debug, PartialEq, Eq)]
pub struct NotStrict {
    /// The book's own, 24 or 25.
    pub number: u8,
    /// The first two rules that match one term, where the number is 25.
    pub overlap: Option<Overlap>,
}

/// Two rules, by their places in the book, and a term that both match.
#[derive(Clone, Debug, PartialEq, Eq)]
pub struct Overlap {
    pub first: usize,
    pub second: usize,
    pub term: Term,
}

impl NotStrict {
    fn new(number: u8) -> NotStrict {
        NotStrict {
            number,
            overlap: None,
        }
    }
}

/// The book's own numbers come first, then 24, then 25.
pub fn check(bytes: &[u8]) -> Result<(), NotStrict> {
    let book = model::read_book(bytes).map_err(NotStrict::new)?;
    if !is_decided(&book) {
        return Err(NotStrict::new(refusal::OUTSIDE_STRICT));
    }
    let first = overlaps(&book).next();
    match first {
        None => Ok(()),
        Some(overlap) => Err(NotStrict {
            number: refusal::OVERLAP,
            overlap: Some(overlap),
        }),
    }
}

/// An undated book that can form terms, whose left sides repeat no variable.
pub fn is_decided(book: &Book) -> bool {
    book.days.is_none() && first_constant(book).is_some() && !book.rules.iter().any(repeats)
}

pub fn first_constant(book: &Book) -> Option<u8> {
    let numbers = 0..=u8::MAX;
    let mut operators = numbers.zip(&book.operators);
    operators.find_map(|(number, operator)| (operator.arity == 0).then_some(number))
}

/// Does a variable stand twice in the left side?
pub fn repeats(rule: &Rule) -> bool {
    let mut met = Vec::new();
    variables(&rule.left, &mut met);
    let is_again = |place: usize| met[..place].contains(&met[place]);
    (0..met.len()).any(is_again)
}

fn variables(side: &Pattern, met: &mut Vec<u8>) {
    match side {
        Pattern::Variable(variable) => met.push(*variable),
        Pattern::Operator(_, sides) => sides.iter().for_each(|side| variables(side, met)),
    }
}

/// All pairs of rules that match one term: by the first rule, then by the
/// second. The book has a constant, and its left sides repeat no variable.
pub fn overlaps(book: &Book) -> impl Iterator<Item = Overlap> + '_ {
    let count = book.rules.len();
    let pairs =
        (0..count).flat_map(move |first| (first + 1..count).map(move |second| (first, second)));
    pairs.filter_map(|(first, second)| overlap(book, first, second))
}

/// Is there a term that both left sides match? They repeat no variable.
pub fn have_common(one: &Pattern, other: &Pattern) -> bool {
    solve(Part::first(one), Part::second(other)).is_some()
}

/// A term that both rules match, if there is one.
pub fn overlap(book: &Book, first: usize, second: usize) -> Option<Overlap> {
    let (one, other) = (&book.rules[first].left, &book.rules[second].left);
    let solution = solve(Part::first(one), Part::second(other))?;
    let constant = first_constant(book).expect("terms can be formed");
    let term = filled(Part::first(one), &solution, constant);
    for side in [one, other] {
        assert!(side.matches(&term, &mut [None; 16]), "{side:?} {term:?}");
    }
    Some(Overlap {
        first,
        second,
        term,
    })
}

/// A part of the first side or of the second, whose variables are others even
/// where their names are the same.
#[derive(Clone, Copy)]
struct Part<'s> {
    side: &'s Pattern,
    is_second: bool,
}

impl<'s> Part<'s> {
    fn first(side: &'s Pattern) -> Part<'s> {
        Part {
            side,
            is_second: false,
        }
    }

    fn second(side: &'s Pattern) -> Part<'s> {
        Part {
            side,
            is_second: true,
        }
    }

    fn inside(self, side: &'s Pattern) -> Part<'s> {
        Part { side, ..self }
    }

    /// The place of a variable of its side among those of both.
    fn place(self, variable: u8) -> usize {
        usize::from(variable) + if self.is_second { 16 } else { 0 }
    }
}

/// What the variables of both sides stand for.
type Solution<'s> = [Option<Part<'s>>; 32];

/// The most general way in which two sides become the same. No variable stands
/// twice in them, so none can become part of what it stands for.
fn solve<'s>(one: Part<'s>, other: Part<'s>) -> Option<Solution<'s>> {
    let mut solution: Solution = [None; 32];
    let mut equations = vec![(one, other)];
    while let Some((one, other)) = equations.pop() {
        let (place, part) = match (one.side, other.side) {
            (Pattern::Variable(variable), _) => (one.place(*variable), other),
            (_, Pattern::Variable(variable)) => (other.place(*variable), one),
            (Pattern::Operator(operator, sides), Pattern::Operator(same, others)) => {
                if operator != same {
                    return None;
                }
                let parts = sides.iter().zip(others);
                equations.extend(parts.map(|(side, with)| (one.inside(side), other.inside(with))));
                continue;
            }
        };
        match solution[place] {
            None => solution[place] = Some(part),
            Some(before) => equations.push((before, part)),
        }
    }
    Some(solution)
}

/// The part as a term; a constant stands for what nothing was said of.
fn filled(part: Part, solution: &Solution, constant: u8) -> Term {
    match part.side {
        Pattern::Variable(variable) => match solution[part.place(*variable)] {
            None => Term::new(constant, Vec::new()),
            Some(said) => filled(said, solution, constant),
        },
        Pattern::Operator(operator, sides) => {
            let parts = sides
                .iter()
                .map(|side| filled(part.inside(side), solution, constant));
            Term::new(*operator, parts.collect())
        }
    }
}
