//! Books and short ways to ask the model, shared by the tests.

#![allow(dead_code)]

use comparison::draft::{Draft, OperatorDraft, RuleDraft, Symbol};
use comparison::model::{answer, Answer, Lengths};

pub const X: Symbol = Symbol::Variable(0);
pub const Y: Symbol = Symbol::Variable(1);

pub fn op(number: u8) -> Symbol {
    Symbol::Operator(number)
}

pub fn operator(arity: u8) -> OperatorDraft {
    OperatorDraft {
        arity,
        strategy: None,
    }
}

pub fn with_strategy(arity: u8, items: &[u8]) -> OperatorDraft {
    OperatorDraft {
        arity,
        strategy: Some(items.to_vec()),
    }
}

pub fn rule(left: &[Symbol], right: &[Symbol]) -> RuleDraft {
    RuleDraft::new(left.to_vec(), right.to_vec())
}

/// Book P of the document: `end`, `tick` and `both`.
pub fn book_p() -> Draft {
    let (end, tick, both) = (op(0), op(1), op(2));
    Draft::new(
        vec![operator(0), operator(1), with_strategy(2, &[8, 1, 2, 9, 0])],
        vec![
            rule(&[both, end, Y], &[Y]),
            rule(&[both, tick, X, Y], &[tick, both, X, Y]),
        ],
    )
}

/// The line of the document's page.
pub const LINE_P: [u8; 5] = [2, 1, 0, 1, 0];

pub fn ask(
    draft: &Draft,
    line: &[u8],
    units: u8,
    budget: u32,
    schedule: &[u8],
) -> Result<Answer, u8> {
    ask_bytes(&draft.encode(), line, units, budget, schedule)
}

pub fn ask_bytes(
    book: &[u8],
    line: &[u8],
    units: u8,
    budget: u32,
    schedule: &[u8],
) -> Result<Answer, u8> {
    let lengths = Lengths::LEAST;
    answer(book, line, units, budget, 0, schedule, lengths, lengths)
}

/// The program's input.
pub fn input(book: &[u8], line: &[u8], units: u8, budget: u32, schedule: &[u8]) -> Vec<u8> {
    [
        &(book.len() as u16).to_be_bytes()[..],
        book,
        &(line.len() as u16).to_be_bytes()[..],
        line,
        &[units],
        &budget.to_be_bytes()[..],
        schedule,
    ]
    .concat()
}
