//! Makes the cases of the program `book_cases` and what it is to print: the files `stdin` and `stdout` of a folder.
//!
//! A case is 2 bytes book length, 2 bytes output length, 2 bytes day and the book. The output is lent full of A5 and is printed whole, so that the
//! bytes that have to stay are seen. The reader's answer has the operators and the rules that stand on the day.

use std::path::Path;
use std::{env, fs, io};

use comparison::draft::{Draft, OperatorDraft, RuleDraft, Symbol};
use comparison::model;
use comparison::random::{self, Random};

const SEED: u64 = 1;
const RANDOM_CASES: usize = 60;
/// Longer books are passed over, so that the files stay small.
const LONGEST: usize = 200;
const FILLER: u8 = 0xA5;

struct Case {
    book: Vec<u8>,
    room: usize,
    day: u16,
}

fn main() -> io::Result<()> {
    let folder = env::args().nth(1).expect("usage: book_cases FOLDER");
    let folder = Path::new(&folder);
    let cases: Vec<Case> = picked_cases().into_iter().chain(random_cases()).collect();
    check_refusals(&cases);
    fs::write(
        folder.join("stdin"),
        cases.iter().flat_map(input).collect::<Vec<u8>>(),
    )?;
    fs::write(
        folder.join("stdout"),
        cases.iter().map(line).collect::<String>(),
    )
}

fn input(case: &Case) -> Vec<u8> {
    let mut bytes = Vec::new();
    for number in [case.book.len(), case.room] {
        bytes.extend(
            u16::try_from(number)
                .expect("cases are small")
                .to_be_bytes(),
        );
    }
    bytes.extend(case.day.to_be_bytes());
    bytes.extend(&case.book);
    bytes
}

fn line(case: &Case) -> String {
    format!("{} {}\n", read(case), written(case))
}

fn read(case: &Case) -> String {
    match model::read_book(&case.book) {
        Ok(book) => {
            let standing = book.on_day(case.day).rules.len();
            format!("read {} {standing}", book.operators.len())
        }
        Err(number) => format!("refused {number}"),
    }
}

fn written(case: &Case) -> String {
    let mut output = vec![FILLER; case.room];
    let answer = match model::written(&case.book, case.room) {
        Ok(bytes) => {
            output[..bytes.len()].copy_from_slice(&bytes);
            format!("written {}", bytes.len())
        }
        Err(number) => format!("refused {number}"),
    };
    let text: String = output.iter().map(|byte| format!("{byte:02x}")).collect();
    format!("{answer} {text}")
}

/// Every refusal of a reader or a writer of books is due somewhere.
fn check_refusals(cases: &[Case]) {
    for number in model::refusal::OF_BOOKS
        .into_iter()
        .chain([model::refusal::OUTPUT])
    {
        let is_due = |case: &Case| model::written(&case.book, case.room) == Err(number);
        assert!(cases.iter().any(is_due), "no case is refused by {number}");
    }
    assert!(cases.len() >= 40);
}

// ---------------------------------------------------------------------------
// Cases picked by hand

fn picked_cases() -> Vec<Case> {
    let undated = picked_books();
    let undated = undated.iter().flat_map(|book| cases_of(book, 0));
    let dated = dated_books();
    let dated = dated.iter().flat_map(|(book, day)| cases_of(book, *day));
    undated.chain(dated).collect()
}

/// A sound book with an output one byte short, one that fits, and one with room to spare.
fn cases_of(book: &[u8], day: u16) -> Vec<Case> {
    let rooms = match model::written(book, usize::MAX) {
        Ok(bytes) => vec![bytes.len() - 1, bytes.len(), bytes.len() + 3],
        Err(_) => vec![3],
    };
    let case = |room| Case {
        book: book.to_vec(),
        room,
        day,
    };
    rooms.into_iter().map(case).collect()
}

fn picked_books() -> Vec<Vec<u8>> {
    let p = book_p();
    vec![
        vec![0x01, 0x00, 0x00],
        vec![0x02, 0x03, 0x10, 0x80, 0x00],
        vec![0x00],
        Vec::new(),
        p.clone(),
        p[..p.len() - 1].to_vec(),
        [&p[..], &[0]].concat(),
        padded_with_one(p),
        with_sides(64, 64),
        with_sides(65, 64),
        with_sides(64, 65),
        // 8 is told before 1.
        cut_after_64(),
        one_strategy(2, &[1, 0, 1, 0]),
        one_strategy(2, &[8, 1, 1, 9, 8, 9, 2, 0]),
        one_strategy(0, &[]),
        one_strategy(0, &[0; 31]),
        one_strategy(7, &[8, 7, 6, 5, 9, 8, 4, 3, 2, 1, 9, 0]),
        one_strategy(3, &[1, 2, 3, 0]),
        one_strategy(3, &[4, 0]),
        one_strategy(3, &[10, 0]),
        one_strategy(3, &[8, 8, 1, 9, 9, 0]),
        one_strategy(3, &[9, 0]),
        one_strategy(3, &[8, 0, 9, 0]),
        one_strategy(3, &[0, 1]),
        one_rule(vec![Symbol::Operator(3)], vec![Symbol::Operator(0)]),
        one_rule(vec![Symbol::Variable(0)], vec![Symbol::Operator(0)]),
        // A variable twice on the left, and a fault behind that.
        one_rule(
            both(Symbol::Variable(4), Symbol::Variable(4)),
            vec![Symbol::Operator(0)],
        ),
        one_rule(
            both(Symbol::Variable(4), Symbol::Variable(4)),
            vec![Symbol::Variable(5)],
        ),
        one_rule(
            both(Symbol::Variable(4), Symbol::Variable(15)),
            vec![Symbol::Variable(5)],
        ),
    ]
}

/// Dated books, each with a day on which its rules are counted.
fn dated_books() -> Vec<(Vec<u8>, u16)> {
    let (x, y) = (Symbol::Variable(0), Symbol::Variable(15));
    let rule = |left, day| RuleDraft::new(left, vec![Symbol::Operator(0)]).on(day);
    let rules = vec![
        rule(both(x, y), 5),
        rule(both(y, x), 7),
        rule(both(x, x), 7),
        rule(both(x, y), 7),
        rule(both(y, y), 0xFFFF),
    ];
    let mut draft = Draft::new(operators_p(), rules).dated();
    let whole = draft.encode();
    let cut = whole[..whole.len() - 1].to_vec();
    let longer = [&whole[..], &[0]].concat();
    let days = [4, 5, 6, 7, 0xFFFE, 0xFFFF];
    let mut books: Vec<(Vec<u8>, u16)> = days.map(|day| (whole.clone(), day)).to_vec();
    draft.operators[2].strategy = Some(vec![8, 1, 1, 2, 9, 0, 0]);
    books.extend([(draft.encode(), 7), (cut, 7), (longer, 7)]);
    books.extend([vec![0, 0], vec![0, 1, 0, 0], vec![0, 1, 0]].map(|book| (book, 1)));
    books
}

fn operator(arity: u8, strategy: Option<&[u8]>) -> OperatorDraft {
    OperatorDraft {
        arity,
        strategy: strategy.map(<[u8]>::to_vec),
    }
}

/// `end`, `tick` and `both`, whose arguments are reduced side by side.
fn operators_p() -> Vec<OperatorDraft> {
    vec![
        operator(0, None),
        operator(1, None),
        operator(2, Some(&[8, 1, 2, 9, 0])),
    ]
}

fn both(left: Symbol, right: Symbol) -> Vec<Symbol> {
    vec![Symbol::Operator(2), left, right]
}

fn book_p() -> Vec<u8> {
    let (end, tick, both) = (
        Symbol::Operator(0),
        Symbol::Operator(1),
        Symbol::Operator(2),
    );
    let (x, y) = (Symbol::Variable(0), Symbol::Variable(1));
    let rules = vec![
        RuleDraft::new(vec![both, end, y], vec![y]),
        RuleDraft::new(vec![both, tick, x, y], vec![tick, both, x, y]),
    ];
    Draft::new(operators_p(), rules).encode()
}

/// The last bit of P's last byte is padding.
fn padded_with_one(mut book: Vec<u8>) -> Vec<u8> {
    *book.last_mut().expect("a book has bytes") |= 1;
    book
}

fn one_strategy(arity: u8, items: &[u8]) -> Vec<u8> {
    Draft::new(vec![operator(arity, Some(items))], Vec::new()).encode()
}

fn one_rule(left: Vec<Symbol>, right: Vec<Symbol>) -> Vec<u8> {
    Draft::new(operators_p(), vec![RuleDraft::new(left, right)]).encode()
}

/// A side of so many symbols, all but the last of them `tick`.
fn ticks(count: usize) -> Vec<Symbol> {
    let mut side = vec![Symbol::Operator(1); count - 1];
    side.push(Symbol::Operator(0));
    side
}

fn with_sides(left: usize, right: usize) -> Vec<u8> {
    one_rule(ticks(left), ticks(right))
}

/// The book ends in the byte that holds the last bit of a left side's 64th symbol, where the side is still incomplete.
fn cut_after_64() -> Vec<u8> {
    let operators = 4 + 4 + (4 + 5 + 5 * 4);
    let bits = 8 + operators + 8 + 64 * 9;
    let mut book = with_sides(65, 1);
    book.truncate(usize::div_ceil(bits, 8));
    book
}

// ---------------------------------------------------------------------------
// Random cases, damaged ones among them

fn random_cases() -> Vec<Case> {
    (0..)
        .map(|number| random::case(&mut Random::for_case(SEED, number)))
        .filter(|case| case.book().len() <= LONGEST)
        .map(|case| {
            let book = case.book();
            let length = model::written(&book, usize::MAX).map_or(8, |bytes| bytes.len());
            Case {
                book,
                room: length.saturating_add_signed(case.writer_offset),
                day: case.day,
            }
        })
        .take(RANDOM_CASES)
        .collect()
}
