//! Makes the cases of the program `rule_cases` and what it is to print: the files `stdin` and `stdout` of a folder.
//!
//! A case is 2 bytes book length, 2 bytes line length, 2 bytes offset, the book and the line. It asks for the rewrite, by the first rule that
//! matches, of the line's part at the offset. All books are undated: which rules stand on a day is no matter of a rewrite.

use std::path::Path;
use std::{env, fs, io};

use comparison::draft::{Draft, OperatorDraft, RuleDraft, Symbol};
use comparison::model::{self, Book, Pattern, Term, TERM_LIMIT};
use comparison::random::{self, Random};

const SEED: u64 = 2;
const RANDOM_CASES: usize = 60;
/// Longer books and lines are passed over, so that the files stay small.
const LONGEST: usize = 300;

#[derive(Clone)]
struct Case {
    book: Vec<u8>,
    line: Vec<u8>,
    offset: usize,
}

fn main() -> io::Result<()> {
    let folder = env::args().nth(1).expect("usage: rule_cases FOLDER");
    let folder = Path::new(&folder);
    let cases: Vec<Case> = picked_cases().into_iter().chain(random_cases()).collect();
    let lines: Vec<String> = cases.iter().map(line).collect();
    for answer in ["none", "over", "1024 full", "outside", "refused", " 00"] {
        assert!(
            lines.iter().any(|line| line.contains(answer)),
            "no case answers {answer}"
        );
    }
    fs::write(
        folder.join("stdin"),
        cases.iter().flat_map(input).collect::<Vec<u8>>(),
    )?;
    fs::write(folder.join("stdout"), lines.concat())
}

fn input(case: &Case) -> Vec<u8> {
    let mut bytes = Vec::new();
    for number in [case.book.len(), case.line.len(), case.offset] {
        bytes.extend(
            u16::try_from(number)
                .expect("cases are small")
                .to_be_bytes(),
        );
    }
    bytes.extend(&case.book);
    bytes.extend(&case.line);
    bytes
}

fn line(case: &Case) -> String {
    let answer = match read(case) {
        Err(number) => format!("refused {number}"),
        Ok(_) if case.offset > case.line.len() => String::from("outside"),
        Ok((book, term)) => rewritten(&book, &term, case.offset),
    };
    format!("{answer}\n")
}

fn read(case: &Case) -> Result<(Book, Term), u8> {
    let book = model::read_book(&case.book)?;
    let term = model::read_line(&book, &case.line)?;
    Ok((book, term))
}

fn rewritten(book: &Book, term: &Term, offset: usize) -> String {
    let Some(part) = part_at(term, offset) else {
        return String::from("none");
    };
    let Some((rule, filling)) = book.first_match(part) else {
        return String::from("none");
    };
    let number = rule.place;
    let end = offset + part.size();
    let size = rule.right.filled_size(&filling);
    let told = if size > TERM_LIMIT {
        String::from("over")
    } else {
        size.to_string()
    };
    let found = format!("rule {number} end {end} size {told}");
    if term.size() - part.size() + size > TERM_LIMIT {
        return format!("{found} full");
    }
    let filled = filled(&rule.right, &filling);
    let symbols = term.preorder();
    let new_term = [&symbols[..offset], &filled[..], &symbols[end..]].concat();
    format!(
        "{found} {} {}",
        hexadecimal(&filled),
        hexadecimal(&new_term)
    )
}

/// The part that starts at an offset of the preorder.
fn part_at(term: &Term, offset: usize) -> Option<&Term> {
    if offset == 0 {
        return Some(term);
    }
    let mut before = 1;
    for argument in &term.arguments {
        if offset < before + argument.size() {
            return part_at(argument, offset - before);
        }
        before += argument.size();
    }
    None
}

fn filled(side: &Pattern, filling: &model::Filling) -> Vec<u8> {
    match side {
        Pattern::Variable(variable) => filling[usize::from(*variable)]
            .expect("a right variable stands on the left")
            .preorder(),
        Pattern::Operator(operator, arguments) => {
            let parts = arguments
                .iter()
                .flat_map(|argument| filled(argument, filling));
            [*operator].into_iter().chain(parts).collect()
        }
    }
}

fn hexadecimal(bytes: &[u8]) -> String {
    bytes.iter().map(|byte| format!("{byte:02x}")).collect()
}

// ---------------------------------------------------------------------------
// Cases picked by hand

fn picked_cases() -> Vec<Case> {
    let p = book_p();
    let copying = copying_book();
    let case = |book: &[u8], line: &[u8], offset| Case {
        book: book.to_vec(),
        line: line.to_vec(),
        offset,
    };
    vec![
        // P: both rules, inside and at the root, and terms that no rule matches.
        case(&p, &[2, 0, 1, 0], 0),
        case(&p, &[2, 1, 0, 1, 0], 0),
        case(&p, &[2, 1, 2, 0, 0, 1, 0], 2),
        case(&p, &[2, 2, 1, 0, 0, 0], 1),
        case(&p, &[2, 1, 0, 1, 0], 1),
        case(&p, &[2, 1, 0, 1, 0], 5),
        case(&p, &[2, 1, 0, 1, 0], 6),
        // Refused before anything is matched.
        case(&[0], &[0], 0),
        case(&p, &[], 0),
        case(&p, &[2, 0], 0),
        case(&p, &[3], 0),
        case(&p, &[0; TERM_LIMIT + 1], 0),
        // A variable copied three times: to the limit, and one symbol past it.
        case(&copying, &ticks(4, &[]), 0),
        case(&copying, &ticks(341, &[]), 0),
        case(&copying, &ticks(342, &[]), 0),
        case(&copying, &ticks(341, &[2]), 1),
        // A term of 1,024 symbols that shrinks at its end.
        case(
            &p,
            &[&[1; TERM_LIMIT - 4][..], &[2, 0, 1, 0]].concat(),
            TERM_LIMIT - 4,
        ),
    ]
    .into_iter()
    .chain(repeated_cases())
    .chain(net_cases())
    .collect()
}

/// Left sides in which a variable stands again, on parts that are equal or
/// nearly so.
fn repeated_cases() -> Vec<Case> {
    let book = matching_book();
    let case = |line: &[u8], offset| Case {
        book: book.clone(),
        line: line.to_vec(),
        offset,
    };
    // A pair of two chains of so many symbols that end in these.
    let chains = |one: (usize, u8), other: (usize, u8)| {
        let chain = |(length, last): (usize, u8)| [vec![2; length - 1], vec![last]].concat();
        [vec![3], chain(one), chain(other)].concat()
    };
    vec![
        case(&[3, 0, 0], 0),
        case(&[3, 0, 1], 0),
        case(&[2, 3, 2, 1, 2, 1], 1),
        case(&[3, 3, 2, 1, 0, 3, 2, 1, 0], 0),
        // They differ in the last symbol, in the first, in between, in length.
        case(&[3, 3, 2, 1, 0, 3, 2, 1, 1], 0),
        case(&[3, 2, 1, 5, 1], 0),
        case(&[3, 3, 2, 1, 0, 3, 2, 0, 0], 0),
        case(&[3, 2, 0, 2, 2, 0], 0),
        case(&[3, 2, 0, 0], 0),
        // The same symbols in another shape.
        case(&[3, 3, 2, 1, 0, 3, 1, 2, 0], 0),
        // Three times; the second rule takes what the first leaves.
        case(&[4, 2, 0, 2, 0, 2, 0], 0),
        case(&[4, 2, 0, 2, 0, 2, 1], 0),
        case(&[4, 2, 1, 2, 0, 2, 0], 0),
        case(&[4, 2, 0, 2, 1, 2, 0], 0),
        // Crossed, and a part inside the other.
        case(&[5, 3, 0, 1], 0),
        case(&[5, 3, 1, 1], 0),
        case(&[3, 3, 0, 1, 3, 1, 0], 0),
        // The longest parts there are.
        case(&chains((511, 0), (512, 0)), 0),
        case(&chains((511, 0), (511, 0)), 0),
        case(&chains((511, 0), (511, 1)), 0),
    ]
}

/// Operators 0 a, 1 b, 2 f/1, 3 pair/2, 4 triple/3, 5 g/1.
fn matching_book() -> Vec<u8> {
    let symbol = Symbol::Operator;
    let (x, y) = (Symbol::Variable(3), Symbol::Variable(15));
    let rule = |left: &[Symbol], right: &[Symbol]| RuleDraft::new(left.to_vec(), right.to_vec());
    Draft::new(
        [0, 0, 1, 2, 3, 1].map(operator).to_vec(),
        vec![
            rule(&[symbol(4), x, x, x], &[symbol(3), x, x]),
            rule(&[symbol(4), x, y, x], &[symbol(3), y, x]),
            rule(&[symbol(3), x, x], &[symbol(2), x]),
            rule(&[symbol(3), symbol(3), x, y, symbol(3), y, x], &[y]),
            rule(&[symbol(5), symbol(3), x, x], &[x]),
        ],
    )
    .encode()
}

/// What a net over the left sides has to tell apart: a later rule on the way to an earlier one, ways by a variable to go back to, rules of one path.
fn net_cases() -> Vec<Case> {
    let book = net_book();
    let lines: [&[u8]; 14] = [
        &[5, 0, 1],
        &[5, 0, 0],
        &[5, 1, 1],
        &[5, 1, 0],
        &[6, 3, 0, 1, 2],
        &[6, 3, 0, 3, 1, 2],
        &[6, 3, 0, 3, 1, 1],
        &[6, 3, 2, 3, 1, 1],
        &[6, 0, 4, 4, 1, 0],
        &[7, 1, 1, 1],
        &[7, 1, 1, 2],
        &[7, 2, 1, 1],
        &[7, 2, 1, 2],
        &[7, 2, 1, 0],
    ];
    let case = |line: &[u8]| Case {
        book: book.clone(),
        line: line.to_vec(),
        offset: 0,
    };
    lines.map(case).to_vec()
}

/// Constants 0 to 2, 3 and 4 of one argument, 5 of two, 6 and 7 of three.
fn net_book() -> Vec<u8> {
    let symbol = Symbol::Operator;
    let (x, y, z) = (
        Symbol::Variable(0),
        Symbol::Variable(1),
        Symbol::Variable(2),
    );
    let arities = [0, 0, 0, 1, 1, 2, 3, 3];
    // Every rule gives a chain of its own length.
    let mut rules = Vec::new();
    let mut add = |left: &[Symbol]| {
        let right = [vec![symbol(3); rules.len()], vec![symbol(2)]].concat();
        rules.push(RuleDraft::new(left.to_vec(), right));
    };
    add(&[symbol(5), x, symbol(1)]);
    add(&[symbol(5), symbol(0), y]);
    add(&[symbol(5), symbol(0), symbol(1)]);
    add(&[symbol(6), symbol(3), symbol(0), x, symbol(2)]);
    add(&[symbol(6), x, symbol(3), y, symbol(2)]);
    add(&[symbol(6), symbol(3), x, symbol(3), y, z]);
    add(&[symbol(6), x, symbol(4), symbol(4), y, z]);
    add(&[symbol(7), x, y, x]);
    add(&[symbol(7), x, x, y]);
    add(&[symbol(7), y, x, x]);
    add(&[symbol(7), x, y, x]);
    Draft::new(arities.map(operator).to_vec(), rules).encode()
}

fn operator(arity: u8) -> OperatorDraft {
    OperatorDraft {
        arity,
        strategy: None,
    }
}

fn book_p() -> Vec<u8> {
    let (end, tick, both) = (
        Symbol::Operator(0),
        Symbol::Operator(1),
        Symbol::Operator(2),
    );
    let (x, y) = (Symbol::Variable(0), Symbol::Variable(1));
    let rules = vec![
        RuleDraft::new(vec![both, end, y], vec![y]),
        RuleDraft::new(vec![both, tick, x, y], vec![tick, both, x, y]),
    ];
    Draft::new(vec![operator(0), operator(1), operator(2)], rules).encode()
}

/// tick(X) gives three(X, X, X), and a second rule for tick that never acts.
fn copying_book() -> Vec<u8> {
    let (tick, three) = (Symbol::Operator(1), Symbol::Operator(3));
    let x = Symbol::Variable(9);
    let rules = vec![
        RuleDraft::new(vec![tick, x], vec![three, x, x, x]),
        RuleDraft::new(vec![tick, x], vec![x]),
    ];
    Draft::new(
        vec![operator(0), operator(1), operator(1), operator(3)],
        rules,
    )
    .encode()
}

/// The symbols before, then so many `tick`s and an `end`.
fn ticks(count: usize, before: &[u8]) -> Vec<u8> {
    let mut line = before.to_vec();
    line.extend(vec![1; count]);
    line.push(0);
    line
}

// ---------------------------------------------------------------------------
// Random cases

/// Of each line an offset where a rule matches, if one of 20 tries finds it, so that most cases have a rewrite.
fn random_cases() -> impl Iterator<Item = Case> {
    (0..)
        .map(|number| {
            let mut random = Random::for_case(SEED, number);
            let case = random::case(&mut random);
            let (book, line) = (case.book(), case.line);
            let offset = some_offset(&mut random, &book, &line);
            Case { book, line, offset }
        })
        .filter(|case| !model::is_dated(&case.book))
        .filter(|case| case.book.len().max(case.line.len()) <= LONGEST)
        .take(RANDOM_CASES)
}

fn some_offset(random: &mut Random, book: &[u8], line: &[u8]) -> usize {
    let mut offset = random.below(line.len() + 1);
    for _ in 0..20 {
        let case = Case {
            book: book.to_vec(),
            line: line.to_vec(),
            offset,
        };
        if self::line(&case).starts_with("rule") {
            break;
        }
        offset = random.below(line.len() + 1);
    }
    offset
}
