//! Makes the cases of the program `run_cases` and what it is to print: the files `stdin` and `stdout` of a folder.
//!
//! A case is a head of 20 bytes (name length, 2 bytes book length, 2 bytes line length, units, 4 bytes budget, 2 bytes day, 2 bytes each for the
//! lengths of schedule, work area, the net's area and output), the name, the book, the line and the schedule. The day is there whatever the book's form.
//! The three buffers are lent full of a byte each that shows where they were written.
//!
//! With a seed and a count the files hold so many random cases, of any size, and no others.

use std::collections::HashSet;
use std::path::Path;
use std::{env, fs, io};

use comparison::broken::{BrokenModel, Slip};
use comparison::draft::{Draft, OperatorDraft, RuleDraft, Symbol};
use comparison::model::{self, Answer, Form, Lengths, OUTPUT_LEN, SIDE_LIMIT, TERM_LIMIT};
use comparison::random::{self, Random};
use comparison::subject::{Lent, Question, Subject, Told, MODEL_PUBLISHED};

/// The engine's published lengths.
const PUBLISHED: Lengths = Lengths::of_areas(24_624, 3840);
const SEED: u64 = 3;
const RANDOM_CASES: usize = 40;
/// Longer books and lines are passed over, and longer schedules, so that the files stay small.
const LONGEST: usize = 200;
const LONGEST_SCHEDULE: usize = 600;

#[derive(Clone)]
struct Case {
    name: String,
    book: Vec<u8>,
    line: Vec<u8>,
    units: u8,
    budget: u32,
    day: u16,
    schedule: Vec<u8>,
    lent: Lengths,
}

fn main() -> io::Result<()> {
    let words: Vec<String> = env::args().skip(1).collect();
    let numbers: Vec<u64> = words.iter().skip(1).flat_map(|word| word.parse()).collect();
    let cases: Vec<Case> = match (&words[..], &numbers[..]) {
        ([_], []) => {
            let cases = [picked_cases(), short_random_cases().collect()].concat();
            check(&cases);
            cases
        }
        ([_, _, _], [seed, count]) => (0..*count)
            .map(|number| random_case(*seed, number))
            .collect(),
        _ => panic!("usage: run_cases FOLDER [SEED COUNT]"),
    };
    let folder = Path::new(&words[0]);
    fs::write(
        folder.join("stdin"),
        cases.iter().flat_map(input).collect::<Vec<u8>>(),
    )?;
    fs::write(
        folder.join("stdout"),
        cases.iter().map(line).collect::<String>(),
    )
}

fn input(case: &Case) -> Vec<u8> {
    let short = |number: usize| {
        u16::try_from(number)
            .expect("cases are small")
            .to_be_bytes()
    };
    let name = u8::try_from(case.name.len()).expect("names are short");
    [
        &[name][..],
        &short(case.book.len()),
        &short(case.line.len()),
        &[case.units],
        &case.budget.to_be_bytes(),
        &case.day.to_be_bytes(),
        &short(case.schedule.len()),
        &short(case.lent.work),
        &short(case.lent.net),
        &short(case.lent.output),
        case.name.as_bytes(),
        &case.book,
        &case.line,
        &case.schedule,
    ]
    .concat()
}

fn line(case: &Case) -> String {
    let answer = match answer(case) {
        Err(number) => format!("refused {number} work kept net kept"),
        Ok(answer) => format!(
            "end {} rewrites {} entries {} {} term {} work zero net zero",
            answer.ending,
            answer.rewrites,
            answer.entries,
            forks(&answer),
            hexadecimal(&answer.term),
        ),
    };
    format!("{}: {answer} output kept\n", case.name)
}

fn forks(answer: &Answer) -> String {
    format!("granted {} kept {}", answer.granted, answer.kept)
}

fn answer(case: &Case) -> Result<Answer, u8> {
    model::answer(
        &case.book,
        &case.line,
        case.units,
        case.budget,
        case.day,
        &case.schedule,
        case.lent,
        PUBLISHED,
    )
}

fn hexadecimal(bytes: &[u8]) -> String {
    bytes.iter().map(|byte| format!("{byte:02x}")).collect()
}

// ---------------------------------------------------------------------------
// What the cases must meet

fn check(cases: &[Case]) {
    let names: HashSet<&str> = cases.iter().map(|case| &case.name[..]).collect();
    assert_eq!(names.len(), cases.len(), "a name stands twice");
    for number in model::refusal::OF_BOOKS.into_iter().chain(10..=16) {
        let is_due = |case: &Case| answer(case).err() == Some(number);
        assert!(cases.iter().any(is_due), "no case is refused by {number}");
    }
    for ending in 0..=3 {
        let is_due = |case: &Case| answer(case).is_ok_and(|answer| answer.ending == ending);
        assert!(cases.iter().any(is_due), "no case ends with {ending}");
    }
    for slip in [
        Slip::Join,
        Slip::List,
        Slip::Zeros,
        Slip::Longest,
        Slip::Copies,
        Slip::Order,
        Slip::Padding,
        Slip::Kept,
        Slip::Twice,
        Slip::Main,
        Slip::Busy,
        Slip::Lowest,
        Slip::Shortest,
        Slip::Newcomer,
        Slip::Woken,
        Slip::Below,
        Slip::Lengths,
        Slip::Last,
        Slip::Anew,
        Slip::Special,
        Slip::Back,
        Slip::Beside,
        Slip::Earlier,
        Slip::Own,
        Slip::Naming,
        Slip::Names,
        Slip::Ahead,
        Slip::ByDay,
        Slip::Undated,
        Slip::Fresh,
        Slip::Lost,
        Slip::Later,
        Slip::Marks,
        Slip::Again,
        Slip::Free,
        Slip::Forked,
    ] {
        let shows = |case: &Case| shows(case, slip);
        assert!(picked_cases().iter().any(shows), "no case shows {slip:?}");
    }
}

/// Does a slip change the case's answer or term?
fn shows(case: &Case, slip: Slip) -> bool {
    let question = Question {
        form: Form::Line,
        book: &case.book,
        line: &case.line,
        units: case.units,
        budget: case.budget,
        day: case.day,
        schedule: &case.schedule,
    };
    let mut work = vec![0; MODEL_PUBLISHED.work];
    let mut net = vec![0; MODEL_PUBLISHED.net];
    let mut output = vec![0; case.lent.output];
    let mut lent = Lent {
        work: &mut work,
        net: &mut net,
        output: &mut output,
    };
    let told = BrokenModel { slip }.answer(&question, &mut lent);
    match answer(case) {
        Ok(answer) => told != Told::answered(&answer) || !output.starts_with(&answer.term),
        // The areas lent here are never too short.
        Err(model::refusal::AREA) => false,
        Err(number) => told != Told::refused(number),
    }
}

// ---------------------------------------------------------------------------
// Cases picked by hand

fn picked_cases() -> Vec<Case> {
    [
        document_cases(),
        frame_cases(),
        book_refusals(),
        line_refusals(),
        order_of_checks(),
        ending_cases(),
        full_cases(),
        strategy_cases(),
        group_cases(),
        vec![
            last_unit("1024 symbols, mostly unit 7's", 4060),
            last_unit("1024 symbols, mostly unit 7's, cut", 2000),
            main_unit("1024 symbols, mostly unit 0's, above its JOIN", 4079),
            main_unit("1024 symbols, mostly unit 0's, above its JOIN, cut", 2000),
        ],
        helping_cases(),
        queue_cases(),
        matching_cases(),
        net_cases(),
        dated_cases(),
        mark_cases(),
        slip_cases(),
    ]
    .concat()
}

/// The document's line with U = 1, budget 9 and 29 entries, by a book.
fn case(name: &str, book: impl Into<Vec<u8>>) -> Case {
    Case {
        name: name.to_string(),
        book: book.into(),
        line: vec![2, 1, 0, 1, 0],
        units: 1,
        budget: 9,
        day: 0,
        schedule: vec![0; 29],
        lent: PUBLISHED,
    }
}

impl Case {
    fn line(self, line: impl Into<Vec<u8>>) -> Case {
        let line = line.into();
        Case { line, ..self }
    }

    fn units(self, units: u8) -> Case {
        Case { units, ..self }
    }

    fn budget(self, budget: u32) -> Case {
        Case { budget, ..self }
    }

    fn day(self, day: u16) -> Case {
        Case { day, ..self }
    }

    fn schedule(self, schedule: impl Into<Vec<u8>>) -> Case {
        let schedule = schedule.into();
        Case { schedule, ..self }
    }

    fn zeros(self, length: usize) -> Case {
        self.schedule(vec![0; length])
    }

    /// Units 0 to U - 1 in turn.
    fn turns(self, length: usize) -> Case {
        let count = usize::from(self.units);
        self.schedule(
            (0..length)
                .map(|place| (place % count) as u8)
                .collect::<Vec<_>>(),
        )
    }

    fn work(mut self, work: usize) -> Case {
        self.lent.work = work;
        self
    }

    fn net(mut self, net: usize) -> Case {
        self.lent.net = net;
        self
    }

    fn output(mut self, output: usize) -> Case {
        self.lent.output = output;
        self
    }
}

const X: Symbol = Symbol::Variable(0);
const Y: Symbol = Symbol::Variable(1);

fn op(number: u8) -> Symbol {
    Symbol::Operator(number)
}

fn plain(arity: u8) -> OperatorDraft {
    OperatorDraft {
        arity,
        strategy: None,
    }
}

fn given(arity: u8, items: &[u8]) -> OperatorDraft {
    OperatorDraft {
        arity,
        strategy: Some(items.to_vec()),
    }
}

fn rule(left: &[Symbol], right: &[Symbol]) -> RuleDraft {
    RuleDraft::new(left.to_vec(), right.to_vec())
}

fn book(operators: &[OperatorDraft], rules: &[RuleDraft]) -> Vec<u8> {
    Draft::new(operators.to_vec(), rules.to_vec()).encode()
}

/// `end`, `tick` and `both`, whose arguments are reduced side by side.
fn operators_p() -> [OperatorDraft; 3] {
    [plain(0), plain(1), given(2, &[8, 1, 2, 9, 0])]
}

fn book_p() -> Vec<u8> {
    let (end, tick, both) = (op(0), op(1), op(2));
    book(
        &operators_p(),
        &[
            rule(&[both, end, Y], &[Y]),
            rule(&[both, tick, X, Y], &[tick, both, X, Y]),
        ],
    )
}

/// P's operators with one other rule.
fn one_rule(left: &[Symbol], right: &[Symbol]) -> Vec<u8> {
    book(&operators_p(), &[rule(left, right)])
}

/// So many symbols, all but the last of them this operator of one argument.
fn chain(operator: u8, length: usize) -> Vec<u8> {
    let mut line = vec![operator; length - 1];
    line.push(0);
    line
}

fn side(length: usize) -> Vec<Symbol> {
    chain(1, length).into_iter().map(op).collect()
}

fn document_cases() -> Vec<Case> {
    let p = |name| case(name, book_p());
    vec![
        p("page"),
        p("page, 22 entries").zeros(22),
        p("page, 21 entries").zeros(21),
        p("page, 500 entries").zeros(500),
        p("page, budget 1").budget(1),
        p("page, U = 2, 100 entries of 0").units(2).zeros(100),
        p("page, U = 2, 13 entries in turn").units(2).turns(13),
        p("page, U = 2, 12 entries in turn").units(2).turns(12),
        p("page, U = 2, 60 entries in turn").units(2).turns(60),
        p("page, U = 8, 300 entries in turn").units(8).turns(300),
        case("one constant", [1, 0, 0]).line([0]),
        case("book 02 03 10 80 00", [2, 3, 0x10, 0x80, 0]).line([1, 0]),
        case("book 00", [0]),
        p("1024 symbols").line(chain(1, TERM_LIMIT)).zeros(2049),
        p("1024 symbols, 2048 entries")
            .line(chain(1, TERM_LIMIT))
            .zeros(2048),
        p("1025 symbols").line(chain(1, TERM_LIMIT + 1)),
        case("sides of 64", one_rule(&side(64), &side(64)))
            .line(chain(1, SIDE_LIMIT))
            .budget(2)
            .zeros(400),
        case("left side of 65", one_rule(&side(65), &side(64))),
        case("right side of 65", one_rule(&side(64), &side(65))),
    ]
}

fn frame_cases() -> Vec<Case> {
    let p = |name| case(name, book_p());
    vec![
        p("U = 0").units(0),
        p("U = 9").units(9),
        p("U = 255").units(255),
        p("U = 8").units(8).schedule([0, 0, 0, 7, 7, 1, 1, 1, 0]),
        p("work area one byte short").work(PUBLISHED.work - 1),
        p("work area of no byte").work(0),
        p("work area one byte longer").work(PUBLISHED.work + 1),
        p("work area of 65535 bytes").work(65_535),
        p("net one byte short").net(PUBLISHED.net - 1),
        p("net of no byte").net(0),
        p("net one byte longer").net(PUBLISHED.net + 1),
        p("net of 65535 bytes").net(65_535),
        p("output one byte short").output(OUTPUT_LEN - 1),
        p("output of no byte").output(0),
        p("output one byte longer").output(OUTPUT_LEN + 1),
        p("output of 65535 bytes").output(65_535),
        p("all buffers longer").work(40_000).net(5000).output(3000),
    ]
}

fn book_refusals() -> Vec<Case> {
    let strategy =
        |name, items: &[u8]| case(name, book(&[plain(0), plain(1), given(2, items)], &[]));
    let p = book_p();
    let mut padded = p.clone();
    *padded.last_mut().expect("a book has bytes") |= 1;
    vec![
        case("1: empty book", []),
        case("1: book one byte short", &p[..p.len() - 1]),
        strategy("3: item 10", &[10, 0]),
        strategy("3: group in a group", &[8, 1, 8, 2, 9, 9, 0]),
        strategy("3: close without open", &[1, 9, 0]),
        strategy("3: 0 in a group", &[8, 1, 0, 9, 0]),
        strategy("3: argument above arity", &[3, 0]),
        strategy("3: last item not 0", &[0, 1]),
        case("4: unknown operator", one_rule(&[op(1), op(3)], &[op(0)])),
        case("5: left side a variable", one_rule(&[X], &[op(0)])),
        case("7: right variable absent", one_rule(&[op(1), X], &[Y])),
        case("8: told before 1", cut_after_64()),
        case("9: padding bit of 1", padded),
        case("9: further byte", [&p[..], &[0]].concat()),
    ]
}

/// The book ends in the byte that holds the last bit of a left side's 64th symbol, where the side is still incomplete.
fn cut_after_64() -> Vec<u8> {
    let operators = 4 + 4 + (4 + 5 + 5 * 4);
    let bits = 8 + operators + 8 + 64 * 9;
    let mut book = one_rule(&side(65), &side(1));
    book.truncate(usize::div_ceil(bits, 8));
    book
}

fn line_refusals() -> Vec<Case> {
    let p = |name| case(name, book_p());
    vec![
        p("10: empty").line([]),
        p("10: incomplete").line([2, 1, 0]),
        p("10: bytes left over").line([1, 0, 0]),
        p("10: unknown operator left over").line([0, 9]),
        p("11: operator 3").line([2, 3]),
        p("11: before the line's end is met").line([2, 0, 255, 0]),
        p("12: told before 11").line([255; TERM_LIMIT + 1]),
        p("12: told before 10").line([0; 2000]),
        p("14: entry 1").schedule([0, 0, 1]),
        p("14: behind the end of the run").schedule([&[0; 29][..], &[1]].concat()),
        p("14: behind a spent budget")
            .budget(0)
            .schedule([&[0; 29][..], &[255]].concat()),
        p("14: first entry").units(8).schedule([8]),
    ]
}

fn order_of_checks() -> Vec<Case> {
    let p = |name| case(name, book_p());
    let bad = |name| case(name, [0, 0]);
    vec![
        p("13 before 15").units(0).work(0),
        p("13 before 16").units(9).output(0),
        bad("13 before the rest").units(9).line([]).schedule([9]),
        p("13 before 15 of the net").units(0).net(0),
        p("15 before 16").work(PUBLISHED.work - 1).output(0),
        p("15 of the net before 16")
            .net(PUBLISHED.net - 1)
            .output(0),
        bad("15 of the net before the rest")
            .net(0)
            .line([])
            .schedule([9]),
        bad("15 before the rest").work(0).line([]).schedule([9]),
        bad("16 before the rest")
            .output(OUTPUT_LEN - 1)
            .line([])
            .schedule([9]),
        bad("2 before 10").line([]),
        bad("2 before 12").line([0; TERM_LIMIT + 1]),
        bad("2 before 14").schedule([9]),
        p("10 before 14").line([2, 0]).schedule([9]),
        p("11 before 14").line([7]).schedule([9]),
        p("12 before 14").line([0; TERM_LIMIT + 1]).schedule([9]),
    ]
}

fn ending_cases() -> Vec<Case> {
    let p = |name| case(name, book_p());
    vec![
        p("no entry").zeros(0),
        p("no entry, budget 0, U = 3").units(3).budget(0).zeros(0),
        p("one entry").zeros(1),
        p("one entry of an idle unit").units(2).schedule([1]),
        p("budget 0").budget(0),
        p("budget 0, one entry before it is spent")
            .budget(0)
            .zeros(11),
        p("budget 0, nothing to rewrite").budget(0).line([1, 1, 0]),
        p("budget 2 is enough").budget(2),
        p("largest budget").budget(u32::MAX),
        p("budget 3, U = 4")
            .line([2, 2, 1, 0, 1, 0, 2, 1, 0, 1, 0])
            .units(4)
            .budget(3)
            .turns(300),
        p("only a unit that never gets work")
            .units(3)
            .schedule([2; 40]),
    ]
}

/// Operators 0 end, 1 dup, 2 pair, 3 tick, 4 drop, 5 both, 6 grow: dup gives a pair of copies, drop gives end, grow never ends, and both reduces
/// its arguments side by side.
fn sizes_book() -> Vec<u8> {
    book(
        &[
            plain(0),
            given(1, &[0]),
            given(2, &[0]),
            given(1, &[0]),
            given(1, &[0]),
            given(2, &[8, 1, 2, 9, 0]),
            given(1, &[0]),
        ],
        &[
            rule(&[op(1), X], &[op(2), X, X]),
            rule(&[op(4), X], &[op(0)]),
            rule(&[op(6), X], &[op(6), op(3), X]),
        ],
    )
}

/// Constants 0 to 9, 10 of one argument, 11 of two, 12 of three; no argument is reduced. Each rule gives the constant of its own number.
fn branching_book(lefts: &[&[Symbol]]) -> Vec<u8> {
    let constants = vec![plain(0); 10];
    let others = [1, 2, 3].map(|arity| given(arity, &[0]));
    let rules = lefts
        .iter()
        .zip(0..)
        .map(|(left, number)| rule(left, &[op(number)]));
    let rules: Vec<RuleDraft> = rules.collect();
    book(&[&constants[..], &others].concat(), &rules)
}

/// What a net over the left sides has to tell apart.
fn net_cases() -> Vec<Case> {
    let (one, two, three, z) = (op(10), op(11), op(12), Symbol::Variable(2));
    let ways = branching_book(&[
        &[three, one, op(5), X, op(6)],
        &[three, X, one, Y, op(7)],
        &[three, one, X, one, Y, z],
        &[three, X, Y, z],
    ]);
    let way = |name, line: &[u8]| case(name, &ways[..]).line(line).zeros(9);
    let order = branching_book(&[&[two, X, op(6)], &[two, op(5), Y], &[two, op(5), op(6)]]);
    let same = branching_book(&[
        &[three, X, Y, X],
        &[three, X, X, Y],
        &[three, Y, X, X],
        &[three, X, X, Y],
    ]);
    let same = |name, line: &[u8]| case(name, &same[..]).line(line).zeros(9);
    let long = |last: u8| [vec![op(10); 62], vec![op(last)]].concat();
    let late = branching_book(&[&long(3), &long(4), &[one, one, one, X], &long(5)]);
    let late = |name, last: u8| {
        let line = [vec![10; 62], vec![last]].concat();
        case(name, &late[..]).line(line).zeros(9)
    };
    vec![
        case("net: the first in the book, not the most special", order)
            .line([11, 5, 6])
            .zeros(9),
        way("net: by operators", &[12, 10, 5, 3, 6]),
        way("net: back to a variable", &[12, 10, 5, 10, 4, 7]),
        way("net: back to a later variable", &[12, 10, 5, 10, 4, 8]),
        way("net: back twice", &[12, 10, 5, 4, 8]),
        way("net: variables alone", &[12, 11, 1, 2, 11, 3, 4, 11, 5, 6]),
        same("net: the first of a path", &[12, 5, 5, 5]),
        same("net: the second of a path", &[12, 5, 5, 6]),
        same("net: the third of a path", &[12, 6, 5, 5]),
        same("net: none of a path", &[12, 6, 5, 4]),
        late("net: the last of 63 symbols", 4),
        late("net: a later rule than one on the way", 5),
        late("net: back from the last of 63 symbols", 6),
    ]
}

fn full_cases() -> Vec<Case> {
    let sizes = |name| case(name, sizes_book());
    let dup = |length| [vec![1], chain(3, length)].concat();
    // 803 symbols: 1203 if the copy comes first, 403 if the drop does.
    let either = [vec![5], dup(400), vec![4], chain(3, 400)].concat();
    let both = |name| sizes(name).line(&either[..]).units(2);
    vec![
        sizes("copies up to 1023 symbols").line(dup(511)),
        sizes("copies past the limit").line(dup(512)),
        sizes("spent before full").line(dup(512)).budget(0),
        sizes("grows to 1024 symbols, then full")
            .line([6, 0])
            .budget(u32::MAX)
            .zeros(2100),
        sizes("spent at 1024 symbols")
            .line([6, 0])
            .budget(1022)
            .zeros(2100),
        both("full before the other shrinks").schedule([0, 0, 0, 1, 1, 0]),
        both("removed symbols are free for the other")
            .schedule([0, 0, 0, 0, 1, 1, 0, 0, 1, 1, 1, 0, 0, 0]),
        sizes("1024 symbols shrink to 1")
            .line([vec![4], chain(3, TERM_LIMIT - 1)].concat())
            .zeros(9),
    ]
}

/// The same line by operators that differ in one strategy.
fn by_strategy(name: &str, items: &[u8]) -> Case {
    let operators = [plain(0), plain(1), given(3, items), plain(0)];
    let rules = [
        rule(&[op(1), op(0)], &[op(0)]),
        rule(&[op(2), op(0), X, Y], &[op(3)]),
    ];
    case(name, book(&operators, &rules))
        .line([2, 1, 0, 1, 1, 0, 1, 0])
        .units(3)
        .turns(120)
}

/// A constant that a rule rewrites.
fn constant(name: &str, items: &[u8]) -> Case {
    let operators = [given(0, items), given(1, &[0])];
    let rules = [rule(&[op(0)], &[op(1), op(0)])];
    case(name, book(&operators, &rules)).line([0])
}

fn strategy_cases() -> Vec<Case> {
    vec![
        by_strategy("strategy ()", &[]),
        by_strategy("strategy (0)", &[0]),
        by_strategy("strategy (1 0)", &[1, 0]),
        by_strategy("strategy (1 0 1 0)", &[1, 0, 1, 0]),
        by_strategy("strategy ({1 1} {} 2 0)", &[8, 1, 1, 9, 8, 9, 2, 0]),
        by_strategy("strategy (2 {3} 0 2 0)", &[2, 8, 3, 9, 0, 2, 0]),
        by_strategy("strategy ({2 3} 0 1 0)", &[8, 2, 3, 9, 0, 1, 0]),
        by_strategy("strategy (0 {3 2 1} 0)", &[0, 8, 3, 2, 1, 9, 0]),
        by_strategy(
            "strategy ({1 2} {2 3 1} 0)",
            &[8, 1, 2, 9, 8, 2, 3, 1, 9, 0],
        ),
        by_strategy("strategy (2 0 {3 1} 0)", &[2, 0, 8, 3, 1, 9, 0]),
        by_strategy("strategy of 31 items", &[0; 31]),
        constant("a constant is rewritten", &[0]),
        constant("a constant with strategy ()", &[]),
    ]
}

/// Operators 0 end, 1 of seven arguments in a group, 2 of two in a group, 3 of four in two groups, 4 tick.
fn groups_book() -> Vec<u8> {
    book(
        &[
            plain(0),
            given(7, &[8, 1, 2, 3, 4, 5, 6, 7, 9, 0]),
            given(2, &[8, 1, 2, 9, 0]),
            given(4, &[8, 4, 1, 9, 0, 8, 2, 3, 9, 0]),
            plain(1),
        ],
        &[
            rule(&[op(4), op(0)], &[op(0)]),
            rule(&[op(2), op(0), X], &[op(4), X]),
            rule(&[op(3), op(4), X, Y, Symbol::Variable(15), op(0)], &[X]),
        ],
    )
}

fn groups(name: &str, line: &[u8], units: u8) -> Case {
    case(name, groups_book())
        .line(line)
        .units(units)
        .turns(700)
        .budget(2000)
}

fn group_cases() -> Vec<Case> {
    let wide = [vec![1], [4, 0].repeat(7)].concat();
    let node = |left: &[u8], right: &[u8]| [&[2][..], left, right].concat();
    let leaf = node(&[0], &[4, 0]);
    let two = node(&leaf, &leaf);
    let four = node(&two, &two);
    let deep = node(&node(&node(&node(&[0], &[0]), &[4, 0]), &leaf), &two);
    vec![
        groups("group of 7, U = 8", &wide, 8),
        groups("group of 7, U = 4", &wide, 4),
        groups("group of 7, U = 1", &wide, 1),
        groups("group of 7, cut while units wait", &wide, 8).turns(30),
        groups("group of 7, units 7 to 0", &wide, 8).schedule([7, 6, 5, 4, 3, 2, 1, 0].repeat(20)),
        groups("nested groups, U = 1", &four, 1),
        groups("nested groups, U = 2", &four, 2),
        groups("nested groups, U = 3", &four, 3),
        groups("nested groups, U = 8", &four, 8),
        groups("nested groups, U = 8, cut", &four, 8).turns(60),
        groups("deep groups, U = 5", &deep, 5),
        groups(
            "two groups, U = 3",
            &[&[3][..], &two, &leaf, &two, &leaf].concat(),
            3,
        ),
        groups(
            "two groups, units in bursts",
            &[&[3][..], &leaf, &two, &leaf, &two].concat(),
            4,
        )
        .schedule([[0; 9], [3; 9], [1; 9], [2; 9]].concat().repeat(8)),
    ]
}

/// Seven FORKs, the last of them of a chain that fills the term: the highest stack of the last unit.
fn last_unit(name: &str, entries: usize) -> Case {
    let line = [vec![2, 0, 1], vec![0; 5], chain(4, TERM_LIMIT - 9), vec![0]].concat();
    let in_turn = [0, 1, 2, 3, 4, 5, 6, 7].repeat(40);
    groups(name, &line, 8).schedule([vec![0; 9], vec![7; entries], in_turn].concat())
}

/// Unit 0 lends a node to unit 1 and waits; what unit 1 then forks, a chain that fills the term, goes to unit 0, on top of its JOIN.
fn main_unit(name: &str, entries: usize) -> Case {
    let line = [vec![2, 2], chain(4, TERM_LIMIT - 4), vec![0, 0]].concat();
    groups(name, &line, 2)
        .schedule([vec![0; 5], vec![1; 2], vec![0; entries], [0, 1].repeat(20)].concat())
}

/// Nodes whose first argument is a node, so deep.
fn leaning(depth: usize) -> Vec<u8> {
    [vec![1; depth], vec![0; depth + 1]].concat()
}

fn helping_cases() -> Vec<Case> {
    let nodes = |name, depth| {
        case(name, nodes_book())
            .line(leaning(depth))
            .units(2)
            .budget(2000)
    };
    let lent = |ones: usize, then: &[u8]| [&[0; 5][..], &vec![1; ones], then].concat();
    let in_turn = [0, 1].repeat(20);
    let by_sixes = |times: usize| [[0; 6], [1; 6]].concat().repeat(times);
    vec![
        nodes("a FORK finds only unit 0 idle", 2).schedule(lent(8, &in_turn)),
        nodes("a FORK finds unit 0 busy", 2).schedule([&[0; 4][..], &[1; 8], &in_turn].concat()),
        nodes("unit 0 helps, cut before it exits", 2).schedule(lent(8, &[0; 2])),
        nodes("unit 0 helps, and waits again above its JOIN", 3).schedule(by_sixes(2)),
        nodes("two units lend to each other", 40).schedule(by_sixes(42)),
        nodes("two units lend to each other, 1023 symbols", 511).schedule(by_sixes(520)),
        nodes("two units lend to each other, cut at the deepest", 511).schedule(by_sixes(256)),
    ]
}

/// A node over two of the depth below, down to 0.
fn full(depth: usize) -> Vec<u8> {
    match depth {
        0 => vec![0],
        _ => [vec![1], full(depth - 1), full(depth - 1)].concat(),
    }
}

fn queue_cases() -> Vec<Case> {
    let nodes = |name, line: Vec<u8>, units| {
        case(name, nodes_book())
            .line(line)
            .units(units)
            .budget(2000)
    };
    let bursts = |units: u8, length: usize, times: usize| {
        let burst = |unit: u8| vec![unit; length];
        (0..units)
            .flat_map(burst)
            .collect::<Vec<u8>>()
            .repeat(times)
    };
    vec![
        nodes("unit 2 before unit 0, idle longer", leaning(2), 3)
            .schedule([&[0; 5][..], &[1; 2], &[0, 1, 2].repeat(14)].concat()),
        nodes("three units, each woken and idle again", full(3), 3).schedule(bursts(3, 4, 20)),
        nodes("four units share a full tree", full(4), 4).turns(400),
        nodes("four units share a full tree in bursts", full(4), 4).schedule(bursts(4, 5, 20)),
        nodes("eight units share a full tree", full(5), 8).turns(600),
        nodes("eight units share a full tree, cut", full(5), 8).turns(100),
    ]
}

/// Operators 0 end, 1 other, 2 tick, 3 pair with its arguments in a group, 4 triple with two in a group and one behind it, 5 both.
fn matching_book() -> Vec<u8> {
    book(
        &[
            plain(0),
            plain(0),
            plain(1),
            given(2, &[8, 1, 2, 9, 0]),
            given(3, &[8, 1, 2, 9, 3, 0]),
            plain(2),
        ],
        &[
            rule(&[op(4), X, X, X], &[X]),
            rule(&[op(4), X, Y, X], &[op(3), X, Y]),
            rule(&[op(3), X, X], &[op(2), X]),
            rule(&[op(5), op(2), X, op(3), X, Y], &[Y]),
        ],
    )
}

fn matching_cases() -> Vec<Case> {
    let matching = |name, line: &[u8]| case(name, matching_book()).line(line).zeros(200);
    let shared = |name, line: &[u8], units| matching(name, line).units(units).turns(300);
    let deep = |one: u8, other: u8| {
        let chain = |last| [vec![2; 200], vec![last]].concat();
        [vec![3], chain(one), chain(other)].concat()
    };
    // The inner triples become equal only as they are reduced.
    let late = [4, 4, 0, 0, 0, 3, 0, 0, 4, 0, 0, 0];
    vec![
        matching("a variable twice", &[3, 0, 0]),
        matching("a variable twice, other parts", &[3, 0, 1]),
        matching(
            "parts that differ in the last symbol",
            &[3, 5, 2, 0, 0, 5, 2, 0, 1],
        ),
        matching(
            "parts that differ in the first symbol",
            &[3, 5, 0, 1, 3, 0, 1],
        ),
        matching("parts that differ in between", &[3, 5, 0, 1, 5, 1, 1]),
        matching("parts that differ in length", &[3, 2, 0, 2, 2, 0]),
        matching("a variable three times", &[4, 1, 1, 1]),
        matching(
            "a variable three times, the third part another",
            &[4, 1, 1, 0],
        ),
        matching("a variable inside and outside a group", &[4, 1, 0, 1]),
        matching("parts at two depths", &[5, 2, 1, 3, 1, 0]),
        matching("parts at two depths, others", &[5, 2, 0, 3, 1, 0]),
        matching("parts of 201 symbols", &deep(0, 0)).zeros(2000),
        matching("parts of 201 symbols, the last another", &deep(0, 1)).zeros(2000),
        shared("parts that become equal, U = 1", &late, 1),
        shared("parts that become equal, U = 2", &late, 2),
        shared("parts that become equal, U = 5", &late, 5),
        shared("parts that become equal, cut", &late, 3).turns(20),
        matching("a match on a spent budget", &[3, 0, 0]).budget(0),
        matching("no match on a spent budget", &[3, 0, 1]).budget(0),
    ]
}

/// Three constants, a pair whose arguments are not reduced, and one whose are reduced side by side.
fn dated_book(rules: &[RuleDraft]) -> Draft {
    let operators = [
        plain(0),
        plain(0),
        plain(0),
        given(2, &[0]),
        given(2, &[8, 1, 2, 9, 0]),
    ];
    Draft::new(operators.to_vec(), rules.to_vec()).dated()
}

fn dated_cases() -> Vec<Case> {
    let pair = |one, other, right: u8, day| rule(&[op(3), one, other], &[op(right)]).on(day);
    let on = |name: &str, rules: &[RuleDraft], day, line: &[u8]| {
        case(name, dated_book(rules).encode())
            .line(line)
            .zeros(60)
            .day(day)
    };
    let one = [3, 0, 1];
    let years = [pair(X, Y, 0, 10), pair(Y, X, 1, 20)];
    let backwards = [pair(Y, X, 1, 20), pair(X, Y, 0, 10)];
    let same = [pair(X, Y, 0, 10), pair(Y, X, 1, 10), pair(X, Y, 2, 9)];
    let repeated = [pair(X, X, 0, 1), pair(X, Y, 1, 2)];
    let order = [
        pair(X, op(0), 0, 30),
        pair(op(0), X, 1, 20),
        pair(X, X, 2, 10),
    ];
    let mut undated = dated_book(&years);
    undated.dated = false;
    let undated = undated.encode();
    let forked = [
        rule(&[op(4), op(0), X], &[X]).on(5),
        rule(&[op(4), op(0), Y], &[op(3), Y, Y]).on(6),
        rule(&[op(3), X, X], &[op(0)]).on(6),
    ];
    let line = [4, 4, 0, 1, 4, 0, 1];
    vec![
        case("1: a byte 0 alone", [0]),
        case("2: no operator behind the byte 0", [0, 0]),
        case("a dated book without rules", [0, 1, 0, 0]).line([0]),
        on("before the first day", &years, 9, &one),
        on("on the first day", &years, 10, &one),
        on("the day before the second", &years, 19, &one),
        on("on the second day", &years, 20, &one),
        on("on the last day of all", &years, u16::MAX, &one),
        on("a later rule first in the book", &backwards, 20, &one),
        on(
            "a later rule first in the book, before its day",
            &backwards,
            19,
            &one,
        ),
        on("within a day the last", &same, 10, &one),
        on("an earlier day behind", &same, 9, &one),
        on(
            "f(X, X) beside a later f(X, Y), equal parts",
            &repeated,
            2,
            &[3, 0, 0],
        ),
        on(
            "f(X, X) beside a later f(X, Y), other parts",
            &repeated,
            2,
            &one,
        ),
        on("tried in book order, one stands", &order, 10, &[3, 0, 0]),
        on("tried in book order, two stand", &order, 20, &[3, 0, 0]),
        on("tried in book order, three stand", &order, 30, &[3, 0, 0]),
        case("an undated book ignores the day", &undated[..])
            .line(one)
            .day(9),
        case("an undated book replaces nothing", &undated[..])
            .line(one)
            .day(u16::MAX),
        on("forked, on the first day", &forked, 5, &line)
            .units(2)
            .turns(99),
        on("forked, on the second day", &forked, 6, &line)
            .units(2)
            .turns(99),
        long_sides("64 symbols that agree", 1),
        long_sides("64 symbols that differ in the last operator", 2),
        many_rules("255 rules that agree", |_| 5),
        many_rules("255 rules that agree, each of its own day", |place| place),
        many_rules(
            "255 rules that agree, the first of the latest day",
            |place| 254 - place,
        ),
    ]
}

/// Two left sides of 64 symbols, of days 1 and 2; `last` is the operator above the variable of the second.
fn long_sides(name: &str, last: u8) -> Case {
    let side = |last: u8| [vec![op(1); 62], vec![op(last), X]].concat();
    let rules = vec![
        rule(&side(1), &[op(0)]).on(1),
        rule(&side(last), &[op(2), op(0)]).on(2),
    ];
    let book = Draft::new(vec![plain(0), plain(1), plain(1)], rules).dated();
    let line = [vec![1; 63], vec![0]].concat();
    case(name, book.encode()).line(line).zeros(300).day(2)
}

/// Rules for the same constant; the first, the last and the one before have right sides of their own.
fn many_rules(name: &str, day: fn(u16) -> u16) -> Case {
    let operators = vec![plain(0); 255];
    let right = |place: u16| op(254 - place as u8 / 2);
    let rules = (0..255).map(|place| rule(&[op(0)], &[right(place)]).on(day(place)));
    let book = Draft::new(operators, rules.collect()).dated().encode();
    case(name, book).line([0]).day(u16::MAX)
}

/// Operators 0 end, 1 tick, 2 copy, 3 two with its arguments in a group, 4 and 5 same, of whose arguments the first or the second is reduced, 6 box with
/// an empty strategy, 7 open, 8 late, tried before and after its argument is reduced.
fn marks_book() -> Vec<u8> {
    book(
        &[
            plain(0),
            plain(1),
            plain(1),
            given(2, &[8, 1, 2, 9, 0]),
            given(2, &[1, 0]),
            given(2, &[2, 0]),
            given(1, &[]),
            plain(1),
            given(1, &[0, 1, 0]),
        ],
        &[
            rule(&[op(2), X], &[op(3), X, X]),
            rule(&[op(4), X, X], &[op(1), X]),
            rule(&[op(5), X, X], &[op(1), X]),
            rule(&[op(7), op(6), X], &[X]),
            rule(&[op(8), op(0)], &[op(1), op(0)]),
        ],
    )
}

fn mark_cases() -> Vec<Case> {
    let marks = |name, line: &[u8]| case(name, marks_book()).line(line).zeros(99);
    let shared = |name, line: &[u8], units| marks(name, line).units(units).turns(300);
    let copies = [2, 2, 2, 1, 0];
    let long = [vec![2], chain(1, 511)].concat();
    vec![
        marks("marks: copies are not walked again", &[2, 1, 1, 0]),
        marks("marks: cut at the first copy", &[2, 1, 1, 0]).zeros(11),
        shared("marks: copies of copies, U = 1", &copies, 1),
        shared("marks: copies of copies, U = 3", &copies, 3),
        shared("marks: copies of copies, U = 8", &copies, 8),
        shared("marks: copies of copies, cut", &copies, 3).turns(40),
        marks("marks: a copy of 511 symbols", &long).zeros(1100),
        shared("marks: a copy of 511 symbols, U = 2", &long, 2).turns(2200),
        marks("marks: the first of two equal parts", &[4, 1, 0, 1, 0]),
        marks("marks: the second of two equal parts", &[5, 1, 0, 1, 0]),
        marks("marks: an empty strategy", &[6, 2, 0]),
        marks("marks: an empty strategy, copied", &[2, 6, 2, 0]),
        marks("marks: what it hid is walked", &[7, 6, 2, 0]),
        marks("marks: a WHOLE before the last", &[8, 7, 6, 0]),
        marks("marks: a WHOLE before the last, copied", &[2, 8, 1, 0]),
    ]
}

fn slip_cases() -> Vec<Case> {
    let forgets = book(
        &[plain(0), plain(0), given(1, &[0, 1, 0]), plain(2)],
        &[rule(&[op(2), X], &[op(1)]), rule(&[op(3), X, Y], &[Y])],
    );
    let first = |left: &[Symbol]| {
        book(
            &[plain(0), plain(0), given(1, &[0])],
            &[rule(&[op(2), X], &[op(0)]), rule(left, &[op(1)])],
        )
    };
    vec![
        woken("woken at another JOIN, cut", 40),
        woken("woken at another JOIN, cut later", 60),
        woken("woken at another JOIN", 100),
        half_open("an EXIT before the last one wakes nobody"),
        case("a FORK is kept, and its JOIN not reached", nodes_book())
            .line([1, 0, 0])
            .zeros(2),
        stacked("a part on top of a waiting JOIN"),
        case("a rewrite forgets its own term's orders", forgets)
            .line([3, 2, 0, 2, 0])
            .zeros(99),
        case(
            "first rule in book order, not the longest",
            first(&[op(2), op(2), Y]),
        )
        .line([2, 2, 1]),
        case(
            "first rule in book order, not the most special",
            first(&[op(2), op(1)]),
        )
        .line([2, 1]),
    ]
}

/// `end`, and `node` with both arguments in a group; nodes of ends become ends.
fn nodes_book() -> Vec<u8> {
    book(
        &[plain(0), given(2, &[8, 1, 2, 9, 0])],
        &[rule(&[op(1), op(0), op(0)], &[op(0)])],
    )
}

/// Unit 0 waits at the JOIN of its second group when the EXIT for the first one wakes it. Passing that JOIN then would try the outer node's rule
/// too soon.
fn woken(name: &str, length: usize) -> Case {
    let mut schedule = vec![0; 4];
    schedule.extend([0, 1, 2].repeat(40));
    schedule.truncate(length);
    case(name, nodes_book())
        .line([1, 0, 1, 1, 0, 0, 0])
        .units(3)
        .schedule(schedule)
}

/// Unit 1 waits for two parts. After the first one's EXIT it is still idle, and so gets the part that unit 0 forks.
fn half_open(name: &str) -> Case {
    let operators = [
        plain(0),
        given(2, &[8, 1, 2, 9, 0]),
        given(3, &[8, 1, 2, 3, 9, 0]),
    ];
    let schedule = [
        &[0; 2][..],
        &[1; 6],
        &[2; 3],
        &[0; 2],
        &[0, 1, 2, 3].repeat(12),
    ]
    .concat();
    case(name, book(&operators, &[]))
        .line([1, 2, 0, 0, 0, 1, 0, 0])
        .units(4)
        .schedule(schedule)
}

/// Unit 1 waits at its own JOIN and takes another part on top of it.
fn stacked(name: &str) -> Case {
    let schedule = [
        0, 0, 0, 1, 1, 2, 2, 2, 2, 0, 1, 1, 1, 1, 1, 0, 1, 1, 0, 0, 1, 1, 1, 1, 0, 0, 0, 0, 0,
    ];
    case(name, book(&[plain(0), given(2, &[8, 1, 2, 9, 0])], &[]))
        .line([1, 1, 0, 1, 0, 0, 1, 0, 0])
        .units(3)
        .schedule(schedule)
}

// ---------------------------------------------------------------------------
// Random cases

fn random_case(seed: u64, number: u64) -> Case {
    let case = random::case(&mut Random::for_case(seed, number));
    Case {
        name: format!("random {seed} {number}"),
        book: case.book(),
        lent: case.lengths(PUBLISHED),
        line: case.line,
        units: case.units,
        budget: case.budget,
        day: case.day,
        schedule: case.schedule,
    }
}

/// On two units or more, most of them without a refusal and with a rewrite.
fn short_random_cases() -> impl Iterator<Item = Case> {
    (0..)
        .map(|number| random_case(SEED, number))
        .filter(|case| case.book.len().max(case.line.len()) <= LONGEST)
        .filter(|case| case.units >= 2 && case.schedule.len() <= LONGEST_SCHEDULE)
        .filter(|case| answer(case).is_ok_and(|answer| answer.rewrites > 0 && answer.granted > 0))
        .take(RANDOM_CASES)
}
