//! Books for the tests.

#![allow(dead_code)]

use kurvneist::{Lines, Request, NET_LENGTH, OUTPUT_LENGTH, WORK_LENGTH};

#[derive(Clone, Copy)]
pub enum Symbol {
    Operator(u8),
    Variable(u8),
}

pub const X: Symbol = Symbol::Variable(0);
pub const Y: Symbol = Symbol::Variable(1);

pub fn op(number: u8) -> Symbol {
    Symbol::Operator(number)
}

/// An arity, and the items of a list if one is given.
pub type Operator<'a> = (u8, Option<&'a [u8]>);

/// A left and a right side.
pub type Rule<'a> = (&'a [Symbol], &'a [Symbol]);

pub fn book(operators: &[Operator], rules: &[Rule]) -> Vec<u8> {
    let mut bits = Bits::default();
    bits.operators(operators);
    bits.put(rules.len() as u8, 8);
    for rule in rules {
        bits.rule(rule);
    }
    bits.bytes
}

/// Rules with a day before each.
pub fn dated_book(operators: &[Operator], rules: &[(u16, Rule)]) -> Vec<u8> {
    let mut bits = Bits::default();
    bits.put(0, 8);
    bits.operators(operators);
    bits.put(rules.len() as u8, 8);
    for (day, rule) in rules {
        for byte in day.to_be_bytes() {
            bits.put(byte, 8);
        }
        bits.rule(rule);
    }
    bits.bytes
}

/// Fields packed most significant bit first, with zero bits up to a whole byte.
#[derive(Default)]
struct Bits {
    bytes: Vec<u8>,
    used: usize,
}

impl Bits {
    fn put(&mut self, value: u8, width: u32) {
        for place in (0..width).rev() {
            if self.used == self.bytes.len() * 8 {
                self.bytes.push(0);
            }
            self.bytes[self.used / 8] |= (value >> place & 1) << (7 - self.used % 8);
            self.used += 1;
        }
    }

    fn operators(&mut self, operators: &[Operator]) {
        self.put(operators.len() as u8, 8);
        for (arity, list) in operators {
            self.put(*arity, 3);
            self.put(list.is_some().into(), 1);
            if let Some(items) = list {
                self.put(items.len() as u8, 5);
                items.iter().for_each(|item| self.put(*item, 4));
            }
        }
    }

    fn rule(&mut self, (left, right): &Rule) {
        left.iter()
            .chain(*right)
            .for_each(|symbol| self.symbol(*symbol));
    }

    fn symbol(&mut self, symbol: Symbol) {
        match symbol {
            Symbol::Operator(number) => {
                self.put(0, 1);
                self.put(number, 8);
            }
            Symbol::Variable(number) => {
                self.put(1, 1);
                self.put(number, 4);
            }
        }
    }
}

/// Book P of document 01: `end`, `tick` and `both`.
pub fn book_p() -> Vec<u8> {
    let (end, tick, both) = (op(0), op(1), op(2));
    book(
        &[(0, None), (1, None), (2, Some(&[8, 1, 2, 9, 0]))],
        &[
            (&[both, end, Y], &[Y]),
            (&[both, tick, X, Y], &[tick, both, X, Y]),
        ],
    )
}

/// f(X) gives f of 31 ticks over X, for ever.
pub fn growing_book() -> Vec<u8> {
    let right = [vec![op(1)], vec![op(2); 31], vec![X]].concat();
    book(
        &[(0, None), (1, Some(&[0])), (1, None)],
        &[(&[op(1), X], &right)],
    )
}

/// Operators 0 to 42 as texts ask for them, each with its default strategy.
pub fn class_operators() -> Vec<Operator<'static>> {
    [vec![(0, None)], vec![(1, None); 42]].concat()
}

pub fn class_book(rules: &[Rule]) -> Vec<u8> {
    book(&class_operators(), rules)
}

/// The line of the page.
pub const LINE_P: [u8; 5] = [2, 1, 0, 1, 0];

/// The page's request but for its schedule.
pub fn page<'a>(book: &'a [u8], schedule: &'a [u8]) -> Request<'a> {
    Request::new(book, &LINE_P).budget(9).schedule(schedule)
}

/// What a program's standard input asks, as the table of its parts says.
pub fn request_of(input: &[u8]) -> Request<'_> {
    let announced = |bytes: &[u8]| usize::from(u16::from_be_bytes([bytes[0], bytes[1]]));
    let (book, rest) = input[2..].split_at(announced(input));
    let (line, rest) = rest[2..].split_at(announced(rest));
    let (day, schedule) = match book.first() {
        Some(0) => (u16::from_be_bytes([rest[5], rest[6]]), &rest[7..]),
        _ => (0, &rest[5..]),
    };
    Request::new(book, line)
        .units(rest[0])
        .budget(u32::from_be_bytes(rest[1..5].try_into().unwrap()))
        .day(day)
        .schedule(schedule)
}

/// These lines one after another.
pub fn lines_of<L: AsRef<[u8]>>(lines: &[L]) -> Lines {
    let mut together = Lines::new();
    for line in lines {
        together.push(line.as_ref()).unwrap();
    }
    together
}

/// Bytes that no function would write by chance.
pub fn junk(length: usize) -> Vec<u8> {
    (0..length)
        .map(|place| (place as u8).wrapping_mul(31) ^ 0x5A)
        .collect()
}

/// The three buffers that a run is lent to write to.
pub struct Lent {
    pub work: Vec<u8>,
    pub net: Vec<u8>,
    pub output: Vec<u8>,
}

/// The lengths that a run asks for: of the work area, of the net's and of the output.
pub const LENGTHS: [usize; 3] = [WORK_LENGTH, NET_LENGTH, OUTPUT_LENGTH];

impl Lent {
    /// Buffers of these lengths, full of junk.
    pub fn new([work, net, output]: [usize; 3]) -> Lent {
        Lent {
            work: junk(work),
            net: junk(net),
            output: junk(output),
        }
    }

    /// The areas are zero, at their full lengths, and the output has changed at its front only.
    pub fn check_run(&self, length: usize) {
        assert!(self.work.iter().all(|byte| *byte == 0), "the work area");
        assert!(self.net.iter().all(|byte| *byte == 0), "the net's area");
        assert!(self.output[length..] == junk(self.output.len())[length..]);
    }

    pub fn check_unchanged(&self, refusal: u8) {
        for (name, lent) in [
            ("work area", &self.work),
            ("net's area", &self.net),
            ("output", &self.output),
        ] {
            assert!(*lent == junk(lent.len()), "the {name} of refusal {refusal}");
        }
    }
}
