//! Books and whole cases as drafts: fields that may break any rule, so that
//! they can be spoiled on purpose, encoded as they are, and shrunk.

use crate::model::{Form, Lengths, Packer, OUTPUT_LEN};
use crate::records::joined;

#[derive(Clone, Copy, Debug, PartialEq, Eq)]
pub enum Symbol {
    Operator(u8),
    Variable(u8),
}

#[derive(Clone, Debug, Default, PartialEq, Eq)]
pub struct OperatorDraft {
    pub arity: u8,
    /// 4-bit items, at most 31.
    pub strategy: Option<Vec<u8>>,
}

/// Two sides in preorder, and a day, which an undated draft ignores.
#[derive(Clone, Debug, PartialEq, Eq)]
pub struct RuleDraft {
    pub left: Vec<Symbol>,
    pub right: Vec<Symbol>,
    pub day: u16,
}

impl RuleDraft {
    /// A rule of day 0.
    pub fn new(left: Vec<Symbol>, right: Vec<Symbol>) -> RuleDraft {
        RuleDraft {
            left,
            right,
            day: 0,
        }
    }

    pub fn on(self, day: u16) -> RuleDraft {
        RuleDraft { day, ..self }
    }
}

/// At most 255 operators and 255 rules.
#[derive(Clone, Debug, Default, PartialEq, Eq)]
pub struct Draft {
    pub operators: Vec<OperatorDraft>,
    pub rules: Vec<RuleDraft>,
    pub dated: bool,
}

impl Draft {
    /// An undated draft.
    pub fn new(operators: Vec<OperatorDraft>, rules: Vec<RuleDraft>) -> Draft {
        Draft {
            operators,
            rules,
            dated: false,
        }
    }

    pub fn dated(self) -> Draft {
        Draft {
            dated: true,
            ..self
        }
    }

    pub fn encode(&self) -> Vec<u8> {
        let mut packer = Packer::default();
        if self.dated {
            packer.put(0, 8);
        }
        packer.put(self.operators.len() as u8, 8);
        for operator in &self.operators {
            encode_operator(&mut packer, operator);
        }
        packer.put(self.rules.len() as u8, 8);
        for rule in &self.rules {
            if self.dated {
                packer.put_day(rule.day);
            }
            encode_side(&mut packer, &rule.left);
            encode_side(&mut packer, &rule.right);
        }
        packer.into_bytes()
    }

    /// A variable, or an operator unknown to the draft, has no arguments.
    pub fn arity(&self, symbol: Symbol) -> usize {
        match symbol {
            Symbol::Variable(_) => 0,
            Symbol::Operator(operator) => self
                .operators
                .get(usize::from(operator))
                .map_or(0, |known| known.arity.into()),
        }
    }

    /// Where the part that starts at `start` ends, if it is complete.
    pub fn part_end(&self, symbols: &[Symbol], start: usize) -> Option<usize> {
        let mut due = 1;
        let mut end = start;
        while due > 0 {
            due += self.arity(*symbols.get(end)?);
            due -= 1;
            end += 1;
        }
        Some(end)
    }
}

fn encode_operator(packer: &mut Packer, operator: &OperatorDraft) {
    packer.put(operator.arity, 3);
    match &operator.strategy {
        None => packer.put(0, 1),
        Some(items) => {
            packer.put(1, 1);
            packer.put(items.len() as u8, 5);
            for item in items {
                packer.put(*item, 4);
            }
        }
    }
}

fn encode_side(packer: &mut Packer, side: &[Symbol]) {
    for symbol in side {
        match symbol {
            Symbol::Operator(operator) => {
                packer.put(0, 1);
                packer.put(*operator, 8);
            }
            Symbol::Variable(variable) => {
                packer.put(1, 1);
                packer.put(*variable, 4);
            }
        }
    }
}

/// A change to a book's bytes after encoding.
#[derive(Clone, Debug, PartialEq, Eq)]
pub enum Damage {
    /// Turns one bit, counted from the book's end so that it stays near the
    /// same field while the book is shrunk.
    Flip(usize),
    /// Drops up to so many last bytes.
    Cut(usize),
    Add(u8),
    Replace(Vec<u8>),
}

impl Damage {
    pub fn apply(&self, bytes: &mut Vec<u8>) {
        match self {
            Damage::Flip(_) if bytes.is_empty() => {}
            Damage::Flip(bit) => {
                let bit = bit % (bytes.len() * 8);
                let place = bytes.len() - 1 - bit / 8;
                bytes[place] ^= 1 << (bit % 8);
            }
            Damage::Cut(count) => bytes.truncate(bytes.len().saturating_sub(*count)),
            Damage::Add(byte) => bytes.push(*byte),
            Damage::Replace(other) => bytes.clone_from(other),
        }
    }
}

/// Many lines, terms or texts as the form says, by the case's book.
#[derive(Clone, Debug, Default, PartialEq, Eq)]
pub struct Batch {
    pub lines: Vec<Vec<u8>>,
    /// How many of their bytes are cut off at the end.
    pub cut: usize,
    /// The bytes lent for their records.
    pub room: usize,
}

impl Batch {
    pub fn bytes(&self) -> Vec<u8> {
        let mut bytes = joined(&self.lines);
        bytes.truncate(bytes.len().saturating_sub(self.cut));
        bytes
    }
}

/// What a posting is charged, and who shares the rest.
#[derive(Clone, Debug, Default, PartialEq, Eq)]
pub struct Fees {
    /// A posting to be charged by itself; the case's line is settled besides.
    pub term: Vec<u8>,
    /// The fee table: two bytes for each operator.
    pub rates: Vec<u8>,
    pub amount: i64,
    pub shares: Vec<u16>,
}

/// One question to an implementation.
#[derive(Clone, Debug, PartialEq, Eq)]
pub struct Case {
    pub draft: Draft,
    pub damage: Vec<Damage>,
    pub form: Form,
    /// A term or a text, as the form says.
    pub line: Vec<u8>,
    pub units: u8,
    pub budget: u32,
    /// Named also where the book is undated, and has to be ignored there.
    pub day: u16,
    pub schedule: Vec<u8>,
    /// The lengths of the work area and of the net's less the published ones,
    /// which depend on the implementation.
    pub work_offset: isize,
    pub net_offset: isize,
    pub output_len: usize,
    /// The room lent to the book writer less the length of the written book.
    pub writer_offset: isize,
    /// Seeds what the lent buffers hold before.
    pub junk: u64,
    /// How many bytes of the program's input are cut off at its end.
    pub cut: usize,
    /// Asked besides, if there is one.
    pub batch: Option<Batch>,
    /// Charged besides, if there are any.
    pub fees: Option<Fees>,
    /// Seeds another order of the rules, which is asked besides.
    pub rearranged: Option<u64>,
    /// Seeds rounds; how long a schedule suffices is asked besides.
    pub rounds: Option<u64>,
}

impl Case {
    /// A line that is a term on day 0, without fault in its frame.
    pub fn new(draft: Draft, line: Vec<u8>, units: u8, budget: u32, schedule: Vec<u8>) -> Case {
        Case {
            draft,
            damage: Vec::new(),
            form: Form::Line,
            line,
            units,
            budget,
            day: 0,
            schedule,
            work_offset: 0,
            net_offset: 0,
            output_len: OUTPUT_LEN,
            writer_offset: 0,
            junk: 0,
            cut: 0,
            batch: None,
            fees: None,
            rearranged: None,
            rounds: None,
        }
    }

    pub fn book(&self) -> Vec<u8> {
        let mut bytes = self.draft.encode();
        for damage in &self.damage {
            damage.apply(&mut bytes);
        }
        bytes
    }

    /// The lengths of the buffers to lend if these are published.
    pub fn lengths(&self, published: Lengths) -> Lengths {
        Lengths {
            work: published.work.saturating_add_signed(self.work_offset),
            net: published.net.saturating_add_signed(self.net_offset),
            output: self.output_len,
        }
    }

    /// The program's input for this case, where the lengths fit their fields.
    pub fn input(&self) -> Option<Vec<u8>> {
        let mut input = Vec::new();
        let book = self.book();
        for announced in [&book, &self.line] {
            let length = u16::try_from(announced.len()).ok()?;
            input.extend(length.to_be_bytes());
            input.extend(announced);
        }
        input.push(self.units);
        input.extend(self.budget.to_be_bytes());
        if book.first() == Some(&0) {
            input.extend(self.day.to_be_bytes());
        }
        input.extend(&self.schedule);
        input.truncate(input.len().saturating_sub(self.cut));
        Some(input)
    }
}
