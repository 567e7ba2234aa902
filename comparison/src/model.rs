//! The model: rule books, terms, texts, and the units that reduce them.
//!
//! Each part follows the wording of the scope document, and of the change
//! requests that have landed. Terms are trees and orders stand in plain lists,
//! so that a step can be held against its sentence there; nothing is arranged
//! for speed.

use std::collections::VecDeque;
use std::fmt::Write;

pub const TERM_LIMIT: usize = 1024;
pub const SIDE_LIMIT: usize = 64;
pub const OUTPUT_LEN: usize = 1024;
pub const SCHEDULE_LIMIT: usize = 32_768;

/// The refusal numbers of the table of checks.
pub mod refusal {
    /// Those of a book's places. 6, for a variable twice in a left side, is
    /// given no longer.
    pub const OF_BOOKS: [u8; 8] = [1, 2, 3, 4, 5, 7, 8, 9];

    pub const BITS_RUN_OUT: u8 = 1;
    pub const NO_OPERATOR: u8 = 2;
    pub const STRATEGY: u8 = 3;
    pub const RULE_OPERATOR: u8 = 4;
    pub const LEFT_IS_VARIABLE: u8 = 5;
    pub const VARIABLE_ABSENT: u8 = 7;
    pub const SIDE_TOO_LONG: u8 = 8;
    pub const BOOK_END: u8 = 9;
    pub const TERM_SHAPE: u8 = 10;
    pub const TERM_OPERATOR: u8 = 11;
    pub const TERM_TOO_LONG: u8 = 12;
    pub const UNITS: u8 = 13;
    pub const SCHEDULE: u8 = 14;
    /// The work area, or the net's.
    pub const AREA: u8 = 15;
    pub const OUTPUT: u8 = 16;
    pub const INPUT: u8 = 17;
    pub const TEXT_TOO_LONG: u8 = 18;
    pub const CLASS_OPERATORS: u8 = 19;
    /// A point that breaks a rule, a name that is none, or an unknown one to
    /// resume.
    pub const POINT: u8 = 20;
    pub const NINTH_NAME: u8 = 21;
    pub const AMOUNT: u8 = 22;
    pub const RATE_OR_SHARES: u8 = 23;
    /// Of the strict profile: a dated book, a variable repeated in a left side,
    /// or no constant.
    pub const OUTSIDE_STRICT: u8 = 24;
    /// Of the strict profile: two rules match one term.
    pub const OVERLAP: u8 = 25;
}

/// The four endings of a run.
pub mod ending {
    pub const FINISHED: u8 = 0;
    pub const SPENT: u8 = 1;
    pub const FULL: u8 = 2;
    pub const CUT: u8 = 3;
}

// ---------------------------------------------------------------------------
// Terms, patterns and books

#[derive(Clone, Debug)]
pub struct Term {
    pub operator: u8,
    pub arguments: Vec<Term>,
    /// A part that has no orders left is finished, and its root is marked.
    pub marked: bool,
}

/// Terms are equal symbol by symbol, whatever is marked.
impl PartialEq for Term {
    fn eq(&self, other: &Term) -> bool {
        self.operator == other.operator && self.arguments == other.arguments
    }
}

impl Eq for Term {}

/// The arguments to follow from the root, each counted from 1.
pub type Position = Vec<u8>;

impl Term {
    /// A new symbol is unmarked.
    pub fn new(operator: u8, arguments: Vec<Term>) -> Term {
        Term {
            operator,
            arguments,
            marked: false,
        }
    }

    pub fn size(&self) -> usize {
        1 + self.arguments.iter().map(Term::size).sum::<usize>()
    }

    pub fn part(&self, at: &[u8]) -> Option<&Term> {
        match at.split_first() {
            None => Some(self),
            Some((&argument, rest)) => self.arguments.get(usize::from(argument) - 1)?.part(rest),
        }
    }

    pub fn part_mut(&mut self, at: &[u8]) -> Option<&mut Term> {
        match at.split_first() {
            None => Some(self),
            Some((&argument, rest)) => self
                .arguments
                .get_mut(usize::from(argument) - 1)?
                .part_mut(rest),
        }
    }

    pub fn preorder(&self) -> Vec<u8> {
        let mut bytes = Vec::new();
        self.write_preorder(&mut bytes);
        bytes
    }

    fn write_preorder(&self, bytes: &mut Vec<u8>) {
        bytes.push(self.operator);
        for argument in &self.arguments {
            argument.write_preorder(bytes);
        }
    }
}

#[derive(Clone, Debug, PartialEq, Eq)]
pub enum Pattern {
    Operator(u8, Vec<Pattern>),
    Variable(u8),
}

/// What each of the 16 variables stands for after a match.
pub type Filling<'t> = [Option<&'t Term>; 16];

impl Pattern {
    /// A variable matches any part at first, and where it stands again a part
    /// that is equal, symbol by symbol.
    pub fn matches<'t>(&self, term: &'t Term, filling: &mut Filling<'t>) -> bool {
        match self {
            Pattern::Variable(variable) => {
                let first = filling[usize::from(*variable)].get_or_insert(term);
                *first == term
            }
            Pattern::Operator(operator, arguments) => {
                *operator == term.operator
                    && arguments
                        .iter()
                        .zip(&term.arguments)
                        .all(|(pattern, part)| pattern.matches(part, filling))
            }
        }
    }

    pub fn filled(&self, filling: &Filling) -> Term {
        match self {
            Pattern::Variable(variable) => filled_variable(filling, *variable).clone(),
            Pattern::Operator(operator, arguments) => {
                let parts = arguments.iter().map(|pattern| pattern.filled(filling));
                Term::new(*operator, parts.collect())
            }
        }
    }

    /// The size of the filled side; every copy of a variable counts.
    pub fn filled_size(&self, filling: &Filling) -> usize {
        match self {
            Pattern::Variable(variable) => filled_variable(filling, *variable).size(),
            Pattern::Operator(_, arguments) => {
                1 + arguments
                    .iter()
                    .map(|pattern| pattern.filled_size(filling))
                    .sum::<usize>()
            }
        }
    }

    pub fn size(&self) -> usize {
        match self {
            Pattern::Variable(_) => 1,
            Pattern::Operator(_, arguments) => {
                1 + arguments.iter().map(Pattern::size).sum::<usize>()
            }
        }
    }

    /// The side with one name for all variables.
    pub fn unnamed(&self) -> Pattern {
        match self {
            Pattern::Variable(_) => Pattern::Variable(0),
            Pattern::Operator(operator, arguments) => {
                Pattern::Operator(*operator, arguments.iter().map(Pattern::unnamed).collect())
            }
        }
    }

    /// Do two sides agree up to the naming of variables?
    pub fn agrees(&self, other: &Pattern) -> bool {
        self.is_renamed(other, &mut Vec::new())
    }

    /// `names` are pairs of a variable here and its name in the other side; no
    /// variable of either side stands in two of them.
    fn is_renamed(&self, other: &Pattern, names: &mut Vec<(u8, u8)>) -> bool {
        match (self, other) {
            (Pattern::Variable(one), Pattern::Variable(other)) => {
                let pair = (*one, *other);
                let mut of_either = names.iter().filter(|(a, b)| a == one || b == other);
                match of_either.next() {
                    Some(found) => *found == pair,
                    None => {
                        names.push(pair);
                        true
                    }
                }
            }
            (Pattern::Operator(one, parts), Pattern::Operator(other, others)) => {
                one == other
                    && parts
                        .iter()
                        .zip(others)
                        .all(|(part, other)| part.is_renamed(other, names))
            }
            _ => false,
        }
    }
}

fn filled_variable<'t>(filling: &Filling<'t>, variable: u8) -> &'t Term {
    filling[usize::from(variable)].expect("the reader refuses a right variable absent on the left")
}

#[derive(Clone, Debug, PartialEq, Eq)]
pub struct Rule {
    pub left: Pattern,
    pub right: Pattern,
    /// Its place in the book, counted from 0.
    pub place: usize,
}

#[derive(Clone, Debug, PartialEq, Eq)]
pub enum Item {
    Whole,
    Argument(u8),
    Group(Vec<u8>),
}

#[derive(Clone, Debug, PartialEq, Eq)]
pub struct Operator {
    pub arity: u8,
    /// The list as it stood in the book.
    pub given: Option<Vec<Item>>,
    /// The settled list, or the default where none was given.
    pub strategy: Vec<Item>,
}

#[derive(Clone, Debug, PartialEq, Eq)]
pub struct Book {
    pub operators: Vec<Operator>,
    pub rules: Vec<Rule>,
    /// The day of each rule, if the book is dated.
    pub days: Option<Vec<u16>>,
}

impl Book {
    /// The book that a run on this day goes by: the rules that stand, in book
    /// order. An undated book ignores the day.
    pub fn on_day(&self, day: u16) -> Book {
        let rules = match &self.days {
            None => self.rules.clone(),
            Some(days) => {
                let places = 0..self.rules.len();
                let standing = places.filter(|&place| self.stands(days, place, day));
                standing.map(|place| self.rules[place].clone()).collect()
            }
        };
        Book {
            operators: self.operators.clone(),
            rules,
            days: None,
        }
    }

    /// Rules of later days are absent. Of those whose left sides agree, only
    /// the latest day stands, and within a day the last in the book.
    fn stands(&self, days: &[u16], place: usize, day: u16) -> bool {
        let is_present = |other: usize| days[other] <= day;
        let is_later = |other: usize| (days[other], other) > (days[place], place);
        let left = &self.rules[place].left;
        let mut others = 0..self.rules.len();
        is_present(place)
            && !others.any(|other| {
                is_present(other) && is_later(other) && self.rules[other].left.agrees(left)
            })
    }

    /// The first rule in book order whose left side matches.
    pub fn first_match<'b, 't>(&'b self, term: &'t Term) -> Option<(&'b Rule, Filling<'t>)> {
        self.rules.iter().find_map(|rule| {
            let mut filling = [None; 16];
            rule.left
                .matches(term, &mut filling)
                .then_some((rule, filling))
        })
    }

    pub fn strategy(&self, term: &Term) -> &[Item] {
        &self.operators[usize::from(term.operator)].strategy
    }
}

// ---------------------------------------------------------------------------
// Strategies

/// (1 2 .. arity 0)
pub fn default_strategy(arity: u8) -> Vec<Item> {
    (1..=arity)
        .map(Item::Argument)
        .chain([Item::Whole])
        .collect()
}

pub fn settle(given: &[Item]) -> Vec<Item> {
    let mut mentioned = Vec::new();
    let mut settled: Vec<Item> = given
        .iter()
        .filter_map(|item| settle_item(item, &mut mentioned))
        .collect();
    // Only 0s can still have an equal neighbour: no argument is left twice.
    settled.dedup();
    settled
}

fn settle_item(item: &Item, mentioned: &mut Vec<u8>) -> Option<Item> {
    match item {
        Item::Whole => Some(Item::Whole),
        Item::Argument(argument) => settle_group(&[*argument], mentioned),
        Item::Group(arguments) => settle_group(arguments, mentioned),
    }
}

/// An argument outside a group settles as a group of one does.
fn settle_group(arguments: &[u8], mentioned: &mut Vec<u8>) -> Option<Item> {
    let mut kept = Vec::new();
    for &argument in arguments {
        if !mentioned.contains(&argument) {
            mentioned.push(argument);
            kept.push(argument);
        }
    }
    match kept[..] {
        [] => None,
        [argument] => Some(Item::Argument(argument)),
        _ => Some(Item::Group(kept)),
    }
}

// ---------------------------------------------------------------------------
// The book's reader

struct Bits<'a> {
    bytes: &'a [u8],
    position: usize,
}

impl Bits<'_> {
    fn left(&self) -> usize {
        self.bytes.len() * 8 - self.position
    }

    fn take(&mut self, width: usize) -> Result<u8, u8> {
        if self.left() < width {
            return Err(refusal::BITS_RUN_OUT);
        }
        let value = (0..width).fold(0, |value, _| value << 1 | self.next_bit());
        Ok(value)
    }

    fn take_day(&mut self) -> Result<u16, u8> {
        Ok(u16::from_be_bytes([self.take(8)?, self.take(8)?]))
    }

    fn next_bit(&mut self) -> u8 {
        let bit = self.bytes[self.position / 8] >> (7 - self.position % 8) & 1;
        self.position += 1;
        bit
    }
}

/// A dated book starts with a byte 0.
pub fn is_dated(book: &[u8]) -> bool {
    book.first() == Some(&0)
}

/// A book in either form.
pub fn read_book(bytes: &[u8]) -> Result<Book, u8> {
    match bytes {
        [0, rest @ ..] => read_layout(rest, true),
        _ => read_layout(bytes, false),
    }
}

/// The layout that both forms share, but for the days.
fn read_layout(bytes: &[u8], dated: bool) -> Result<Book, u8> {
    let mut bits = Bits { bytes, position: 0 };
    let operators = read_operators(&mut bits)?;
    let count = bits.take(8)?;
    let mut rules = Vec::new();
    let mut days = dated.then(Vec::new);
    for _ in 0..count {
        if let Some(days) = &mut days {
            days.push(bits.take_day()?);
        }
        rules.push(read_rule(&mut bits, &operators, rules.len())?);
    }
    read_end(&mut bits)?;
    Ok(Book {
        operators,
        rules,
        days,
    })
}

fn read_operators(bits: &mut Bits) -> Result<Vec<Operator>, u8> {
    let count = bits.take(8)?;
    if count == 0 {
        return Err(refusal::NO_OPERATOR);
    }
    (0..count).map(|_| read_operator(bits)).collect()
}

fn read_operator(bits: &mut Bits) -> Result<Operator, u8> {
    let arity = bits.take(3)?;
    let given = match bits.take(1)? {
        0 => None,
        _ => Some(read_strategy(bits, arity)?),
    };
    let strategy = match &given {
        None => default_strategy(arity),
        Some(items) => settle(items),
    };
    Ok(Operator {
        arity,
        given,
        strategy,
    })
}

fn read_strategy(bits: &mut Bits, arity: u8) -> Result<Vec<Item>, u8> {
    let length = bits.take(5)?;
    let mut items = Vec::new();
    let mut group = None;
    for place in 1..=length {
        let item = bits.take(4)?;
        read_item(item, arity, &mut items, &mut group)?;
        if place == length && item != 0 {
            return Err(refusal::STRATEGY);
        }
    }
    Ok(items)
}

/// `group` holds the arguments of the open group, if one is open.
fn read_item(
    item: u8,
    arity: u8,
    items: &mut Vec<Item>,
    group: &mut Option<Vec<u8>>,
) -> Result<(), u8> {
    match (item, group.as_mut()) {
        (0, None) => items.push(Item::Whole),
        (1..=7, None) if item <= arity => items.push(Item::Argument(item)),
        (1..=7, Some(arguments)) if item <= arity => arguments.push(item),
        (8, None) => *group = Some(Vec::new()),
        (9, Some(arguments)) => {
            items.push(Item::Group(std::mem::take(arguments)));
            *group = None;
        }
        _ => return Err(refusal::STRATEGY),
    }
    Ok(())
}

fn read_rule(bits: &mut Bits, operators: &[Operator], place: usize) -> Result<Rule, u8> {
    let mut on_left = Vec::new();
    let left = read_side(bits, operators, &mut |variable, symbols_before| {
        if symbols_before == 0 {
            return Err(refusal::LEFT_IS_VARIABLE);
        }
        on_left.push(variable);
        Ok(())
    })?;
    let right = read_side(bits, operators, &mut |variable, _| {
        if on_left.contains(&variable) {
            Ok(())
        } else {
            Err(refusal::VARIABLE_ABSENT)
        }
    })?;
    Ok(Rule { left, right, place })
}

/// Tells whether a variable may stand after so many symbols of its side.
type VariableCheck<'a> = dyn FnMut(u8, usize) -> Result<(), u8> + 'a;

fn read_side(
    bits: &mut Bits,
    operators: &[Operator],
    check: &mut VariableCheck,
) -> Result<Pattern, u8> {
    read_pattern(bits, operators, check, &mut 0)
}

fn read_pattern(
    bits: &mut Bits,
    operators: &[Operator],
    check: &mut VariableCheck,
    symbols: &mut usize,
) -> Result<Pattern, u8> {
    // A symbol is due here, so the side is incomplete. This is told before
    // the bits are asked for.
    if *symbols == SIDE_LIMIT {
        return Err(refusal::SIDE_TOO_LONG);
    }
    if bits.take(1)? == 1 {
        let variable = bits.take(4)?;
        check(variable, *symbols)?;
        *symbols += 1;
        return Ok(Pattern::Variable(variable));
    }
    let operator = bits.take(8)?;
    let known = operators
        .get(usize::from(operator))
        .ok_or(refusal::RULE_OPERATOR)?;
    *symbols += 1;
    let arguments = (0..known.arity)
        .map(|_| read_pattern(bits, operators, check, symbols))
        .collect::<Result<_, u8>>()?;
    Ok(Pattern::Operator(operator, arguments))
}

fn read_end(bits: &mut Bits) -> Result<(), u8> {
    let padding = bits.left() % 8;
    if bits.take(padding)? != 0 || bits.left() > 0 {
        return Err(refusal::BOOK_END);
    }
    Ok(())
}

// ---------------------------------------------------------------------------
// The book's writer

/// Fields packed most significant bit first.
#[derive(Default)]
pub struct Packer {
    bytes: Vec<u8>,
    used: usize,
}

impl Packer {
    pub fn put(&mut self, value: u8, width: usize) {
        for place in (0..width).rev() {
            self.put_bit(value >> place & 1);
        }
    }

    pub fn put_day(&mut self, day: u16) {
        for byte in day.to_be_bytes() {
            self.put(byte, 8);
        }
    }

    fn put_bit(&mut self, bit: u8) {
        if self.used == self.bytes.len() * 8 {
            self.bytes.push(0);
        }
        self.bytes[self.used / 8] |= bit << (7 - self.used % 8);
        self.used += 1;
    }

    /// The bits not yet used in the last byte are the zero padding.
    pub fn into_bytes(self) -> Vec<u8> {
        self.bytes
    }
}

pub fn written(book: &[u8], output_len: usize) -> Result<Vec<u8>, u8> {
    let bytes = write_book(&read_book(book)?);
    if output_len < bytes.len() {
        return Err(refusal::OUTPUT);
    }
    Ok(bytes)
}

/// Keeps the book's form, days included, and rules that don't stand. Counts of
/// a book that was read fit their fields: settling only shortens.
pub fn write_book(book: &Book) -> Vec<u8> {
    let mut packer = Packer::default();
    if book.days.is_some() {
        packer.put(0, 8);
    }
    packer.put(book.operators.len() as u8, 8);
    for operator in &book.operators {
        write_operator(&mut packer, operator);
    }
    packer.put(book.rules.len() as u8, 8);
    for (place, rule) in book.rules.iter().enumerate() {
        if let Some(days) = &book.days {
            packer.put_day(days[place]);
        }
        write_pattern(&mut packer, &rule.left);
        write_pattern(&mut packer, &rule.right);
    }
    packer.into_bytes()
}

fn write_operator(packer: &mut Packer, operator: &Operator) {
    packer.put(operator.arity, 3);
    if operator.strategy == default_strategy(operator.arity) {
        packer.put(0, 1);
        return;
    }
    let items = item_numbers(&operator.strategy);
    packer.put(1, 1);
    packer.put(items.len() as u8, 5);
    for item in items {
        packer.put(item, 4);
    }
}

/// The 4-bit items of a list, with 8 and 9 around each group.
pub fn item_numbers(items: &[Item]) -> Vec<u8> {
    let mut numbers = Vec::new();
    for item in items {
        match item {
            Item::Whole => numbers.push(0),
            Item::Argument(argument) => numbers.push(*argument),
            Item::Group(arguments) => {
                numbers.push(8);
                numbers.extend(arguments);
                numbers.push(9);
            }
        }
    }
    numbers
}

fn write_pattern(packer: &mut Packer, pattern: &Pattern) {
    match pattern {
        Pattern::Variable(variable) => {
            packer.put(1, 1);
            packer.put(*variable, 4);
        }
        Pattern::Operator(operator, arguments) => {
            packer.put(0, 1);
            packer.put(*operator, 8);
            for argument in arguments {
                write_pattern(packer, argument);
            }
        }
    }
}

// ---------------------------------------------------------------------------
// The line's reader

pub fn read_line(book: &Book, line: &[u8]) -> Result<Term, u8> {
    if line.len() > TERM_LIMIT {
        return Err(refusal::TERM_TOO_LONG);
    }
    let mut rest = line.iter();
    let term = read_term(book, &mut rest)?;
    if rest.next().is_some() {
        return Err(refusal::TERM_SHAPE);
    }
    Ok(term)
}

fn read_term(book: &Book, rest: &mut std::slice::Iter<u8>) -> Result<Term, u8> {
    let operator = *rest.next().ok_or(refusal::TERM_SHAPE)?;
    let known = book
        .operators
        .get(usize::from(operator))
        .ok_or(refusal::TERM_OPERATOR)?;
    let arguments = (0..known.arity)
        .map(|_| read_term(book, rest))
        .collect::<Result<_, u8>>()?;
    Ok(Term::new(operator, arguments))
}

// ---------------------------------------------------------------------------
// The text's reader

/// The operator at the bottom of a text's term.
pub const END: u8 = 0;

/// The class of a run of separators between letters or digits, and the last
/// of the class operators.
pub const GAP: u8 = 42;

/// The class of a byte of ISO 8859-1, or `None` if it separates.
pub fn class(byte: u8) -> Option<u8> {
    match byte {
        b'A'..=b'Z' => Some(byte - b'A' + 1),
        b'a'..=b'z' => Some(byte - b'a' + 1),
        0xC0..=0xC5 | 0xE0..=0xE5 => class(b'A'),
        0xC7 | 0xE7 => class(b'C'),
        0xC8..=0xCB | 0xE8..=0xEB => class(b'E'),
        0xCC..=0xCF | 0xEC..=0xEF => class(b'I'),
        0xD1 | 0xF1 => class(b'N'),
        0xD2..=0xD6 | 0xF2..=0xF6 => class(b'O'),
        0xD9..=0xDC | 0xF9..=0xFC => class(b'U'),
        0xDD | 0xFD | 0xFF => class(b'Y'),
        0xC6 | 0xE6 => Some(27),
        0xD0 | 0xF0 => Some(28),
        0xD8 | 0xF8 => Some(29),
        0xDE | 0xFE => Some(30),
        0xDF => Some(31),
        b'0'..=b'9' => Some(byte - b'0' + 32),
        _ => None,
    }
}

/// The classes of a text, with one `GAP` between words and none at the ends.
pub fn squeezed(text: &[u8]) -> Vec<u8> {
    let words: Vec<Vec<u8>> = text
        .split(|&byte| class(byte).is_none())
        .filter(|word| !word.is_empty())
        .map(|word| word.iter().filter_map(|&byte| class(byte)).collect())
        .collect();
    words.join(&GAP)
}

pub fn read_text(book: &Book, text: &[u8]) -> Result<Term, u8> {
    check_class_operators(book)?;
    let classes = squeezed(text);
    check_text_length(&classes)?;
    Ok(text_term(&classes))
}

/// Operator 0 is a constant, and each of 1 to 42 has one argument.
pub fn check_class_operators(book: &Book) -> Result<(), u8> {
    let has_arity = |number: u8, due: u8| {
        let operator = book.operators.get(usize::from(number));
        operator.is_some_and(|operator| operator.arity == due)
    };
    if has_arity(END, 0) && (1..=GAP).all(|class| has_arity(class, 1)) {
        Ok(())
    } else {
        Err(refusal::CLASS_OPERATORS)
    }
}

/// The term has a symbol for each class, and `END`.
pub fn check_text_length(classes: &[u8]) -> Result<(), u8> {
    if classes.len() + 1 > TERM_LIMIT {
        return Err(refusal::TEXT_TOO_LONG);
    }
    Ok(())
}

/// The first class is at the root.
pub fn text_term(classes: &[u8]) -> Term {
    let end = Term::new(END, Vec::new());
    classes
        .iter()
        .rfold(end, |rest, &operator| Term::new(operator, vec![rest]))
}

/// What stands where a run takes its term from.
#[derive(Clone, Copy, Debug, Default, PartialEq, Eq)]
pub enum Form {
    /// The term itself.
    #[default]
    Line,
    /// A payee's text.
    Text,
}

impl Form {
    pub fn read(self, book: &Book, bytes: &[u8]) -> Result<Term, u8> {
        match self {
            Form::Line => read_line(book, bytes),
            Form::Text => read_text(book, bytes),
        }
    }
}

// ---------------------------------------------------------------------------
// Reduction one after the other

/// The reduced term and its rewrites, or `None` if it needs over `most`.
pub fn reduce(book: &Book, mut term: Term, most: u64) -> Option<(Term, u64)> {
    let mut rewrites = 0;
    reduce_part(book, &mut term, &mut rewrites, most)?;
    Some((term, rewrites))
}

fn reduce_part(book: &Book, term: &mut Term, rewrites: &mut u64, most: u64) -> Option<()> {
    while reduce_items(book, term, rewrites, most)? {}
    Some(())
}

/// Answers true if the term was replaced, and so is to be reduced afresh.
fn reduce_items(book: &Book, term: &mut Term, rewrites: &mut u64, most: u64) -> Option<bool> {
    for item in book.strategy(term) {
        let arguments = match item {
            Item::Argument(argument) => std::slice::from_ref(argument),
            Item::Group(arguments) => arguments,
            Item::Whole => match book.first_match(term) {
                None => continue,
                Some(_) if *rewrites == most => return None,
                Some((rule, filling)) => {
                    *term = rule.right.filled(&filling);
                    *rewrites += 1;
                    return Some(true);
                }
            },
        };
        for argument in arguments {
            let part = &mut term.arguments[usize::from(*argument) - 1];
            reduce_part(book, part, rewrites, most)?;
        }
    }
    Some(false)
}

// ---------------------------------------------------------------------------
// The units and their orders

/// A JOIN is named by its height: how many orders lie under it in its list.
/// Lists change only at the top, so a height stays true while the JOIN does.
#[derive(Clone, Debug, PartialEq, Eq)]
pub enum Order {
    Visit(Position),
    /// The JOIN is in the same list.
    Fork {
        argument: Position,
        join: usize,
    },
    Join {
        count: usize,
    },
    Exit {
        unit: usize,
        join: usize,
    },
    /// `below` is how many orders lie under those of the term itself.
    Whole {
        term: Position,
        below: usize,
    },
    Sleep,
    Bingo,
}

#[derive(Clone, Debug)]
pub struct Unit {
    pub busy: bool,
    /// The last order of the vector is the top one.
    pub orders: Vec<Order>,
}

impl Unit {
    fn main() -> Unit {
        Unit {
            busy: true,
            orders: vec![Order::Bingo, Order::Visit(Vec::new())],
        }
    }

    fn other() -> Unit {
        Unit {
            busy: false,
            orders: vec![Order::Sleep],
        }
    }
}

/// All that a run works on.
///
/// Forked parts stay in their place of the one tree, so `term` is the present
/// term throughout. Positions stay true: above a part in work no WHOLE acts
/// before the part's JOIN has passed.
pub struct Machine<'b> {
    pub book: &'b Book,
    pub term: Term,
    /// The symbols of `term`.
    pub size: usize,
    pub size_limit: usize,
    pub units: Vec<Unit>,
    /// The idle units, the one that has been idle longest in front.
    pub queue: VecDeque<usize>,
    pub budget: u64,
    pub rewrites: u64,
    pub entries: u64,
    pub granted: u64,
    /// FORKs that found no idle unit.
    pub kept: u64,
}

impl<'b> Machine<'b> {
    pub fn new(book: &'b Book, line: Term, units: u8, budget: u32) -> Machine<'b> {
        let others = (1..units).map(|_| Unit::other());
        Machine {
            book,
            size: line.size(),
            size_limit: TERM_LIMIT,
            term: line,
            units: [Unit::main()].into_iter().chain(others).collect(),
            queue: (1..usize::from(units)).collect(),
            budget: u64::from(budget),
            rewrites: 0,
            entries: 0,
            granted: 0,
            kept: 0,
        }
    }

    /// Carries out a schedule and answers the run's ending.
    pub fn run(&mut self, schedule: &[u8]) -> u8 {
        for &unit in schedule {
            if let Some(ending) = self.entry(usize::from(unit)) {
                return ending;
            }
        }
        ending::CUT
    }

    /// The order that an entry for the unit carries out; none if it is idle.
    pub fn due(&self, unit: usize) -> Option<&Order> {
        let unit = &self.units[unit];
        unit.orders.last().filter(|_| unit.busy)
    }

    /// Carries out one schedule entry; answers the ending if it ends the run.
    pub fn entry(&mut self, unit: usize) -> Option<u8> {
        self.entries += 1;
        if !self.units[unit].busy {
            return None;
        }
        // The lowest order, SLEEP or BINGO, is never dropped.
        match self.units[unit]
            .orders
            .pop()
            .expect("a list is never empty")
        {
            Order::Visit(term) => self.visit(unit, term),
            Order::Fork { argument, join } => self.fork(unit, argument, join),
            Order::Join { count: 0 } => {}
            waiting @ (Order::Join { .. } | Order::Sleep) => self.wait(unit, waiting),
            Order::Exit { unit: parent, join } => self.exit(parent, join),
            Order::Whole { term, below } => return self.whole(unit, term, below),
            Order::Bingo => return Some(ending::FINISHED),
        }
        None
    }

    /// A marked part is dropped. The last item goes to the list first, so that
    /// the first ends on top; an empty strategy finishes the part.
    fn visit(&mut self, unit: usize, term: Position) {
        let book = self.book;
        let part = present_part_mut(&mut self.term, &term);
        if part.marked {
            return;
        }
        let strategy = book.strategy(part);
        part.marked = strategy.is_empty();
        let orders = &mut self.units[unit].orders;
        let below = orders.len();
        for item in strategy.iter().rev() {
            match item {
                Item::Whole => orders.push(Order::Whole {
                    term: term.clone(),
                    below,
                }),
                Item::Argument(argument) => orders.push(Order::Visit(child(&term, *argument))),
                Item::Group(arguments) => push_group(orders, &term, arguments),
            }
        }
    }

    fn fork(&mut self, unit: usize, argument: Position, join: usize) {
        match self.queue.pop_front() {
            Some(helper) => {
                self.granted += 1;
                let helper = &mut self.units[helper];
                helper.busy = true;
                helper.orders.push(Order::Exit { unit, join });
                helper.orders.push(Order::Visit(argument));
            }
            None => {
                self.kept += 1;
                self.lower_count(unit, join);
                self.units[unit].orders.push(Order::Visit(argument));
            }
        }
    }

    fn wait(&mut self, unit: usize, top: Order) {
        self.units[unit].orders.push(top);
        self.units[unit].busy = false;
        self.queue.push_back(unit);
    }

    /// A woken unit leaves its place in the queue. It tests its own top order
    /// at its next entry: that may be another JOIN than the one whose count
    /// fell.
    fn exit(&mut self, parent: usize, join: usize) {
        if self.lower_count(parent, join) == 0 {
            self.units[parent].busy = true;
            self.queue.retain(|&idle| idle != parent);
        }
    }

    fn lower_count(&mut self, unit: usize, join: usize) -> usize {
        match &mut self.units[unit].orders[join] {
            Order::Join { count } => {
                *count -= 1;
                *count
            }
            other => panic!("{other:?} stands where a JOIN was placed"),
        }
    }

    fn whole(&mut self, unit: usize, term: Position, below: usize) -> Option<u8> {
        let part = present_part(&self.term, &term);
        let Some((rule, filling)) = self.book.first_match(part) else {
            self.miss(unit, &term, below);
            return None;
        };
        if self.rewrites == self.budget {
            return Some(ending::SPENT);
        }
        let size = self.size - part.size() + rule.right.filled_size(&filling);
        if size > self.size_limit {
            return Some(ending::FULL);
        }
        *present_part_mut(&mut self.term, &term) = rule.right.filled(&filling);
        self.size = size;
        debug_assert_eq!(self.size, self.term.size());
        self.rewrites += 1;
        self.units[unit].orders.truncate(below);
        self.units[unit].orders.push(Order::Visit(term));
        None
    }

    /// Only the last of a term's orders finishes it.
    fn miss(&mut self, unit: usize, term: &[u8], below: usize) {
        if self.units[unit].orders.len() == below {
            present_part_mut(&mut self.term, term).marked = true;
        }
    }

    pub fn answer(&self, ending: u8) -> Answer {
        Answer {
            ending,
            rewrites: self.rewrites,
            entries: self.entries,
            granted: self.granted,
            kept: self.kept,
            term: self.term.preorder(),
        }
    }
}

fn present_part<'t>(term: &'t Term, at: &[u8]) -> &'t Term {
    term.part(at)
        .expect("an order names a part of the present term")
}

fn present_part_mut<'t>(term: &'t mut Term, at: &[u8]) -> &'t mut Term {
    term.part_mut(at)
        .expect("an order names a part of the present term")
}

fn child(term: &[u8], argument: u8) -> Position {
    let mut position = term.to_vec();
    position.push(argument);
    position
}

/// A settled group has at least two arguments.
fn push_group(orders: &mut Vec<Order>, term: &[u8], arguments: &[u8]) {
    let (last, forked) = arguments
        .split_last()
        .expect("a settled group is not empty");
    let join = orders.len();
    orders.push(Order::Join {
        count: forked.len(),
    });
    orders.push(Order::Visit(child(term, *last)));
    for argument in forked.iter().rev() {
        orders.push(Order::Fork {
            argument: child(term, *argument),
            join,
        });
    }
}

// ---------------------------------------------------------------------------
// The answer of a run

#[derive(Clone, Debug, PartialEq, Eq)]
pub struct Answer {
    pub ending: u8,
    pub rewrites: u64,
    pub entries: u64,
    pub granted: u64,
    /// In a finished run granted and kept together are the FORKs of a run on
    /// one unit without symbol limit.
    pub kept: u64,
    pub term: Vec<u8>,
}

/// The lengths of the buffers that a run writes to.
#[derive(Clone, Copy, Debug, PartialEq, Eq)]
pub struct Lengths {
    pub work: usize,
    pub net: usize,
    pub output: usize,
}

impl Lengths {
    /// Areas of these lengths, and the output that every run asks for.
    pub const fn of_areas(work: usize, net: usize) -> Lengths {
        Lengths {
            work,
            net,
            output: OUTPUT_LEN,
        }
    }

    /// What the model itself needs.
    pub const LEAST: Lengths = Lengths::of_areas(0, 0);
}

/// The answer to a line that is a term. How long the work area and the net's
/// have to be depends on the implementation: `asked` says it.
#[allow(clippy::too_many_arguments)]
pub fn answer(
    book: &[u8],
    line: &[u8],
    units: u8,
    budget: u32,
    day: u16,
    schedule: &[u8],
    lent: Lengths,
    asked: Lengths,
) -> Result<Answer, u8> {
    answer_to(
        Form::Line,
        book,
        line,
        units,
        budget,
        day,
        schedule,
        lent,
        asked,
    )
}

#[allow(clippy::too_many_arguments)]
pub fn answer_to(
    form: Form,
    book: &[u8],
    line: &[u8],
    units: u8,
    budget: u32,
    day: u16,
    schedule: &[u8],
    lent: Lengths,
    asked: Lengths,
) -> Result<Answer, u8> {
    check_frame(units, lent, asked)?;
    let book = read_book(book)?.on_day(day);
    let line = form.read(&book, line)?;
    check_schedule(schedule, units)?;
    let mut machine = Machine::new(&book, line, units, budget);
    let ending = machine.run(schedule);
    Ok(machine.answer(ending))
}

pub fn check_frame(units: u8, lent: Lengths, asked: Lengths) -> Result<(), u8> {
    if !(1..=8).contains(&units) {
        Err(refusal::UNITS)
    } else if lent.work < asked.work || lent.net < asked.net {
        Err(refusal::AREA)
    } else if lent.output < asked.output {
        Err(refusal::OUTPUT)
    } else {
        Ok(())
    }
}

/// Entries that the run would never reach are checked as well.
pub fn check_schedule(schedule: &[u8], units: u8) -> Result<(), u8> {
    if schedule.iter().any(|&unit| unit >= units) {
        return Err(refusal::SCHEDULE);
    }
    Ok(())
}

// ---------------------------------------------------------------------------
// The program's input and page

/// The page of the program for lines that are terms.
pub fn page(input: &[u8]) -> Vec<u8> {
    page_of(Form::Line, input)
}

/// Both programs have the same layout of their input, and the same page.
pub fn page_of(form: Form, input: &[u8]) -> Vec<u8> {
    let mut text = String::from("REDUCE 1\n");
    match page_answer(form, input) {
        Ok(answer) => write_answer(&mut text, &answer),
        Err(number) => write_line(&mut text, "refused", number),
    }
    text.into_bytes()
}

/// The program lends buffers of its own that are always long enough.
fn page_answer(form: Form, input: &[u8]) -> Result<Answer, u8> {
    let mut rest = input;
    let book = take_announced(&mut rest)?;
    let line = take_announced(&mut rest)?;
    let units = take_number(&mut rest, 1)? as u8;
    let budget = take_number(&mut rest, 4)?;
    let day = match is_dated(book) {
        true => take_number(&mut rest, 2)? as u16,
        false => 0,
    };
    if rest.len() > SCHEDULE_LIMIT {
        return Err(refusal::INPUT);
    }
    let lengths = Lengths::LEAST;
    answer_to(form, book, line, units, budget, day, rest, lengths, lengths)
}

pub fn take_announced<'a>(rest: &mut &'a [u8]) -> Result<&'a [u8], u8> {
    let length = take_number(rest, 2)?;
    take_bytes(rest, length as usize)
}

fn take_number(rest: &mut &[u8], length: usize) -> Result<u32, u8> {
    let bytes = take_bytes(rest, length)?;
    Ok(bytes
        .iter()
        .fold(0, |number, &byte| number << 8 | u32::from(byte)))
}

fn take_bytes<'a>(rest: &mut &'a [u8], length: usize) -> Result<&'a [u8], u8> {
    if rest.len() < length {
        return Err(refusal::INPUT);
    }
    let (bytes, after) = rest.split_at(length);
    *rest = after;
    Ok(bytes)
}

fn write_answer(text: &mut String, answer: &Answer) {
    write_line(text, "end", answer.ending);
    write_line(text, "rewrites", answer.rewrites);
    write_line(text, "entries", answer.entries);
    write_line(text, "granted", answer.granted);
    write_line(text, "kept", answer.kept);
    text.push_str("term");
    for operator in &answer.term {
        write!(text, " {operator}").expect("a string takes any text");
    }
    text.push('\n');
}

fn write_line(text: &mut String, name: &str, value: impl Into<u64>) {
    let value: u64 = value.into();
    writeln!(text, "{name} {value}").expect("a string takes any text");
}
