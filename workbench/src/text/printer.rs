//! Books and terms as text.

use std::cell::RefCell;
use std::collections::HashSet;
use std::fmt::Write;
use std::ops::Range;

use comparison::draft::Symbol;
use comparison::model::{default_strategy, item_numbers, Book, Item, Operator, Pattern, Rule};

use crate::day;
use crate::letters;
use crate::names::Names;
use crate::text::lexer::{escaped, is_name_character};

/// The text of a book that the proved writer wrote.
pub fn book(book: &Book, names: &Names) -> String {
    let mut text = String::new();
    let letters = letter_count(book, names);
    if letters > 0 {
        text.push_str("op letters\n");
    }
    for (number, operator) in (0..=255).zip(&book.operators).skip(letters) {
        text.push_str(&operator_line(names.name(number), operator));
    }
    if !book.rules.is_empty() {
        text.push('\n');
    }
    let prefix = names.variable_prefix();
    let used = variables_used(book);
    if !used.is_empty() {
        text.push_str("var");
        for variable in used {
            write!(text, " {prefix}{variable}").expect("a string takes any text");
        }
        text.push('\n');
    }
    if book.days.as_ref().is_some_and(Vec::is_empty) {
        text.push_str(&format!("\n{}", from_line(0)));
    }
    let mut before = None;
    for (place, rule) in book.rules.iter().enumerate() {
        let day = book.days.as_ref().map(|days| days[place]);
        if let Some(day) = day.filter(|_| day != before) {
            text.push_str(&from_line(day));
        }
        before = day;
        text.push_str(&rule_line(rule, names, &prefix));
    }
    text
}

/// The day of the rules behind it, by date and number.
fn from_line(day: u16) -> String {
    format!("from {} # day {day}\n", day::date(day))
}

/// How many operators `op letters` declares, if it can: it gives no strategies.
fn letter_count(book: &Book, names: &Names) -> usize {
    let count = letters::NAMES.len();
    let mut first = book.operators.iter().take(count);
    match names.have_letters() && first.all(has_default_strategy) {
        true => count,
        false => 0,
    }
}

fn has_default_strategy(operator: &Operator) -> bool {
    operator.strategy == default_strategy(operator.arity)
}

fn operator_line(name: &str, operator: &Operator) -> String {
    let arity = operator.arity;
    let name = match name.chars().all(is_name_character) {
        true => name.to_owned(),
        false => format!("\"{}\"", escaped(name)),
    };
    if has_default_strategy(operator) {
        format!("op {name}/{arity}\n")
    } else {
        format!("op {name}/{arity} {}\n", strategy(&operator.strategy))
    }
}

/// In the usual notation, as ({1 2} 0).
pub fn strategy(items: &[Item]) -> String {
    let mut text = String::from("(");
    for item in item_numbers(items) {
        let spaced = !text.ends_with(['(', '{']) && item != 9;
        text.push_str(if spaced { " " } else { "" });
        match item {
            8 => text.push('{'),
            9 => text.push('}'),
            _ => text.push(char::from(b'0' + item)),
        }
    }
    text.push(')');
    text
}

fn variables_used(book: &Book) -> Vec<u8> {
    let mut used: Vec<u8> = book
        .rules
        .iter()
        .flat_map(|rule| variables(&preorder(&rule.left)))
        .collect();
    used.sort_unstable();
    used.dedup();
    used
}

/// The variables in order of appearance, each once.
pub fn variables(side: &[Symbol]) -> Vec<u8> {
    let mut variables = Vec::new();
    for symbol in side {
        match symbol {
            Symbol::Variable(variable) if !variables.contains(variable) => {
                variables.push(*variable);
            }
            _ => {}
        }
    }
    variables
}

/// Variables that aren't numbered in order of appearance say their numbers,
/// where they first stand.
fn rule_line(rule: &Rule, names: &Names, prefix: &str) -> String {
    let left = preorder(&rule.left);
    let right = preorder(&rule.right);
    let in_order = variables(&left)
        .into_iter()
        .eq(0..variables(&left).len() as u8);
    let variable = |number: u8| format!("{prefix}{number}");
    let said = RefCell::new(HashSet::new());
    let numbered = |number: u8| match said.borrow_mut().insert(number) {
        true => format!("{prefix}{number}:{number}"),
        false => variable(number),
    };
    let left = match in_order {
        true => Printer::new(names, &left, &variable).text(),
        false => Printer::new(names, &left, &numbered).text(),
    };
    let right = Printer::new(names, &right, &variable).text();
    format!("rule {left} = {right}\n")
}

/// Both sides of a rule, counted from 0, as its text has them.
pub fn rule(number: usize, rule: &Rule, names: &Names) -> String {
    let [left, right] = [&rule.left, &rule.right].map(|side| pattern(number, side, names));
    format!("{left} = {right}")
}

/// A part of a rule, counted from 0.
pub fn pattern(number: usize, pattern: &Pattern, names: &Names) -> String {
    let variable = |variable: u8| names.variable(number, variable);
    Printer::new(names, &preorder(pattern), &variable).text()
}

pub fn preorder(pattern: &Pattern) -> Vec<Symbol> {
    match pattern {
        Pattern::Variable(variable) => vec![Symbol::Variable(*variable)],
        Pattern::Operator(operator, arguments) => std::iter::once(Symbol::Operator(*operator))
            .chain(arguments.iter().flat_map(preorder))
            .collect(),
    }
}

/// A line or posting by names.
pub fn term(symbols: &[u8], names: &Names) -> String {
    marked_term(symbols, names, None).0
}

/// A term by names with the part that starts at `mark` in brackets, and where
/// the brackets stand in the text.
pub fn marked_term(
    symbols: &[u8],
    names: &Names,
    mark: Option<usize>,
) -> (String, Option<Range<usize>>) {
    let symbols: Vec<Symbol> = symbols.iter().copied().map(Symbol::Operator).collect();
    let mut printer = Printer::new(names, &symbols, &|_| String::new());
    printer.mark = mark;
    printer.part();
    (printer.text, printer.marked)
}

struct Printer<'a> {
    names: &'a Names,
    symbols: &'a [Symbol],
    variable: &'a dyn Fn(u8) -> String,
    mark: Option<usize>,
    at: usize,
    text: String,
    marked: Option<Range<usize>>,
}

impl<'a> Printer<'a> {
    fn new(
        names: &'a Names,
        symbols: &'a [Symbol],
        variable: &'a dyn Fn(u8) -> String,
    ) -> Printer<'a> {
        Printer {
            names,
            symbols,
            variable,
            mark: None,
            at: 0,
            text: String::new(),
            marked: None,
        }
    }

    fn text(mut self) -> String {
        self.part();
        self.text
    }

    /// One whole part. A term has at most 1,024 symbols, and so many calls.
    fn part(&mut self) {
        if self.mark != Some(self.at) {
            return self.unmarked_part();
        }
        let start = self.text.len();
        self.text.push('[');
        self.unmarked_part();
        self.text.push(']');
        self.marked = Some(start..self.text.len());
    }

    fn unmarked_part(&mut self) {
        let run = self.spelled_run();
        if run.chars().count() > 1 || !run.replace(' ', "_").chars().all(is_name_character) {
            return self.spelled(&run);
        }
        let symbol = self.symbols[self.at];
        self.at += 1;
        match symbol {
            Symbol::Variable(variable) => self.text.push_str(&(self.variable)(variable)),
            Symbol::Operator(operator) => {
                self.text.push_str(self.names.name(operator));
                self.arguments(self.names.arity(operator));
            }
        }
    }

    fn arguments(&mut self, count: usize) {
        for place in 0..count {
            self.text.push_str(if place == 0 { "(" } else { ", " });
            self.part();
        }
        self.text.push_str(if count > 0 { ")" } else { "" });
    }

    /// The one-character, one-argument operators from here on, as a string. It
    /// stops before a marked part.
    fn spelled_run(&self) -> String {
        (self.at..self.symbols.len())
            .take_while(|&place| place == self.at || self.mark != Some(place))
            .map_while(|place| match self.symbols[place] {
                Symbol::Operator(operator) => self.names.character(operator),
                Symbol::Variable(_) => None,
            })
            .collect()
    }

    /// The constant `end` behind a string is left away.
    fn spelled(&mut self, run: &str) {
        write!(self.text, "\"{}\"", escaped(run)).expect("a string takes any text");
        self.at += run.chars().count();
        if self.ends_here() && self.mark != Some(self.at) {
            self.at += 1;
        } else {
            self.arguments(1);
        }
    }

    fn ends_here(&self) -> bool {
        match self.symbols[self.at] {
            Symbol::Operator(operator) => {
                self.names.name(operator) == "end" && self.names.arity(operator) == 0
            }
            Symbol::Variable(_) => false,
        }
    }
}
