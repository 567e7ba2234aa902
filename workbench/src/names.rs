//! The operators' names and arities, and the variables' names: what a packed
//! book doesn't keep.

use std::collections::HashMap;

use comparison::model::Book;

use crate::letters;

#[derive(Clone, Debug, Default)]
pub struct Names {
    operators: Vec<(String, u8)>,
    numbers: HashMap<String, u8>,
    /// Of each rule, its variables by number.
    variables: Vec<HashMap<u8, String>>,
}

impl Names {
    /// The caller has seen to it that the name is new and a number is left.
    pub fn add(&mut self, name: &str, arity: u8) {
        let number = u8::try_from(self.operators.len()).expect("at most 255 operators");
        self.numbers.insert(name.to_owned(), number);
        self.operators.push((name.to_owned(), arity));
    }

    /// The names of the next rule's variables.
    pub fn add_rule(&mut self, variables: HashMap<u8, String>) {
        self.variables.push(variables);
    }

    /// The rules are another book's.
    pub fn without_variables(self) -> Names {
        Names {
            variables: Vec::new(),
            ..self
        }
    }

    /// A variable of a rule, counted from 0, as the text calls it; made up
    /// where there is none.
    pub fn variable(&self, rule: usize, number: u8) -> String {
        let called = self.variables.get(rule).and_then(|own| own.get(&number));
        called.cloned().unwrap_or_else(|| {
            let prefix = self.variable_prefix();
            format!("{prefix}{number}")
        })
    }

    /// Made-up variables are called by this and their number; no operator is.
    pub fn variable_prefix(&self) -> String {
        let mut prefix = String::from("X");
        while (0..16).any(|number| self.number(&format!("{prefix}{number}")).is_some()) {
            prefix.push('_');
        }
        prefix
    }

    /// f0, f1 and so on, for a book that comes without names.
    pub fn generated(book: &Book) -> Names {
        let mut names = Names::default();
        for (number, operator) in book.operators.iter().enumerate() {
            names.add(&format!("f{number}"), operator.arity);
        }
        names
    }

    /// The same with the letters of payees' texts, if the book has operators
    /// for them.
    pub fn generated_with_letters(book: &Book) -> Names {
        let mut names = Names::default();
        for (number, operator) in book.operators.iter().enumerate() {
            match letters::NAMES.get(number) {
                Some(letter) => names.add(letter, operator.arity),
                None => names.add(&format!("f{number}"), operator.arity),
            }
        }
        match names.have_letters() {
            true => names,
            false => Names::generated(book),
        }
    }

    /// Whether operators 0 to 42 are the letters of payees' texts.
    pub fn have_letters(&self) -> bool {
        self.operators.len() >= letters::NAMES.len()
            && letters::declared()
                .zip(&self.operators)
                .all(|((letter, due), (name, arity))| name == letter && *arity == due)
    }

    /// Whether these can be the names of that book's operators.
    pub fn fit(&self, book: &Book) -> bool {
        let arities = book.operators.iter().map(|operator| operator.arity);
        self.operators.iter().map(|known| known.1).eq(arities)
    }

    pub fn len(&self) -> usize {
        self.operators.len()
    }

    pub fn is_empty(&self) -> bool {
        self.operators.is_empty()
    }

    pub fn number(&self, name: &str) -> Option<u8> {
        self.numbers.get(name).copied()
    }

    pub fn name(&self, operator: u8) -> &str {
        &self.operators[usize::from(operator)].0
    }

    pub fn arity(&self, operator: u8) -> usize {
        usize::from(self.operators[usize::from(operator)].1)
    }

    /// The character that the operator is in a string, if it can stand in one.
    pub fn character(&self, operator: u8) -> Option<char> {
        let mut characters = self.name(operator).chars();
        match (characters.next(), characters.next()) {
            (Some('_'), None) if self.arity(operator) == 1 => Some(' '),
            (Some(only), None) if self.arity(operator) == 1 => Some(only),
            _ => None,
        }
    }

    pub fn all(&self) -> impl Iterator<Item = &str> {
        self.operators.iter().map(|(name, _)| name.as_str())
    }
}

/// The known name that is nearest to a mistyped one, if any is near.
pub fn nearest<'n>(known: impl Iterator<Item = &'n str>, mistyped: &str) -> Option<&'n str> {
    let room = mistyped.chars().count().div_ceil(3);
    known
        .map(|name| (distance(name, mistyped), name))
        .filter(|(changes, name)| *changes <= room && name.chars().count() > 1)
        .min()
        .map(|(_, name)| name)
}

/// Insertions, removals and replacements that lead from one name to the other;
/// capitals are as small letters here.
fn distance(one: &str, other: &str) -> usize {
    let other: Vec<char> = other.to_lowercase().chars().collect();
    let mut row: Vec<usize> = (0..=other.len()).collect();
    for (above, character) in one.to_lowercase().chars().enumerate() {
        let mut diagonal = row[0];
        row[0] = above + 1;
        for place in 0..other.len() {
            let replaced = diagonal + usize::from(character != other[place]);
            diagonal = row[place + 1];
            row[place + 1] = replaced.min(diagonal + 1).min(row[place] + 1);
        }
    }
    row[other.len()]
}
