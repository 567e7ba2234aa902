//! The sides of rules: each word against its declaration, and the conditions
//! by which the reader refuses 5, 7 and 8, in reading order.

use std::collections::HashMap;

use comparison::draft::{RuleDraft, Symbol};

use crate::compose::is_loose_accent;
use crate::mistake::{Mistake, Span};
use crate::names::nearest;
use crate::text::parser::{loose_accent, Word, Words};
use crate::told::quoted;

/// What a declared name means.
#[derive(Clone, Copy, Debug)]
pub enum Meaning {
    Operator {
        number: u8,
        arity: u8,
    },
    /// Its declaration is mistaken, so that nothing is said about its uses.
    Unclear,
    Variable,
}

/// The declared names, and where each is declared.
pub type Meanings = HashMap<String, (Meaning, Span)>;

pub fn rule(meanings: &mut Meanings, left: &Words, right: &Words) -> Result<RuleDraft, Mistake> {
    let mut variables = Variables::default();
    variables.reserve(left)?;
    let left = side(meanings, left, &mut |place, word| {
        variables.on_left(place, word)
    })?;
    let right = side(meanings, right, &mut |_, word| variables.on_right(word))?;
    Ok(RuleDraft::new(left, right))
}

/// Answers the number of a variable at a place of its side.
type Numbering<'n> = dyn FnMut(usize, &Word) -> Result<u8, Mistake> + 'n;

fn side(
    meanings: &mut Meanings,
    words: &Words,
    numbering: &mut Numbering,
) -> Result<Vec<Symbol>, Mistake> {
    let mut symbols = Vec::new();
    for (place, word) in words.iter().enumerate() {
        if place == 64 {
            let wrong = "the side goes on after 64 symbols";
            let mistake = Mistake::new(word.name.span, wrong, "a side of 1 to 64 symbols");
            return Err(mistake.refused(8));
        }
        symbols.push(match meaning(meanings, word)? {
            Meaning::Operator { number, .. } => Symbol::Operator(number),
            Meaning::Variable => Symbol::Variable(numbering(place, word)?),
            // Any symbol will do: the book has a mistake already.
            Meaning::Unclear => Symbol::Operator(0),
        });
    }
    Ok(symbols)
}

/// Looks a word up and checks what is written behind it. An unknown name is
/// told once, however often it is used.
fn meaning(meanings: &mut Meanings, word: &Word) -> Result<Meaning, Mistake> {
    let Some(&(meaning, _)) = meanings.get(&word.name.text) else {
        let mistake = unknown(word, clear_names(meanings), "an operator or a variable");
        meanings.insert(word.name.text.clone(), (Meaning::Unclear, word.name.span));
        return Err(mistake);
    };
    match (meaning, word.number) {
        (Meaning::Operator { .. }, Some((_, span))) => {
            let wrong = format!("'{}' is not a variable", word.name.text);
            return Err(Mistake::new(span, wrong, "a number behind a variable only"));
        }
        (Meaning::Operator { arity, .. }, None) => arguments(word, arity.into())?,
        (Meaning::Variable, _) if word.arguments > 0 => {
            let wrong = format!("'{}' is a variable", word.name.text);
            let expected = "an operator before the arguments";
            return Err(Mistake::new(word.name.span, wrong, expected));
        }
        _ => {}
    }
    Ok(meaning)
}

fn clear_names(meanings: &Meanings) -> impl Iterator<Item = &str> {
    let clear = meanings
        .iter()
        .filter(|(_, (meaning, _))| !matches!(meaning, Meaning::Unclear));
    clear.map(|(name, _)| name.as_str())
}

/// The variables of a rule. Those with a written number have it; the others
/// get the lowest numbers that are left, in order of appearance.
#[derive(Default)]
struct Variables {
    numbers: HashMap<String, u8>,
}

impl Variables {
    /// A variable that stands again may have its number written again.
    fn reserve(&mut self, left: &Words) -> Result<(), Mistake> {
        for word in left {
            let Some((number, span)) = word.number else {
                continue;
            };
            let name = &word.name.text;
            match self.numbers.get(name) {
                Some(known) if *known != number => {
                    let wrong = format!("'{name}' has the number {known} in this side");
                    return Err(Mistake::new(span, wrong, "one number for a variable"));
                }
                None if self.is_taken(number) => {
                    let wrong = format!("another variable of this side has the number {number}");
                    return Err(Mistake::new(span, wrong, "a number of its own"));
                }
                _ => self.numbers.insert(name.clone(), number),
            };
        }
        Ok(())
    }

    fn on_left(&mut self, place: usize, word: &Word) -> Result<u8, Mistake> {
        let (name, span) = (&word.name.text, word.name.span);
        if place == 0 {
            let wrong = "the left side is a variable";
            return Err(Mistake::new(span, wrong, "an operator at its root").refused(5));
        }
        if let Some(number) = self.numbers.get(name) {
            return Ok(*number);
        }
        let number = (0..16).find(|number| !self.is_taken(*number));
        let number = number.ok_or_else(|| {
            let wrong = "this is the 17th variable of the rule";
            Mistake::new(span, wrong, "at most 16 variables in a rule")
        })?;
        self.numbers.insert(name.clone(), number);
        Ok(number)
    }

    fn is_taken(&self, number: u8) -> bool {
        self.numbers.values().any(|other| *other == number)
    }

    fn on_right(&self, word: &Word) -> Result<u8, Mistake> {
        if let Some((_, span)) = word.number {
            let wrong = "a number stands in the right side";
            let expected = "variables' numbers in the left side only";
            return Err(Mistake::new(span, wrong, expected));
        }
        self.numbers.get(&word.name.text).copied().ok_or_else(|| {
            let wrong = format!("'{}' is absent on the left", word.name.text);
            Mistake::new(word.name.span, wrong, "a variable of the left side").refused(7)
        })
    }
}

/// The mistake of a name that is not declared.
pub fn unknown<'n>(word: &Word, known: impl Iterator<Item = &'n str>, what: &str) -> Mistake {
    let name = &word.name.text;
    if let Some(accent) = name.chars().find(|character| is_loose_accent(*character)) {
        let (wrong, expected) = loose_accent(accent);
        return Mistake::new(word.name.span, wrong, expected);
    }
    if word.spelled {
        let name = quoted(name);
        let wrong = format!("the string needs the operator {name}, which is not declared");
        let expected = "a one-argument operator for each character, '_' for a space, and 'end'";
        return Mistake::new(word.name.span, wrong, expected);
    }
    let expected = match nearest(known, name) {
        Some(near) => format!("{what} that is declared, such as '{near}'"),
        None => format!("{what} that is declared"),
    };
    Mistake::new(word.name.span, format!("'{name}' is unknown"), expected)
}

/// The arguments written behind an operator against its arity.
pub fn arguments(word: &Word, arity: usize) -> Result<(), Mistake> {
    if word.arguments == arity {
        return Ok(());
    }
    let stands = match word.arguments {
        0 => "without arguments".into(),
        1 => "with 1 argument".into(),
        given => format!("with {given} arguments"),
    };
    let due = match arity {
        0 => "none".into(),
        _ => format!("{arity}"),
    };
    let wrong = format!("{} stands {stands}", quoted(&word.name.text));
    Err(Mistake::new(word.name.span, wrong, due))
}
