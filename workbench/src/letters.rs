//! The names of the operators that the terms of payees' texts are made of.

use comparison::model::{class, GAP};
use kurvneist::Refusal;

/// The word that declares them: `op letters`.
pub const KEYWORD: &str = "letters";

/// Operator 0, which ends a text; a letter or digit for each class of bytes;
/// and 42, for what separates words, by the name that a space has in strings.
pub const NAMES: [&str; GAP as usize + 1] = [
    "end", "a", "b", "c", "d", "e", "f", "g", "h", "i", "j", "k", "l", "m", "n", "o", "p", "q",
    "r", "s", "t", "u", "v", "w", "x", "y", "z", "æ", "ð", "ø", "þ", "ß", "0", "1", "2", "3", "4",
    "5", "6", "7", "8", "9", "_",
];

/// The names with the arities that texts ask for.
pub fn declared() -> impl Iterator<Item = (&'static str, u8)> {
    NAMES.into_iter().zip([0].into_iter().chain([1; 42]))
}

/// The name of a character's class, if ISO 8859-1 has the character.
pub fn letter(character: char) -> Option<&'static str> {
    let byte = u8::try_from(character).ok()?;
    Some(NAMES[usize::from(class(byte).unwrap_or(GAP))])
}

/// A refusal in words, and what mends a book without letters.
pub fn told(refusal: &Refusal) -> String {
    match refusal {
        Refusal::NoLetters => format!("{refusal}; 'op {KEYWORD}' declares them"),
        _ => refusal.to_string(),
    }
}
