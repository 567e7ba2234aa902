//! Lines: terms typed by the operators' names, and payees as they are typed.

use crate::compose::is_loose_accent;
use crate::mistake::{Mistake, Span};
use crate::names::Names;
use crate::text::parser::{loose_accent, parse_term};
use crate::text::sides::{arguments, unknown};
use crate::told::with_code_point;

/// The line's symbols. Its length is the engine's to judge.
pub fn read(text: &str, names: &Names) -> Result<Vec<u8>, Mistake> {
    let mut symbols = Vec::new();
    let has_letters = names.have_letters();
    for mut word in parse_term(text)? {
        if has_letters {
            word.to_letter(|name| names.number(name).is_some());
        }
        let Some(operator) = names.number(&word.name.text) else {
            return Err(unknown(&word, names.all(), "an operator"));
        };
        if let Some((_, span)) = word.number {
            let wrong = "a line has no variables";
            return Err(Mistake::new(span, wrong, "no number behind the name"));
        }
        arguments(&word, names.arity(operator))?;
        symbols.push(operator);
    }
    Ok(symbols)
}

/// A payee's text in ISO 8859-1, whose bytes are the characters of the same
/// numbers. Its length is the engine's to judge.
pub fn read_payee(text: &str) -> Result<Vec<u8>, Mistake> {
    let byte = |(start, character): (usize, char)| {
        let span = Span::new(start, start + character.len_utf8());
        u8::try_from(character).map_err(|_| not_latin1(character, span))
    };
    text.char_indices().map(byte).collect()
}

fn not_latin1(character: char, span: Span) -> Mistake {
    if is_loose_accent(character) {
        let (wrong, expected) = loose_accent(character);
        return Mistake::new(span, wrong, expected);
    }
    let wrong = format!("ISO 8859-1 does not have {}", with_code_point(character));
    Mistake::new(span, wrong, "a payee in characters that it has")
}
