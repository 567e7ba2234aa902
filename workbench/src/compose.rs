//! Letters whose accents stand behind them (NFD), as single characters.

use std::borrow::Cow;

/// An accent as a character of its own, behind its letter.
pub fn is_loose_accent(character: char) -> bool {
    matches!(character, '\u{300}'..='\u{36f}')
}

/// The text with one character for each letter and accent that make one of
/// ISO 8859-1, or of Latin Extended-A for names in books. Another accent stays
/// where it is, to be told.
pub fn composed(text: &str) -> Cow<'_, str> {
    if !text.contains(is_loose_accent) {
        return Cow::Borrowed(text);
    }
    let mut whole = String::with_capacity(text.len());
    for character in text.chars() {
        match whole
            .chars()
            .next_back()
            .and_then(|letter| one(letter, character))
        {
            Some(both) => {
                whole.pop();
                whole.push(both);
            }
            None => whole.push(character),
        }
    }
    Cow::Owned(whole)
}

/// A letter and an accent as one character.
pub fn one(letter: char, accent: char) -> Option<char> {
    let (_, letters, accented) = TABLE.iter().find(|row| row.0 == accent)?;
    let place = letters.chars().position(|known| known == letter)?;
    accented.chars().nth(place)
}

/// Each accent, the letters that it stands on, and both as one.
const TABLE: &[(char, &str, &str)] = &[
    ('\u{300}', "AEIOUaeiou", "ÀÈÌÒÙàèìòù"),
    (
        '\u{301}',
        "AEIOUYaeiouyCcLlNnRrSsZz",
        "ÁÉÍÓÚÝáéíóúýĆćĹĺŃńŔŕŚśŹź",
    ),
    (
        '\u{302}',
        "AEIOUaeiouCcGgHhJjSsWwYy",
        "ÂÊÎÔÛâêîôûĈĉĜĝĤĥĴĵŜŝŴŵŶŷ",
    ),
    ('\u{303}', "ANOanoIiUu", "ÃÑÕãñõĨĩŨũ"),
    ('\u{304}', "AaEeIiOoUu", "ĀāĒēĪīŌōŪū"),
    ('\u{306}', "AaEeGgIiOoUu", "ĂăĔĕĞğĬĭŎŏŬŭ"),
    ('\u{307}', "CcEeGgIZz", "ĊċĖėĠġİŻż"),
    ('\u{308}', "AEIOUaeiouyY", "ÄËÏÖÜäëïöüÿŸ"),
    ('\u{30a}', "AaUu", "ÅåŮů"),
    ('\u{30b}', "OoUu", "ŐőŰű"),
    ('\u{30c}', "CcDdEeLlNnRrSsTtZz", "ČčĎďĚěĽľŇňŘřŠšŤťŽž"),
    ('\u{327}', "CcGgKkLlNnRrSsTt", "ÇçĢģĶķĻļŅņŖŗŞşŢţ"),
    ('\u{328}', "AaEeIiUu", "ĄąĘęĮįŲų"),
];
