//! How counts and characters are told in messages.

/// `1 rule`, `2 rules`.
pub fn counted(count: u64, one: &str, many: &str) -> String {
    match count {
        1 => format!("1 {one}"),
        _ => format!("{count} {many}"),
    }
}

/// A text in quotes. A character that can't be seen is told by its code point:
/// `U+00A0 (no-break space)` alone, `<U+00A0>` among others.
pub fn quoted(text: &str) -> String {
    let mut characters = text.chars();
    if let (Some(only), None) = (characters.next(), characters.next()) {
        return character(only);
    }
    let seen = text.chars().map(|one| match is_unseen(one) {
        true => format!("<{}>", code_point(one)),
        false => one.into(),
    });
    format!("'{}'", seen.collect::<String>())
}

fn character(character: char) -> String {
    match is_unseen(character) {
        true => format!("{} ({})", code_point(character), kind(character)),
        false => format!("'{character}'"),
    }
}

/// A character with its code point, once.
pub fn with_code_point(one: char) -> String {
    match is_unseen(one) {
        true => character(one),
        false => format!("'{one}' ({})", code_point(one)),
    }
}

pub fn code_point(character: char) -> String {
    format!("U+{:04X}", u32::from(character))
}

/// Nothing is to be seen of it, or it looks like a space and is none.
pub fn is_unseen(character: char) -> bool {
    is_zero_width(character)
        || character.is_control()
        || character.is_whitespace() && character != ' '
}

/// The characters that format others, and those for an absent one.
pub fn is_zero_width(character: char) -> bool {
    matches!(
        character,
        '\u{ad}'
            | '\u{61c}'
            | '\u{115f}'
            | '\u{1160}'
            | '\u{180e}'
            | '\u{200b}'..='\u{200f}'
            | '\u{202a}'..='\u{202e}'
            | '\u{2060}'..='\u{206f}'
            | '\u{3164}'
            | '\u{feff}'
            | '\u{ffa0}'
            | '\u{fff9}'..='\u{fffb}'
            | '\u{e0000}'..='\u{e007f}'
    )
}

fn kind(character: char) -> &'static str {
    match character {
        '\t' => "tab",
        '\n' => "line feed",
        '\r' => "carriage return",
        '\u{a0}' => "no-break space",
        '\u{ad}' => "soft hyphen",
        '\u{200b}' => "zero-width space",
        '\u{200c}' => "zero-width non-joiner",
        '\u{200d}' => "zero-width joiner",
        '\u{202f}' => "narrow no-break space",
        '\u{2060}' => "word joiner",
        '\u{feff}' => "byte order mark",
        _ if character.is_control() => "control character",
        _ if character.is_whitespace() => "kind of space",
        _ => "zero-width character",
    }
}
