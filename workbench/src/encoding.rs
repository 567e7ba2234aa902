//! The encodings of books and lines.

use std::borrow::Cow;
use std::fmt;

use crate::names::nearest;

#[derive(Clone, Copy, Debug, Default, PartialEq, Eq)]
pub enum Encoding {
    #[default]
    Utf8,
    Latin1,
    Windows1252,
}

/// The names that the help says.
pub const NAMES: &str = "utf-8, latin-1 or windows-1252";

/// What Windows-1252 has in the place of the control characters 80 to 9F; NUL
/// where it has nothing.
const WINDOWS: &str = "€\0‚ƒ„…†‡ˆ‰Š‹Œ\0Ž\0\0‘’“”•–—˜™š›œ\0žŸ";

/// A byte that has no meaning in an encoding, and the text before it.
#[derive(Clone, Debug, PartialEq, Eq)]
pub struct BadByte {
    pub before: String,
    pub byte: u8,
    encoding: Encoding,
}

impl fmt::Display for BadByte {
    fn fmt(&self, f: &mut fmt::Formatter) -> fmt::Result {
        write!(f, "the byte {:02X} is not {}", self.byte, self.encoding)
    }
}

impl fmt::Display for Encoding {
    fn fmt(&self, f: &mut fmt::Formatter) -> fmt::Result {
        f.write_str(match self {
            Encoding::Utf8 => "UTF-8",
            Encoding::Latin1 => "ISO 8859-1",
            Encoding::Windows1252 => "Windows-1252",
        })
    }
}

impl Encoding {
    /// By one of its usual names, in capitals or not.
    pub fn named(name: &str) -> Result<Encoding, String> {
        match name.to_lowercase().as_str() {
            "utf-8" | "utf8" => Ok(Encoding::Utf8),
            "latin-1" | "latin1" | "iso-8859-1" => Ok(Encoding::Latin1),
            "windows-1252" | "cp1252" => Ok(Encoding::Windows1252),
            other => {
                let known = ["utf-8", "latin-1", "windows-1252"];
                let near = nearest(known.into_iter(), other)
                    .map_or(String::new(), |near| format!("; did you mean '{near}'?"));
                Err(format!("no encoding of that name; expected {NAMES}{near}"))
            }
        }
    }

    pub fn decode(self, bytes: &[u8]) -> Result<Cow<'_, str>, BadByte> {
        let bad = |before: String, byte| BadByte {
            before,
            byte,
            encoding: self,
        };
        if self == Encoding::Utf8 {
            return std::str::from_utf8(bytes)
                .map(Cow::Borrowed)
                .map_err(|error| {
                    let (good, rest) = bytes.split_at(error.valid_up_to());
                    bad(String::from_utf8_lossy(good).into_owned(), rest[0])
                });
        }
        let mut text = String::with_capacity(bytes.len());
        for &byte in bytes {
            match self.character(byte) {
                Some(character) => text.push(character),
                None => return Err(bad(text, byte)),
            }
        }
        Ok(Cow::Owned(text))
    }

    /// With U+FFFD for what has no meaning, to be shown.
    pub fn lossy(self, bytes: &[u8]) -> String {
        if self == Encoding::Utf8 {
            return String::from_utf8_lossy(bytes).into_owned();
        }
        let shown = |&byte: &u8| self.character(byte).unwrap_or('\u{fffd}');
        bytes.iter().map(shown).collect()
    }

    /// Of an encoding whose characters are single bytes.
    fn character(self, byte: u8) -> Option<char> {
        match (self, byte) {
            (Encoding::Windows1252, 0x80..=0x9f) => {
                let found = WINDOWS.chars().nth(usize::from(byte - 0x80));
                found.filter(|character| *character != '\0')
            }
            _ => Some(char::from(byte)),
        }
    }
}
