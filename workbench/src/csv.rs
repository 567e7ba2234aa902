//! Bank exports: records of fields with separators between them. A field may
//! stand in quotes, where separators and line ends belong to it and a quote is
//! doubled.

use std::collections::VecDeque;

/// A quoted field that isn't closed in so many lines is taken for a mistake,
/// so that one bad record doesn't swallow all that follow.
const MOST_LINES: usize = 100;

/// A line of a file without its line end.
#[derive(Clone, Debug, PartialEq, Eq)]
pub struct Line {
    /// Its text, or why it has none.
    pub text: Result<String, String>,
    pub ending: &'static str,
}

#[derive(Clone, Debug, PartialEq, Eq)]
pub struct Record {
    /// Its first line, from 1.
    pub line: usize,
    /// The fields, or what is wrong.
    pub fields: Result<Vec<String>, String>,
    /// The last line's end.
    pub ending: &'static str,
}

impl Record {
    /// A line without any character.
    pub fn is_blank(&self) -> bool {
        matches!(self.fields.as_deref(), Ok([only]) if only.is_empty())
    }
}

/// The records of a file's lines. Of a bad record only its first line is lost:
/// reading goes on at the next.
pub struct Records {
    separator: char,
    /// Lines so far.
    lines: usize,
    /// Read already, and to be read again.
    again: VecDeque<Line>,
}

impl Records {
    pub fn new(separator: char) -> Records {
        Records {
            separator,
            lines: 0,
            again: VecDeque::new(),
        }
    }

    /// The next record of the lines that `more` answers.
    pub fn next<Failure>(
        &mut self,
        mut more: impl FnMut() -> Result<Option<Line>, Failure>,
    ) -> Result<Option<Record>, Failure> {
        let mut lines = Vec::new();
        loop {
            let line = match self.again.pop_front() {
                Some(line) => Some(line),
                None => more()?,
            };
            // A record ends before a line that can't be read.
            let is_last = line.as_ref().is_none_or(|line| line.text.is_err());
            lines.extend(line);
            let fields = match fields(&lines, self.separator) {
                _ if lines.is_empty() => return Ok(None),
                Err(Fault::Open(_)) if !is_last && lines.len() <= MOST_LINES => continue,
                fields => fields.map_err(Fault::told),
            };
            return Ok(Some(self.record(fields, lines)));
        }
    }

    fn record(&mut self, fields: Result<Vec<String>, String>, mut lines: Vec<Line>) -> Record {
        let line = self.lines + 1;
        if fields.is_err() {
            for line in lines.drain(1..).rev() {
                self.again.push_front(line);
            }
        }
        self.lines += lines.len();
        Record {
            line,
            fields,
            ending: lines.last().map_or("\n", |last| last.ending),
        }
    }
}

/// Why lines are no record.
enum Fault {
    /// The quote at this character isn't closed: the record may go on in the next
    /// line.
    Open(usize),
    /// Text stands behind the closing quote of the field at this character.
    Behind(usize),
    NoText(String),
}

impl Fault {
    fn told(self) -> String {
        match self {
            Fault::Open(place) => format!(
                "character {place}: the field's quote isn't closed; expected '\"' behind the field"
            ),
            Fault::Behind(place) => format!(
                "character {place}: text stands behind the field's closing quote; expected a \
                 separator there, or '\"' doubled inside the field"
            ),
            Fault::NoText(reason) => reason,
        }
    }
}

fn fields(lines: &[Line], separator: char) -> Result<Vec<String>, Fault> {
    if let Some(Err(reason)) = lines.first().map(|line| &line.text) {
        return Err(Fault::NoText(reason.clone()));
    }
    let texts = lines.iter().map_while(|line| line.text.as_deref().ok());
    split(&texts.collect::<Vec<_>>().join("\n"), separator)
}

/// A quote inside a field that doesn't begin with one is a character as others.
fn split(record: &str, separator: char) -> Result<Vec<String>, Fault> {
    let place = |rest: &str| record[..record.len() - rest.len()].chars().count() + 1;
    let mut fields = Vec::new();
    let mut rest = record;
    loop {
        let (field, behind) = match rest.strip_prefix('"') {
            Some(inside) => quoted(inside).ok_or_else(|| Fault::Open(place(rest)))?,
            None => {
                let end = rest.find(separator).unwrap_or(rest.len());
                (rest[..end].to_owned(), &rest[end..])
            }
        };
        fields.push(field);
        match behind.strip_prefix(separator) {
            Some(next) => rest = next,
            None if behind.is_empty() => return Ok(fields),
            None => return Err(Fault::Behind(place(rest))),
        }
    }
}

/// What stands before the closing quote, and what behind it.
fn quoted(inside: &str) -> Option<(String, &str)> {
    let mut field = String::new();
    let mut rest = inside;
    loop {
        let (before, behind) = rest.split_once('"')?;
        field.push_str(before);
        match behind.strip_prefix('"') {
            Some(more) => {
                field.push('"');
                rest = more;
            }
            None => return Some((field, behind)),
        }
    }
}

/// A separator by itself or by its name.
pub fn separator(written: &str) -> Result<char, String> {
    match written {
        "," | "comma" => Ok(','),
        ";" | "semicolon" => Ok(';'),
        "\t" | "\\t" | "tab" => Ok('\t'),
        "|" => Ok('|'),
        _ => Err("expected ',', ';', '|' or tab".into()),
    }
}
