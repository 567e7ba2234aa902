//! What a batch posts: the lines of a file, or columns of a bank export.

use std::fmt;

use comparison::model::Form;

use crate::compose::composed;
use crate::csv::{Line, Record, Records};
use crate::encoding::Encoding;
use crate::fees::amount;
use crate::line;
use crate::mistake::{place_of, Mistake, Span};
use crate::names::{nearest, Names};
use crate::template::Template;
use crate::text::lexer::is_blank;
use crate::told::{counted, quoted};

/// How the lines to be posted are made of a file.
pub struct Reading {
    pub form: Form,
    pub encoding: Encoding,
    /// Of a bank export; `None` for a file of lines.
    pub columns: Option<Columns>,
    pub template: Option<Template>,
    /// Each item has an amount: before its line, or as the last of the columns.
    pub has_amounts: bool,
}

/// The columns that lines are made of.
pub struct Columns {
    pub separator: char,
    /// The first record has the columns' names.
    pub header: bool,
    /// Names, or numbers from 1.
    pub asked: Vec<String>,
}

/// A line of a file as it was read.
pub struct Raw {
    /// Without the line end, or why it can't be read.
    pub bytes: Result<Vec<u8>, String>,
    /// Whether a line end followed.
    pub ended: bool,
}

pub struct Item {
    what: What,
    pub place: Place,
}

#[derive(Clone, Copy, Debug)]
pub struct Place {
    /// Which of the items it is, counted from 1.
    pub number: usize,
    /// The record's first line, in a bank export.
    pub line: Option<usize>,
    pub ending: &'static str,
}

/// A plain line is read by who posts it, so that threads share that work.
enum What {
    Line { raw: Raw, is_first: bool },
    Record(Content),
}

pub enum Content {
    /// A blank line, a comment or a header, and what is written for it.
    Kept(String),
    /// What a line is made of: itself, or the texts of the columns.
    Texts(Vec<String>),
    Bad(Reason),
}

/// Why an item can't be posted.
#[derive(Clone, Debug)]
pub struct Reason {
    /// The column of a bank export, if one is to blame.
    pub field: Option<String>,
    /// The place in the line, or in the field, and what it is called there.
    pub place: Option<(&'static str, usize)>,
    pub message: String,
}

impl Reason {
    pub fn whole(message: String) -> Reason {
        let (field, place) = (None, None);
        Reason {
            field,
            place,
            message,
        }
    }

    pub fn at(place: (&'static str, usize), message: String) -> Reason {
        Reason {
            field: None,
            place: Some(place),
            message,
        }
    }
}

impl fmt::Display for Reason {
    fn fmt(&self, f: &mut fmt::Formatter) -> fmt::Result {
        if let Some(field) = &self.field {
            write!(f, "{}, ", told_column(field))?;
        }
        if let Some((what, number)) = self.place {
            write!(f, "{what} {number}: ")?;
        }
        write!(f, "{}", self.message)
    }
}

impl Reading {
    /// Lines by names, in UTF-8.
    pub fn lines() -> Reading {
        Reading {
            form: Form::Line,
            encoding: Encoding::Utf8,
            columns: None,
            template: None,
            has_amounts: false,
        }
    }

    /// What is to be done about an item.
    pub fn content(&self, item: Item) -> Content {
        match item.what {
            What::Line { raw, is_first } => self.plain(&raw, is_first),
            What::Record(content) => content,
        }
    }

    /// Blank lines and comments stay as they are.
    fn plain(&self, raw: &Raw, is_first: bool) -> Content {
        match self.decoded(raw) {
            Err(reason) => Content::Bad(reason),
            Ok(text) if is_blank(&text) => Content::Kept(text),
            Ok(text) => {
                let text = without_mark(&text, is_first);
                Content::Texts(vec![composed(text).into_owned()])
            }
        }
    }

    /// The symbols or the text of a line, or where it is mistaken.
    pub fn line(&self, texts: &[String], names: &Names) -> Result<Vec<u8>, Reason> {
        if let Some(template) = &self.template {
            let made = template.line(texts);
            return line::read(&made.line, names).map_err(|mistake| {
                match made.column(mistake.span.start) {
                    Some((column, character)) => self.told(column, character, &mistake),
                    None => Reason::whole(mistake.message()),
                }
            });
        }
        let text = texts[0].as_str();
        let read = match self.form {
            Form::Line => line::read(text, names),
            Form::Text => line::read_payee(text),
        };
        read.map_err(|mistake| self.told(0, mistake.place(text).1, &mistake))
    }

    /// The amount of an item, if it has one, taken out of its texts.
    pub fn amount(&self, texts: &mut Vec<String>) -> Result<Option<i64>, Reason> {
        if !self.has_amounts {
            return Ok(None);
        }
        match self.columns {
            Some(_) => self.amount_in_column(texts).map(Some),
            None => self.amount_in_front(&mut texts[0]).map(Some),
        }
    }

    fn amount_in_column(&self, texts: &mut Vec<String>) -> Result<i64, Reason> {
        let text = texts.pop().expect("a column for the amount");
        let start = text.len() - text.trim_start().len();
        let read = amount::read(text.trim());
        read.map_err(|mistake| {
            let character = place_of(&text, start + mistake.span.start).1;
            self.told(texts.len(), character, &mistake)
        })
    }

    /// The first word, in whose place spaces stay, so that the others stand
    /// where they stood.
    fn amount_in_front(&self, text: &mut String) -> Result<i64, Reason> {
        let start = text.len() - text.trim_start().len();
        let length = text[start..].find(char::is_whitespace);
        let end = length.map_or(text.len(), |length| start + length);
        let word = &text[start..end];
        let told = |place: usize, mistake: &Mistake| {
            let character = place_of(text, place).1;
            self.told(0, character, mistake)
        };
        let read = amount::read(word);
        let amount = read.map_err(|mistake| told(start + mistake.span.start, &mistake))?;
        if text[end..].trim().is_empty() {
            let span = Span::new(end, end);
            let mistake = Mistake::new(span, "nothing stands behind the amount", "a line there");
            return Err(told(end, &mistake));
        }
        let spaces = " ".repeat(word.chars().count());
        text.replace_range(start..end, &spaces);
        Ok(amount)
    }

    fn told(&self, column: usize, character: usize, mistake: &Mistake) -> Reason {
        let message = mistake.message();
        match &self.columns {
            None => Reason::at(("column", character), message),
            Some(columns) => Reason {
                field: Some(columns.asked[column].clone()),
                ..Reason::at(("character", character), message)
            },
        }
    }

    fn decoded(&self, raw: &Raw) -> Result<String, Reason> {
        let bytes = raw.bytes.as_ref();
        let bytes = bytes.map_err(|reason| Reason::whole(reason.clone()))?;
        let bytes = bytes.strip_suffix(b"\r").unwrap_or(bytes);
        let text = self.encoding.decode(bytes).map_err(|bad| {
            let place = match self.columns {
                Some(_) => "character",
                None => "column",
            };
            let at = bad.before.chars().count() + 1;
            let expected = match self.encoding {
                Encoding::Utf8 => "UTF-8, or --encoding with the file's",
                _ => "a character of it",
            };
            Reason::at((place, at), format!("{bad}; expected {expected}"))
        })?;
        Ok(text.into_owned())
    }
}

/// The items of a file, line by line.
pub struct Items<'r> {
    reading: &'r Reading,
    records: Records,
    /// Where the columns are in a record, once that is known.
    places: Option<Vec<usize>>,
    is_first: bool,
    last_ending: &'static str,
    /// Items so far.
    count: usize,
}

impl<'r> Items<'r> {
    pub fn new(reading: &'r Reading) -> Items<'r> {
        let separator = reading
            .columns
            .as_ref()
            .map_or(',', |known| known.separator);
        Items {
            reading,
            records: Records::new(separator),
            places: None,
            is_first: true,
            last_ending: "\n",
            count: 0,
        }
    }

    /// The next item of the lines that `more` answers. A header without the
    /// columns is a failure.
    pub fn next<Failure: From<BadHeader>>(
        &mut self,
        mut more: impl FnMut() -> Result<Option<Raw>, Failure>,
    ) -> Result<Option<Item>, Failure> {
        let Some(columns) = &self.reading.columns else {
            return Ok(more()?.map(|raw| self.plain(raw)));
        };
        let Some(record) = self.record(more)? else {
            return match (columns.header, &self.places) {
                (true, None) => Err(BadHeader("the file has no header".into()).into()),
                _ => Ok(None),
            };
        };
        self.count += 1;
        let place = Place {
            number: self.count,
            line: Some(record.line),
            ending: record.ending,
        };
        let what = What::Record(self.columns_of(record, columns)?);
        Ok(Some(Item { what, place }))
    }

    fn record<Failure>(
        &mut self,
        mut more: impl FnMut() -> Result<Option<Raw>, Failure>,
    ) -> Result<Option<Record>, Failure> {
        let (reading, is_first, last) = (self.reading, &mut self.is_first, &mut self.last_ending);
        let mut line = |raw: Raw| {
            let text = reading.decoded(&raw);
            let is_first = std::mem::take(is_first);
            let text = text.map(|text| composed(without_mark(&text, is_first)).into_owned());
            let text = text.map_err(|reason| reason.to_string());
            let ending = ending(&raw, last);
            Line { text, ending }
        };
        self.records.next(|| Ok(more()?.map(&mut line)))
    }

    fn columns_of(&mut self, record: Record, columns: &Columns) -> Result<Content, BadHeader> {
        if record.is_blank() {
            return Ok(Content::Kept(String::new()));
        }
        match &self.places {
            Some(places) => Ok(content(record.fields, places, columns)),
            None if columns.header => {
                let header = record.fields.map_err(BadHeader)?;
                self.places = Some(columns.places(&header).map_err(BadHeader)?);
                Ok(Content::Kept(format!("# {}", columns.asked.join(", "))))
            }
            None => {
                let places = self.places.insert(columns.numbers());
                Ok(content(record.fields, places, columns))
            }
        }
    }

    fn plain(&mut self, raw: Raw) -> Item {
        let ending = ending(&raw, &mut self.last_ending);
        let is_first = std::mem::take(&mut self.is_first);
        self.count += 1;
        let place = Place {
            number: self.count,
            line: None,
            ending,
        };
        let what = What::Line { raw, is_first };
        Item { what, place }
    }
}

/// Editors on Windows begin a file with the mark U+FEFF.
fn without_mark(text: &str, is_first: bool) -> &str {
    match is_first {
        true => text.strip_prefix('\u{feff}').unwrap_or(text),
        false => text,
    }
}

/// A line's end; a last line without one ends as the one before it.
fn ending(raw: &Raw, last: &mut &'static str) -> &'static str {
    if raw.ended {
        let is_return = raw.bytes.as_ref().is_ok_and(|bytes| bytes.ends_with(b"\r"));
        *last = if is_return { "\r\n" } else { "\n" };
    }
    last
}

/// Why the columns can't be found.
#[derive(Debug)]
pub struct BadHeader(pub String);

impl Columns {
    fn numbers(&self) -> Vec<usize> {
        self.asked
            .iter()
            .filter_map(|asked| number(asked))
            .collect()
    }

    /// Where each column is by the header.
    fn places(&self, header: &[String]) -> Result<Vec<usize>, String> {
        let asked = self.asked.iter();
        asked.map(|column| self.place(column, header)).collect()
    }

    fn place(&self, column: &str, header: &[String]) -> Result<usize, String> {
        if let Some(place) = number(column) {
            return Ok(place);
        }
        let known: Vec<&str> = header.iter().map(|name| name.trim()).collect();
        let mut places = (0..known.len()).filter(|place| known[*place] == column.trim());
        match (places.next(), places.next()) {
            (Some(place), None) => Ok(place),
            (Some(_), Some(_)) => Err(format!(
                "the header has {} twice; expected the column's number",
                quoted(column)
            )),
            (None, _) => Err(self.no_column(column, &known)),
        }
    }

    fn no_column(&self, column: &str, known: &[&str]) -> String {
        let names: Vec<String> = known.iter().map(|name| quoted(name)).collect();
        let mut told = format!(
            "the header has no column {}; it has {}",
            quoted(column),
            names.join(", ")
        );
        let other = [";", ",", "\t"]
            .into_iter()
            .find(|other| known[0].contains(other));
        if let (1, Some(other)) = (known.len(), other) {
            let name = if other == "\t" { "tab" } else { other };
            told.push_str(&format!("; try --separator '{name}'"));
        } else if let Some(near) = nearest(known.iter().copied(), column) {
            told.push_str(&format!("; did you mean '{near}'?"));
        }
        told
    }
}

/// A column's place, if it is given by its number, from 1.
pub fn number(column: &str) -> Option<usize> {
    column.parse::<usize>().ok()?.checked_sub(1)
}

fn told_column(asked: &str) -> String {
    match number(asked) {
        Some(_) => format!("column {asked}"),
        None => quoted(asked),
    }
}

fn content(fields: Result<Vec<String>, String>, places: &[usize], columns: &Columns) -> Content {
    let fields = match fields {
        Ok(fields) => fields,
        Err(reason) => return Content::Bad(Reason::whole(reason)),
    };
    let mut texts = Vec::new();
    for (place, asked) in places.iter().zip(&columns.asked) {
        let Some(field) = fields.get(*place) else {
            let has = counted(fields.len() as u64, "field", "fields");
            let column = told_column(asked);
            return Content::Bad(Reason::whole(match number(asked) {
                Some(_) => format!("the record has {has}; expected {column} in it"),
                None => format!(
                    "the record has {has}; expected {column} as field {}",
                    place + 1
                ),
            }));
        };
        texts.push(on_one_line(field));
    }
    Content::Texts(texts)
}

/// Purposes may have several lines, where a string has one; and banks fill
/// fields with spaces. The characters that are left keep their places.
fn on_one_line(field: &str) -> String {
    field.replace(['\n', '\r'], " ").trim_end().to_owned()
}
