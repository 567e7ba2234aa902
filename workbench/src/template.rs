//! Lines made of columns: `line(payee("{}"), purpose("{Purpose}"))`.

use std::ops::Range;

use crate::mistake::{Mistake, Span};
use crate::text::lexer::escaped;

#[derive(Clone, Debug, PartialEq, Eq)]
enum Part {
    Written(String),
    /// The column that it is taken from.
    Column(usize),
}

/// A line with places for texts.
#[derive(Clone, Debug)]
pub struct Template {
    parts: Vec<Part>,
    /// The columns as they were written, each once; empty for `{}`.
    pub columns: Vec<String>,
}

/// A line, and where the texts of its columns stand in it.
pub struct Made {
    pub line: String,
    places: Vec<(Range<usize>, usize)>,
}

impl Template {
    /// The texts are strings, so their places stand in quotes. `{{` and `}}`
    /// are braces.
    pub fn read(written: &str) -> Result<Template, Mistake> {
        let mut template = Template {
            parts: Vec::new(),
            columns: Vec::new(),
        };
        let mut in_string = false;
        let mut at = 0;
        while let Some(first) = written[at..].chars().next() {
            let rest = &written[at..];
            let length = match first {
                _ if rest.starts_with("{{") || rest.starts_with("}}") => {
                    template.write(first);
                    2
                }
                '{' => template.place(written, at, in_string)?,
                _ => {
                    in_string ^= first == '"';
                    template.write(first);
                    first.len_utf8()
                }
            };
            at += length;
        }
        match template.columns.is_empty() {
            true => Err(Mistake::new(
                Span::new(0, written.len()),
                "the template has no place for a text",
                "'\"{}\"' in it",
            )),
            false => Ok(template),
        }
    }

    fn write(&mut self, character: char) {
        match self.parts.last_mut() {
            Some(Part::Written(text)) => text.push(character),
            _ => self.parts.push(Part::Written(character.into())),
        }
    }

    /// Takes `{NAME}` there; answers its length.
    fn place(&mut self, written: &str, at: usize, in_string: bool) -> Result<usize, Mistake> {
        let Some(length) = written[at..].find('}').map(|end| end + 1) else {
            let wrong = "the brace isn't closed";
            return Err(Mistake::new(
                Span::new(at, at + 1),
                wrong,
                "'}' behind the column",
            ));
        };
        if !in_string {
            let span = Span::new(at, at + length);
            let wrong = "the place stands outside quotes";
            return Err(Mistake::new(
                span,
                wrong,
                "it in a string, as in payee(\"{}\")",
            ));
        }
        let name = &written[at + 1..at + length - 1];
        let known = self.columns.iter().position(|column| column == name);
        let column = known.unwrap_or_else(|| {
            self.columns.push(name.to_owned());
            self.columns.len() - 1
        });
        self.parts.push(Part::Column(column));
        Ok(length)
    }

    /// Whether it names columns of its own.
    pub fn names_columns(&self) -> bool {
        self.columns.iter().any(|column| !column.is_empty())
    }

    /// The line with these texts of the columns, in their order.
    pub fn line(&self, texts: &[String]) -> Made {
        let mut made = Made {
            line: String::new(),
            places: Vec::new(),
        };
        for part in &self.parts {
            match part {
                Part::Written(text) => made.line.push_str(text),
                Part::Column(column) => {
                    let start = made.line.len();
                    made.line.push_str(&escaped(&texts[*column]));
                    made.places.push((start..made.line.len(), *column));
                }
            }
        }
        made
    }
}

impl Made {
    /// The column in whose text a place of the line is, and which character of
    /// that text it is, from 1.
    pub fn column(&self, offset: usize) -> Option<(usize, usize)> {
        let (range, column) = self.places.iter().find(|place| place.0.contains(&offset))?;
        let before = self.line[range.start..offset].replace("\"\"", "\"");
        Some((*column, before.chars().count() + 1))
    }
}
