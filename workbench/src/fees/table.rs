//! A fee table in text form: operators by name, and the rate of each.

use kurvneist::{FeeTable, WHOLE};

use crate::fees::share;
use crate::fees::words::{rows, Word};
use crate::mistake::{place_of, Mistake, Span};
use crate::names::{nearest, Names};
use crate::text::lexer::inside;
use crate::told::quoted;

/// What a line of the table is.
const ROW: &str = "operators and their rate, as 70010-König-caretaker 3.5%";

/// Stands for all operators that no line names.
const OTHERS: &str = "*";

/// The rate of an operator that has none, which the engine refuses by 23.
const NONE: u16 = u16::MAX;

/// The rates of a book's operators, or all mistakes.
pub fn read(source: &str, names: &Names) -> Result<FeeTable, Vec<Mistake>> {
    let (rows, mut mistakes) = rows(source, ROW);
    let mut given = Given {
        source,
        names,
        rates: vec![None; names.len()],
        others: None,
    };
    for row in rows {
        let rate = share::read(row.share.text, row.share.span.start);
        let rate = rate.unwrap_or_else(|mistake| {
            mistakes.push(mistake);
            0
        });
        for name in row.names {
            mistakes.extend(given.give(name, rate).err());
        }
    }
    match mistakes.is_empty() {
        true => Ok(given.table()),
        false => Err(in_order(mistakes)),
    }
}

/// As they stand in the text.
pub fn in_order(mut mistakes: Vec<Mistake>) -> Vec<Mistake> {
    mistakes.sort_by_key(|mistake| mistake.span.start);
    mistakes
}

/// A rate and where its operator was named.
type Rate = Option<(u16, Span)>;

struct Given<'s> {
    source: &'s str,
    names: &'s Names,
    /// By operator.
    rates: Vec<Rate>,
    others: Rate,
}

impl Given<'_> {
    fn give(&mut self, word: Word, rate: u16) -> Result<(), Mistake> {
        let place = match word.text {
            OTHERS => &mut self.others,
            _ => {
                let operator = operator(word, self.names)?;
                &mut self.rates[usize::from(operator)]
            }
        };
        if let Some((_, before)) = place {
            let line = place_of(self.source, before.start).0;
            let wrong = format!("{} has a rate in line {line}", quoted(word.text));
            return Err(Mistake::new(word.span, wrong, "each operator once"));
        }
        *place = Some((rate, word.span));
        Ok(())
    }

    fn table(&self) -> FeeTable {
        let others = self.others.map_or(NONE, |(rate, _)| rate);
        let rates = self
            .rates
            .iter()
            .map(|rate| rate.map_or(others, |(rate, _)| rate));
        rates.collect()
    }
}

/// The operator of a name, or of a character in quotes.
fn operator(word: Word, names: &Names) -> Result<u8, Mistake> {
    let is_quoted = word.text.len() > 2 && word.text.starts_with('"') && word.text.ends_with('"');
    let name: String = match is_quoted {
        true => inside(word.text).map(|(_, character)| character).collect(),
        false => word.text.to_owned(),
    };
    // A space is the operator _, as in strings.
    let name = if name == " " { "_" } else { &name };
    names.number(name).ok_or_else(|| {
        let near = nearest(names.all(), name);
        let near = near.map_or(String::new(), |near| format!(", such as '{near}'"));
        let wrong = format!("{} is unknown", quoted(word.text));
        Mistake::new(word.span, wrong, format!("an operator of the book{near}"))
    })
}

/// Whether the table has a rate for an operator.
pub fn has_rate(table: &FeeTable, operator: u8) -> bool {
    let rate = table.as_bytes().chunks_exact(2).nth(operator.into());
    rate.is_some_and(|rate| u16::from_be_bytes([rate[0], rate[1]]) <= WHOLE)
}
