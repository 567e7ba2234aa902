//! Files of points: what their slots hold, and which rules they break.
//!
//! Slots are read by the model, and what it finds is compared with what the
//! engine refuses.

use std::ffi::OsStr;
use std::fmt::{self, Display, Formatter, Write};
use std::os::unix::ffi::OsStrExt;

use comparison::model;
use comparison::point_rules::{self, Rule};
use comparison::slots::{Point, SLOT_LEN};
use kurvneist::{Engine, Points, Refusal, Request, LONGEST_NAME};

use crate::day;
use crate::json::{Fields, Json};
use crate::told::{counted, quoted};

/// The bytes of a name that a command line gives, if it is one.
pub fn name(written: &OsStr) -> Result<&[u8], String> {
    let name = written.as_bytes();
    match name.len() {
        1..=LONGEST_NAME => Ok(name),
        length => Err(format!(
            "the name has {}; expected 1 to {LONGEST_NAME} (refusal 20)",
            counted(length as u64, "byte", "bytes")
        )),
    }
}

/// A name in a message: in quotes or, if it is no text, by its bytes.
pub fn told(name: &[u8]) -> String {
    match std::str::from_utf8(name) {
        Ok(text) => quoted(text),
        Err(_) => {
            let bytes: Vec<String> = name.iter().map(|byte| format!("{byte:02X}")).collect();
            format!("<{}>", bytes.join(" "))
        }
    }
}

/// A name in JSON: its text or, if it is none, null; its bytes stand beside it.
pub fn name_json(name: &[u8]) -> Json {
    std::str::from_utf8(name).map_or(Json::Null, Json::from)
}

/// What stands in a buffer of points.
pub struct Listing {
    pub held: Vec<Held>,
    pub faults: Vec<Fault>,
}

/// A point that keeps the rules of points, and its slot, from 1.
pub struct Held {
    pub slot: usize,
    pub point: Point,
}

/// A rule that is broken in a slot, from 1.
pub struct Fault {
    pub slot: usize,
    /// If it can be read.
    pub name: Option<Vec<u8>>,
    pub rule: Rule,
}

impl Listing {
    pub fn of(points: &Points) -> Listing {
        let mut listing = Listing {
            held: Vec::new(),
            faults: Vec::new(),
        };
        let slots = (1..).zip(points.bytes().chunks(SLOT_LEN));
        for (slot, bytes) in slots.filter(|(_, bytes)| bytes[0] != 0) {
            listing.add(slot, bytes);
        }
        listing
    }

    fn add(&mut self, slot: usize, bytes: &[u8]) {
        let point = match point_rules::read(bytes) {
            Ok(point) => point,
            Err(rule) => {
                let name = None;
                return self.faults.push(Fault { slot, name, rule });
            }
        };
        let is_named = |held: &Held| held.point.name == point.name;
        let again = self.held.iter().any(is_named).then_some(Rule::Names);
        let broken = point_rules::broken(&point);
        let faults = broken.iter().copied().chain(again).map(|rule| Fault {
            slot,
            name: Some(point.name.clone()),
            rule,
        });
        self.faults.extend(faults);
        if broken.is_empty() {
            self.held.push(Held { slot, point });
        }
    }

    /// The first point of a name.
    pub fn point(&self, name: &[u8]) -> Option<&Point> {
        let mut held = self.held.iter().map(|held| &held.point);
        held.find(|point| point.name == name)
    }

    /// Whether the engine refuses the points exactly if a broken rule was found.
    pub fn is_as_the_engine_says(&self, points: &Points) -> bool {
        let is_refused = answer_behind(points) == Err(Refusal::BadPointOrName);
        is_refused != self.faults.is_empty()
    }

    /// A row for each point and a line for each fault.
    pub fn text(&self) -> String {
        let mut rows = vec![COLUMNS.map(str::to_owned)];
        rows.extend(self.held.iter().map(Held::cells));
        let width = |column: usize| rows.iter().map(|row| row[column].len()).max();
        let widths: Vec<usize> = (0..NAME).filter_map(width).collect();
        let shown = rows.iter().filter(|_| !self.held.is_empty());
        let mut text: String = shown.map(|cells| row(cells, &widths)).collect();
        for fault in &self.faults {
            writeln!(text, "{fault}").expect("a string takes any text");
        }
        text
    }

    /// The fields of its object in JSON.
    pub fn fields(&self) -> Fields {
        vec![
            ("errors", self.faults.len().into()),
            ("points", self.held.iter().map(Held::json).collect()),
            ("diagnostics", self.faults.iter().map(Fault::json).collect()),
        ]
    }
}

/// What a run is answered whose schedule can't be used, which is looked at just
/// behind the points: 20 if one breaks a rule.
fn answer_behind(points: &Points) -> Result<(), Refusal> {
    // One constant, no rules; there is no unit 1.
    let request = Request::new(&[1, 0, 0], &[0]).schedule(&[1]);
    let mut engine = Engine::new();
    let run = engine.park(&request, b"any", &mut points.clone());
    run.map(|_| ())
}

const COLUMNS: [&str; NAME + 1] = [
    "slot", "book", "day", "units", "budget", "entries", "rewrites", "granted", "kept", "symbols",
    "name",
];

/// The last column, which may have any width.
const NAME: usize = 10;

type Row = [String; COLUMNS.len()];

fn row(cells: &Row, widths: &[usize]) -> String {
    let numbers = cells.iter().zip(widths);
    let numbers = numbers.map(|(cell, width)| format!("{cell:>width$}  "));
    format!("{}{}\n", numbers.collect::<String>(), cells[NAME])
}

impl Held {
    /// The day, if the point's book is dated.
    fn day(&self) -> Option<u16> {
        let book = model::read_book(&self.point.book).expect("a rule of points");
        book.days.map(|_| self.point.day)
    }

    fn cells(&self) -> Row {
        let saved = &self.point.saved;
        [
            self.slot.to_string(),
            self.point.book.len().to_string(),
            self.day().map_or("-".to_owned(), day::date),
            saved.units.len().to_string(),
            saved.budget.to_string(),
            saved.entries.to_string(),
            saved.rewrites.to_string(),
            saved.granted.to_string(),
            saved.kept.to_string(),
            saved.symbols.len().to_string(),
            told(&self.point.name),
        ]
    }

    fn json(&self) -> Json {
        let saved = &self.point.saved;
        Json::Object(vec![
            ("slot", self.slot.into()),
            ("name", name_json(&self.point.name)),
            ("name_bytes", self.point.name.iter().copied().collect()),
            ("book_bytes", self.point.book.len().into()),
            ("day", self.day().into()),
            ("date", self.day().map(day::date).into()),
            ("units", saved.units.len().into()),
            ("budget", saved.budget.into()),
            ("entries", saved.entries.into()),
            ("rewrites", saved.rewrites.into()),
            ("granted", saved.granted.into()),
            ("kept", saved.kept.into()),
            ("symbols", saved.symbols.len().into()),
        ])
    }
}

impl Fault {
    fn json(&self) -> Json {
        Json::Object(vec![
            ("slot", self.slot.into()),
            ("name", self.name.as_deref().map_or(Json::Null, name_json)),
            ("rule", rule_name(self.rule).into()),
            ("message", self.rule.words().into()),
            ("refusal", Refusal::BadPointOrName.number().into()),
        ])
    }
}

impl Display for Fault {
    fn fmt(&self, text: &mut Formatter) -> fmt::Result {
        let (slot, rule) = (self.slot, rule_name(self.rule));
        let name = self.name.as_deref().map(told);
        let name = name.map_or(String::new(), |name| format!(", {name},"));
        let words = self.rule.words();
        write!(
            text,
            "slot {slot}{name} breaks the rule {rule}: {words} (refusal 20)"
        )
    }
}

/// As the model calls it.
pub fn rule_name(rule: Rule) -> String {
    format!("{rule:?}").to_lowercase()
}
