//! The commands with their arguments and options, and the reading of a
//! command line by them.

use std::collections::HashMap;
use std::ffi::{OsStr, OsString};
use std::os::unix::ffi::OsStrExt;

use crate::day;
use crate::encoding::Encoding;
use crate::names::nearest;

pub struct Flag {
    pub name: &'static str,
    /// What its value is called, or `None` if it has none.
    pub value: Option<&'static str>,
    pub help: &'static str,
}

pub struct Command {
    pub name: &'static str,
    pub about: &'static str,
    /// Names of its arguments, and what they are.
    pub arguments: &'static [(&'static str, &'static str)],
    pub flags: &'static [Flag],
    /// What else its help says.
    pub more: &'static str,
}

impl Flag {
    /// Whether its value may have any bytes, as the name of a file or a point.
    fn names(&self) -> bool {
        matches!(self.value, Some("FILE" | "TEXT" | "FORM" | "NAME"))
    }
}

const fn flag(name: &'static str, value: Option<&'static str>, help: &'static str) -> Flag {
    Flag { name, value, help }
}

const DAY: Flag = flag(
    "--day",
    Some("DAY"),
    "the day of the run, as 2026-07-01 or 20635; for a dated book",
);
const PACKED: Flag = flag("--packed", None, "BOOK is a packed book and not a text");
const NAMES: Flag = flag(
    "--names",
    Some("TEXT"),
    "take the operators' names from this text (with --packed)",
);
const TEXT_NAMES: Flag = flag(
    "--names",
    Some("TEXT"),
    "take the operators' names from this text (default f0, f1, ..)",
);
const POINTS: Flag = flag(
    "--points",
    Some("FILE"),
    "the file in which runs are parked, at most eight",
);
const PAYEE: Flag = flag(
    "--payee",
    None,
    "LINE is a payee's text, as it is typed, and no term",
);
const UNITS: Flag = flag("--units", Some("U"), "so many units, 1 to 8 (default 1)");
const BUDGET: Flag = flag(
    "--budget",
    Some("N"),
    "at most so many rewrites, up to 4294967295 (default 1000000)",
);
const SCHEDULE: Flag = flag(
    "--schedule",
    Some("FORM"),
    "which unit acts when (default: in turn, as long as needed)",
);
const LINES_PAYEE: Flag = flag(
    "--payee",
    None,
    "each line is a payee's text, as it is typed, and no term",
);
const COUNTS: Flag = flag(
    "--counts",
    None,
    "say each run's counts, as a comment behind the posting",
);
const LINES_JSON: Flag = flag("--json", None, "write an object in JSON for each line");
const COLUMN: Flag = flag(
    "--column",
    Some("C"),
    "LINES is a bank export; take this column, by name or number",
);
const SEPARATOR: Flag = flag(
    "--separator",
    Some("S"),
    "what stands between its columns: , (default) ; | or tab",
);
const HEADER: Flag = flag(
    "--header",
    None,
    "it has a header, though its columns are given by number",
);
const TEMPLATE: Flag = flag(
    "--template",
    Some("T"),
    "make a line of each text, as in 'line(payee(\"{}\"), rent)'",
);
const LINES_ENCODING: Flag = flag(
    "--encoding",
    Some("E"),
    "LINES': utf-8 (default), latin-1 or windows-1252",
);
const LATIN1: Flag = flag("--latin1", None, "the same as --encoding latin-1");
const QUIET: Flag = flag("--quiet", None, "no progress bar and no summary");
const JOBS: Flag = flag(
    "--jobs",
    Some("N"),
    "post on so many threads, 1 to 256 (default 1)",
);
const OUTPUT: Flag = flag(
    "-o",
    Some("FILE"),
    "write to this file (default -, standard output)",
);

const JSON: Flag = flag("--json", None, "write an object in JSON");
const RULES_ONLY: Flag = flag("--rules-only", None, "only which rules rewrote, and where");
const ENCODING: Flag = flag(
    "--encoding",
    Some("E"),
    "the book text's: utf-8 (default), latin-1 or windows-1252",
);

const TEXT: (&str, &str) = ("TEXT", "a book in text form; - is standard input");
const LINE: (&str, &str) = (
    "LINE",
    "a term by the operators' names, or a payee with --payee",
);
const BOOK: (&str, &str) = ("BOOK", "a book in text form, or packed with --packed");

pub const COMMANDS: &[Command] = &[
    Command {
        name: "book",
        about: "turn a text into a packed book, or check a text",
        arguments: &[TEXT],
        flags: &[
            flag(
                "-o",
                Some("FILE"),
                "write the packed book to this file (default: only check)",
            ),
            ENCODING,
        ],
        more: super::help::BOOK,
    },
    Command {
        name: "text",
        about: "turn a packed book into a text",
        arguments: &[("BOOK", "a packed book; - is standard input")],
        flags: &[TEXT_NAMES, ENCODING, OUTPUT],
        more: super::help::TEXT,
    },
    Command {
        name: "check",
        about: "warn of rules that never rewrite, and of what nothing uses",
        arguments: &[TEXT],
        flags: &[
            flag("--strict", None, "warnings are errors"),
            flag(
                "--strict-profile",
                None,
                "an error unless the order of the rules is free",
            ),
            flag(
                "--allow",
                Some("KIND,.."),
                "leave out warnings of these kinds",
            ),
            flag(
                "--day",
                Some("DAY"),
                "of a dated book, look at the rules that stand on this day",
            ),
            JSON,
            ENCODING,
        ],
        more: super::help::CHECK,
    },
    Command {
        name: "post",
        about: "reduce one line and show its posting",
        arguments: &[BOOK, LINE],
        flags: &[
            PAYEE,
            DAY,
            JSON,
            flag(
                "--park",
                Some("NAME"),
                "if the run is cut, save it under this name (with --points)",
            ),
            POINTS,
            UNITS,
            BUDGET,
            SCHEDULE,
            PACKED,
            NAMES,
            ENCODING,
        ],
        more: super::help::POST,
    },
    Command {
        name: "bound",
        about: "say how long a schedule suffices for a line",
        arguments: &[BOOK, LINE],
        flags: &[PAYEE, DAY, JSON, UNITS, BUDGET, PACKED, NAMES, ENCODING],
        more: super::help::BOUND,
    },
    Command {
        name: "resume",
        about: "go on with a run that was parked",
        arguments: &[("NAME", "the name that it was parked under")],
        flags: &[POINTS, JSON, SCHEDULE, TEXT_NAMES, ENCODING],
        more: super::help::RESUME,
    },
    Command {
        name: "points",
        about: "list the runs that are parked in a file, and check it",
        arguments: &[("FILE", "a file of points; - is standard input")],
        flags: &[JSON],
        more: super::help::POINTS,
    },
    Command {
        name: "explain",
        about: "show which rules rewrote what, in order",
        arguments: &[BOOK, LINE],
        flags: &[
            PAYEE,
            DAY,
            RULES_ONLY,
            JSON,
            flag(
                "--check",
                Some("N"),
                "compare with the engine after every Nth rewrite",
            ),
            OUTPUT,
            UNITS,
            BUDGET,
            SCHEDULE,
            PACKED,
            NAMES,
            ENCODING,
        ],
        more: super::help::EXPLAIN,
    },
    Command {
        name: "trace",
        about: "show a run entry by entry, as text and as a picture",
        arguments: &[BOOK, LINE],
        flags: &[
            PAYEE,
            DAY,
            flag(
                "--svg",
                Some("FILE"),
                "write the units over time as a picture",
            ),
            flag("--no-text", None, "don't write the entries as text"),
            flag(
                "--rules-only",
                None,
                "of the text, only the entries at which a rule acts",
            ),
            flag(
                "--width",
                Some("N"),
                "room for the present term; 0 for all of it (default 100)",
            ),
            flag(
                "--check",
                Some("N"),
                "compare with the engine after every Nth entry (default 1)",
            ),
            OUTPUT,
            UNITS,
            BUDGET,
            SCHEDULE,
            PACKED,
            NAMES,
            ENCODING,
        ],
        more: super::help::TRACE,
    },
    Command {
        name: "batch",
        about: "reduce many lines, each to a line of output",
        arguments: &[
            BOOK,
            (
                "LINES",
                "a file with a term, or a payee, on each line; - is standard input",
            ),
        ],
        flags: &[
            LINES_PAYEE,
            DAY,
            OUTPUT,
            COUNTS,
            LINES_JSON,
            flag(
                "--profile",
                Some("FILE"),
                "write to this file how often each rule rewrote",
            ),
            COLUMN,
            SEPARATOR,
            HEADER,
            TEMPLATE,
            LINES_ENCODING,
            LATIN1,
            flag("--book-encoding", Some("E"), "the book text's"),
            QUIET,
            JOBS,
            UNITS,
            BUDGET,
            SCHEDULE,
            PACKED,
            NAMES,
        ],
        more: super::help::BATCH,
    },
    Command {
        name: "fees",
        about: "reduce lines with amounts, take fees off and split the rest",
        arguments: &[
            BOOK,
            ("TABLE", "the operators' rates in text form"),
            ("OWNERS", "the owners' shares in text form"),
            (
                "LINES",
                "a file with an amount and a line on each line; - is standard input",
            ),
        ],
        flags: &[
            LINES_PAYEE,
            DAY,
            OUTPUT,
            COUNTS,
            LINES_JSON,
            COLUMN,
            flag(
                "--amount",
                Some("C"),
                "the column of the amounts, by name or number (with --column)",
            ),
            SEPARATOR,
            HEADER,
            TEMPLATE,
            LINES_ENCODING,
            LATIN1,
            flag(
                "--book-encoding",
                Some("E"),
                "that of the book's, the table's and the owners' texts",
            ),
            QUIET,
            JOBS,
            UNITS,
            BUDGET,
            SCHEDULE,
            PACKED,
            NAMES,
        ],
        more: super::help::FEES,
    },
];

/// What a mistyped word may mean.
pub fn suggestion<'n>(known: impl Iterator<Item = &'n str>, mistyped: &str) -> String {
    nearest(known, mistyped).map_or(String::new(), |near| format!("; did you mean '{near}'?"))
}

/// A command line that fits its command.
pub struct Parsed {
    /// As they were given: the names of files need not be UTF-8.
    pub arguments: Vec<OsString>,
    values: HashMap<&'static str, OsString>,
}

impl Parsed {
    pub fn read(command: &Command, words: &[OsString]) -> Result<Parsed, String> {
        let mut parsed = Parsed {
            arguments: Vec::new(),
            values: HashMap::new(),
        };
        let mut words = words.iter();
        while let Some(word) = words.next() {
            match word.as_bytes() {
                b"--" => parsed.arguments.extend(words.by_ref().cloned()),
                [b'-', _, ..] => parsed.option(command, word, &mut words)?,
                _ => parsed.arguments.push(word.clone()),
            }
        }
        let due = command.arguments.len();
        match parsed.arguments.get(due) {
            Some(extra) => {
                let extra = extra.to_string_lossy();
                Err(format!("'{extra}' is one argument too many"))
            }
            None if parsed.arguments.len() < due => {
                let missing = command.arguments[parsed.arguments.len()].0;
                Err(format!("{missing} is missing"))
            }
            None => Ok(parsed),
        }
    }

    /// `--name VALUE` or `--name=VALUE`.
    fn option(
        &mut self,
        command: &Command,
        word: &OsStr,
        words: &mut std::slice::Iter<OsString>,
    ) -> Result<(), String> {
        let bytes = word.as_bytes();
        let (name, attached) = match bytes.iter().position(|byte| *byte == b'=') {
            Some(end) => (&bytes[..end], Some(OsStr::from_bytes(&bytes[end + 1..]))),
            None => (bytes, None),
        };
        let name = String::from_utf8_lossy(name);
        let Some(flag) = command.flags.iter().find(|flag| flag.name == name) else {
            let near = suggestion(command.flags.iter().map(|flag| flag.name), &name);
            return Err(format!("'{name}' is no option of this command{near}"));
        };
        let value = match (flag.value, attached) {
            (None, None) => OsString::new(),
            (None, Some(_)) => return Err(format!("{name} has no value")),
            (Some(_), Some(value)) => value.to_owned(),
            (Some(what), None) => words
                .next()
                .cloned()
                .ok_or_else(|| format!("{name} lacks its {what}"))?,
        };
        if !flag.names() && value.to_str().is_none() {
            let value = value.to_string_lossy();
            return Err(format!("{name} {value}: expected a value in UTF-8"));
        }
        match self.values.insert(flag.name, value) {
            Some(_) => Err(format!("{name} is given twice")),
            None => Ok(()),
        }
    }

    pub fn has(&self, name: &str) -> bool {
        self.values.contains_key(name)
    }

    /// An option's value that names no file.
    pub fn value(&self, name: &str) -> Option<&str> {
        self.values.get(name)?.to_str()
    }

    /// An option's value that names a file or a point.
    pub fn name(&self, name: &str) -> Option<&OsStr> {
        self.values.get(name).map(OsString::as_os_str)
    }

    /// The encoding that an option names, UTF-8 without it.
    pub fn encoding(&self, name: &str) -> Result<Encoding, String> {
        match self.value(name) {
            None => Ok(Encoding::Utf8),
            Some(written) => {
                Encoding::named(written).map_err(|wrong| format!("{name} {written}: {wrong}"))
            }
        }
    }

    pub fn number(&self, name: &str, least: u32, default: u32) -> Result<u32, String> {
        let Some(written) = self.value(name) else {
            return Ok(default);
        };
        match written.parse() {
            Ok(number) if number >= least => Ok(number),
            _ => Err(format!(
                "{name} {written}: expected a number from {least} to {}",
                u32::MAX
            )),
        }
    }

    pub fn units(&self) -> Result<u8, String> {
        match self.value("--units").unwrap_or("1").parse() {
            Ok(units @ 1..=8) => Ok(units),
            _ => Err(format!(
                "--units {}: expected a number of units from 1 to 8 (refusal 13)",
                self.value("--units").unwrap_or_default()
            )),
        }
    }

    pub fn day(&self) -> Result<Option<u16>, String> {
        let Some(written) = self.value("--day") else {
            return Ok(None);
        };
        let read = day::read(written);
        let expected = day::EXPECTED;
        read.map(Some)
            .map_err(|wrong| format!("--day {written}: {wrong}; expected {expected}"))
    }

    pub fn jobs(&self) -> Result<usize, String> {
        match self.value("--jobs").unwrap_or("1").parse() {
            Ok(jobs @ 1..=256) => Ok(jobs),
            _ => Err(format!(
                "--jobs {}: expected a number from 1 to 256",
                self.value("--jobs").unwrap_or_default()
            )),
        }
    }
}
