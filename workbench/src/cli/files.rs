//! Files in and out, and the books in them.

use std::ffi::OsStr;
use std::fs::{self, File};
use std::io::{self, Read, Write};
use std::os::fd::AsFd;
use std::path::Path;

use comparison::model::{self, Book};

use crate::cli::commands::usage;
use crate::cli::options::Parsed;
use crate::cli::{say, Status, Stop};
use crate::compose::composed;
use crate::day;
use crate::encoding::{BadByte, Encoding};
use crate::mistake::{Mistake, Span};
use crate::names::Names;
use crate::output::Output;
use crate::posting::Schedules;
use crate::schedule::{self, Wrong};
use crate::text::check::{self, Named};

/// Where an undated book is given a day.
pub const DAY_IGNORED: &str = "the book is undated: --day is ignored";

/// Of many mistakes in a text, so many are shown.
const SHOWN: usize = 20;

pub fn unusable(name: &OsStr, error: io::Error) -> Stop {
    let name = Path::new(name).display();
    Stop::new(Status::Input, format!("{name}: {error}"))
}

/// A file's bytes; `-` is standard input.
pub fn bytes(name: &OsStr) -> Result<Vec<u8>, Stop> {
    let read = match name == "-" {
        true => {
            let mut bytes = Vec::new();
            io::stdin().read_to_end(&mut bytes).map(|_| bytes)
        }
        false => fs::read(name),
    };
    read.map_err(|error| unusable(name, error))
}

/// A file to be read line by line, and its length if it has one; `-` is
/// standard input.
pub fn input(name: &OsStr) -> Result<(File, Option<u64>), Stop> {
    let file = match name == "-" {
        true => io::stdin().as_fd().try_clone_to_owned().map(File::from),
        false => File::open(name),
    };
    let file = file.map_err(|error| unusable(name, error))?;
    let metadata = file.metadata().ok().filter(|metadata| metadata.is_file());
    let length = metadata.map(|metadata| metadata.len());
    Ok((file, length))
}

/// To a file; `-` is standard output, whose reader may go away, as `head` does.
pub fn write(name: &OsStr, bytes: &[u8]) -> Result<(), Stop> {
    let written = Output::create(name).and_then(|mut output| {
        output.write_all(bytes)?;
        output.finish()
    });
    match written {
        Err(error) if name == "-" && error.kind() == io::ErrorKind::BrokenPipe => Ok(()),
        Err(error) if name == "-" => Err(unusable(OsStr::new("standard output"), error)),
        Err(error) => Err(unusable(name, error)),
        Ok(()) => Ok(()),
    }
}

/// The file of `-o`, or `-`.
pub fn output_name(parsed: &Parsed) -> &OsStr {
    parsed.name("-o").unwrap_or(OsStr::new("-"))
}

/// To the file of `-o`, or to standard output.
pub fn write_or_print(parsed: &Parsed, text: &str) -> Result<(), Stop> {
    write(output_name(parsed), text.as_bytes())
}

pub fn print(bytes: &[u8]) -> Result<(), Stop> {
    write(OsStr::new("-"), bytes)
}

/// A LINE of the command line. What isn't UTF-8 is told and not replaced.
pub fn line(argument: &OsStr) -> Result<&str, Stop> {
    argument.to_str().ok_or_else(|| {
        let message = "LINE is not UTF-8; expected a line in UTF-8";
        Stop::new(Status::NotPosted, message)
    })
}

/// The schedules that a command line asks for.
pub fn schedules(parsed: &Parsed, units: u8) -> Result<Schedules, Stop> {
    let Some(form) = parsed.name("--schedule") else {
        return Ok(Schedules::new(units, None));
    };
    let given = schedule::read(form, units).map_err(|wrong| match wrong {
        Wrong::File(wrong) => Stop::new(Status::Input, wrong),
        Wrong::Form(wrong) => {
            let form = form.to_string_lossy();
            Stop::new(
                Status::Usage,
                format!("kurvneist: --schedule {form}: {wrong}"),
            )
        }
    })?;
    Ok(Schedules::new(units, Some(given)))
}

/// The book of a text, or all its mistakes.
pub fn named_text(name: &OsStr, encoding: Encoding) -> Result<Named, Stop> {
    let (source, read) = read_text(name, encoding)?;
    read.map_err(|mistakes| mistaken(name, &source, &mistakes))
}

/// A text, and its book or all its mistakes.
pub fn read_text(
    name: &OsStr,
    encoding: Encoding,
) -> Result<(String, Result<Named, Vec<Mistake>>), Stop> {
    let more = "; a packed book is read with --packed or 'kurvneist text'";
    read_source(name, encoding, more, check::read)
}

/// What a table in text form says, or all its mistakes.
pub fn table<Table>(
    name: &OsStr,
    encoding: Encoding,
    read: impl FnOnce(&str) -> Result<Table, Vec<Mistake>>,
) -> Result<Table, Stop> {
    let (source, read) = read_source(name, encoding, "", read)?;
    read.map_err(|mistakes| mistaken(name, &source, &mistakes))
}

/// A text and what is read of it, or all its mistakes. Of a byte that it can't
/// have, `more` says what else it may be.
fn read_source<Read>(
    name: &OsStr,
    encoding: Encoding,
    more: &str,
    read: impl FnOnce(&str) -> Result<Read, Vec<Mistake>>,
) -> Result<(String, Result<Read, Vec<Mistake>>), Stop> {
    let bytes = bytes(name)?;
    Ok(match encoding.decode(&bytes) {
        Ok(source) => {
            let source = composed(&source).into_owned();
            let read = read(&source);
            (source, read)
        }
        Err(bad) => {
            let mistake = bad_byte(&bad, encoding, more);
            (encoding.lossy(&bytes), Err(vec![mistake]))
        }
    })
}

pub fn mistaken(name: &OsStr, source: &str, mistakes: &[Mistake]) -> Stop {
    let name = name.to_string_lossy();
    Stop::new(Status::Input, shown(&name, source, mistakes))
}

/// The bad byte became a character of three bytes in the shown source.
fn bad_byte(bad: &BadByte, encoding: Encoding, more: &str) -> Mistake {
    let at = bad.before.len();
    let expected = format!("a text in {encoding}, or its encoding by an option{more}");
    Mistake::new(Span::new(at, at + 3), bad.to_string(), expected)
}

fn shown(name: &str, source: &str, mistakes: &[Mistake]) -> String {
    let mut text: String = mistakes
        .iter()
        .take(SHOWN)
        .map(|mistake| mistake.show(name, source))
        .collect();
    if mistakes.len() > SHOWN {
        text.push_str(&format!("and {} more\n", mistakes.len() - SHOWN));
    }
    text
}

/// A packed book, settled by the proved writer, and names for it: those of a
/// text, or made up as said.
pub fn named_packed(
    name: &OsStr,
    names: Option<&OsStr>,
    encoding: Encoding,
    made_up: fn(&Book) -> Names,
) -> Result<Named, Stop> {
    let bytes = bytes(name)?;
    let name = Path::new(name).display();
    let book = kurvneist::written_book(&bytes)
        .map_err(|refusal| Stop::new(Status::Input, format!("{name}: {refusal}")))?;
    let read = model::read_book(&book).expect("what the proved writer wrote can be read");
    let names = match names {
        None => made_up(&read),
        Some(text) => {
            let named = named_text(text, encoding)?;
            let names = match named.book == book {
                true => named.names,
                false => named.names.without_variables(),
            };
            if !names.fit(&read) {
                let text = Path::new(text).display();
                let message = format!("{text}: its operators' number or arities aren't {name}'s");
                return Err(Stop::new(Status::Input, message));
            }
            names
        }
    };
    Ok(Named {
        book,
        names,
        rule_lines: Vec::new(),
        days: read.days,
    })
}

/// The day of the runs by a book, as a command line says it. A dated book has
/// no day of its own, and today's would make postings depend on the clock.
pub fn day(parsed: &Parsed, named: &Named) -> Result<u16, Stop> {
    let given = parsed.day().map_err(usage)?;
    match (given, &named.days) {
        (Some(day), Some(_)) => Ok(day),
        (Some(day), None) => {
            say(DAY_IGNORED);
            Ok(day)
        }
        (None, None) => Ok(0),
        (None, Some(days)) => Err(usage(format!(
            "the book is dated{}; expected --day with {}",
            span_of(days),
            day::EXPECTED
        ))),
    }
}

/// `, 2024-01-01 to 2026-07-01`; nothing for a book without rules.
pub fn span_of(days: &[u16]) -> String {
    match (days.iter().min(), days.iter().max()) {
        (Some(first), Some(last)) if first < last => {
            format!(", {} to {}", day::date(*first), day::date(*last))
        }
        (Some(only), _) => format!(", {}", day::date(*only)),
        _ => String::new(),
    }
}

/// The BOOK of a command that reduces, and the option with its encoding.
pub fn named(parsed: &Parsed, encoding: &str) -> Result<Named, Stop> {
    let name = &parsed.arguments[0];
    let encoding = parsed.encoding(encoding).map_err(usage)?;
    if parsed.has("--packed") {
        let made_up = match parsed.has("--payee") {
            true => Names::generated_with_letters,
            false => Names::generated,
        };
        return named_packed(name, parsed.name("--names"), encoding, made_up);
    }
    if parsed.has("--names") {
        let message = "--names goes with --packed: a text has its own names";
        return Err(Stop::new(Status::Usage, message));
    }
    named_text(name, encoding)
}
