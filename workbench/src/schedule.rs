//! Schedules said in few words.

use std::ffi::OsStr;
use std::os::unix::ffi::OsStrExt;
use std::path::Path;

use comparison::random::Random;

/// The forms of a schedule, for the help.
pub const FORMS: &str = "  round-robin:N     units 0, 1, .. in turn, N entries in all
  bursts:K:N        in turn, each unit K entries at a time, N in all
  random:SEED:N     N entries drawn at random; the same for the same SEED
  0,1,1,0*20        a list of entries; 0*20 is twenty entries of unit 0
  file:NAME         the bytes of a file, one an entry";

/// The most entries that a schedule given by a number may have.
const MOST: usize = 1 << 24;

/// The file's name in `file:NAME`, which need not be UTF-8.
pub fn file(form: &OsStr) -> Option<&OsStr> {
    form.as_bytes()
        .strip_prefix(b"file:")
        .map(OsStr::from_bytes)
}

/// Why a form gives no schedule.
#[derive(Debug)]
pub enum Wrong {
    Form(String),
    /// A file that can't be read.
    File(String),
}

impl From<String> for Wrong {
    fn from(wrong: String) -> Wrong {
        Wrong::Form(wrong)
    }
}

/// The entries that `form` says for so many units.
pub fn read(form: impl AsRef<OsStr>, units: u8) -> Result<Vec<u8>, Wrong> {
    let form = form.as_ref();
    let schedule = match file(form).map(Path::new) {
        Some(name) => std::fs::read(name)
            .map_err(|error| Wrong::File(format!("{}: {error}", name.display())))?,
        None => said(&form.to_string_lossy(), units)?,
    };
    match schedule.iter().find(|unit| **unit >= units) {
        Some(unit) => Err(Wrong::Form(format!(
            "an entry names unit {unit}; expected units 0 to {} (refusal 14)",
            units - 1
        ))),
        None => Ok(schedule),
    }
}

fn said(form: &str, units: u8) -> Result<Vec<u8>, String> {
    let parts: Vec<&str> = form.split(':').collect();
    match parts[..] {
        ["round-robin", length] => Ok(bursts(units, 1, number(length, MOST)?)),
        ["bursts", burst, length] => {
            let (burst, length) = (number(burst, MOST)?, number(length, MOST)?);
            Ok(bursts(units, burst, length))
        }
        ["random", seed, length] => random(units, seed, number(length, MOST)?),
        [list] => entries(list),
        _ => Err(format!("'{form}' is no schedule; the forms are\n{FORMS}")),
    }
}

fn number(written: &str, most: usize) -> Result<usize, String> {
    match written.parse() {
        Ok(number) if number <= most => Ok(number),
        _ => Err(format!("'{written}' is no number up to {most}")),
    }
}

fn bursts(units: u8, burst: usize, length: usize) -> Vec<u8> {
    (0..units)
        .flat_map(|unit| std::iter::repeat_n(unit, burst.max(1)))
        .cycle()
        .take(length)
        .collect()
}

fn random(units: u8, seed: &str, length: usize) -> Result<Vec<u8>, String> {
    let mut random = Random::new(number(seed, usize::MAX)? as u64);
    Ok((0..length)
        .map(|_| random.below(units.into()) as u8)
        .collect())
}

fn entries(list: &str) -> Result<Vec<u8>, String> {
    let mut schedule = Vec::new();
    for entry in list.split(',').filter(|_| !list.is_empty()) {
        let (unit, times) = entry.split_once('*').unwrap_or((entry, "1"));
        let unit = number(unit.trim(), 255)
            .map_err(|_| format!("'{list}' is no schedule; the forms are\n{FORMS}"))?;
        let times = number(times.trim(), MOST)?;
        schedule.extend(std::iter::repeat_n(unit as u8, times));
    }
    Ok(schedule)
}
