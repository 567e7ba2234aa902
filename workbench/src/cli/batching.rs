//! `kurvneist batch` and `kurvneist fees`.

use std::ffi::OsStr;
use std::io;
use std::path::Path;

use crate::batch::{self, Failure, Settings, Summary};
use crate::cli::commands::usage;
use crate::cli::options::Parsed;
use crate::cli::{files, reading, say, Status, Stop};
use crate::fees::{owners, table, Charging};
use crate::items::BadHeader;
use crate::output::Output;
use crate::profile::Profile;
use crate::progress::Progress;
use crate::text::check::Named;

pub fn batch(parsed: &Parsed) -> Result<Status, Stop> {
    post_all(parsed, None::<fn(&Named) -> Result<Charging, Stop>>)
}

/// A batch of lines with amounts, whose postings are charged.
pub fn fees(parsed: &Parsed) -> Result<Status, Stop> {
    post_all(parsed, Some(|named: &Named| charging(parsed, named)))
}

/// The TABLE and the OWNERS of a command line.
fn charging(parsed: &Parsed, named: &Named) -> Result<Charging, Stop> {
    let encoding = parsed.encoding("--book-encoding").map_err(usage)?;
    let [_, table, owners, _] = &parsed.arguments[..] else {
        unreachable!("a command with four arguments")
    };
    let read = |source: &str| table::read(source, &named.names);
    let table = files::table(table, encoding, read)?;
    let owners = files::table(owners, encoding, owners::read)?;
    Ok(Charging::new(table, owners))
}

/// Posts the lines of the last argument, and charges them by what is made for
/// the book.
fn post_all(
    parsed: &Parsed,
    charging: Option<impl FnOnce(&Named) -> Result<Charging, Stop>>,
) -> Result<Status, Stop> {
    let units = parsed.units().map_err(usage)?;
    let budget = parsed.number("--budget", 0, 1_000_000).map_err(usage)?;
    let jobs = parsed.jobs().map_err(usage)?;
    let reading = reading::of(parsed, charging.is_some())?;
    let schedules = files::schedules(parsed, units)?;
    profile_apart(parsed)?;
    let named = files::named(parsed, "--book-encoding")?;
    let day = files::day(parsed, &named)?;
    reading::check_template(parsed, &reading, &named.names)?;
    let charging = charging.map(|charging| charging(&named)).transpose()?;
    let profile = parsed
        .has("--profile")
        .then(|| Profile::new(&named.book, day));
    let settings = Settings {
        named: &named,
        budget,
        day,
        schedules: &schedules,
        counts: parsed.has("--counts"),
        reading: &reading,
        jobs,
        json: parsed.has("--json"),
        profile: profile.as_ref(),
        charging: charging.as_ref(),
    };
    let Some(summary) = run(parsed, &settings)? else {
        return Ok(Status::Done);
    };
    if let Some(profile) = &profile {
        write_profile(parsed, profile, &named)?;
    }
    if !parsed.has("--quiet") {
        say(&summary.to_string());
    }
    Ok(match summary.not_posted() {
        0 => Status::Done,
        _ => Status::NotPosted,
    })
}

/// From LINES to the postings' file. Nothing is answered if who reads the
/// postings, as `head` does, has all that was wanted.
fn run(parsed: &Parsed, settings: &Settings) -> Result<Option<Summary>, Stop> {
    let name = parsed.arguments.last().expect("LINES is the last argument");
    let (mut input, length) = files::input(name)?;
    let mut progress = match parsed.has("--quiet") {
        true => Progress::hidden(),
        false => Progress::new(),
    };
    progress.expect(length);
    let postings = files::output_name(parsed);
    let unwritten = |error| files::unusable(postings, error);
    let mut output = Output::create(postings).map_err(unwritten)?;
    let run = batch::run(&mut input, settings, &mut output, &mut progress);
    let done = run.and_then(|summary| match output.finish() {
        Ok(()) => Ok(summary),
        Err(error) => Err(Failure::Write(error)),
    });
    match done {
        Ok(summary) => Ok(Some(summary)),
        Err(Failure::Write(error)) if is_gone(&error) => Ok(None),
        Err(Failure::Write(error)) => Err(unwritten(error)),
        Err(Failure::Read(error)) => Err(files::unusable(name, error)),
        Err(Failure::Header(BadHeader(wrong))) => {
            let message = format!("{}: {wrong}", Path::new(name).display());
            Err(Stop::new(Status::Input, message))
        }
    }
}

fn is_gone(error: &io::Error) -> bool {
    error.kind() == io::ErrorKind::BrokenPipe
}

/// Postings and profile don't both go to standard output.
fn profile_apart(parsed: &Parsed) -> Result<(), Stop> {
    match parsed.name("--profile") {
        Some(name) if name == "-" && files::output_name(parsed) == "-" => {
            let wrong = "the postings and the profile both go to standard output; expected -o FILE";
            Err(usage(wrong.to_owned()))
        }
        _ => Ok(()),
    }
}

fn write_profile(parsed: &Parsed, profile: &Profile, named: &Named) -> Result<(), Stop> {
    if let Some(difference) = profile.difference() {
        return Err(Stop::new(Status::Difference, difference.to_string()));
    }
    let text = match parsed.has("--json") {
        true => format!("{}\n", profile.json(named)),
        false => profile.text(named),
    };
    let name = parsed.name("--profile").unwrap_or(OsStr::new("-"));
    files::write(name, text.as_bytes())
}
