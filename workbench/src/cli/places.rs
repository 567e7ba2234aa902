//! That no file is named twice where something would be lost by it.

use std::ffi::{OsStr, OsString};
use std::fs::{self, File, Metadata};
use std::io;
use std::os::fd::AsFd;
use std::os::unix::fs::{FileTypeExt, MetadataExt};
use std::path::{Path, PathBuf};

use crate::cli::options::{Command, Parsed};
use crate::output::{behind_links, folder};
use crate::schedule;

/// A file that a command line names, and what it is called there.
struct Named {
    what: &'static str,
    name: OsString,
    place: Option<Place>,
}

/// By device and number, a file is the same under all its links.
#[derive(PartialEq, Eq)]
enum Place {
    There { device: u64, number: u64 },
    New(PathBuf),
}

/// Refuses two inputs from standard input, an output that is an input, and two
/// outputs that are one.
pub fn check(command: &Command, parsed: &Parsed) -> Result<(), String> {
    let inputs = inputs(command, parsed);
    let outputs = outputs(command, parsed);
    for (index, input) in inputs.iter().enumerate() {
        let before = inputs[..index].iter().find(|other| other.name == "-");
        if let (Some(other), true) = (before, input.name == "-") {
            let (one, two) = (other.what, input.what);
            return Err(format!("{one} and {two} are both standard input"));
        }
    }
    for (index, output) in outputs.iter().enumerate() {
        if let Some(other) = outputs[..index].iter().find(|other| same(other, output)) {
            return Err(format!("{} and {} are one file", told(other), told(output)));
        }
    }
    let printed = Named {
        what: "",
        name: "standard output".into(),
        place: standard(io::stdout()),
    };
    for output in outputs.iter().chain([&printed]) {
        if let Some(input) = inputs.iter().find(|input| same(input, output)) {
            let (output, input) = (told(output), told(input));
            return Err(format!("{output} is {input}, which it would overwrite"));
        }
    }
    Ok(())
}

fn told(named: &Named) -> String {
    let name = Path::new(&named.name).display();
    format!("{} {name}", named.what).trim_start().to_owned()
}

fn same(one: &Named, two: &Named) -> bool {
    one.place.is_some() && one.place == two.place
}

/// All arguments but a LINE or a NAME, the texts of options, and a schedule's file.
fn inputs(command: &Command, parsed: &Parsed) -> Vec<Named> {
    let arguments = command.arguments.iter().zip(&parsed.arguments);
    let arguments = arguments
        .filter(|((what, _), _)| !matches!(*what, "LINE" | "NAME"))
        .map(|((what, _), name)| (*what, name.as_os_str()));
    let schedule = parsed.name("--schedule").and_then(schedule::file);
    let schedule = schedule.map(|name| ("--schedule", name));
    let input = |(what, name): (&'static str, &OsStr)| Named {
        what,
        name: name.to_owned(),
        place: match name == "-" && what != "--schedule" {
            true => standard(io::stdin()),
            false => there(name),
        },
    };
    arguments
        .chain(values(command, parsed, "TEXT"))
        .chain(schedule)
        .map(input)
        .collect()
}

fn outputs(command: &Command, parsed: &Parsed) -> Vec<Named> {
    let output = |(what, name): (&'static str, &OsStr)| Named {
        what,
        name: name.to_owned(),
        place: match name == "-" {
            true => standard(io::stdout()),
            false => there(name).or_else(|| new(name)),
        },
    };
    values(command, parsed, "FILE").map(output).collect()
}

/// The options whose value is called so, with their values.
fn values<'a>(
    command: &'a Command,
    parsed: &'a Parsed,
    called: &'a str,
) -> impl Iterator<Item = (&'static str, &'a OsStr)> {
    let flags = command.flags.iter();
    flags
        .filter(move |flag| flag.value == Some(called))
        .filter_map(|flag| Some((flag.name, parsed.name(flag.name)?)))
}

fn there(name: &OsStr) -> Option<Place> {
    place(&fs::metadata(name).ok()?)
}

/// Where a file would come; nowhere, if there is no folder for it.
fn new(name: &OsStr) -> Option<Place> {
    if fs::metadata(name).is_ok() {
        return None;
    }
    let path = behind_links(Path::new(name)).ok()?;
    let folder = fs::canonicalize(folder(&path)).ok()?;
    Some(Place::New(folder.join(path.file_name()?)))
}

/// The file that standard input or output goes to.
fn standard(stream: impl AsFd) -> Option<Place> {
    let own = stream.as_fd().try_clone_to_owned().ok()?;
    place(&File::from(own).metadata().ok()?)
}

/// Terminals, /dev/null and sockets keep nothing: they may be input and output.
fn place(metadata: &Metadata) -> Option<Place> {
    let kind = metadata.file_type();
    if kind.is_char_device() || kind.is_socket() {
        return None;
    }
    Some(Place::There {
        device: metadata.dev(),
        number: metadata.ino(),
    })
}
