//! The program: commands, their options and help from one table.

mod batching;
mod bounding;
mod checking;
mod commands;
mod explaining;
mod files;
pub mod help;
pub mod options;
mod parking;
mod places;
mod reading;

use std::ffi::OsString;
use std::io::{stderr, Write};
use std::process::ExitCode;

use options::{Command, Parsed};

/// What the program's exit status tells.
#[derive(Clone, Copy, Debug, PartialEq, Eq)]
pub enum Status {
    Done = 0,
    /// A line was refused, mistyped, or its run didn't finish; in bound, that of
    /// one unit.
    NotPosted = 1,
    /// The command line is wrong.
    Usage = 2,
    /// A book, a fee table or shares are mistaken or refused, a point breaks a
    /// rule, or a file can't be used.
    Input = 3,
    /// A trace, explanation, profile or list of points differs from the engine,
    /// or a text from its book.
    Difference = 4,
}

/// Why a command stopped: its status and what is told on standard error, if it
/// isn't told already.
#[derive(Debug)]
pub struct Stop {
    pub status: Status,
    pub message: String,
}

impl Stop {
    pub fn new(status: Status, message: impl Into<String>) -> Stop {
        Stop {
            status,
            message: message.into(),
        }
    }
}

pub fn main(arguments: Vec<OsString>) -> ExitCode {
    let status = match run(&arguments) {
        Ok(status) => status,
        Err(stop) => {
            if !stop.message.is_empty() {
                say(stop.message.trim_end());
            }
            stop.status
        }
    };
    ExitCode::from(status as u8)
}

/// A line on standard error, if anybody listens.
fn say(line: &str) {
    let _ = writeln!(stderr(), "{line}");
}

fn run(arguments: &[OsString]) -> Result<Status, Stop> {
    let (first, rest) = match arguments.split_first() {
        None => return print(&help::general()),
        Some((first, rest)) => (first.to_string_lossy(), rest),
    };
    match &*first {
        "help" | "--help" | "-h" => match rest.first() {
            None => print(&help::general()),
            Some(name) => print(&help::of(command(&name.to_string_lossy())?)),
        },
        "--version" | "-V" => print(concat!("kurvneist ", env!("CARGO_PKG_VERSION"), "\n")),
        name => run_command(command(name)?, rest),
    }
}

fn run_command(command: &Command, rest: &[OsString]) -> Result<Status, Stop> {
    let mut options = rest.iter().take_while(|word| *word != "--");
    if options.any(|word| word == "--help" || word == "-h") {
        return print(&help::of(command));
    }
    let wrong = |wrong: String| {
        let (name, usage) = (command.name, help::usage(command));
        Stop::new(Status::Usage, format!("kurvneist {name}: {wrong}\n{usage}"))
    };
    let parsed = Parsed::read(command, rest).map_err(wrong)?;
    places::check(command, &parsed).map_err(wrong)?;
    let run = match command.name {
        "book" => commands::book,
        "text" => commands::text,
        "check" => checking::check,
        "post" => commands::post,
        "bound" => bounding::bound,
        "resume" => parking::resume,
        "points" => parking::points,
        "explain" => explaining::explain,
        "trace" => commands::trace,
        "batch" => batching::batch,
        _ => batching::fees,
    };
    run(&parsed)
}

fn command(name: &str) -> Result<&'static Command, Stop> {
    let found = options::COMMANDS
        .iter()
        .find(|command| command.name == name);
    found.ok_or_else(|| {
        let names: Vec<&str> = options::COMMANDS.iter().map(|known| known.name).collect();
        let message = format!(
            "kurvneist: '{name}' is no command; expected {} or help{}",
            names.join(", "),
            options::suggestion(names.iter().copied().chain(["help"]), name)
        );
        Stop::new(Status::Usage, message)
    })
}

fn print(text: &str) -> Result<Status, Stop> {
    files::print(text.as_bytes())?;
    Ok(Status::Done)
}
