//! Puts every NAME.in of a folder to the model and compares its answer with NAME.out.

use std::env;
use std::path::Path;
use std::process::ExitCode;

use comparison::model::Form;
use comparison::vectors::{run, Kind};

fn main() -> ExitCode {
    let words: Vec<String> = env::args().skip(1).collect();
    let words: Vec<&str> = words.iter().map(String::as_str).collect();
    let (kind, folder) = match words[..] {
        ["--payee", folder] => (Kind::Page(Form::Text), folder),
        ["--write", folder] => (Kind::Write, folder),
        [folder] if !folder.starts_with("--") => (Kind::Page(Form::Line), folder),
        _ => {
            eprintln!("usage: vectors [--payee | --write] FOLDER");
            eprintln!("--payee: the inputs are those of the second program, for texts");
            eprintln!("--write: the inputs are books, for the writer");
            return ExitCode::from(2);
        }
    };
    let outcome = match run(kind, Path::new(folder)) {
        Ok(outcome) => outcome,
        Err(error) => {
            eprintln!("{folder}: {error}");
            return ExitCode::from(2);
        }
    };
    for input in &outcome.failed {
        println!("failed: {}", input.display());
    }
    println!("{} passed, {} failed", outcome.passed, outcome.failed.len());
    // A folder without cases shows nothing.
    match outcome.passed > 0 && outcome.failed.is_empty() {
        true => ExitCode::SUCCESS,
        false => ExitCode::FAILURE,
    }
}
