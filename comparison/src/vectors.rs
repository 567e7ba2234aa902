//! Vectors: whole standard inputs, NAME.in, and the pages that they must
//! give, NAME.out; or books, and what the writer answers.

use std::path::{Path, PathBuf};
use std::{fs, io};

use crate::model::{page_of, written, Form};

/// What a folder's vectors are about.
#[derive(Clone, Copy, Debug, PartialEq, Eq)]
pub enum Kind {
    /// The page of a program.
    Page(Form),
    /// The writer's answer to a book.
    Write,
}

impl Kind {
    /// The model's answer to an input.
    fn answer(self, input: &[u8]) -> Vec<u8> {
        match self {
            Kind::Page(form) => page_of(form, input),
            Kind::Write => write_line(&written(input, usize::MAX)).into_bytes(),
        }
    }
}

/// The refusal, or the written book in hexadecimal.
pub fn write_line(written: &Result<Vec<u8>, u8>) -> String {
    match written {
        Err(number) => format!("refused {number}\n"),
        Ok(bytes) => {
            let digits = bytes.iter().map(|byte| format!("{byte:02x}"));
            format!("{}\n", digits.collect::<Vec<String>>().join(" "))
        }
    }
}

/// What became of a folder's vectors.
#[derive(Debug, Default)]
pub struct Outcome {
    pub passed: usize,
    pub failed: Vec<PathBuf>,
}

/// Holds the model to every NAME.in of a folder.
pub fn run(kind: Kind, folder: &Path) -> io::Result<Outcome> {
    let mut outcome = Outcome::default();
    for input in inputs(folder)? {
        if passes(kind, &input)? {
            outcome.passed += 1;
        } else {
            outcome.failed.push(input);
        }
    }
    Ok(outcome)
}

fn inputs(folder: &Path) -> io::Result<Vec<PathBuf>> {
    let mut paths = Vec::new();
    for entry in fs::read_dir(folder)? {
        let path = entry?.path();
        if path.extension().is_some_and(|extension| extension == "in") {
            paths.push(path);
        }
    }
    paths.sort();
    Ok(paths)
}

/// An input without its answer counts as failed.
fn passes(kind: Kind, input: &Path) -> io::Result<bool> {
    let answer = kind.answer(&fs::read(input)?);
    Ok(fs::read(input.with_extension("out")).is_ok_and(|expected| expected == answer))
}
