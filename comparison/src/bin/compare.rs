//! Compares the static library, or the programs, with the model on random
//! cases: lines and, every third one, texts. Some have many lines for their book
//! besides, some have fees, some another order of the book's rules, some rounds,
//! of which it is asked how many suffice; only the library is asked those, and of
//! each book whether it is strict. Behind them come calls on buffers of points, of
//! which only the library knows too.

use std::ops::Range;
use std::path::PathBuf;
use std::process::ExitCode;
use std::time::Instant;

use comparison::broken::{BrokenModel, Slip, SLIPS};
use comparison::broken_points::{slips as slips_of_points, BrokenPoints, PointSlip};
use comparison::compare::compare;
use comparison::compare_points::compare_points;
use comparison::library::Library;
use comparison::program::{compare_pages, Pages, Programs};
use comparison::subject::{Parking, Subject};

/// So many cases meet every ending and every refusal, of lines and of texts, every
/// kind of batch and of charge, and all that the strict profile tells.
const ENOUGH: u64 = 10_000;

/// For so many cases there is one of several calls on points; of those that come
/// with enough cases, every kind is met.
const POINTS_EVERY: u64 = 5;

struct Options {
    count: u64,
    seed: u64,
    /// The number of the first case.
    from: u64,
    slip: Option<AnySlip>,
    /// The folder of the programs, if they are compared.
    programs: Option<PathBuf>,
}

#[derive(Clone, Copy)]
enum AnySlip {
    Of(Slip),
    OfPoints(PointSlip),
}

fn main() -> ExitCode {
    match options(std::env::args().skip(1)) {
        Ok(options) => run(&options),
        Err(message) => {
            let slips: Vec<&str> = SLIPS.iter().map(|(name, _)| *name).collect();
            let of_points: Vec<String> = slips_of_points().map(PointSlip::name).collect();
            eprintln!("{message}");
            eprintln!(
                "usage: compare [--count N] [--seed S] [--from CASE] [--break [SLIP] | --programs FOLDER]"
            );
            eprintln!("slips: {}, {}", slips.join(", "), of_points.join(", "));
            ExitCode::from(2)
        }
    }
}

fn options(words: impl Iterator<Item = String>) -> Result<Options, String> {
    let mut options = Options {
        count: 10_000,
        seed: 1,
        from: 0,
        slip: None,
        programs: None,
    };
    let mut words = words.peekable();
    while let Some(word) = words.next() {
        let value = words.next_if(|value| !value.starts_with("--"));
        match word.as_str() {
            "--count" => options.count = number(value)?,
            "--seed" => options.seed = number(value)?,
            "--from" => options.from = number(value)?,
            "--break" => options.slip = Some(slip(value)?),
            "--programs" => {
                options.programs = Some(value.ok_or("a folder is missing")?.into());
            }
            _ => return Err(format!("unknown option {word}")),
        }
    }
    Ok(options)
}

fn number(value: Option<String>) -> Result<u64, String> {
    let value = value.ok_or("a number is missing")?;
    value
        .parse()
        .map_err(|_| format!("{value} is not a number"))
}

/// `--break` alone takes the first slip.
fn slip(value: Option<String>) -> Result<AnySlip, String> {
    let Some(value) = value else {
        return Ok(AnySlip::Of(SLIPS[0].1));
    };
    let found = SLIPS.iter().find(|(name, _)| *name == value);
    let of_points = || slips_of_points().find(|slip| slip.name() == value);
    found
        .map(|(_, slip)| AnySlip::Of(*slip))
        .or_else(|| of_points().map(AnySlip::OfPoints))
        .ok_or(format!("unknown slip {value}"))
}

fn run(options: &Options) -> ExitCode {
    let numbers = options.from..options.from.saturating_add(options.count);
    let same = match (&options.programs, options.slip) {
        (Some(folder), _) => {
            Programs::of(folder).map(|programs| run_pages(&programs, options, numbers))
        }
        // A slip of the page shows in no answer.
        (None, Some(AnySlip::Of(slip))) if slip.is_of_pages() => {
            Ok(run_pages(&BrokenModel { slip }, options, numbers))
        }
        (None, Some(AnySlip::Of(slip))) => {
            Ok(run_subject(&mut BrokenModel { slip }, options, numbers))
        }
        (None, Some(AnySlip::OfPoints(slip))) => {
            Ok(run_points(&mut BrokenPoints { slip }, options, numbers))
        }
        (None, None) => {
            let fewer = numbers.start / POINTS_EVERY..numbers.end / POINTS_EVERY;
            let same = run_subject(&mut Library, options, numbers);
            Ok(same && run_points(&mut Library, options, fewer))
        }
    };
    match same {
        Ok(true) => {
            println!("no difference");
            ExitCode::SUCCESS
        }
        Ok(false) => ExitCode::FAILURE,
        Err(error) => {
            eprintln!("{error}");
            ExitCode::from(2)
        }
    }
}

/// Answers whether the library, or a broken model, did as the model does.
fn run_subject(subject: &mut dyn Subject, options: &Options, numbers: Range<u64>) -> bool {
    let start = Instant::now();
    let (tally, difference) = compare(subject, options.seed, numbers);
    print!("{tally}");
    tell_speed(options.seed, tally.cases, start);
    if let Some(difference) = difference {
        print!("{difference}");
        return false;
    }
    let missing = tally.missing();
    if tally.cases >= ENOUGH && !missing.is_empty() {
        println!("no difference, but never met: {}", missing.join(", "));
        return false;
    }
    true
}

/// The same of calls on points.
fn run_points(subject: &mut dyn Parking, options: &Options, numbers: Range<u64>) -> bool {
    let start = Instant::now();
    let count = numbers.end - numbers.start;
    let (tally, difference) = compare_points(subject, options.seed, numbers);
    print!("{tally}");
    tell_speed(options.seed, count, start);
    if let Some(difference) = difference {
        print!("{difference}");
        return false;
    }
    let missing = tally.missing();
    if count >= ENOUGH / POINTS_EVERY && !missing.is_empty() {
        println!("no difference, but never met: {}", missing.join(", "));
        return false;
    }
    true
}

/// Answers whether all pages are the model's.
fn run_pages(subject: &dyn Pages, options: &Options, numbers: Range<u64>) -> bool {
    let start = Instant::now();
    let (pages, difference) = compare_pages(subject, options.seed, numbers);
    println!("pages    {pages}");
    tell_speed(options.seed, pages, start);
    if let Some(difference) = &difference {
        print!("{difference}");
    }
    difference.is_none()
}

fn tell_speed(seed: u64, cases: u64, start: Instant) {
    let seconds = start.elapsed().as_secs_f64();
    let speed = cases as f64 / seconds;
    println!("seed {seed}, {seconds:.1} s, {speed:.0} cases a second");
}
