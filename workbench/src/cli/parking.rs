//! Runs under a name: `--park` of `kurvneist post`, `kurvneist resume` and
//! `kurvneist points`.

use std::ffi::OsStr;
use std::fmt::{self, Display, Formatter};
use std::fs::{self, File};
use std::io::{self, Read, Write};
use std::os::fd::AsFd;
use std::path::Path;

use comparison::model;
use comparison::slots::Point;
use kurvneist::{Ending, Engine, Points, Refusal, POINTS_LENGTH};

use crate::cli::commands::{self, not_posted, page, status, usage, Asked};
use crate::cli::options::Parsed;
use crate::cli::{files, say, Status, Stop};
use crate::json::{Fields, Json};
use crate::names::Names;
use crate::outcome::Outcome;
use crate::output::Output;
use crate::points::{self, Listing};
use crate::posting::{Parking, Posted};
use crate::told::counted;

/// The name and the file that a command line says for a run.
pub struct Place<'p> {
    name: &'p [u8],
    file: &'p OsStr,
}

impl<'p> Place<'p> {
    /// Of a new run, if it has a name.
    pub fn of_post(parsed: &'p Parsed) -> Result<Option<Place<'p>>, Stop> {
        match (parsed.name("--park"), parsed.name("--points")) {
            (None, None) => Ok(None),
            (Some(name), Some(file)) => Place::new("--park", name, file).map(Some),
            (Some(_), None) => Err(usage("--park goes with --points FILE".into())),
            (None, Some(_)) => Err(usage("--points goes with --park NAME".into())),
        }
    }

    fn of_resume(parsed: &'p Parsed) -> Result<Place<'p>, Stop> {
        let missing = || usage("--points FILE is missing".into());
        let file = parsed.name("--points").ok_or_else(missing)?;
        Place::new("NAME", &parsed.arguments[0], file)
    }

    fn new(what: &str, name: &'p OsStr, file: &'p OsStr) -> Result<Place<'p>, Stop> {
        let written = name.to_string_lossy();
        let named = points::name(name);
        let name = named.map_err(|wrong| usage(format!("{what} {written}: {wrong}")))?;
        match file == "-" {
            true => {
                let wrong = "--points -: expected a file, which is read and then replaced";
                Err(usage(wrong.into()))
            }
            false => Ok(Place { name, file }),
        }
    }
}

/// A file of points that is to be replaced. It is opened before the run, so that
/// one that can't be written to is told first.
struct Replaced<'p> {
    file: &'p OsStr,
    output: Output,
    /// None if the file is new.
    before: Option<Points>,
}

impl<'p> Replaced<'p> {
    fn open(file: &'p OsStr, before: Option<Points>) -> Result<Replaced<'p>, Stop> {
        let output = Output::create(file).map_err(|error| files::unusable(file, error))?;
        Ok(Replaced {
            file,
            output,
            before,
        })
    }

    /// As they were.
    fn points(&self) -> Points {
        self.before.clone().unwrap_or_default()
    }

    /// The file has these points now; another program's are left as they are.
    fn with(mut self, points: &Points) -> Result<(), Stop> {
        if read_or_new(self.file)? != self.before {
            let message = "the file was changed meanwhile, and is left so";
            return Err(files::unusable(self.file, io::Error::other(message)));
        }
        let written = self.output.write_all(points.bytes());
        let written = written.and_then(|()| self.output.finish());
        written.map_err(|error| files::unusable(self.file, error))
    }
}

fn read_or_new(file: &OsStr) -> Result<Option<Points>, Stop> {
    match fs::metadata(file) {
        Err(error) if error.kind() == io::ErrorKind::NotFound => Ok(None),
        _ => read(file).map(Some),
    }
}

/// The points of a file; `-` is standard input.
fn read(file: &OsStr) -> Result<Points, Stop> {
    let (input, _) = files::input(file)?;
    let mut bytes = Vec::new();
    let read = input
        .take(POINTS_LENGTH as u64 + 1)
        .read_to_end(&mut bytes)
        .map_err(|error| files::unusable(file, error))?;
    Points::from_bytes(bytes).map_err(|_| {
        let length = match read > POINTS_LENGTH {
            true => format!("over {POINTS_LENGTH} bytes"),
            false => counted(read as u64, "byte", "bytes"),
        };
        let message = format!("has {length}; expected a file of points, which has {POINTS_LENGTH}");
        files::unusable(file, io::Error::other(message))
    })
}

/// A new run with a name.
pub fn post(parsed: &Parsed, asked: &Asked, place: &Place) -> Result<Status, Stop> {
    let file = Replaced::open(place.file, read_or_new(place.file)?)?;
    let points = &file.points();
    let mut parking = Parking {
        engine: Engine::new(),
        name: place.name,
        points,
    };
    let posted = asked
        .schedules
        .post(&mut parking, asked.form, &asked.request(&[]))
        .map_err(|refusal| place.refused(parsed, refusal, points))?;
    let names = &asked.named.names;
    match &posted.parked {
        Some(points) => place.parked(parsed, &posted, names, file, points)?,
        None => {
            files::print(page(parsed, &posted, names, None).as_bytes())?;
            asked.say_instead(&posted);
            place.say_kept(points);
        }
    }
    Ok(status(posted.answer.ending))
}

/// Goes on with a run that was parked.
pub fn resume(parsed: &Parsed) -> Result<Status, Stop> {
    let place = Place::of_resume(parsed)?;
    let file = Replaced::open(place.file, Some(read(place.file)?))?;
    let mut points = file.points();
    let listing = Listing::of(&points);
    let Some(point) = listing.point(place.name) else {
        return Err(place.unknown(parsed, points));
    };
    let names = &place.names(parsed, point)?;
    let schedules = files::schedules(parsed, point.saved.units.len() as u8)?;
    let posted = schedules
        .resume(&mut Engine::new(), place.name, &mut points)
        .map_err(|refusal| place.refused(parsed, refusal, &points))?;
    match posted.answer.ending {
        Ending::Cut => place.parked(parsed, &posted, names, file, &points)?,
        _ => {
            hand_over(&page(parsed, &posted, names, None))?;
            file.with(&points)?;
        }
    }
    Ok(status(posted.answer.ending))
}

/// A posting is on standard output, and on the disk if that is a file, before
/// its point is given up. A reader that went away hasn't got it.
fn hand_over(page: &str) -> Result<(), Stop> {
    let mut output = io::stdout();
    let written = output
        .write_all(page.as_bytes())
        .and_then(|()| output.flush())
        .and_then(|()| output.as_fd().try_clone_to_owned())
        .map(File::from)
        .and_then(|file| match file.metadata()?.is_file() {
            true => file.sync_all(),
            false => Ok(()),
        });
    written.map_err(|error| files::unusable(OsStr::new("standard output"), error))
}

impl Place<'_> {
    /// The file has the run, which is then told.
    fn parked(
        &self,
        parsed: &Parsed,
        posted: &Posted,
        names: &Names,
        file: Replaced,
        points: &Points,
    ) -> Result<(), Stop> {
        file.with(points)?;
        files::print(page(parsed, posted, names, Some(self.name)).as_bytes())?;
        let entries = counted(posted.answer.entries, "entry", "entries");
        say(&format!("cut after {entries}: parked as {self}"));
        Ok(())
    }

    /// Says that an older point of the name is there, if the run wasn't cut.
    fn say_kept(&self, points: &Points) {
        if points.names().any(|name| name == self.name) {
            say(&format!("the older point {self} stays"));
        }
    }

    /// The names of the point's operators, which it doesn't keep.
    fn names(&self, parsed: &Parsed, point: &Point) -> Result<Names, Stop> {
        let book = model::read_book(&point.book).expect("a rule of points");
        let Some(text) = parsed.name("--names") else {
            return Ok(Names::generated_with_letters(&book));
        };
        let encoding = parsed.encoding("--encoding").map_err(usage)?;
        let names = files::named_text(text, encoding)?.names;
        match names.fit(&book) {
            true => Ok(names),
            false => {
                let text = Path::new(text).display();
                let message =
                    format!("{text}: its operators' number or arities aren't those of {self}");
                Err(Stop::new(Status::Input, message))
            }
        }
    }

    /// No point of the name keeps the rules: the engine says so too.
    fn unknown(&self, parsed: &Parsed, mut points: Points) -> Stop {
        match Engine::new().resume(self.name, &[], &mut points) {
            Err(refusal) => self.refused(parsed, refusal, &points),
            Ok(_) => {
                let message =
                    format!("the engine resumes {self}, and the model finds no such point");
                Stop::new(Status::Difference, message)
            }
        }
    }

    /// Why a run was refused, with what there is to know of the points.
    fn refused(&self, parsed: &Parsed, refusal: Refusal, points: &Points) -> Stop {
        let known = match refusal {
            Refusal::BadPointOrName | Refusal::NinthName => Listing::of(points),
            _ => return commands::refused(parsed, refusal),
        };
        let file = Path::new(self.file).display();
        let names = known.held.iter().map(|held| points::told(&held.point.name));
        let names: Vec<String> = names.collect();
        let more = match (known.faults.first(), names.is_empty()) {
            (Some(fault), _) => format!("{fault}"),
            (None, true) => "there are no points".to_owned(),
            (None, false) => format!("the points are {}", names.join(", ")),
        };
        let message = format!("{refusal}\n{file}: {more}");
        not_posted(parsed, &Outcome::Refused(refusal), message)
    }
}

/// `'may' in holiday.points`.
impl Display for Place<'_> {
    fn fmt(&self, text: &mut Formatter) -> fmt::Result {
        let file = Path::new(self.file).display();
        write!(text, "{} in {file}", points::told(self.name))
    }
}

/// Lists the points of a file and checks them.
pub fn points(parsed: &Parsed) -> Result<Status, Stop> {
    let file = &parsed.arguments[0];
    let points = read(file)?;
    let listing = Listing::of(&points);
    let file = Path::new(file).display().to_string();
    if !listing.is_as_the_engine_says(&points) {
        let message =
            format!("{file}: the engine refuses what the model finds sound, or the other way");
        return Err(Stop::new(Status::Difference, message));
    }
    let report = match parsed.has("--json") {
        true => {
            let mut fields: Fields = vec![("file", file.into())];
            fields.extend(listing.fields());
            format!("{}\n", Json::from(fields))
        }
        false => format!("{}{file}: {}\n", listing.text(), closing(&listing)),
    };
    files::print(report.as_bytes())?;
    Ok(match listing.faults.is_empty() {
        true => Status::Done,
        false => Status::Input,
    })
}

fn closing(listing: &Listing) -> String {
    let points = match listing.held.len() {
        0 => "no points".to_owned(),
        held => counted(held as u64, "point", "points"),
    };
    match listing.faults.len() {
        0 => format!("{points}, no errors"),
        faults => format!("{points}, {}", counted(faults as u64, "error", "errors")),
    }
}
