//! What each command does.

use std::path::Path;

use comparison::model::{self, Form};
use kurvneist::{Ending, Engine, Refusal, Request};

use crate::cli::files;
use crate::cli::options::Parsed;
use crate::cli::parking::{self, Place};
use crate::cli::{say, Status, Stop};
use crate::compose::composed;
use crate::items::Reason;
use crate::json::Json;
use crate::letters;
use crate::line;
use crate::names::Names;
use crate::outcome::Outcome;
use crate::points;
use crate::posting::{Posted, Schedules};
use crate::progress::Progress;
use crate::text::check::{self, Named};
use crate::text::printer;
use crate::told::counted;
use crate::trace;

pub fn usage(wrong: String) -> Stop {
    Stop::new(Status::Usage, format!("kurvneist: {wrong}"))
}

pub fn book(parsed: &Parsed) -> Result<Status, Stop> {
    let name = &parsed.arguments[0];
    let named = files::named_text(name, parsed.encoding("--encoding").map_err(usage)?)?;
    match parsed.name("-o") {
        Some(output) => files::write(output, &named.book)?,
        None => files::print(contents(Path::new(name), &named).as_bytes())?,
    }
    Ok(Status::Done)
}

fn contents(name: &Path, named: &Named) -> String {
    let name = name.display();
    let read = model::read_book(&named.book).expect("what the proved writer wrote can be read");
    let dated = match &named.days {
        Some(days) => format!(", dated{}", files::span_of(days)),
        None => String::new(),
    };
    format!(
        "{name}: {}, {}, {} packed{dated}\n",
        counted(read.operators.len() as u64, "operator", "operators"),
        counted(read.rules.len() as u64, "rule", "rules"),
        counted(named.book.len() as u64, "byte", "bytes")
    )
}

/// The text is read back before it is shown: it must give the book again.
pub fn text(parsed: &Parsed) -> Result<Status, Stop> {
    let (name, names) = (&parsed.arguments[0], parsed.name("--names"));
    let encoding = parsed.encoding("--encoding").map_err(usage)?;
    let named = files::named_packed(name, names, encoding, Names::generated)?;
    let read = model::read_book(&named.book).expect("what the proved writer wrote can be read");
    let text = printer::book(&read, &named.names);
    match check::read(&text) {
        Ok(again) if again.book == named.book => files::write_or_print(parsed, &text)?,
        _ => {
            let message = format!("the text doesn't give the book again:\n{text}");
            return Err(Stop::new(Status::Difference, message));
        }
    }
    Ok(Status::Done)
}

/// What the lines of a command line are.
pub fn form(parsed: &Parsed) -> Form {
    match parsed.has("--payee") {
        true => Form::Text,
        false => Form::Line,
    }
}

/// The book, line, units, budget, day and schedule that a command line says.
pub struct Asked {
    pub named: Named,
    pub form: Form,
    pub schedules: Schedules,
    line: Vec<u8>,
    units: u8,
    budget: u32,
    day: u16,
}

impl Asked {
    pub fn read(parsed: &Parsed) -> Result<Asked, Stop> {
        let units = parsed.units().map_err(usage)?;
        let budget = parsed.number("--budget", 0, 1_000_000).map_err(usage)?;
        let schedules = files::schedules(parsed, units)?;
        let named = files::named(parsed, "--encoding")?;
        let day = files::day(parsed, &named)?;
        let written = files::line(&parsed.arguments[1]).map_err(|stop| {
            let outcome = Outcome::Mistyped(Reason::whole(stop.message.clone()));
            not_posted(parsed, &outcome, stop.message)
        })?;
        let written = composed(written);
        let form = form(parsed);
        let line = match form {
            Form::Line => line::read(&written, &named.names),
            Form::Text => line::read_payee(&written),
        };
        let line = line.map_err(|mistake| {
            let outcome = Outcome::mistyped(&mistake, &written);
            not_posted(parsed, &outcome, mistake.show("LINE", &written))
        })?;
        Ok(Asked {
            named,
            form,
            line,
            units,
            budget,
            day,
            schedules,
        })
    }

    /// By that schedule; a posting has the schedules of its own.
    pub fn request<'a>(&'a self, schedule: &'a [u8]) -> Request<'a> {
        Request::new(&self.named.book, &self.line)
            .units(self.units)
            .budget(self.budget)
            .day(self.day)
            .schedule(schedule)
    }

    /// Says that one unit made the posting in the place of several.
    pub fn say_instead(&self, posted: &Posted) {
        if let Some(ending) = posted.instead_of {
            let units = self.units;
            say(&format!(
                "posted by one unit, since the run by {units} ended {ending}"
            ));
        }
    }
}

pub fn status(ending: Ending) -> Status {
    match ending {
        Ending::Finished => Status::Done,
        _ => Status::NotPosted,
    }
}

/// A line without a run: told as a message or, with --json, as an object.
pub fn not_posted(parsed: &Parsed, outcome: &Outcome, message: String) -> Stop {
    if !parsed.has("--json") {
        return Stop::new(Status::NotPosted, message);
    }
    let printed = files::print(object(outcome).as_bytes());
    printed.err().unwrap_or(Stop::new(Status::NotPosted, ""))
}

fn object(outcome: &Outcome) -> String {
    format!("{}\n", Json::from(outcome.fields()))
}

pub fn refused(parsed: &Parsed, refusal: Refusal) -> Stop {
    not_posted(parsed, &Outcome::Refused(refusal), letters::told(&refusal))
}

/// A refused line, or a model that differs from the engine.
pub fn failed(parsed: &Parsed, failure: trace::Failure) -> Stop {
    match failure {
        trace::Failure::Refused(refusal) => refused(parsed, refusal),
        trace::Failure::Difference { .. } => Stop::new(Status::Difference, failure.to_string()),
    }
}

pub fn post(parsed: &Parsed) -> Result<Status, Stop> {
    let place = Place::of_post(parsed)?;
    let asked = Asked::read(parsed)?;
    if let Some(place) = place {
        return parking::post(parsed, &asked, &place);
    }
    let schedules = &asked.schedules;
    let posted = schedules.post(&mut Engine::new(), asked.form, &asked.request(&[]));
    let posted = posted.map_err(|refusal| refused(parsed, refusal))?;
    let answer = posted.answer;
    files::print(page(parsed, &posted, &asked.named.names, None).as_bytes())?;
    asked.say_instead(&posted);
    if answer.ending == Ending::Cut {
        say(&cut(answer.entries, schedules.advice()));
    }
    Ok(status(answer.ending))
}

/// What is printed of a run, with the name that it was parked under.
pub fn page(parsed: &Parsed, posted: &Posted, names: &Names, parked: Option<&[u8]>) -> String {
    if parsed.has("--json") {
        let mut fields = Outcome::ran(posted, names).fields();
        fields.extend(parked.map(|name| ("parked", points::name_json(name))));
        return format!("{}\n", Json::from(fields));
    }
    let answer = posted.answer;
    let parked = parked.map(|name| format!("parked {}\n", points::told(name)));
    format!(
        "end {}\nrewrites {}\nentries {}\ngranted {}\nkept {}\nterm {}\n{}",
        answer.ending,
        answer.rewrites,
        answer.entries,
        answer.granted,
        answer.kept,
        printer::term(&posted.term, names),
        parked.unwrap_or_default()
    )
}

fn cut(entries: u64, advice: &str) -> String {
    let entries = counted(entries, "entry", "entries");
    format!("cut after {entries}: {advice}")
}

/// Says what to try where a run was shown and cut: without a schedule, less is
/// shown than posted.
pub fn say_shown_cut(parsed: &Parsed, entries: u64, schedules: &Schedules) {
    let advice = match parsed.has("--schedule") {
        true => schedules.advice(),
        false => "to see more takes a --schedule, such as round-robin:1000000",
    };
    say(&cut(entries, advice));
}

/// That each of the text and the picture has a place of its own.
fn check_outputs(parsed: &Parsed) -> Result<(), Stop> {
    let picture = parsed.name("--svg");
    let wrong = match parsed.has("--no-text") {
        true if picture.is_none() => "--no-text leaves nothing to write; expected --svg FILE",
        true if parsed.has("-o") => "-o is for the text, which --no-text leaves out",
        true if parsed.has("--rules-only") => {
            "--rules-only is for the text, which --no-text leaves out"
        }
        false if picture.is_some_and(|name| name == "-") && files::output_name(parsed) == "-" => {
            "the text and the picture both go to standard output; expected -o FILE or --no-text"
        }
        _ => return Ok(()),
    };
    Err(usage(wrong.to_owned()))
}

pub fn trace(parsed: &Parsed) -> Result<Status, Stop> {
    let width = parsed.number("--width", 0, 100).map_err(usage)? as usize;
    let stride = parsed.number("--check", 1, 1).map_err(usage)? as usize;
    check_outputs(parsed)?;
    let asked = Asked::read(parsed)?;
    let schedules = &asked.schedules;
    let schedule = schedules.traced(&mut Engine::new(), asked.form, &asked.request(&[]));
    let request = asked.request(schedule);
    let traced = trace::run_form(asked.form, &request, stride, &mut Progress::new());
    let traced = traced.map_err(|failure| failed(parsed, failure))?;
    if let Some(name) = parsed.name("--svg") {
        let title = printer::term(&traced.start, &asked.named.names);
        let picture = trace::svg::draw(&traced, &title, &asked.named.rule_lines);
        files::write(name, picture.as_bytes())?;
    }
    if !parsed.has("--no-text") {
        let show = match parsed.has("--rules-only") {
            true => trace::text::show_rules,
            false => trace::text::show,
        };
        files::write_or_print(parsed, &show(&traced, &asked.named, width))?;
    }
    if traced.ending == Ending::Cut {
        say_shown_cut(parsed, schedule.len() as u64, schedules);
    }
    Ok(status(traced.ending))
}
