//! Many lines against one book: a line of output for each line of input,
//! whatever becomes of it. Lines are read, posted and written a block at a
//! time, so that the book is read once for many lines, and memory doesn't grow
//! with their number.

use std::cell::Cell;
use std::fmt;
use std::io::{self, Read, Write};
use std::time::{Duration, Instant};

use kurvneist::{Answer, Batch, Ending, Engine, Refusal};

use crate::blocks::{paced, Block, Blocks};
use crate::fees::{Charging, Sums};
use crate::items::{BadHeader, Content, Item, Place, Reading};
use crate::jobs;
use crate::json::{Fields, Json};
use crate::lines::Lines;
use crate::names::Names;
use crate::outcome::Outcome;
use crate::posting::{Posted, Schedules};
use crate::profile::Profile;
use crate::progress::Progress;
use crate::text::check::Named;
use crate::text::printer;
use crate::told::counted;
use crate::trace::Told;

/// What all lines of a batch share.
pub struct Settings<'a> {
    pub named: &'a Named,
    pub budget: u32,
    pub day: u16,
    pub schedules: &'a Schedules,
    /// Says the counts behind each posting, as a comment.
    pub counts: bool,
    pub reading: &'a Reading,
    /// So many threads, each with an engine of its own.
    pub jobs: usize,
    /// An object in JSON for each line.
    pub json: bool,
    /// Counts each rule's rewrites.
    pub profile: Option<&'a Profile>,
    /// Charges each posting by the amount of its item.
    pub charging: Option<&'a Charging>,
}

impl Settings<'_> {
    /// What all requests share but units and schedule.
    fn batch(&self) -> Batch<'_> {
        Batch::new(&self.named.book)
            .budget(self.budget)
            .day(self.day)
    }

    /// What became of the item at a place.
    fn told(&self, place: &Place, outcome: &Outcome) -> String {
        if self.json {
            let number = place.number;
            let mut fields: Fields = match place.line {
                Some(line) => vec![("record", number.into()), ("line", line.into())],
                None => vec![("line", number.into())],
            };
            fields.extend(outcome.fields());
            return Json::from(fields).to_string();
        }
        let told = outcome.text(self.counts, self.schedules.advice());
        match (place.line, outcome, told.strip_prefix("! ")) {
            (Some(_), Outcome::Empty(_), _) => told,
            (Some(line), _, Some(reason)) => format!("! line {line}: {reason}"),
            _ => told,
        }
    }

    /// What was charged to all, as the last line.
    fn told_sums(&self, sums: &Sums) -> String {
        match self.json {
            true => sums.json().to_string(),
            false => sums.text(),
        }
    }
}

/// Why a batch stopped.
#[derive(Debug)]
pub enum Failure {
    Read(io::Error),
    Write(io::Error),
    Header(BadHeader),
}

#[derive(Clone, Copy, Debug, Default)]
pub struct Summary {
    /// Of a bank export, records.
    pub lines: usize,
    pub is_export: bool,
    /// Blank lines, comments and headers.
    pub empty: usize,
    pub posted: usize,
    /// Of those, by one unit in the place of several.
    pub alone: usize,
    /// By ending: spent, full, cut.
    pub unfinished: [usize; 3],
    pub refused: usize,
    pub mistaken: usize,
    pub rewrites: u64,
    pub entries: u64,
    pub granted: u64,
    pub kept: u64,
    pub time: Duration,
}

impl Summary {
    pub fn not_posted(&self) -> usize {
        self.unfinished.iter().sum::<usize>() + self.refused + self.mistaken
    }

    fn add(&mut self, more: &Summary) {
        self.lines += more.lines;
        self.empty += more.empty;
        self.posted += more.posted;
        self.alone += more.alone;
        for (sum, more) in self.unfinished.iter_mut().zip(more.unfinished) {
            *sum += more;
        }
        self.refused += more.refused;
        self.mistaken += more.mistaken;
        self.rewrites += more.rewrites;
        self.entries += more.entries;
        self.granted += more.granted;
        self.kept += more.kept;
    }

    fn count(&mut self, outcome: &Outcome) {
        self.lines += 1;
        match outcome {
            Outcome::Empty(_) => self.empty += 1,
            Outcome::Mistyped(_) => self.mistaken += 1,
            Outcome::Refused(_) => self.refused += 1,
            Outcome::Uncharged { answer, .. } => {
                self.refused += 1;
                self.count_run(answer);
            }
            Outcome::Ran {
                answer, instead_of, ..
            } => {
                self.alone += usize::from(instead_of.is_some());
                self.count_run(answer);
                self.count_ending(answer.ending);
            }
        }
    }

    fn count_run(&mut self, answer: &Answer) {
        self.rewrites += u64::from(answer.rewrites);
        self.entries += answer.entries;
        self.granted += answer.granted;
        self.kept += answer.kept;
    }

    fn count_ending(&mut self, ending: Ending) {
        match ending {
            Ending::Finished => self.posted += 1,
            Ending::Spent => self.unfinished[0] += 1,
            Ending::Full => self.unfinished[1] += 1,
            Ending::Cut => self.unfinished[2] += 1,
            other => unreachable!("an ending of a later engine: {other}"),
        }
    }
}

impl fmt::Display for Summary {
    fn fmt(&self, f: &mut fmt::Formatter) -> fmt::Result {
        let [spent, full, cut] = self.unfinished;
        let [one, many, kept] = match self.is_export {
            true => ["record", "records", "header or blank"],
            false => ["line", "lines", "blank or comment"],
        };
        writeln!(
            f,
            "{}: {} posted, {} not, {} {kept}",
            counted(self.lines as u64, one, many),
            self.posted,
            self.not_posted(),
            self.empty
        )?;
        if self.not_posted() > 0 {
            writeln!(
                f,
                "not posted: {spent} spent, {full} full, {cut} cut, {} refused, {} mistyped",
                self.refused, self.mistaken
            )?;
        }
        if self.alone > 0 {
            let alone = self.alone;
            writeln!(
                f,
                "posted by one unit, where more ended full or cut: {alone}"
            )?;
        }
        write!(
            f,
            "rewrites {}, entries {}, FORKs granted {}, kept {}, {:.2} s",
            self.rewrites,
            self.entries,
            self.granted,
            self.kept,
            self.time.as_secs_f64()
        )
    }
}

impl From<BadHeader> for Failure {
    fn from(header: BadHeader) -> Failure {
        Failure::Header(header)
    }
}

/// Posts every line of `input` and writes what became of it as that line of
/// the output; of a bank export, every record.
pub fn run(
    input: &mut dyn Read,
    settings: &Settings,
    output: &mut dyn Write,
    progress: &mut Progress,
) -> Result<Summary, Failure> {
    let started = Instant::now();
    let summary = post_all(Lines::new(input), settings, output, progress);
    progress.clear();
    let time = started.elapsed();
    summary.map(|summary| Summary { time, ..summary })
}

fn post_all(
    lines: Lines,
    settings: &Settings,
    output: &mut dyn Write,
    progress: &mut Progress,
) -> Result<Summary, Failure> {
    let is_export = settings.reading.columns.is_some();
    let mut sum = Summary {
        is_export,
        ..Summary::default()
    };
    let mut blocks = Blocks::new(lines, settings.reading);
    let most = Cell::new(1);
    let mut sums = settings.charging.map(Charging::sums);
    let mut ending = "\n";
    let mut put = |lot: Lot| {
        most.set(paced(most.get(), lot.summary.lines, lot.summary.time));
        sum.add(&lot.summary);
        if let (Some(sums), Some(more)) = (&mut sums, &lot.sums) {
            sums.add(more);
        }
        ending = lot.ending;
        let note = format!(", {} not posted", sum.not_posted());
        let unit = if is_export { "records" } else { "lines" };
        progress.tell(sum.lines, unit, &note, lot.end);
        let written = output.write_all(lot.text.as_bytes());
        let flushed = written.and_then(|()| output.flush());
        flushed.map_err(Failure::Write)
    };
    if settings.jobs == 1 {
        let mut engine = Engine::new();
        while let Some(block) = blocks.next(most.get())? {
            put(all_told(block, settings, &mut engine))?;
        }
    } else {
        jobs::in_order(
            settings.jobs,
            || blocks.next(most.get()),
            Engine::new,
            |engine, block| all_told(block, settings, engine),
            put,
        )?;
    }
    if let Some(sums) = &sums {
        let written = write!(output, "{}{ending}", settings.told_sums(sums));
        written.map_err(Failure::Write)?;
    }
    Ok(sum)
}

/// What became of a block, as lines of output.
struct Lot {
    text: String,
    summary: Summary,
    /// What was charged, where fees are.
    sums: Option<Sums>,
    /// How the last line ends.
    ending: &'static str,
    end: u64,
}

fn all_told(block: Block, settings: &Settings, engine: &mut Engine) -> Lot {
    let started = Instant::now();
    let mut summary = Summary::default();
    let mut sums = settings.charging.map(Charging::sums);
    let (mut text, mut ending) = (String::new(), "\n");
    for (place, outcome) in outcomes(block.items, settings, engine) {
        summary.count(&outcome);
        if let (Some(sums), Some(charged)) = (&mut sums, outcome.charge()) {
            sums.count(charged);
        }
        text.push_str(&settings.told(&place, &outcome));
        text.push_str(place.ending);
        ending = place.ending;
    }
    summary.time = started.elapsed();
    Lot {
        text,
        summary,
        sums,
        ending,
        end: block.end,
    }
}

/// What becomes of each item.
fn outcomes<'s>(
    items: Vec<Item>,
    settings: &'s Settings,
    engine: &mut Engine,
) -> impl Iterator<Item = (Place, Outcome)> + 's {
    let read = items
        .into_iter()
        .map(|item| (item.place, line(item, settings)));
    let read: Vec<(Place, Result<Line, Outcome>)> = read.collect();
    let lines = read.iter().filter_map(|(_, line)| line.as_ref().ok());
    let lines: Vec<&[u8]> = lines.map(|line| &line.bytes[..]).collect();
    let (form, batch) = (settings.reading.form, settings.batch());
    let posted = settings.schedules.post_all(engine, form, &batch, &lines);
    let mut posted = posted.into_iter();
    read.into_iter().map(move |(place, line)| match line {
        Ok(line) => {
            let posted = posted.next().expect("each line is posted");
            (place, ran(&line, posted, settings))
        }
        Err(outcome) => (place, outcome),
    })
}

/// What is to be posted, with its amount if it has one.
struct Line {
    bytes: Vec<u8>,
    amount: Option<i64>,
}

/// What is to be posted of an item, or what becomes of it without.
fn line(item: Item, settings: &Settings) -> Result<Line, Outcome> {
    match settings.reading.content(item) {
        Content::Kept(text) => Err(Outcome::Empty(text)),
        Content::Bad(reason) => Err(Outcome::Mistyped(reason)),
        Content::Texts(mut texts) => {
            let reading = settings.reading;
            let amount = reading.amount(&mut texts).map_err(Outcome::Mistyped)?;
            let bytes = reading.line(&texts, &settings.named.names);
            let bytes = bytes.map_err(Outcome::Mistyped)?;
            Ok(Line { bytes, amount })
        }
    }
}

fn ran(line: &Line, posted: Result<Posted, Refusal>, settings: &Settings) -> Outcome {
    let posted = match posted {
        Ok(posted) => posted,
        Err(refusal) => return Outcome::Refused(refusal),
    };
    if let Some(profile) = settings.profile {
        let (units, schedule) = settings.schedules.used(&posted);
        let batch = settings.batch().units(units).schedule(schedule);
        let told = Told::of(&posted.answer, &posted.term);
        profile.add(settings.reading.form, &batch.line(&line.bytes), &told);
    }
    match (settings.charging, line.amount, posted.answer.ending) {
        (Some(charging), Some(amount), Ending::Finished) => {
            charged(&posted, charging, amount, &settings.named.names)
        }
        _ => Outcome::ran(&posted, &settings.named.names),
    }
}

/// Only what is a posting is charged.
fn charged(posted: &Posted, charging: &Charging, amount: i64, names: &Names) -> Outcome {
    match charging.charge(&posted.term, amount) {
        Ok(charged) => Outcome::ran(posted, names).charged(charged),
        Err(refusal) => Outcome::Uncharged {
            refusal,
            told: charging.told(refusal, &posted.term, names),
            answer: posted.answer,
            term: printer::term(&posted.term, names),
        },
    }
}
