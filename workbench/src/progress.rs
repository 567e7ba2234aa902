//! A line on a terminal that says how far a command is, and nothing elsewhere.

use std::env;
use std::io::{stderr, IsTerminal, Write};
use std::time::{Duration, Instant};

const WIDEST_BAR: usize = 30;
const NARROWEST_BAR: usize = 5;
const PAUSE: Duration = Duration::from_millis(100);

/// Taken where COLUMNS doesn't say how wide the terminal is.
const COLUMNS: usize = 80;

pub struct Progress {
    /// The terminal's columns, or `None` where nothing is shown.
    columns: Option<usize>,
    /// How much there is to do, if that is known.
    whole: Option<u64>,
    drawn: Option<Instant>,
    started: Instant,
}

impl Progress {
    /// On standard error, if that is a terminal that takes control sequences.
    pub fn new() -> Progress {
        let term = env::var("TERM").unwrap_or_default();
        let shown = stderr().is_terminal() && !term.is_empty() && term != "dumb";
        let columns = env::var("COLUMNS").ok().and_then(|said| said.parse().ok());
        Progress::of(shown.then_some(columns.unwrap_or(COLUMNS)))
    }

    pub fn hidden() -> Progress {
        Progress::of(None)
    }

    fn of(columns: Option<usize>) -> Progress {
        Progress {
            columns,
            whole: None,
            drawn: None,
            started: Instant::now(),
        }
    }

    /// Says how much there is to do, so that the time left can be told.
    pub fn expect(&mut self, whole: Option<u64>) {
        self.whole = whole;
    }

    /// So many things of a kind, which are so much of the whole. Draws at most
    /// ten times a second. What can't be drawn isn't needed.
    pub fn tell(&mut self, count: usize, kind: &str, note: &str, done: u64) {
        let Some(columns) = self.columns else {
            return;
        };
        let last = self.drawn.unwrap_or(self.started);
        if last.elapsed() >= PAUSE {
            self.drawn = Some(Instant::now());
            let state = State {
                count,
                kind,
                note,
                done,
                whole: self.whole,
                time: self.started.elapsed(),
            };
            draw(&state.line(columns.saturating_sub(1)));
        }
    }

    /// Leaves an empty line behind.
    pub fn clear(&mut self) {
        if self.drawn.take().is_some() {
            draw("");
        }
    }
}

impl Default for Progress {
    fn default() -> Progress {
        Progress::new()
    }
}

/// COLUMNS is rarely exported, and asking the system for the width needs a call
/// that the standard library lacks. So the terminal is told not to wrap while
/// the line is written (CSI ?7l, ?7h): a narrower one cuts it at its edge. All
/// is one write, so that no interruption leaves wrapping off.
fn draw(line: &str) {
    let _ = stderr().write_all(format!("\r\x1b[K\x1b[?7l{line}\x1b[?7h").as_bytes());
}

/// What a line of progress tells.
pub struct State<'a> {
    pub count: usize,
    pub kind: &'a str,
    pub note: &'a str,
    pub done: u64,
    pub whole: Option<u64>,
    pub time: Duration,
}

impl State<'_> {
    /// In so many columns: with a bar where there is room, without the note
    /// and then without the rate where there is little.
    pub fn line(&self, columns: usize) -> String {
        let count = format!("{} {}", self.count, self.kind);
        let rate = format!(", {}/s", self.rate());
        let left = self
            .left()
            .map_or(String::new(), |left| format!(", {} left", shown_time(left)));
        let texts = [
            format!("{count}{}{rate}{left}", self.note),
            format!("{count}{rate}{left}"),
            format!("{count}{left}"),
        ];
        let fits = |text: &&String| text.chars().count() <= columns;
        match texts.iter().find(fits) {
            Some(text) => self.bar(columns - text.chars().count()) + text,
            None => count.chars().take(columns).collect(),
        }
    }

    /// In at most so many columns; nothing, if that is too few.
    fn bar(&self, room: usize) -> String {
        let width = room.saturating_sub("[] ".len()).min(WIDEST_BAR);
        match self.part() {
            Some(part) if width >= NARROWEST_BAR => {
                let filled = (part * width as f64) as usize;
                let (full, empty) = ("=".repeat(filled), " ".repeat(width - filled));
                format!("[{full}{empty}] ")
            }
            _ => String::new(),
        }
    }

    fn part(&self) -> Option<f64> {
        match self.whole? {
            0 => Some(1.0),
            whole => Some((self.done as f64 / whole as f64).min(1.0)),
        }
    }

    fn rate(&self) -> u64 {
        (self.count as f64 / self.time.as_secs_f64().max(0.001)) as u64
    }

    fn left(&self) -> Option<Duration> {
        let part = self.part().filter(|part| *part > 0.0)?;
        Duration::try_from_secs_f64(self.time.as_secs_f64() * (1.0 - part) / part).ok()
    }
}

fn shown_time(time: Duration) -> String {
    match time.as_secs() {
        seconds @ 0..=99 => format!("{seconds} s"),
        seconds @ 100..=5999 => format!("{} min", seconds / 60),
        seconds => format!("{} h", seconds / 3600),
    }
}
