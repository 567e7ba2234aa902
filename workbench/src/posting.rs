//! Runs as a command line asks for them: by the schedule that it gives, or by as
//! many rounds as suffice; under a name, or without.

use std::ops::Range;
use std::sync::OnceLock;

use comparison::model::Form;
use kurvneist::{
    round_robin, Answer, Batch, Bound, Ending, Engine, Enough, Lines, Points, Posting, Refusal,
    Request, BOUND_ENTRIES,
};

/// Where no schedule is given, the units take turns. A line's first run has the
/// least of these lengths. One that is cut is made again with as many rounds as
/// suffice for it or, where that isn't known, with each next length.
pub const LENGTHS: [usize; 4] = [1 << 15, 1 << 18, 1 << 21, 1 << 24];

/// The rounds that suffice are at most five for each order of one unit, and so
/// they stand in the longest schedule.
const _: () = assert!(8 * 5 * BOUND_ENTRIES <= LENGTHS[3]);

/// So many of them for a trace, whose time grows with the square of the length.
const TRACED: usize = 2;

/// What came of a line.
#[derive(Clone, Debug, PartialEq, Eq)]
pub struct Posted {
    pub answer: Answer,
    pub term: Vec<u8>,
    /// How the run by several units ended, if one unit made this one in its
    /// place.
    pub instead_of: Option<Ending>,
    /// The points with this run among them, if it has a name and was cut.
    pub parked: Option<Points>,
}

impl Posted {
    fn of(posting: Posting) -> Posted {
        Posted {
            answer: posting.answer,
            term: posting.term.to_vec(),
            instead_of: None,
            parked: None,
        }
    }
}

/// What makes a run.
pub trait Runner {
    fn run(&mut self, form: Form, request: &Request) -> Result<Posted, Refusal>;

    /// How long a schedule suffices for the request's line.
    fn bound(&mut self, form: Form, request: &Request) -> Result<Bound, Refusal>;
}

impl Runner for Engine {
    fn run(&mut self, form: Form, request: &Request) -> Result<Posted, Refusal> {
        let posting = match form {
            Form::Line => self.post(request),
            Form::Text => self.post_payee(request),
        };
        posting.map(Posted::of)
    }

    fn bound(&mut self, form: Form, request: &Request) -> Result<Bound, Refusal> {
        match form {
            Form::Line => Engine::bound(self, request),
            Form::Text => self.bound_payee(request),
        }
    }
}

/// Makes runs under a name. Each is beside the points as they are here, so that
/// one that is made again with more entries leaves nothing of the first.
pub struct Parking<'p> {
    pub engine: Engine,
    pub name: &'p [u8],
    pub points: &'p Points,
}

impl Runner for Parking<'_> {
    fn run(&mut self, form: Form, request: &Request) -> Result<Posted, Refusal> {
        let mut points = self.points.clone();
        let posting = match form {
            Form::Line => self.engine.park(request, self.name, &mut points),
            Form::Text => self.engine.park_payee(request, self.name, &mut points),
        };
        let posted = Posted::of(posting?);
        let is_cut = posted.answer.ending == Ending::Cut;
        Ok(Posted {
            parked: is_cut.then_some(points),
            ..posted
        })
    }

    fn bound(&mut self, form: Form, request: &Request) -> Result<Bound, Refusal> {
        Runner::bound(&mut self.engine, form, request)
    }
}

/// The schedules by which lines are posted, one for all lines and threads.
pub struct Schedules {
    given: Option<Vec<u8>>,
    shared: Turns,
    alone: Turns,
}

impl Schedules {
    pub fn new(units: u8, given: Option<Vec<u8>>) -> Schedules {
        Schedules {
            given,
            shared: Turns::new(units),
            alone: Turns::new(1),
        }
    }

    /// Posts a line; the request's own units and schedule don't count.
    pub fn post(
        &self,
        runner: &mut impl Runner,
        form: Form,
        request: &Request,
    ) -> Result<Posted, Refusal> {
        let first = request.units(self.shared.units).schedule(self.first());
        let first = runner.run(form, &first)?;
        self.go_on(first, runner, form, request)
    }

    /// Goes on with the run of a name, whose point's units these are. Where no
    /// schedule is given, a run that is cut gets the rest of the next one.
    pub fn resume(
        &self,
        engine: &mut Engine,
        name: &[u8],
        points: &mut Points,
    ) -> Result<Posted, Refusal> {
        let mut posted = engine.resume(name, self.first(), points).map(Posted::of)?;
        let more = match self.given {
            Some(_) => 1..1,
            None => 1..LENGTHS.len(),
        };
        for level in more {
            if posted.answer.ending != Ending::Cut {
                break;
            }
            let rest = &self.shared.schedule(level)[LENGTHS[level - 1]..];
            posted = engine.resume(name, rest, points).map(Posted::of)?;
        }
        Ok(posted)
    }

    /// Posts many lines, each as `post` does, with one reading of the book for
    /// their first runs; the batch's own units and schedule don't count.
    pub fn post_all(
        &self,
        engine: &mut Engine,
        form: Form,
        batch: &Batch,
        lines: &[&[u8]],
    ) -> Vec<Result<Posted, Refusal>> {
        let first = batch.units(self.shared.units).schedule(self.first());
        let runs = each(engine, form, &first, lines);
        let runs = lines.iter().zip(runs);
        runs.map(|(line, first)| self.go_on(first?, engine, form, &batch.line(line)))
            .collect()
    }

    /// The schedule of a line's first run.
    fn first(&self) -> &[u8] {
        match &self.given {
            Some(given) => given,
            None => self.shared.schedule(0),
        }
    }

    /// Posts a line whose first run is made.
    ///
    /// Several units may fill the term where one, which does part after part,
    /// does not, and they use entries faster. So without a given schedule one
    /// unit tries what they left undone: more units never make a line fail.
    fn go_on(
        &self,
        first: Posted,
        runner: &mut impl Runner,
        form: Form,
        request: &Request,
    ) -> Result<Posted, Refusal> {
        if self.given.is_some() {
            return Ok(first);
        }
        let shared = match first.answer.ending {
            Ending::Cut => self.again(first, runner, form, request)?,
            _ => first,
        };
        let ending = shared.answer.ending;
        if self.shared.units == 1 || !matches!(ending, Ending::Full | Ending::Cut) {
            return Ok(shared);
        }
        let alone = self.alone.post(runner, form, request, LENGTHS.len())?;
        Ok(match alone.answer.ending {
            Ending::Finished => Posted {
                instead_of: Some(ending),
                ..alone
            },
            _ => shared,
        })
    }

    /// Makes a run that was cut again, so that it isn't, if it is known how long
    /// a schedule suffices.
    fn again(
        &self,
        cut: Posted,
        runner: &mut impl Runner,
        form: Form,
        request: &Request,
    ) -> Result<Posted, Refusal> {
        match runner.bound(form, request)?.told() {
            Some(enough) => {
                let schedule = self.shared.enough(enough);
                runner.run(form, &request.units(self.shared.units).schedule(schedule))
            }
            None => {
                let levels = 1..LENGTHS.len();
                self.shared.go_on(cut, runner, form, request, levels)
            }
        }
    }

    /// The schedule of a trace: the given one, or the entries that the run
    /// uses, if those aren't too many to be shown.
    pub fn traced(&self, engine: &mut Engine, form: Form, request: &Request) -> &[u8] {
        if let Some(given) = &self.given {
            return given;
        }
        let run = self.shared.post(engine, form, request, TRACED);
        match run.map(|run| (run.answer.ending, run.answer.entries as usize)) {
            Ok((Ending::Cut, _)) | Err(_) => self.shared.schedule(0),
            Ok((_, entries)) => &self.shared.longest_made()[..entries],
        }
    }

    /// The units of a posting, and the entries that they used.
    pub fn used(&self, posted: &Posted) -> (u8, &[u8]) {
        let entries = posted.answer.entries as usize;
        match (&self.given, posted.instead_of) {
            (Some(given), _) => (self.shared.units, &given[..entries]),
            (None, Some(_)) => (1, &self.alone.longest_made()[..entries]),
            (None, None) => (self.shared.units, &self.shared.longest_made()[..entries]),
        }
    }

    /// The same, but the first entries alone of a run that is too long to be
    /// explained.
    pub fn explained(&self, posted: &Posted) -> (u8, &[u8]) {
        match self.used(posted) {
            (units, used) if self.given.is_none() && used.len() > LENGTHS[TRACED - 1] => {
                (units, &used[..LENGTHS[0]])
            }
            used => used,
        }
    }

    /// What to try where a run was cut.
    pub fn advice(&self) -> &'static str {
        match self.given {
            Some(_) => "try a longer --schedule in which every unit acts, or none",
            None => "the most without --schedule; file:NAME takes a longer one",
        }
    }
}

/// Units that take turns, for each of the lengths.
struct Turns {
    units: u8,
    schedules: [OnceLock<Vec<u8>>; LENGTHS.len()],
}

impl Turns {
    fn new(units: u8) -> Turns {
        Turns {
            units,
            schedules: Default::default(),
        }
    }

    fn schedule(&self, level: usize) -> &[u8] {
        self.schedules[level].get_or_init(|| round_robin(self.units, LENGTHS[level]))
    }

    /// As many rounds as suffice.
    fn enough(&self, enough: Enough) -> &[u8] {
        let entries = enough.entries(self.units) as usize;
        let level = LENGTHS.iter().position(|length| *length >= entries);
        &self.schedule(level.unwrap_or(LENGTHS.len() - 1))[..entries]
    }

    fn longest_made(&self) -> &[u8] {
        let made = self.schedules.iter().filter_map(OnceLock::get).next_back();
        made.map_or(&[], Vec::as_slice)
    }

    /// The first run that isn't cut, or that of the last of so many lengths.
    fn post(
        &self,
        runner: &mut impl Runner,
        form: Form,
        request: &Request,
        lengths: usize,
    ) -> Result<Posted, Refusal> {
        let first = self.run(runner, form, request, 0)?;
        self.go_on(first, runner, form, request, 1..lengths)
    }

    /// The same behind a run, with these lengths.
    fn go_on(
        &self,
        mut posted: Posted,
        runner: &mut impl Runner,
        form: Form,
        request: &Request,
        levels: Range<usize>,
    ) -> Result<Posted, Refusal> {
        for level in levels {
            if posted.answer.ending != Ending::Cut {
                break;
            }
            posted = self.run(runner, form, request, level)?;
        }
        Ok(posted)
    }

    fn run(
        &self,
        runner: &mut impl Runner,
        form: Form,
        request: &Request,
        level: usize,
    ) -> Result<Posted, Refusal> {
        let schedule = self.schedule(level);
        runner.run(form, &request.units(self.units).schedule(schedule))
    }
}

/// A run of each line. What is too long to stand among many, as a payee between
/// many spaces may be, is run by itself.
fn each(
    engine: &mut Engine,
    form: Form,
    batch: &Batch,
    lines: &[&[u8]],
) -> Vec<Result<Posted, Refusal>> {
    let mut many = Lines::new();
    let among: Vec<bool> = lines.iter().map(|line| many.push(line).is_ok()).collect();
    let mut runs = together(engine, form, batch, &many).into_iter();
    let run = |(line, among): (&&[u8], bool)| match among {
        true => runs.next().expect("a run of each line among many"),
        false => engine.run(form, &batch.line(line)),
    };
    lines.iter().zip(among).map(run).collect()
}

/// A run of each line, by one call.
fn together(
    engine: &mut Engine,
    form: Form,
    batch: &Batch,
    lines: &Lines,
) -> Vec<Result<Posted, Refusal>> {
    if lines.is_empty() {
        return Vec::new();
    }
    let postings = match form {
        Form::Line => engine.post_lines(batch, lines),
        Form::Text => engine.post_payees(batch, lines),
    };
    match postings {
        Ok(postings) => postings.map(|posting| posting.map(Posted::of)).collect(),
        Err(refusal) => (0..lines.len()).map(|_| Err(refusal)).collect(),
    }
}
