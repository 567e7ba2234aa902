//! A run entry by entry.
//!
//! The orders come from the literal lists of the model. After an entry, the
//! model's term, counts and ending are compared with what the engine answers
//! for the schedule cut there, so that what is shown is what the engine does.

pub mod svg;
pub mod text;

use std::fmt;
use std::rc::Rc;

use comparison::model::{self, ending, Book, Form, Machine, Order, Term};
use kurvneist::{Answer, Ending, Engine, Refusal, Request};

use crate::letters;
use crate::progress::Progress;

/// What an entry did.
#[derive(Clone, Debug, PartialEq, Eq)]
pub enum Deed {
    /// The unit is idle, or waits: nothing happened.
    Nothing,
    /// The orders that took the place of VISIT, the top one first.
    Visit(Vec<Order>),
    /// A VISIT whose part is finished already.
    Dropped,
    /// The unit that took the part, if one was idle.
    Fork(Option<usize>),
    /// The count for which the JOIN waits; 0 if it passed.
    Join(usize),
    Exit {
        unit: usize,
        count: usize,
        woken: bool,
    },
    /// The rule, counted from 1, that replaced the term.
    Rewrite(usize),
    NoMatch,
    /// A rule, counted from 1, that the budget or the room didn't allow.
    Stopped(usize, Ending),
    Sleep,
    Bingo,
}

#[derive(Clone, Copy, Debug, PartialEq, Eq)]
pub enum State {
    Busy,
    /// Busy with a part that it took while it waited: its JOIN lies below.
    Helping,
    Waiting,
    Idle,
}

impl State {
    pub fn acts(self) -> bool {
        matches!(self, State::Busy | State::Helping)
    }
}

#[derive(Clone, Debug)]
pub struct Step {
    pub unit: usize,
    pub deed: Deed,
    /// Where the part that the order speaks of starts in the present term.
    pub place: Option<usize>,
    /// The present term after the entry.
    pub term: Rc<[u8]>,
    /// Each unit's state after the entry.
    pub states: Vec<State>,
    /// The units that are not busy then, the one that has been so longest first.
    pub queue: Vec<usize>,
}

#[derive(Clone, Debug)]
pub struct Trace {
    pub units: usize,
    pub start: Rc<[u8]>,
    pub steps: Vec<Step>,
    pub ending: Ending,
    pub rewrites: u64,
    pub granted: u64,
    pub kept: u64,
}

#[derive(Clone, Debug)]
pub enum Failure {
    Refused(Refusal),
    /// What the engine answers, and what the model has, after an entry.
    Difference {
        entry: usize,
        engine: Box<Told>,
        model: Box<Told>,
    },
}

impl fmt::Display for Failure {
    fn fmt(&self, f: &mut fmt::Formatter) -> fmt::Result {
        match self {
            Failure::Refused(refusal) => write!(f, "{}", letters::told(refusal)),
            Failure::Difference {
                entry,
                engine,
                model,
            } => write!(
                f,
                "the trace differs from the engine after entry {entry}\n\
                 engine: {engine}\ntrace:  {model}"
            ),
        }
    }
}

/// What is compared after an entry.
#[derive(Clone, Debug, PartialEq, Eq)]
pub struct Told {
    pub ending: Ending,
    pub rewrites: u64,
    pub entries: u64,
    pub granted: u64,
    pub kept: u64,
    pub term: Vec<u8>,
}

impl Told {
    pub fn of(answer: &Answer, term: &[u8]) -> Told {
        Told {
            ending: answer.ending,
            rewrites: answer.rewrites.into(),
            entries: answer.entries,
            granted: answer.granted,
            kept: answer.kept,
            term: term.to_vec(),
        }
    }

    /// What the model stands at; `Cut` where nothing has ended it.
    pub(crate) fn of_model(machine: &Machine, ended: Option<Ending>) -> Told {
        Told {
            ending: ended.unwrap_or(Ending::Cut),
            rewrites: machine.rewrites,
            entries: machine.entries,
            granted: machine.granted,
            kept: machine.kept,
            term: machine.term.preorder(),
        }
    }
}

impl fmt::Display for Told {
    fn fmt(&self, f: &mut fmt::Formatter) -> fmt::Result {
        write!(
            f,
            "{}, rewrites {}, entries {}, granted {}, kept {}, term {:?}",
            self.ending, self.rewrites, self.entries, self.granted, self.kept, self.term
        )
    }
}

/// Answers what a run ends with, as the engine does.
pub type Answering<'a> = dyn FnMut(&Request) -> Result<Told, Refusal> + 'a;

/// Traces a run, comparing it with the engine after every `stride`th entry
/// and at its end. The engine's refusal, if any, comes first.
pub fn run(request: &Request, stride: usize, progress: &mut Progress) -> Result<Trace, Failure> {
    run_form(Form::Line, request, stride, progress)
}

/// The same for a request whose line is a payee's text, or a term, as said.
pub fn run_form(
    form: Form,
    request: &Request,
    stride: usize,
    progress: &mut Progress,
) -> Result<Trace, Failure> {
    run_form_against(form, &mut engine_of(form), request, stride, progress)
}

/// The proved engine, for requests of that form.
pub(crate) fn engine_of(form: Form) -> impl FnMut(&Request) -> Result<Told, Refusal> {
    let mut engine = Engine::new();
    move |asked| {
        let posting = match form {
            Form::Line => engine.post(asked),
            Form::Text => engine.post_payee(asked),
        };
        posting.map(|posting| Told::of(&posting.answer, posting.term))
    }
}

/// Traces a term's run against anything that answers as an engine should.
pub fn run_against(
    engine: &mut Answering,
    request: &Request,
    stride: usize,
    progress: &mut Progress,
) -> Result<Trace, Failure> {
    run_form_against(Form::Line, engine, request, stride, progress)
}

fn run_form_against(
    form: Form,
    engine: &mut Answering,
    request: &Request,
    stride: usize,
    progress: &mut Progress,
) -> Result<Trace, Failure> {
    engine(request).map_err(Failure::Refused)?;
    let book = model::read_book(request.book).expect("the engine has read the book");
    let book = book.on_day(request.day);
    let line = form
        .read(&book, request.line)
        .expect("the engine has read the line");
    let mut machine = Machine::new(&book, line, request.units, request.budget);
    let mut trace = Trace::new(&machine);
    compare(engine, request, &machine, None)?;
    // The time goes with the square of the entries.
    progress.expect(Some((request.schedule.len() as u64).pow(2)));
    for (entry, &unit) in (1..).zip(request.schedule) {
        let (step, ended) = step(&mut machine, unit.into(), trace.term());
        trace.steps.push(step);
        if entry % stride == 0 || ended.is_some() || entry == request.schedule.len() {
            compare(engine, request, &machine, ended)?;
        }
        progress.tell(entry, "entries", "", (entry as u64).pow(2));
        if let Some(ending) = ended {
            trace.ending = ending;
            break;
        }
    }
    progress.clear();
    trace.rewrites = machine.rewrites;
    trace.granted = machine.granted;
    trace.kept = machine.kept;
    Ok(trace)
}

/// The engine asked again, with the schedule cut where the model stands.
pub(crate) fn compare(
    engine: &mut Answering,
    request: &Request,
    machine: &Machine,
    ended: Option<Ending>,
) -> Result<(), Failure> {
    let entry = machine.entries as usize;
    let cut = request.schedule(&request.schedule[..entry]);
    let engine = engine(&cut).map_err(Failure::Refused)?;
    let model = Told::of_model(machine, ended);
    match engine == model {
        true => Ok(()),
        false => Err(Failure::Difference {
            entry,
            engine: engine.into(),
            model: model.into(),
        }),
    }
}

impl Trace {
    fn new(machine: &Machine) -> Trace {
        Trace {
            units: machine.units.len(),
            start: machine.term.preorder().into(),
            steps: Vec::new(),
            ending: Ending::Cut,
            rewrites: 0,
            granted: 0,
            kept: 0,
        }
    }

    /// The present term at the end.
    pub fn term(&self) -> &Rc<[u8]> {
        self.steps.last().map_or(&self.start, |step| &step.term)
    }

    /// The place in the queue, counted from 1, at which an entry, counted from
    /// 0, meets a unit; `None` if that is busy.
    pub fn place(&self, unit: usize, entry: usize) -> Option<usize> {
        match entry.checked_sub(1) {
            Some(before) => {
                let mut queue = self.steps[before].queue.iter();
                queue.position(|&idle| idle == unit).map(|place| place + 1)
            }
            None => (unit > 0).then_some(unit),
        }
    }
}

fn step(machine: &mut Machine, unit: usize, before: &Rc<[u8]>) -> (Step, Option<Ending>) {
    let watch = Watch::new(machine, unit);
    let ended = machine.entry(unit).map(shown_ending);
    let deed = watch.deed(machine, ended);
    let term = match deed {
        Deed::Rewrite(_) => machine.term.preorder().into(),
        _ => before.clone(),
    };
    let place = watch.place(machine);
    let states = states(machine);
    let step = Step {
        unit,
        deed,
        place,
        term,
        states,
        queue: machine.queue.iter().copied().collect(),
    };
    (step, ended)
}

pub(crate) fn shown_ending(number: u8) -> Ending {
    match number {
        ending::FINISHED => Ending::Finished,
        ending::SPENT => Ending::Spent,
        ending::FULL => Ending::Full,
        _ => Ending::Cut,
    }
}

fn states(machine: &Machine) -> Vec<State> {
    let state = |unit: &model::Unit| match (unit.busy, unit.orders.last()) {
        (true, _) if helps(&unit.orders) => State::Helping,
        (true, _) => State::Busy,
        (false, Some(Order::Join { .. })) => State::Waiting,
        (false, _) => State::Idle,
    };
    machine.units.iter().map(state).collect()
}

/// A part that was taken lies between its EXIT and what the unit waited with.
fn helps(orders: &[Order]) -> bool {
    orders
        .windows(2)
        .any(|pair| matches!(pair, [Order::Join { .. }, Order::Exit { .. }]))
}

/// What stands before an entry, to tell by it what the entry did.
struct Watch {
    unit: usize,
    /// `None` if the unit is idle.
    order: Option<Order>,
    /// How many orders lie under it.
    below: usize,
    busy: Vec<bool>,
    /// Is the part of a VISIT marked?
    marked: bool,
    /// The rule, counted from 1, that matches the part of a WHOLE.
    rule: Option<usize>,
}

impl Watch {
    fn new(machine: &Machine, unit: usize) -> Watch {
        let order = machine.due(unit).cloned();
        let marked = match &order {
            Some(Order::Visit(part)) => machine.term.part(part).is_some_and(|part| part.marked),
            _ => false,
        };
        let rule = match &order {
            Some(Order::Whole { term, .. }) => rule_number(machine.book, &machine.term, term),
            _ => None,
        };
        let busy = machine.units.iter().map(|unit| unit.busy).collect();
        Watch {
            unit,
            order,
            below: machine.units[unit].orders.len() - 1,
            busy,
            marked,
            rule,
        }
    }

    fn deed(&self, machine: &Machine, ended: Option<Ending>) -> Deed {
        let orders = &machine.units[self.unit].orders;
        let woken = |unit: &usize| machine.units[*unit].busy && !self.busy[*unit];
        match (&self.order, self.rule, ended) {
            (None, ..) => Deed::Nothing,
            (Some(Order::Visit(_)), ..) if self.marked => Deed::Dropped,
            (Some(Order::Visit(_)), ..) => {
                Deed::Visit(orders[self.below..].iter().rev().cloned().collect())
            }
            (Some(Order::Fork { .. }), ..) => {
                Deed::Fork((0..machine.units.len()).find(|unit| woken(unit)))
            }
            (Some(Order::Join { count }), ..) => Deed::Join(*count),
            (Some(Order::Exit { unit, join }), ..) => Deed::Exit {
                unit: *unit,
                count: count_of(&machine.units[*unit].orders[*join]),
                woken: woken(unit),
            },
            (Some(Order::Whole { .. }), None, _) => Deed::NoMatch,
            (Some(Order::Whole { .. }), Some(rule), None) => Deed::Rewrite(rule),
            (Some(Order::Whole { .. }), Some(rule), Some(ending)) => Deed::Stopped(rule, ending),
            (Some(Order::Sleep), ..) => Deed::Sleep,
            (Some(Order::Bingo), ..) => Deed::Bingo,
        }
    }

    fn place(&self, machine: &Machine) -> Option<usize> {
        match self.order.as_ref()? {
            Order::Visit(part) | Order::Fork { argument: part, .. } => {
                Some(offset(&machine.term, part))
            }
            Order::Whole { term, .. } => Some(offset(&machine.term, term)),
            _ => None,
        }
    }
}

/// The rule that matches, by its number in the book, also where not all of the
/// book's rules stand.
pub(crate) fn rule_number(book: &Book, term: &Term, at: &[u8]) -> Option<usize> {
    let (found, _) = book.first_match(term.part(at)?)?;
    Some(found.place + 1)
}

fn count_of(order: &Order) -> usize {
    match order {
        Order::Join { count } => *count,
        other => panic!("{other:?} stands where a JOIN was placed"),
    }
}

/// Where a part starts in preorder.
pub(crate) fn offset(term: &Term, at: &[u8]) -> usize {
    let Some((&argument, rest)) = at.split_first() else {
        return 0;
    };
    let before = usize::from(argument) - 1;
    let skipped: usize = term.arguments[..before].iter().map(Term::size).sum();
    1 + skipped + offset(&term.arguments[before], rest)
}
