//! The rewrites of a run, in order: rule, place, substitution, and the term
//! before and after.
//!
//! They come from the model, as a trace does, and are compared with what the
//! engine answers for the schedule cut there.

use std::fmt::Write;
use std::rc::Rc;

use comparison::model::{self, Book, Form, Machine, Order, Position, Term};
use kurvneist::{Ending, Request};

use crate::day;
use crate::json::{Fields, Json};
use crate::names::Names;
use crate::progress::Progress;
use crate::text::check::Named;
use crate::text::printer;
use crate::trace::text::rule_name;
use crate::trace::{compare, engine_of, offset, rule_number, shown_ending};
use crate::trace::{Answering, Failure, Told};

#[derive(Clone, Debug)]
pub struct Rewrite {
    /// The schedule's entry that made it, counted from 1.
    pub entry: u64,
    pub unit: usize,
    /// Counted from 1.
    pub rule: usize,
    pub position: Position,
    /// What each variable stands for, in the order of the left side.
    pub substitution: Vec<(u8, Vec<u8>)>,
    /// The present term before and after.
    pub before: Rc<[u8]>,
    pub after: Rc<[u8]>,
    /// Where the rewritten part starts in both.
    pub start: usize,
    /// The part before and after.
    pub part: Vec<u8>,
    pub becomes: Vec<u8>,
}

#[derive(Clone, Debug)]
pub struct Explained {
    /// With all its rules.
    pub book: Book,
    /// Of a dated book the run's day, and the rules that stand on it, counted
    /// from 1.
    pub standing: Option<(u16, Vec<usize>)>,
    pub line: Rc<[u8]>,
    pub rewrites: Vec<Rewrite>,
    /// The rule, counted from 1, that the budget or the room didn't allow.
    pub stopped: Option<usize>,
    pub told: Told,
}

/// Explains a run, comparing it with the engine after every `stride`th rewrite
/// and at its end. The engine's refusal, if any, comes first.
pub fn run(
    form: Form,
    request: &Request,
    stride: u64,
    progress: &mut Progress,
) -> Result<Explained, Failure> {
    run_against(&mut engine_of(form), form, request, stride, progress)
}

/// The same against anything that answers as an engine should.
pub fn run_against(
    engine: &mut Answering,
    form: Form,
    request: &Request,
    stride: u64,
    progress: &mut Progress,
) -> Result<Explained, Failure> {
    engine(request).map_err(Failure::Refused)?;
    let book = model::read_book(request.book).expect("the engine has read the book");
    let of_day = book.on_day(request.day);
    let line = form
        .read(&of_day, request.line)
        .expect("the engine has read the line");
    let mut machine = Machine::new(&of_day, line, request.units, request.budget);
    let line: Rc<[u8]> = machine.term.preorder().into();
    progress.expect(Some(request.schedule.len() as u64));
    let mut rewrites: Vec<Rewrite> = Vec::new();
    let mut stopped = None;
    let mut ended = None;
    for &unit in request.schedule {
        let due = Due::of(&machine, unit.into());
        ended = machine.entry(unit.into()).map(shown_ending);
        if let Some(due) = due {
            if ended.is_some() {
                stopped = Some(due.rule);
            } else {
                let before = rewrites.last().map_or(&line, |last| &last.after);
                rewrites.push(due.done(before.clone(), &machine));
                if machine.rewrites % stride == 0 {
                    compare(engine, request, &machine, None)?;
                }
            }
        }
        progress.tell(machine.entries as usize, "entries", "", machine.entries);
        if ended.is_some() {
            break;
        }
    }
    progress.clear();
    compare(engine, request, &machine, ended)?;
    let told = Told::of_model(&machine, ended);
    let standing = of_day.rules.iter().map(|rule| rule.place + 1);
    let standing = book
        .days
        .as_ref()
        .map(|_| (request.day, standing.collect()));
    Ok(Explained {
        book,
        standing,
        line,
        rewrites,
        stopped,
        told,
    })
}

/// The rule that an entry of the unit would use, counted from 1, and where: it
/// is used unless the entry ends the run.
pub(crate) fn due_rule<'m>(machine: &'m Machine, unit: usize) -> Option<(usize, &'m Position)> {
    match machine.due(unit) {
        Some(Order::Whole { term, .. }) => {
            Some((rule_number(machine.book, &machine.term, term)?, term))
        }
        _ => None,
    }
}

/// A rewrite before it is made.
struct Due {
    unit: usize,
    rule: usize,
    position: Position,
    substitution: Vec<(u8, Vec<u8>)>,
    part: Vec<u8>,
}

impl Due {
    fn of(machine: &Machine, unit: usize) -> Option<Due> {
        let (rule, position) = due_rule(machine, unit)?;
        let part = machine.term.part(position)?;
        Some(Due {
            unit,
            rule,
            position: position.clone(),
            substitution: substitution(machine.book, part)?,
            part: part.preorder(),
        })
    }

    fn done(self, before: Rc<[u8]>, machine: &Machine) -> Rewrite {
        let becomes = machine.term.part(&self.position).map(Term::preorder);
        Rewrite {
            entry: machine.entries,
            unit: self.unit,
            rule: self.rule,
            substitution: self.substitution,
            before,
            after: machine.term.preorder().into(),
            start: offset(&machine.term, &self.position),
            part: self.part,
            becomes: becomes.expect("the part was just rewritten"),
            position: self.position,
        }
    }
}

fn substitution(book: &Book, part: &Term) -> Option<Vec<(u8, Vec<u8>)>> {
    let (rule, filling) = book.first_match(part)?;
    let variables = printer::variables(&printer::preorder(&rule.left));
    let filled = |number: u8| Some((number, filling[usize::from(number)]?.preorder()));
    variables.into_iter().map(filled).collect()
}

/// The arguments to follow from the root; `1*5` is five times argument 1.
pub fn position(position: &[u8]) -> String {
    let runs = position.chunk_by(|one, other| one == other);
    let shown: Vec<String> = runs
        .flat_map(|run| match run.len() {
            1..=3 => vec![run[0].to_string(); run.len()],
            times => vec![format!("{}*{times}", run[0])],
        })
        .collect();
    match shown.is_empty() {
        true => "the root".into(),
        false => shown.join("."),
    }
}

impl Explained {
    /// A paragraph for each rewrite.
    pub fn text(&self, named: &Named) -> String {
        let names = &named.names;
        let mut text = format!("line {}\n", printer::term(&self.line, names));
        put(&mut text, &self.day_line());
        for (number, rewrite) in (1..).zip(&self.rewrites) {
            let rule = dated_rule_name(rewrite.rule, named);
            let sides = self.sides(rewrite.rule, names);
            let place = position(&rewrite.position);
            put(&mut text, &format!("\n{number}. {rule}: {sides}\n"));
            put(
                &mut text,
                &format!(
                    "  at    {place} (entry {}, unit {})\n",
                    rewrite.entry, rewrite.unit
                ),
            );
            for (variable, term) in &rewrite.substitution {
                let variable = names.variable(rewrite.rule - 1, *variable);
                let term = printer::term(term, names);
                put(&mut text, &format!("  with  {variable} = {term}\n"));
            }
            let marked = |term| printer::marked_term(term, names, Some(rewrite.start)).0;
            put(&mut text, &format!("  from  {}\n", marked(&rewrite.before)));
            put(&mut text, &format!("  to    {}\n", marked(&rewrite.after)));
        }
        put(&mut text, &format!("\n{}", self.closing(named)));
        text
    }

    /// A row for each rewrite: rule and place.
    pub fn rules(&self, named: &Named) -> String {
        let mut text = self.day_line();
        for (number, rewrite) in (1..).zip(&self.rewrites) {
            let rule = dated_rule_name(rewrite.rule, named);
            let place = position(&rewrite.position);
            put(&mut text, &format!("{number}. {rule} at {place}\n"));
        }
        put(&mut text, &self.closing(named));
        text
    }

    /// Which rules of a dated book stand; nothing of an undated one.
    fn day_line(&self) -> String {
        let Some((day, standing)) = &self.standing else {
            return String::new();
        };
        let (day, all) = (day::told(*day), self.book.rules.len());
        match &standing[..] {
            [] => format!("on {day}: no rule of {all} stands\n"),
            [only] => format!("on {day}: rule {only} of {all} stands\n"),
            _ => format!("on {day}: {} of {all} stand\n", listed(standing)),
        }
    }

    fn closing(&self, named: &Named) -> String {
        let told = &self.told;
        let mut text = format!(
            "{}: rewrites {}, entries {}, FORKs granted {}, kept {}\n",
            told.ending, told.rewrites, told.entries, told.granted, told.kept
        );
        if let Some(rule) = self.stopped {
            let why = match told.ending {
                Ending::Spent => "the budget is spent",
                _ => "the term has no room",
            };
            let rule = dated_rule_name(rule, named);
            put(&mut text, &format!("{rule} matches, but {why}\n"));
        }
        let term = printer::term(&told.term, &named.names);
        put(&mut text, &format!("term {term}\n"));
        text
    }

    fn sides(&self, rule: usize, names: &Names) -> String {
        printer::rule(rule - 1, &self.book.rules[rule - 1], names)
    }

    /// One object; with `rules_only`, of each rewrite its rule and place.
    pub fn json(&self, named: &Named, rules_only: bool) -> Json {
        let told = &self.told;
        let term = |symbols: &[u8]| Json::from(printer::term(symbols, &named.names));
        let step = |(number, rewrite)| self.step(number, rewrite, named, rules_only);
        let mut fields: Fields = vec![("line", term(&self.line))];
        if let Some((day, standing)) = &self.standing {
            fields.extend([
                ("day", (*day).into()),
                ("date", day::date(*day).into()),
                ("standing", standing.iter().copied().collect()),
            ]);
        }
        fields.extend([
            ("steps", (1..).zip(&self.rewrites).map(step).collect()),
            ("end", told.ending.to_string().into()),
            ("rewrites", told.rewrites.into()),
            ("entries", told.entries.into()),
            ("granted", told.granted.into()),
            ("kept", told.kept.into()),
        ]);
        if let Some(rule) = self.stopped {
            fields.push(("stopped", rule_fields(rule, named).into()));
        }
        fields.push(("term", term(&told.term)));
        fields.into()
    }

    fn step(&self, number: usize, rewrite: &Rewrite, named: &Named, rules_only: bool) -> Json {
        let names = &named.names;
        let mut fields: Fields = vec![("step", number.into())];
        fields.extend(rule_fields(rewrite.rule, named));
        fields.push(("position", rewrite.position.iter().copied().collect()));
        if rules_only {
            return fields.into();
        }
        let term = |symbols: &[u8]| Json::from(printer::term(symbols, names));
        let filled = |(variable, filled): &(u8, Vec<u8>)| {
            let name = names.variable(rewrite.rule - 1, *variable);
            Json::Object(vec![("variable", name.into()), ("term", term(filled))])
        };
        fields.extend([
            ("sides", self.sides(rewrite.rule, names).into()),
            ("entry", rewrite.entry.into()),
            ("unit", rewrite.unit.into()),
            (
                "substitution",
                rewrite.substitution.iter().map(filled).collect(),
            ),
            ("part", term(&rewrite.part)),
            ("becomes", term(&rewrite.becomes)),
            ("before", term(&rewrite.before)),
            ("after", term(&rewrite.after)),
        ]);
        fields.into()
    }
}

/// A rule by its number, and by its line in the text: null for a packed book.
/// In a dated book it has its day too.
pub(crate) fn rule_fields(rule: usize, named: &Named) -> Fields {
    let mut fields: Fields = vec![
        ("rule", rule.into()),
        ("rule_line", named.rule_lines.get(rule - 1).copied().into()),
    ];
    let day = named.days.as_ref().map(|days| days[rule - 1]);
    fields.extend(day.map(|day| ("rule_day", day.into())));
    fields
}

/// A rule's name, in a dated book with its day.
pub(crate) fn dated_rule_name(rule: usize, named: &Named) -> String {
    let name = rule_name(rule, &named.rule_lines);
    match &named.days {
        Some(days) => format!("{name}, from {}", day::date(days[rule - 1])),
        None => name,
    }
}

/// "rules 1 to 3, 5 and 7", of at least two.
fn listed(rules: &[usize]) -> String {
    let runs = rules.chunk_by(|one, next| one + 1 == *next);
    let runs = runs.flat_map(|run| match run {
        [first, _, .., last] => vec![format!("{first} to {last}")],
        few => few.iter().map(usize::to_string).collect(),
    });
    let runs: Vec<String> = runs.collect();
    match runs.split_last() {
        Some((last, before)) if !before.is_empty() => {
            format!("rules {} and {last}", before.join(", "))
        }
        _ => format!("rules {}", runs.concat()),
    }
}

fn put(text: &mut String, more: &str) {
    write!(text, "{more}").expect("a string takes any text");
}
