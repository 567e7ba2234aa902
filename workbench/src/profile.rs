//! How often each rule rewrote, over many lines.
//!
//! The engine counts rewrites, not rules: each run is made again by the model,
//! which must end as the engine did.

use std::sync::Mutex;

use comparison::model::{self, Book, Form, Machine};
use kurvneist::Request;

use crate::explain::{dated_rule_name, due_rule, rule_fields};
use crate::json::{Fields, Json};
use crate::text::check::Named;
use crate::text::printer;
use crate::trace::{shown_ending, Failure, Told};

/// Of one rule.
#[derive(Clone, Copy, Debug, Default, PartialEq, Eq)]
pub struct Count {
    pub rewrites: u64,
    /// Lines in which it rewrote at least once.
    pub lines: u64,
}

pub struct Profile {
    /// All rules, and those that stand on the day.
    book: Book,
    standing: Book,
    counts: Mutex<Counts>,
}

#[derive(Default)]
struct Counts {
    rules: Vec<Count>,
    difference: Option<Failure>,
}

impl Profile {
    /// Of a book that the engine reads, for runs on that day.
    pub fn new(book: &[u8], day: u16) -> Profile {
        let book = model::read_book(book).expect("the engine reads the book");
        let counts = Counts {
            rules: vec![Count::default(); book.rules.len()],
            difference: None,
        };
        Profile {
            standing: book.on_day(day),
            book,
            counts: Mutex::new(counts),
        }
    }

    /// Counts the rules of a run that the engine has made.
    pub fn add(&self, form: Form, request: &Request, engine: &Told) {
        let counted = self.counted(form, request, engine);
        let mut counts = self.counts.lock().expect("counting doesn't fail");
        match counted {
            Ok(rewrites) => {
                for (count, more) in counts.rules.iter_mut().zip(rewrites) {
                    count.rewrites += more;
                    count.lines += u64::from(more > 0);
                }
            }
            Err(difference) => {
                counts.difference.get_or_insert(difference);
            }
        }
    }

    fn counted(&self, form: Form, request: &Request, engine: &Told) -> Result<Vec<u64>, Failure> {
        let line = form
            .read(&self.standing, request.line)
            .expect("the engine has read the line");
        let mut machine = Machine::new(&self.standing, line, request.units, request.budget);
        let mut rewrites = vec![0; self.book.rules.len()];
        let mut ended = None;
        for &unit in request.schedule {
            let rule = due_rule(&machine, unit.into()).map(|(rule, _)| rule);
            ended = machine.entry(unit.into()).map(shown_ending);
            if ended.is_some() {
                break;
            }
            if let Some(rule) = rule {
                rewrites[rule - 1] += 1;
            }
        }
        let model = Told::of_model(&machine, ended);
        match model == *engine {
            true => Ok(rewrites),
            false => Err(Failure::Difference {
                entry: machine.entries as usize,
                engine: engine.clone().into(),
                model: model.into(),
            }),
        }
    }

    /// The first run in which the model didn't end as the engine did.
    pub fn difference(&self) -> Option<Failure> {
        let counts = self.counts.lock().expect("counting doesn't fail");
        counts.difference.clone()
    }

    /// Each rule, counted from 1, and its counts: the most used first, equal
    /// ones in the order of the book.
    pub fn rules(&self) -> Vec<(usize, Count)> {
        let counts = self.counts.lock().expect("counting doesn't fail");
        let mut rules: Vec<(usize, Count)> = (1..).zip(counts.rules.iter().copied()).collect();
        rules.sort_by_key(|(_, count)| std::cmp::Reverse(count.rewrites));
        rules
    }

    pub fn text(&self, named: &Named) -> String {
        let mut text = String::from("rewrites   lines  rule\n");
        for (rule, count) in self.rules() {
            let name = dated_rule_name(rule, named);
            let sides = self.sides(rule, named);
            let Count { rewrites, lines } = count;
            text.push_str(&format!("{rewrites:>8}{lines:>8}  {name}: {sides}\n"));
        }
        text
    }

    pub fn json(&self, named: &Named) -> Json {
        let object = |(rule, count): (usize, Count)| {
            let mut fields: Fields = rule_fields(rule, named);
            fields.push(("sides", self.sides(rule, named).into()));
            fields.push(("rewrites", count.rewrites.into()));
            fields.push(("lines", count.lines.into()));
            Json::Object(fields)
        };
        Json::Object(vec![(
            "rules",
            self.rules().into_iter().map(object).collect(),
        )])
    }

    fn sides(&self, rule: usize, named: &Named) -> String {
        printer::rule(rule - 1, &self.book.rules[rule - 1], &named.names)
    }
}
