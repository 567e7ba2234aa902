//! Makes a case small while it still shows a difference.

use crate::bounds;
use crate::draft::{Batch, Case, Draft, Fees, RuleDraft, Symbol};
use crate::model::{squeezed, Form, Lengths, END, OUTPUT_LEN};
use crate::records::{LONGEST, LONGEST_LINE};
use crate::subject::Question;

/// Enough for any case met so far, and an end for the slowest subject.
const MOST_TRIES: usize = 200_000;

pub fn shrink(case: Case, differs: &mut dyn FnMut(&Case) -> bool) -> Case {
    let mut shrinker = Shrinker {
        case,
        differs,
        tries: MOST_TRIES,
    };
    // One part made smaller often lets another follow.
    while shrinker.pass() {}
    shrinker.case
}

struct Shrinker<'a> {
    case: Case,
    differs: &'a mut dyn FnMut(&Case) -> bool,
    tries: usize,
}

impl Shrinker<'_> {
    /// Tries every kind of step once; answers whether one was kept.
    fn pass(&mut self) -> bool {
        let before = self.case.clone();
        self.fewer_lines();
        // A difference that is none of fees shows without them.
        self.try_change(|case| case.fees = None);
        self.try_change(|case| case.rearranged = None);
        self.try_change(|case| case.rounds = None);
        self.rounds_to_schedule();
        self.thin(|case| &mut case.damage);
        self.thin(|case| &mut case.schedule);
        self.fewer_units();
        self.thin(|case| &mut case.draft.rules);
        self.fewer_days();
        self.text_to_line();
        self.smaller_lines();
        self.smaller_sides();
        self.simpler_strategies();
        self.merge_operators();
        self.fewer_operators();
        self.simpler_frame();
        self.smaller_budget();
        self.smaller_cut(|case| &mut case.cut);
        self.smaller_batch();
        if self.case.fees.is_some() {
            self.smaller_fees();
        }
        self.case != before && self.tries > 0
    }

    /// What the run of enough rounds shows is shown by a schedule.
    fn rounds_to_schedule(&mut self) {
        let Some(seed) = self.case.rounds else {
            return;
        };
        let book = self.case.book();
        let question = Question::of(&self.case, &book);
        let told = bounds::answer(&question, Lengths::LEAST, Lengths::LEAST);
        if let Some(enough) = bounds::enough(&question, &told, seed) {
            self.try_change(|case| {
                case.schedule = enough.rounds;
                case.rounds = None;
            });
        }
    }

    /// Keeps the candidate if it still differs.
    fn keep(&mut self, candidate: Case) -> bool {
        if self.tries == 0 || candidate == self.case {
            return false;
        }
        self.tries -= 1;
        let kept = (self.differs)(&candidate);
        if kept {
            self.case = candidate;
        }
        kept
    }

    fn try_change(&mut self, change: impl FnOnce(&mut Case)) -> bool {
        let mut candidate = self.case.clone();
        change(&mut candidate);
        self.keep(candidate)
    }

    /// Drops stretches of a list, long ones first.
    fn thin<T>(&mut self, list: impl Fn(&mut Case) -> &mut Vec<T>) {
        let mut stretch = list(&mut self.case).len();
        while stretch > 0 {
            let mut end = list(&mut self.case).len();
            while end > 0 {
                let start = end.saturating_sub(stretch);
                self.try_change(|case| {
                    list(case).drain(start..end);
                });
                end = start;
            }
            stretch /= 2;
        }
    }

    /// Entries of the units that are gone are dropped, given to others, or
    /// left for a refusal.
    fn fewer_units(&mut self) {
        for units in 1..self.case.units {
            let drop = |schedule: &mut Vec<u8>| schedule.retain(|&unit| unit < units);
            let give = |schedule: &mut Vec<u8>| schedule.iter_mut().for_each(|unit| *unit %= units);
            let leave = |_: &mut Vec<u8>| {};
            if self.set_units(units, drop)
                || self.set_units(units, give)
                || self.set_units(units, leave)
            {
                return;
            }
        }
    }

    fn set_units(&mut self, units: u8, change: impl Fn(&mut Vec<u8>)) -> bool {
        self.try_change(|case| {
            case.units = units;
            change(&mut case.schedule);
        })
    }

    /// A difference that an undated book shows too is none of days. Where days
    /// matter, they become small: the lowest of them 0, the next 1, and so on.
    fn fewer_days(&mut self) {
        if !self.try_change(|case| case.draft.dated = false) {
            self.try_change(|case| {
                let mut days: Vec<u16> = case.draft.rules.iter().map(|rule| rule.day).collect();
                days.push(case.day);
                days.sort_unstable();
                days.dedup();
                let place = |day: u16| days.partition_point(|&other| other < day) as u16;
                case.draft
                    .rules
                    .iter_mut()
                    .for_each(|rule| rule.day = place(rule.day));
                case.day = place(case.day);
            });
            for rule in 0..self.case.draft.rules.len() {
                self.try_change(|case| case.draft.rules[rule].day = 0);
            }
        }
        self.try_change(|case| case.day = 0);
    }

    /// A difference that a line by itself shows is none of many lines.
    fn fewer_lines(&mut self) {
        if self.case.batch.is_some() && !self.try_change(|case| case.batch = None) {
            self.thin(|case| &mut batch(case).lines);
        }
    }

    /// A difference that a text's term shows too is none of texts.
    fn text_to_line(&mut self) {
        if self.case.form == Form::Text {
            self.try_change(|case| {
                case.form = Form::Line;
                for line in lines(case) {
                    *line = [squeezed(line), vec![END]].concat();
                    line.truncate(LONGEST_LINE);
                }
            });
        }
    }

    /// The case's own line, and its batch's.
    fn smaller_lines(&mut self) {
        for place in 0..lines(&mut self.case).count() {
            self.thin(|case| line(case, place));
            match self.case.form {
                Form::Line => self.smaller_line(place),
                Form::Text => self.plainer_text(place),
            }
        }
    }

    fn plainer_text(&mut self, text: usize) {
        for plain in [b' ', b'A'] {
            for place in 0..line(&mut self.case, text).len() {
                if !b" A".contains(&line(&mut self.case, text)[place]) {
                    self.try_change(|case| line(case, text)[place] = plain);
                }
            }
        }
    }

    fn smaller_line(&mut self, place: usize) {
        self.smaller_symbols(
            |case| {
                let line = line(&mut case.clone(), place).clone();
                line.into_iter().map(Symbol::Operator).collect()
            },
            |case, symbols| *line(case, place) = symbols.iter().copied().map(number).collect(),
        );
    }

    fn smaller_sides(&mut self) {
        for rule in 0..self.case.draft.rules.len() {
            for side in [left, right] {
                self.smaller_symbols(
                    |case| side(&mut case.clone().draft.rules[rule]).clone(),
                    |case, symbols| *side(&mut case.draft.rules[rule]) = symbols.to_vec(),
                );
            }
        }
    }

    /// Puts an argument, or a constant, in the place of a whole part.
    fn smaller_symbols(
        &mut self,
        get: impl Fn(&Case) -> Vec<Symbol>,
        set: impl Fn(&mut Case, &[Symbol]),
    ) {
        let mut start = 0;
        while start < get(&self.case).len() {
            let symbols = get(&self.case);
            let kept = replacements(&self.case.draft, &symbols, start)
                .into_iter()
                .any(|candidate| self.try_change(|case| set(case, &candidate)));
            // A part made smaller may become smaller still.
            if !kept {
                start += 1;
            }
        }
    }

    fn simpler_strategies(&mut self) {
        for operator in 0..self.case.draft.operators.len() {
            if self.case.draft.operators[operator].strategy.is_none() {
                continue;
            }
            if !self.try_change(|case| case.draft.operators[operator].strategy = None) {
                self.thin(|case| {
                    case.draft.operators[operator]
                        .strategy
                        .get_or_insert_with(Vec::new)
                });
            }
        }
    }

    /// Lets the lowest operator with as many arguments stand for another.
    fn merge_operators(&mut self) {
        for operator in (0..self.case.draft.operators.len()).rev() {
            let arity = self.case.draft.operators[operator].arity;
            let mut arities = self.case.draft.operators.iter().map(|other| other.arity);
            let lowest = arities.position(|other| other == arity).unwrap_or(operator);
            let (from, to) = (operator as u8, lowest as u8);
            self.try_change(|case| rename_in_line(case, from, to));
            self.try_change(|case| {
                rename_in_line(case, from, to);
                rename_in_rules(case, from, to);
            });
        }
    }

    /// In pairs too: two plain operators take a whole byte, so that all later
    /// fields keep their place within the bytes.
    fn fewer_operators(&mut self) {
        for together in [1, 2] {
            let mut unused = unused_operators(&self.case);
            while unused.len() >= together {
                let dropped = unused.split_off(unused.len() - together);
                self.try_change(|case| {
                    dropped
                        .iter()
                        .rev()
                        .for_each(|&operator| remove_operator(case, operator));
                });
            }
        }
    }

    fn simpler_frame(&mut self) {
        self.try_change(|case| case.work_offset = 0);
        self.try_change(|case| case.net_offset = 0);
        self.try_change(|case| case.output_len = OUTPUT_LEN);
        self.try_change(|case| case.writer_offset = 0);
        self.try_change(|case| case.junk = 0);
    }

    fn smaller_budget(&mut self) {
        self.try_change(|case| case.budget = 0);
        while self.try_change(|case| case.budget /= 2) {}
        while self.try_change(|case| case.budget = case.budget.saturating_sub(1)) {}
    }

    fn smaller_cut(&mut self, cut: impl Fn(&mut Case) -> &mut usize) {
        self.try_change(|case| *cut(case) = 0);
        while self.try_change(|case| *cut(case) /= 2) {}
        while self.try_change(|case| *cut(case) = cut(case).saturating_sub(1)) {}
    }

    /// Less is cut off, and there is room for all or else for none, if that
    /// shows it too.
    fn smaller_batch(&mut self) {
        let Some(Batch { lines, room, .. }) = &self.case.batch else {
            return;
        };
        let enough = LONGEST * (lines.len() + 1);
        if *room != enough && !self.try_change(|case| batch(case).room = enough) {
            self.try_change(|case| batch(case).room = LONGEST - 1);
        }
        self.smaller_cut(|case| &mut batch(case).cut);
    }

    fn smaller_fees(&mut self) {
        self.posting_alone();
        self.thin(|case| &mut fees(case).term);
        // The root becomes operator 0, and the rates before its own go.
        self.try_change(|case| {
            let Fees { term, rates, .. } = fees(case);
            if let Some(root) = term.first_mut() {
                rates.drain(..rates.len().min(2 * usize::from(*root)));
                *root = 0;
            }
        });
        self.thin(|case| &mut fees(case).rates);
        for place in 0..fees(&mut self.case).rates.len() {
            self.try_change(|case| fees(case).rates[place] = 0);
        }
        self.fewer_owners();
        self.smaller_amount();
    }

    /// What a settled line shows, its posting often shows by itself.
    fn posting_alone(&mut self) {
        let book = self.case.book();
        if let Ok(answer) = Question::of(&self.case, &book).answer_in_full() {
            self.try_change(|case| {
                case.line.clear();
                fees(case).term = answer.term;
            });
        }
    }

    /// An owner's share goes to the first one, or is left out.
    fn fewer_owners(&mut self) {
        for owner in (1..fees(&mut self.case).shares.len()).rev() {
            self.try_change(|case| {
                let shares = &mut fees(case).shares;
                let share = shares.remove(owner);
                shares[0] = shares[0].wrapping_add(share);
            });
        }
        self.thin(|case| &mut fees(case).shares);
    }

    fn smaller_amount(&mut self) {
        self.try_change(|case| fees(case).amount = 0);
        self.try_change(|case| fees(case).amount = fees(case).amount.saturating_abs());
        // Half a cent stays half a cent, and an odd number of them odd.
        self.try_change(|case| fees(case).amount %= 20_000);
        while self.try_change(|case| fees(case).amount /= 2) {}
        while self.try_change(|case| fees(case).amount -= fees(case).amount.signum()) {}
    }
}

fn fees(case: &mut Case) -> &mut Fees {
    case.fees.get_or_insert_with(Fees::default)
}

fn batch(case: &mut Case) -> &mut Batch {
    case.batch.get_or_insert_with(Batch::default)
}

/// One of the lines.
fn line(case: &mut Case, place: usize) -> &mut Vec<u8> {
    lines(case).nth(place).expect("there are so many")
}

/// The case's own line, and then its batch's.
fn lines(case: &mut Case) -> impl Iterator<Item = &mut Vec<u8>> {
    let many = case.batch.iter_mut().flat_map(|batch| &mut batch.lines);
    [&mut case.line].into_iter().chain(many)
}

fn left(rule: &mut RuleDraft) -> &mut Vec<Symbol> {
    &mut rule.left
}

fn right(rule: &mut RuleDraft) -> &mut Vec<Symbol> {
    &mut rule.right
}

fn number(symbol: Symbol) -> u8 {
    match symbol {
        Symbol::Operator(operator) => operator,
        Symbol::Variable(_) => unreachable!("a line has no variables"),
    }
}

/// The symbols with the part at `start` made smaller, in each way there is.
fn replacements(draft: &Draft, symbols: &[Symbol], start: usize) -> Vec<Vec<Symbol>> {
    let Some(end) = draft.part_end(symbols, start) else {
        return Vec::new();
    };
    if end - start < 2 {
        return Vec::new();
    }
    let replaced = |part: &[Symbol]| [&symbols[..start], part, &symbols[end..]].concat();
    let mut found: Vec<Vec<Symbol>> = constant(draft)
        .iter()
        .map(|leaf| replaced(&[*leaf]))
        .collect();
    let mut argument = start + 1;
    while argument < end {
        let argument_end = draft
            .part_end(symbols, argument)
            .expect("inside a complete part");
        found.push(replaced(&symbols[argument..argument_end]));
        argument = argument_end;
    }
    found
}

fn constant(draft: &Draft) -> Option<Symbol> {
    let place = draft
        .operators
        .iter()
        .position(|operator| operator.arity == 0)?;
    Some(Symbol::Operator(place as u8))
}

/// From the lowest up, so that dropping the highest leaves the others' numbers.
fn unused_operators(case: &Case) -> Vec<u8> {
    let all = 0..case.draft.operators.len();
    all.map(|operator| operator as u8)
        .filter(|&operator| !is_used(case, operator))
        .collect()
}

/// The bytes of a text name no operators; whether those of its term may go is
/// seen when it is tried.
fn is_used(case: &Case, operator: u8) -> bool {
    let symbol = Symbol::Operator(operator);
    let many = case.batch.iter().flat_map(|batch| &batch.lines);
    let mut lines = many.chain([&case.line]);
    case.form == Form::Line && lines.any(|line| line.contains(&operator))
        || case
            .draft
            .rules
            .iter()
            .any(|rule| rule.left.contains(&symbol) || rule.right.contains(&symbol))
}

fn rename_in_line(case: &mut Case, from: u8, to: u8) {
    for number in line_symbols(case).filter(|number| **number == from) {
        *number = to;
    }
}

/// A text has none.
fn line_symbols(case: &mut Case) -> impl Iterator<Item = &mut u8> {
    let is_line = case.form == Form::Line;
    lines(case).filter(move |_| is_line).flatten()
}

fn rename_in_rules(case: &mut Case, from: u8, to: u8) {
    for symbol in rule_symbols(case).filter(|symbol| **symbol == Symbol::Operator(from)) {
        *symbol = Symbol::Operator(to);
    }
}

fn rule_symbols(case: &mut Case) -> impl Iterator<Item = &mut Symbol> {
    let rules = case.draft.rules.iter_mut();
    rules.flat_map(|rule| rule.left.iter_mut().chain(&mut rule.right))
}

/// Drops an unused operator; those after it move down.
fn remove_operator(case: &mut Case, operator: u8) {
    case.draft.operators.remove(operator.into());
    for number in line_symbols(case) {
        *number -= u8::from(*number > operator);
    }
    for symbol in rule_symbols(case) {
        if let Symbol::Operator(number) = symbol {
            *number -= u8::from(*number > operator);
        }
    }
}
