//! A trace as text, a row for each entry.

use std::fmt::Write;
use std::ops::Range;

use comparison::model::Order;
use kurvneist::Ending;

use crate::text::check::Named;
use crate::text::printer::marked_term;
use crate::trace::{Deed, State, Step, Trace};

/// `width` is the room for the present term, 0 for as much as it needs.
pub fn show(trace: &Trace, named: &Named, width: usize) -> String {
    show_if(&|_| true, trace, named, width)
}

/// The entries alone at which a rule acts, or would.
pub fn show_rules(trace: &Trace, named: &Named, width: usize) -> String {
    let by_rule = |deed: &Deed| matches!(deed, Deed::Rewrite(_) | Deed::Stopped(..));
    show_if(&by_rule, trace, named, width)
}

fn show_if(shown: &dyn Fn(&Deed) -> bool, trace: &Trace, named: &Named, width: usize) -> String {
    let names = &named.names;
    let mut text = String::from(HEAD);
    let (start, _) = marked_term(&trace.start, names, None);
    row(
        &mut text,
        ["0", "", "", "the line", &cut(&start, None, width)],
    );
    let mut before = vec![State::Idle; trace.units];
    before[0] = State::Busy;
    for (entry, step) in (1..).zip(&trace.steps) {
        if shown(&step.deed) {
            let (term, marked) = marked_term(&step.term, names, step.place);
            row(
                &mut text,
                [
                    &entry.to_string(),
                    &step.unit.to_string(),
                    order(&step.deed),
                    &change(step, before[step.unit], &named.rule_lines),
                    &cut(&term, marked, width),
                ],
            );
        }
        before.clone_from(&step.states);
    }
    writeln!(text, "\n{}", closing(trace)).expect("a string takes any text");
    text
}

const HEAD: &str = "\
entry  unit  order  what changed                                   present term, the order's part in brackets
";

fn row(text: &mut String, [entry, unit, order, change, term]: [&str; 5]) {
    writeln!(
        text,
        "{entry:>5}  {unit:>4}  {order:<5}  {change:<45}  {term}"
    )
    .expect("a string takes any text");
}

pub fn order(deed: &Deed) -> &'static str {
    match deed {
        Deed::Nothing => "-",
        Deed::Visit(_) | Deed::Dropped => "VISIT",
        Deed::Fork(_) => "FORK",
        Deed::Join(_) => "JOIN",
        Deed::Exit { .. } => "EXIT",
        Deed::Rewrite(_) | Deed::NoMatch | Deed::Stopped(..) => "WHOLE",
        Deed::Sleep => "SLEEP",
        Deed::Bingo => "BINGO",
    }
}

/// What an entry changed; `before` is the state in which it met its unit.
pub fn change(step: &Step, before: State, rule_lines: &[usize]) -> String {
    match &step.deed {
        Deed::Nothing if before == State::Waiting => "nothing: the unit waits at a JOIN".into(),
        Deed::Nothing => "nothing: the unit is idle".into(),
        Deed::Visit(orders) if orders.is_empty() => "dropped: nothing is to be done here".into(),
        Deed::Visit(orders) => {
            let placed: Vec<String> = orders.iter().map(placed).collect();
            format!("gives {}", placed.join(", "))
        }
        Deed::Dropped => "dropped: this part is finished already".into(),
        Deed::Fork(Some(unit)) => taken(*unit, step),
        Deed::Fork(None) => "no unit is idle: becomes VISIT".into(),
        Deed::Join(0) => "passes".into(),
        Deed::Join(count) => format!("waits for {}", parts(*count)),
        Deed::Exit { unit, count, woken } => exit(*unit, *count, *woken),
        Deed::Rewrite(rule) => format!("replaced by {}", rule_name(*rule, rule_lines)),
        Deed::NoMatch => "no rule matches".into(),
        Deed::Stopped(rule, ending) => stopped(&rule_name(*rule, rule_lines), *ending),
        Deed::Sleep => "becomes idle".into(),
        Deed::Bingo => "finished".into(),
    }
}

/// Which unit takes a part, and, if others are idle too, why that one.
fn taken(unit: usize, step: &Step) -> String {
    let helps = step.states[unit] == State::Helping;
    match (step.queue.is_empty(), helps) {
        (true, true) => format!("unit {unit} takes this part, above its JOIN"),
        (true, false) => format!("unit {unit} takes this part"),
        (false, true) => format!("unit {unit}, idle longest, takes it above its JOIN"),
        (false, false) => format!("unit {unit}, idle longest, takes this part"),
    }
}

/// A rule by its number, and its line in the text if there is one.
pub fn rule_name(rule: usize, rule_lines: &[usize]) -> String {
    match rule_lines.get(rule - 1) {
        Some(line) => format!("rule {rule} (line {line})"),
        None => format!("rule {rule}"),
    }
}

fn stopped(rule: &str, ending: Ending) -> String {
    match ending {
        Ending::Spent => format!("{rule} matches: budget spent"),
        _ => format!("{rule} matches: no room"),
    }
}

/// An order by its name and the argument that it speaks of.
fn placed(order: &Order) -> String {
    let argument = |place: &[u8]| {
        place
            .last()
            .map_or(String::new(), |last| format!(" {last}"))
    };
    match order {
        Order::Visit(place) => format!("VISIT{}", argument(place)),
        Order::Fork {
            argument: place, ..
        } => format!("FORK{}", argument(place)),
        Order::Join { count } => format!("JOIN of {count}"),
        Order::Whole { .. } => "WHOLE".into(),
        Order::Exit { .. } => "EXIT".into(),
        Order::Sleep => "SLEEP".into(),
        Order::Bingo => "BINGO".into(),
    }
}

fn parts(count: usize) -> String {
    match count {
        1 => "1 part".into(),
        _ => format!("{count} parts"),
    }
}

fn exit(unit: usize, count: usize, woken: bool) -> String {
    let left = match count {
        0 => format!("unit {unit}'s JOIN has all its parts"),
        _ => format!("unit {unit}'s JOIN lacks {}", parts(count)),
    };
    match woken {
        true => format!("{left}; unit {unit} wakes"),
        false => left,
    }
}

/// The ending and counts in one line.
pub fn closing(trace: &Trace) -> String {
    format!(
        "{}: rewrites {}, entries {}, FORKs granted {}, kept {}",
        trace.ending,
        trace.rewrites,
        trace.steps.len(),
        trace.granted,
        trace.kept
    )
}

/// At most `width` characters of a term, around its mark.
fn cut(term: &str, marked: Option<Range<usize>>, width: usize) -> String {
    let characters: Vec<char> = term.chars().collect();
    if width == 0 || characters.len() <= width {
        return term.to_owned();
    }
    let mark = marked.map_or(0, |range| term[..range.start].chars().count());
    let from = mark.saturating_sub(width / 3).min(characters.len() - width);
    let shown: String = characters[from..from + width].iter().collect();
    let dots = |hidden: bool| if hidden { "…" } else { "" };
    let after = from + width < characters.len();
    format!("{}{shown}{}", dots(from > 0), dots(after))
}
