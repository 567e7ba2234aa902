//! What calls on a buffer of points met, so that the comparison can tell whether
//! its cases try it.

use std::fmt::{self, Display, Formatter};

use crate::model::{ending, refusal, Answer, Form, OUTPUT_LEN};
use crate::parking::{Call, Park, Resume};
use crate::point_rules::{check, Rule, Slot};
use crate::points::{check_name, have_one_name, place_of};
use crate::slots::{Point, Saved, SavedFrame, POINTS_LEN, SLOTS, SLOT_LEN};

/// What is counted, each a call that is not refused.
pub const KINDS: [&str; 22] = [
    "that park under a new name",
    "that park under an old name",
    "that park a text",
    "that park a run by a dated book",
    "that park before the first entry",
    "that end otherwise, under a new name",
    "that end otherwise, under an old name",
    "that park beside seven points",
    "that are resumed and cut",
    "that are resumed and finish",
    "that are resumed and end spent",
    "that are resumed and end full",
    "that are resumed without an entry",
    "that are resumed beside other points",
    "that resume several pending parts",
    "that resume several idle units, not in the order of their numbers",
    "that resume a unit that took a part while it waited",
    "that resume a term with marks",
    "that resume a point that no run saved",
    "that resume a point that no run saved, and finish",
    "that leave a count at the highest",
    "under one of eight names",
];

/// The same of calls that are refused.
pub const REFUSED: [&str; 14] = [
    "new, before points are looked at",
    "new, by 16 for the points",
    "new, for a point's rule",
    "new, for two points of one name",
    "new, for their name",
    "new, by 21",
    "new, by 14",
    "resumed, by 15",
    "resumed, by 16 for the output",
    "resumed, by 16 for the points",
    "resumed, for another point's rule",
    "resumed, for their name",
    "resumed, since the name is unknown",
    "resumed, by 14",
];

/// The rules that a buffer's point can break.
pub const RULES: [Rule; 17] = [
    Rule::Name,
    Rule::Book,
    Rule::Fields,
    Rule::Padding,
    Rule::Known,
    Rule::Complete,
    Rule::Within,
    Rule::Job,
    Rule::Distinct,
    Rule::Stacks,
    Rule::Exits,
    Rule::Counts,
    Rule::Room,
    Rule::Many,
    Rule::Earlier,
    Rule::Ranked,
    Rule::Idle,
];

/// How often each kind was met, and each rule was the first that a point broke.
#[derive(Clone, Debug, Default, PartialEq, Eq)]
pub struct Parked {
    pub calls: u64,
    pub counts: [u64; KINDS.len()],
    pub refused: [u64; REFUSED.len()],
    pub rules: [u64; RULES.len()],
}

/// What the buffer holds before a call.
pub struct Before {
    slots: Vec<Slot>,
    /// The slots that were changed by no call.
    foreign: [bool; SLOTS],
}

impl Before {
    pub fn new(points: &[u8], foreign: [bool; SLOTS]) -> Before {
        let slots = points[..POINTS_LEN].chunks(SLOT_LEN);
        Before {
            slots: slots.map(check).collect(),
            foreign,
        }
    }

    fn point(&self, name: &[u8]) -> Option<(usize, &Point)> {
        let place = place_of(&self.slots, name)?;
        match &self.slots[place] {
            Slot::Holds(point) => Some((place, point)),
            _ => None,
        }
    }

    fn held(&self) -> usize {
        let is_held = |slot: &&Slot| matches!(slot, Slot::Holds(_));
        self.slots.iter().filter(is_held).count()
    }

    fn broken(&self) -> Vec<Rule> {
        let rules = self.slots.iter().filter_map(|slot| match slot {
            Slot::Broken(rule) => Some(*rule),
            _ => None,
        });
        rules.collect()
    }
}

impl Parked {
    /// Counts a call that is due this.
    pub fn count(&mut self, call: &Call, before: &Before, due: &Result<Answer, u8>) {
        self.calls += 1;
        let (counts, met): (&mut [u64], Met) = match (call, due) {
            (Call::Park(one), Ok(answer)) => (&mut self.counts, of_parked(one, before, answer)),
            (Call::Park(one), Err(number)) => (&mut self.refused, of_refused(one, before, *number)),
            (Call::Resume(one), Ok(answer)) => (&mut self.counts, of_resumed(one, before, answer)),
            (Call::Resume(one), Err(number)) => {
                (&mut self.refused, of_unresumed(one, before, *number))
            }
            (Call::Damage(_), _) => return,
        };
        for (kind, met) in met {
            counts[kind] += u64::from(met);
        }
        if *due == Err(refusal::POINT) {
            for rule in before.broken() {
                let place = RULES.iter().position(|other| *other == rule);
                self.rules[place.expect("a rule of points")] += 1;
            }
        }
    }

    /// The kinds and rules that were never met.
    pub fn missing(&self) -> Vec<String> {
        let unmet = self.lines().into_iter().filter(|(_, count)| *count == 0);
        unmet.map(|(line, _)| line).collect()
    }

    fn lines(&self) -> Vec<(String, u64)> {
        let kinds = KINDS.map(|kind| format!("calls {kind}"));
        let refused = REFUSED.map(|kind| format!("calls refused {kind}"));
        let rules = RULES.map(|rule| format!("points that break {rule:?}"));
        let kinds = kinds.into_iter().zip(self.counts);
        let refused = refused.into_iter().zip(self.refused);
        kinds
            .chain(refused)
            .chain(rules.into_iter().zip(self.rules))
            .collect()
    }
}

type Met = Vec<(usize, bool)>;

fn of_parked(parked: &Park, before: &Before, answer: &Answer) -> Met {
    let is_cut = answer.ending == ending::CUT;
    let is_old = before.point(&parked.name).is_some();
    vec![
        (0, is_cut && !is_old),
        (1, is_cut && is_old),
        (2, is_cut && parked.case.form == Form::Text),
        (3, is_cut && parked.case.draft.dated),
        (4, is_cut && answer.entries == 0),
        (5, !is_cut && !is_old),
        (6, !is_cut && is_old),
        (7, is_cut && !is_old && before.held() == 7),
        (21, is_old && before.held() == 8),
    ]
}

fn of_refused(parked: &Park, before: &Before, number: u8) -> Met {
    let is_short = parked.lacking > 0;
    let is_broken = !before.broken().is_empty();
    let is_twice = have_one_name(&before.slots);
    let named = check_name(&parked.name).is_ok();
    let of_points = number == refusal::POINT;
    let before_points = !matches!(
        number,
        refusal::POINT | refusal::NINTH_NAME | refusal::SCHEDULE | refusal::OUTPUT
    );
    let output = parked.case.output_len;
    let of_output = output < OUTPUT_LEN;
    vec![
        (0, before_points || number == refusal::OUTPUT && of_output),
        (1, number == refusal::OUTPUT && !of_output && is_short),
        (2, of_points && is_broken),
        (3, of_points && !is_broken && is_twice),
        (4, of_points && !is_broken && !is_twice && !named),
        (5, number == refusal::NINTH_NAME),
        (6, number == refusal::SCHEDULE),
    ]
}

fn of_resumed(resumed: &Resume, before: &Before, answer: &Answer) -> Met {
    let (place, point) = before.point(&resumed.name).expect("it is not refused");
    let saved = &point.saved;
    let acted = !resumed.schedule.is_empty();
    let is_foreign = before.foreign[place];
    let highest = [answer.entries, answer.granted, answer.kept].contains(&u64::MAX);
    vec![
        (8, answer.ending == ending::CUT),
        (9, answer.ending == ending::FINISHED),
        (10, answer.ending == ending::SPENT),
        (11, answer.ending == ending::FULL),
        (12, !acted),
        (13, before.held() > 1),
        (14, acted && saved.placed.len() > 1),
        (15, acted && has_turned_queue(saved)),
        (16, acted && has_taken_while_waiting(saved)),
        (17, acted && saved.marks.contains(&true)),
        (18, acted && is_foreign),
        (19, is_foreign && answer.ending == ending::FINISHED),
        (20, acted && highest),
    ]
}

/// Does some idle unit stand before a lower one?
fn has_turned_queue(saved: &Saved) -> bool {
    let ranks = saved.units.iter().map(|unit| unit.rank);
    let idle: Vec<u8> = ranks.filter(|&rank| rank > 0).collect();
    !idle.is_sorted()
}

/// An EXIT stands on a job, which is at a JOIN.
fn has_taken_while_waiting(saved: &Saved) -> bool {
    use SavedFrame::{Exit, Job};
    let is_above = |pair: &[SavedFrame]| matches!(pair, [Exit { .. }, Job { .. }]);
    let mut units = saved.units.iter();
    units.any(|unit| unit.frames.windows(2).any(is_above))
}

fn of_unresumed(resumed: &Resume, before: &Before, number: u8) -> Met {
    let is_broken = !before.broken().is_empty() || have_one_name(&before.slots);
    let named = check_name(&resumed.name).is_ok();
    let of_points = number == refusal::POINT;
    let of_output = resumed.output_len < OUTPUT_LEN;
    let is_known = before.point(&resumed.name).is_some();
    vec![
        (7, number == refusal::AREA),
        (8, number == refusal::OUTPUT && of_output),
        (9, number == refusal::OUTPUT && !of_output),
        (10, of_points && is_broken && is_known),
        (11, of_points && !is_broken && !named),
        (12, of_points && !is_broken && named),
        (13, number == refusal::SCHEDULE),
    ]
}

impl Display for Parked {
    fn fmt(&self, text: &mut Formatter) -> fmt::Result {
        writeln!(text, "calls on points: {}", self.calls)?;
        for (line, count) in self.lines() {
            writeln!(text, "{line}: {count}")?;
        }
        Ok(())
    }
}
