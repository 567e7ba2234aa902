//! Makes calls on a buffer of points few and small while they still show a
//! difference.

use crate::draft::Case;
use crate::model::OUTPUT_LEN;
use crate::parking::{Call, Damage, How, PointCase};
use crate::shrink;
use crate::slots::SLOTS;

/// Each try carries out all calls.
const MOST_TRIES: usize = 20_000;

pub fn shrink(case: PointCase, differs: &mut dyn FnMut(&PointCase) -> bool) -> PointCase {
    let mut shrinker = Shrinker {
        case,
        differs,
        tries: MOST_TRIES,
    };
    while shrinker.pass() {}
    shrinker.case
}

struct Shrinker<'a> {
    case: PointCase,
    differs: &'a mut dyn FnMut(&PointCase) -> bool,
    tries: usize,
}

impl Shrinker<'_> {
    /// Tries every kind of step once; answers whether one was kept.
    fn pass(&mut self) -> bool {
        let before = self.case.clone();
        self.fewer_calls();
        self.try_change(|case| case.behind = 0);
        self.try_change(|case| case.held = 0);
        self.try_change(|case| case.junk = 0);
        for number in 0..self.case.calls.len() {
            self.plainer_call(number);
            self.lower_slots(number);
            self.shorter_schedule(number);
            self.smaller_run(number);
        }
        self.case != before && self.tries > 0
    }

    fn keep(&mut self, candidate: PointCase) -> bool {
        if self.tries == 0 || candidate == self.case {
            return false;
        }
        self.tries -= 1;
        let kept = (self.differs)(&candidate);
        if kept {
            self.case = candidate;
        }
        kept
    }

    fn try_change(&mut self, change: impl FnOnce(&mut PointCase)) -> bool {
        let mut candidate = self.case.clone();
        change(&mut candidate);
        self.keep(candidate)
    }

    fn fewer_calls(&mut self) {
        for number in (0..self.case.calls.len()).rev() {
            self.try_change(|case| {
                case.calls.remove(number);
            });
        }
    }

    /// Buffers that are long enough.
    fn plainer_call(&mut self, number: usize) {
        self.try_change(|case| match &mut case.calls[number] {
            Call::Park(parked) => parked.lacking = 0,
            Call::Resume(resumed) => {
                resumed.lacking = 0;
                resumed.work_offset = 0;
                resumed.net_offset = 0;
                resumed.output_len = OUTPUT_LEN;
            }
            Call::Damage(_) => {}
        });
    }

    /// Damage in a slot that fewer calls reach.
    fn lower_slots(&mut self, number: usize) {
        for lower in 0..SLOTS {
            self.try_change(|case| {
                if let Call::Damage(damage) = &mut case.calls[number] {
                    damage.slot = damage.slot.min(lower);
                }
            });
            self.try_change(|case| {
                let call = &mut case.calls[number];
                if let Call::Damage(Damage {
                    how: How::Copied(from),
                    ..
                }) = call
                {
                    *from = (*from).min(lower);
                }
            });
        }
    }

    /// Drops stretches of a resumption's schedule, long ones first.
    fn shorter_schedule(&mut self, number: usize) {
        let length = |case: &PointCase| match &case.calls[number] {
            Call::Resume(resumed) => resumed.schedule.len(),
            Call::Park(_) | Call::Damage(_) => 0,
        };
        let mut stretch = length(&self.case);
        while stretch > 0 {
            let mut end = length(&self.case);
            while end > 0 {
                let start = end.saturating_sub(stretch);
                self.try_change(|case| {
                    if let Call::Resume(resumed) = &mut case.calls[number] {
                        resumed.schedule.drain(start..end);
                    }
                });
                end = start;
            }
            stretch /= 2;
        }
    }

    /// A new run is made small as one without a name is.
    fn smaller_run(&mut self, number: usize) {
        let Call::Park(parked) = &self.case.calls[number] else {
            return;
        };
        let run = parked.case.clone();
        let with_run = |point_case: &PointCase, run: &Case| {
            let mut other = point_case.clone();
            if let Call::Park(parked) = &mut other.calls[number] {
                parked.case = run.clone();
            }
            other
        };
        let (whole, tries) = (self.case.clone(), &mut self.tries);
        let differs = &mut self.differs;
        let small = shrink::shrink(run, &mut |run| {
            let may_try = *tries > 0;
            *tries -= usize::from(may_try);
            may_try && differs(&with_run(&whole, run))
        });
        self.case = with_run(&whole, &small);
    }
}
