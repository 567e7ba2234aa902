//! Random calls on a buffer of points. They are made one after the other, each
//! with an eye to what the buffer holds by then.

use std::collections::HashMap;

use crate::by_hand;
use crate::draft::{self, Case};
use crate::faults::{spoil_areas, spoil_output};
use crate::model::{ending, Answer};
use crate::parking::{
    breaking_by_hand, misformed_slots, points_by_hand, Call, Damage, How, Park, PointCase, Resume,
};
use crate::point_rules::{check, Slot, OF_RUNS};
use crate::points::check_points;
use crate::random::{case, schedule, text_case, Random};
use crate::slots::{Point, BOOK_AT, POINTS_LEN, SLOTS, SLOT_LEN};
use crate::subject::{Question, MODEL_PUBLISHED};

/// The numbered case of a seed.
pub fn numbered(seed: u64, number: u64) -> PointCase {
    let mut random = Random::for_case(seed ^ 0x9011_7500, number);
    point_case(&mut random)
}

pub fn point_case(random: &mut Random) -> PointCase {
    let case = PointCase {
        behind: *random.pick(&[0, 0, 0, 1, 100]),
        held: match random.below(4) {
            0 => random.draw(),
            _ => 0,
        },
        calls: Vec::new(),
        junk: random.draw(),
    };
    let mut maker = Maker {
        points: case.points(),
        case,
        names: names(random),
        rests: HashMap::new(),
    };
    if random.one_in(6) {
        maker.fill(random);
    }
    for _ in 0..random.between(2, 9) {
        maker.add(random);
    }
    maker.case
}

struct Maker {
    case: PointCase,
    /// What the buffer holds behind the calls so far.
    points: Vec<u8>,
    /// Few names, so that they come again.
    names: Vec<Vec<u8>>,
    /// What was cut off the schedule of a name's run.
    rests: HashMap<Vec<u8>, Vec<u8>>,
}

/// Names that nearly agree with others, and names of any bytes.
fn names(random: &mut Random) -> Vec<Vec<u8>> {
    let mut names: Vec<Vec<u8>> = vec![
        b"a".to_vec(),
        b"a\0".to_vec(),
        b"b".to_vec(),
        b"ab".to_vec(),
        vec![0],
        vec![0; 16],
        b"sixteen letters!".to_vec(),
        b"sixteen letters?".to_vec(),
    ];
    for _ in 0..3 {
        let length = random.between(1, 16);
        names.push(random.bytes(length));
    }
    random.shuffle(&mut names);
    names.truncate(*random.pick(&[1, 2, 4, 10]));
    names
}

impl Maker {
    fn push(&mut self, call: Call) {
        call.carry_out(&mut self.points, MODEL_PUBLISHED);
        self.case.calls.push(call);
    }

    fn slot(&self, slot: usize) -> Slot {
        check(&self.points[slot * SLOT_LEN..][..SLOT_LEN])
    }

    fn held(&self) -> Vec<(usize, Point)> {
        let slots = (0..SLOTS).map(|slot| (slot, self.slot(slot)));
        let held = slots.filter_map(|(slot, held)| match held {
            Slot::Holds(point) => Some((slot, *point)),
            Slot::Free | Slot::Broken(_) => None,
        });
        held.collect()
    }

    /// Seven or eight names at once.
    fn fill(&mut self, random: &mut Random) {
        let book = by_hand::book();
        for number in 0..random.between(7, 8) {
            let mut case = Case::new(Default::default(), vec![2, 0, 0], 2, 9, vec![0, 1]);
            case.damage = vec![draft::Damage::Replace(book.clone())];
            let name = vec![b'n', number as u8];
            self.names.push(name.clone());
            self.push(Call::Park(Box::new(Park {
                case,
                name,
                lacking: 0,
            })));
        }
        let other = vec![b'n', 8];
        self.names.push(other);
    }

    fn add(&mut self, random: &mut Random) {
        if check_points(&self.points).is_err() {
            self.free_broken(random);
        }
        let is_held = !self.held().is_empty();
        match random.below(10) {
            0..=3 if is_held => self.add_resume(random),
            4..=6 if is_held => {
                self.add_damage(random);
                match random.one_in(3) {
                    true => self.add_park(random),
                    false => self.add_resume(random),
                }
            }
            7 if random.one_in(4) => self.add_resume(random),
            _ => self.add_park(random),
        }
    }

    /// Otherwise all later calls would be refused; some are.
    fn free_broken(&mut self, random: &mut Random) {
        if random.one_in(8) {
            return;
        }
        let mut names: Vec<Vec<u8>> = Vec::new();
        for slot in 0..SLOTS {
            let is_wrong = match self.slot(slot) {
                Slot::Free => false,
                Slot::Broken(_) => true,
                Slot::Holds(point) => {
                    let again = names.contains(&point.name);
                    names.push(point.name);
                    again
                }
            };
            if is_wrong {
                self.push(Call::Damage(Damage {
                    slot,
                    how: How::Freed,
                }));
            }
        }
    }

    fn name(&self, random: &mut Random) -> Vec<u8> {
        match random.below(30) {
            0 => Vec::new(),
            1 => random.bytes(17),
            _ => random.pick(&self.names).clone(),
        }
    }

    /// Mostly cut where there is something left to do.
    fn add_park(&mut self, random: &mut Random) {
        let (mut case, answer) = run(random);
        let name = self.name(random);
        if let (Ok(answer), false) = (answer, random.one_in(6)) {
            let most = match answer.ending {
                ending::CUT => case.schedule.len(),
                _ => answer.entries as usize - 1,
            };
            let rest = case.schedule.split_off(random.below(most + 1));
            self.rests.insert(name.clone(), rest);
        }
        let lacking = self.lacking(random);
        self.push(Call::Park(Box::new(Park {
            case,
            name,
            lacking,
        })));
    }

    fn lacking(&self, random: &mut Random) -> usize {
        match random.below(80) {
            0 => 1 + self.case.behind,
            1 => random.below(POINTS_LEN),
            2 => POINTS_LEN + self.case.behind,
            _ => 0,
        }
    }

    fn add_resume(&mut self, random: &mut Random) {
        let held = self.held();
        let (name, units) = match (held.is_empty(), random.one_in(12)) {
            (false, false) => {
                let (_, point) = random.pick(&held);
                (point.name.clone(), point.saved.units.len())
            }
            _ => (self.name(random), 2),
        };
        let mut schedule = self.schedule(random, &name, units);
        if random.one_in(15) {
            let place = random.below(schedule.len() + 1);
            schedule.insert(place, *random.pick(&[units as u8, 8, 255]));
        }
        let lengths = lengths(random);
        let lacking = self.lacking(random);
        self.push(Call::Resume(Resume {
            name,
            schedule,
            work_offset: lengths.0,
            net_offset: lengths.1,
            output_len: lengths.2,
            lacking,
        }));
    }

    /// Often a piece of what was cut off, or all of it.
    fn schedule(&mut self, random: &mut Random, name: &[u8], units: usize) -> Vec<u8> {
        let Some(rest) = self.rests.get_mut(name).filter(|_| !random.one_in(3)) else {
            let mut other = schedule(random, units as u8);
            other.truncate(*random.pick(&[0, 5, 60, 400, 4000]));
            return other;
        };
        let length = match random.one_in(2) {
            true => rest.len(),
            false => random.below(rest.len() + 1),
        };
        let behind = rest.split_off(length);
        std::mem::replace(rest, behind)
    }

    fn add_damage(&mut self, random: &mut Random) {
        let held = self.held();
        let (slot, point) = random.pick(&held);
        let length = point.bytes().len() * 8;
        let fields = 8 * (BOOK_AT + point.book.len());
        let how = match random.below(16) {
            0 | 1 => How::Turned(bits(random, fields, length)),
            2 => How::Turned(bits(random, 0, length)),
            3..=5 => How::Built(random.draw()),
            6 => How::ByHand(random.below(points_by_hand().len())),
            7..=9 => broken_by_hand(random),
            10 => How::Misformed(random.below(misformed_slots().len())),
            11 => How::Copied(random.below(SLOTS)),
            _ => How::Changed(random.draw()),
        };
        let slot = match how {
            How::ByHand(_) | How::Misformed(_) | How::Copied(_) => random.below(SLOTS),
            _ => *slot,
        };
        self.push(Call::Damage(Damage { slot, how }));
    }
}

/// A run and what it comes to; most that are refused are left out.
fn run(random: &mut Random) -> (Case, Result<Answer, u8>) {
    let mut case = match random.below(4) {
        0 => text_case(random),
        _ => case(random),
    };
    if random.one_in(2) {
        with_groups(random, &mut case);
    }
    let book = case.book();
    let answer = Question::of(&case, &book).answer_in_full();
    match answer.is_err() && !random.one_in(3) {
        true => run(random),
        false => (case, answer),
    }
}

/// So that there is work for several units.
fn with_groups(random: &mut Random, case: &mut Case) {
    for operator in &mut case.draft.operators {
        if operator.arity > 1 && !random.one_in(3) {
            let arguments = (1..=operator.arity).collect();
            operator.strategy = Some([vec![8], arguments, vec![9, 0]].concat());
        }
    }
}

/// Each rule as often as the others.
fn broken_by_hand(random: &mut Random) -> How {
    let (rule, _) = *random.pick(&OF_RUNS);
    How::ByHand(*random.pick(&breaking_by_hand(rule)))
}

fn bits(random: &mut Random, start: usize, end: usize) -> Vec<usize> {
    let count = *random.pick(&[1, 1, 1, 2, 4]);
    (0..count).map(|_| random.between(start, end - 1)).collect()
}

/// The offsets of the areas and the output's length, seldom wrong.
fn lengths(random: &mut Random) -> (isize, isize, usize) {
    let mut frame = Case::new(Default::default(), Vec::new(), 1, 0, Vec::new());
    match random.below(30) {
        0 => spoil_areas(random, &mut frame),
        1 => spoil_output(random, &mut frame),
        _ => {}
    }
    (frame.work_offset, frame.net_offset, frame.output_len)
}
