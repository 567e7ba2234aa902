//! The model with one slip in its points, to show that the comparison finds
//! slips.

use crate::model::{self, ending, refusal, Answer, Lengths};
use crate::parked::RULES;
use crate::point_rules::{broken, check, read, Rule, Slot};
use crate::points::{check_name, have_one_name, name_of, place_of, slot_mut};
use crate::slots::{Point, Saved, POINTS_LEN, SLOT_LEN};
use crate::stacks::Stacks;
use crate::subject::{hand_over, Lent, Parking, Question, Told, MODEL_PUBLISHED};

#[derive(Clone, Copy, Debug, PartialEq, Eq)]
pub enum PointSlip {
    /// A rule is not looked at.
    Unchecked(Rule),
    /// A new name takes the highest free slot.
    Highest,
    /// An old name is saved in a free slot, if there is one.
    Beside,
    /// A new run that is not cut frees the slot of its name.
    Ended,
    /// A resumed run that is cut leaves its old point.
    Stale,
    /// A resumed run that is not cut leaves its point.
    Unfreed,
    /// Of a slot that becomes free only the first byte is zeroed.
    HalfFreed,
    /// The end of an older, longer point stays behind a new one.
    Remains,
    /// Entries are those of the last part.
    LastPart,
    /// Each part has the budget anew.
    Budget,
    /// Counts wrap.
    Wraps,
    /// Marks are not saved.
    Unmarked,
    /// The idle queue is saved by the units' numbers.
    ByNumber,
    /// The order of placing is saved from the earliest.
    Turned,
    /// The order of placing is not saved.
    Orderless,
    /// The book is saved as it is written.
    Settled,
    /// The day is not saved.
    Dayless,
    /// Points are looked at before the book.
    PointsFirst,
    /// 14 is told before points are looked at.
    ScheduleFirst,
    /// 21 is told before 20.
    NinthFirst,
    /// 21 is told only of a run that is cut.
    NinthLate,
    /// Only the point of the name is looked at.
    OwnOnly,
    /// Names are compared with the zeros behind them.
    ZeroNames,
    /// Two points may have one name.
    Twins,
    /// A resumption's schedule may name any of eight units.
    AnyUnit,
    /// A buffer that is too short is told by 20.
    ShortAs20,
    /// An unknown name to resume is told by 21.
    UnknownAs21,
}

use PointSlip::*;

pub const OTHERS: [PointSlip; 26] = [
    Highest,
    Beside,
    Ended,
    Stale,
    Unfreed,
    HalfFreed,
    Remains,
    LastPart,
    Budget,
    Wraps,
    Unmarked,
    ByNumber,
    Turned,
    Orderless,
    Settled,
    Dayless,
    PointsFirst,
    ScheduleFirst,
    NinthFirst,
    NinthLate,
    OwnOnly,
    ZeroNames,
    Twins,
    AnyUnit,
    ShortAs20,
    UnknownAs21,
];

/// All slips.
pub fn slips() -> impl Iterator<Item = PointSlip> {
    RULES.into_iter().map(Unchecked).chain(OTHERS)
}

pub struct BrokenPoints {
    pub slip: PointSlip,
}

impl Parking for BrokenPoints {
    fn published(&self) -> Lengths {
        MODEL_PUBLISHED
    }

    fn points_length(&self) -> usize {
        POINTS_LEN
    }

    fn park(
        &mut self,
        question: &Question,
        name: &[u8],
        lent: &mut Lent,
        points: &mut [u8],
    ) -> Told {
        let answer = self.slip.park(question, name, points, lent.lengths());
        hand_over(answer, lent)
    }

    fn resume(&mut self, name: &[u8], schedule: &[u8], lent: &mut Lent, points: &mut [u8]) -> Told {
        let answer = self.slip.resume(name, schedule, points, lent.lengths());
        hand_over(answer, lent)
    }
}

impl PointSlip {
    /// As `Unchecked(Idle)` is `points-unchecked-idle`.
    pub fn name(self) -> String {
        let letters = format!("{self:?}");
        let parted = letters.chars().filter_map(|letter| match letter {
            'A'..='Z' => Some(format!("-{}", letter.to_ascii_lowercase())),
            'a'..='z' | '0'..='9' => Some(letter.to_string()),
            _ => None,
        });
        format!("points{}", parted.collect::<String>())
    }

    fn park(
        self,
        question: &Question,
        name: &[u8],
        points: &mut [u8],
        lent: Lengths,
    ) -> Result<Answer, u8> {
        model::check_frame(question.units, lent, MODEL_PUBLISHED)?;
        if self == PointsFirst {
            self.check_place(name, points)?;
        }
        let book = model::read_book(question.book)?.on_day(question.day);
        let line = question.form.read(&book, question.line)?;
        if self == ScheduleFirst {
            model::check_schedule(question.schedule, question.units)?;
        }
        let place = self.check_place(name, points)?;
        model::check_schedule(question.schedule, question.units)?;
        let mut run = Stacks::new(&book, line, question.units, question.budget);
        let ending = run.run(question.schedule);
        if ending == ending::CUT {
            let point = self.point(name, question, &run);
            self.save(points, place.ok_or(refusal::NINTH_NAME)?, &point);
        } else if let (Ended, Ok(slots)) = (self, self.slots(name, points)) {
            if let Some(place) = place_of(&slots, name) {
                slot_mut(points, place).fill(0);
            }
        }
        Ok(run.answer(ending))
    }

    fn resume(
        self,
        name: &[u8],
        schedule: &[u8],
        points: &mut [u8],
        lent: Lengths,
    ) -> Result<Answer, u8> {
        model::check_frame(1, lent, MODEL_PUBLISHED)?;
        let slots = self.slots(name, points)?;
        check_name(name)?;
        let unknown = match self {
            UnknownAs21 => refusal::NINTH_NAME,
            _ => refusal::POINT,
        };
        let place = self.named(&slots, name).ok_or(unknown)?;
        let Slot::Holds(point) = &slots[place] else {
            unreachable!("it has a name");
        };
        let units = point.saved.units.len() as u8;
        match self {
            AnyUnit => model::check_schedule(schedule, 8)?,
            _ => model::check_schedule(schedule, units)?,
        }
        let known: Vec<u8> = schedule
            .iter()
            .copied()
            .filter(|&unit| unit < units)
            .collect();
        self.go_on(points, place, point, &known)
    }

    fn go_on(
        self,
        points: &mut [u8],
        place: usize,
        point: &Point,
        schedule: &[u8],
    ) -> Result<Answer, u8> {
        let book = model::read_book(&point.book).expect("a rule of points");
        let book = book.on_day(point.day);
        let mut run = point.saved.run(&book);
        self.begin_part(&mut run);
        let ending = run.run(schedule);
        match (ending, self) {
            (ending::CUT, Stale) | (ending::FINISHED..=ending::FULL, Unfreed) => {}
            (ending::CUT, _) => {
                let saved = self.saved(&run);
                let other = Point {
                    saved,
                    ..point.clone()
                };
                self.save(points, place, &other);
            }
            (_, HalfFreed) => slot_mut(points, place)[0] = 0,
            _ => slot_mut(points, place).fill(0),
        }
        Ok(run.answer(ending))
    }

    /// Wrapping is as if counts were at 0 when they are at the highest.
    fn begin_part(self, run: &mut Stacks) {
        match self {
            LastPart => run.entries = 0,
            Budget => run.rewrites = 0,
            Wraps if run.entries == u64::MAX => run.entries = 0,
            Wraps if run.granted == u64::MAX => run.granted = 0,
            _ => {}
        }
    }

    fn point(self, name: &[u8], question: &Question, run: &Stacks) -> Point {
        let book = match self {
            Settled => model::written(question.book, usize::MAX).expect("it was read"),
            _ => question.book.to_vec(),
        };
        Point {
            name: name.to_vec(),
            book,
            day: if self == Dayless { 0 } else { question.day },
            saved: self.saved(run),
        }
    }

    fn saved(self, run: &Stacks) -> Saved {
        let mut saved = Saved::of(run);
        match self {
            Unmarked => saved.marks.fill(false),
            Turned => saved.placed.reverse(),
            Orderless => saved.placed.clear(),
            ByNumber => {
                let idle = saved.units.iter_mut().filter(|unit| unit.rank > 0);
                idle.zip(1..).for_each(|(unit, rank)| unit.rank = rank);
            }
            _ => {}
        }
        saved
    }

    fn save(self, points: &mut [u8], place: usize, point: &Point) {
        let bytes = match self {
            Remains => point.bytes(),
            _ => point.slot(),
        };
        slot_mut(points, place)[..bytes.len()].copy_from_slice(&bytes);
    }

    /// The slots of a buffer that is not refused.
    fn slots(self, name: &[u8], points: &[u8]) -> Result<Vec<Slot>, u8> {
        let short = match self {
            ShortAs20 => refusal::POINT,
            _ => refusal::OUTPUT,
        };
        let whole = points.get(..POINTS_LEN).ok_or(short)?;
        let slots = whole.chunks(SLOT_LEN).map(|slot| self.slot(name, slot));
        let slots: Vec<Slot> = slots.collect();
        let is_broken = |slot: &Slot| matches!(slot, Slot::Broken(_));
        let twins = self != Twins && have_one_name(&slots);
        match slots.iter().any(is_broken) || twins {
            true => Err(refusal::POINT),
            false => Ok(slots),
        }
    }

    /// A slot of which a rule is not looked at is taken as free, so that no run
    /// goes on from it.
    fn slot(self, name: &[u8], slot: &[u8]) -> Slot {
        let found = check(slot);
        let is_passed = match (self, &found) {
            (Unchecked(rule), Slot::Broken(first)) => match read(slot) {
                Ok(point) => broken(&point) == [rule],
                Err(_) => *first == rule,
            },
            (OwnOnly, Slot::Broken(_)) => !slot[1..].starts_with(name),
            _ => false,
        };
        match is_passed {
            true => Slot::Free,
            false => found,
        }
    }

    fn named(self, slots: &[Slot], name: &[u8]) -> Option<usize> {
        let filled = |name: &[u8]| [name, &[0; 16]].concat()[..16].to_vec();
        match self {
            ZeroNames => {
                let is_named = |slot: &Slot| name_of(slot).map(filled) == Some(filled(name));
                slots.iter().position(is_named)
            }
            _ => place_of(slots, name),
        }
    }

    /// The slot that a new run takes, if there is one for it.
    fn check_place(self, name: &[u8], points: &[u8]) -> Result<Option<usize>, u8> {
        if self == NinthFirst && points.len() >= POINTS_LEN {
            let slots = points[..POINTS_LEN].chunks(SLOT_LEN);
            let slots: Vec<Slot> = slots.map(check).collect();
            if !slots.contains(&Slot::Free) && place_of(&slots, name).is_none() {
                return Err(refusal::NINTH_NAME);
            }
        }
        let slots = self.slots(name, points)?;
        check_name(name)?;
        let is_free = |slot: &Slot| *slot == Slot::Free;
        let free = match self {
            Highest => slots.iter().rposition(is_free),
            _ => slots.iter().position(is_free),
        };
        let old = self.named(&slots, name);
        let place = match self {
            Beside => free.or(old),
            _ => old.or(free),
        };
        match (place, self) {
            (None, NinthLate) => Ok(None),
            (None, _) => Err(refusal::NINTH_NAME),
            place => Ok(place.0),
        }
    }
}
