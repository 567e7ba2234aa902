//! What an implementation under comparison offers.

use crate::bounds;
use crate::draft::{Case, Fees};
use crate::fees::{self, Charge, MOST_OWNERS};
use crate::model::{self, Answer, Form, Lengths};
use crate::points;
use crate::records::{self, Answered};
use crate::slots::POINTS_LEN;
use crate::strict::{self, NotStrict};

/// The parts of a run that are not lent buffers to write to.
#[derive(Clone, Copy, Debug)]
pub struct Question<'a> {
    pub form: Form,
    pub book: &'a [u8],
    /// A term or a text, as the form says.
    pub line: &'a [u8],
    pub units: u8,
    pub budget: u32,
    pub day: u16,
    pub schedule: &'a [u8],
}

impl<'a> Question<'a> {
    /// The question of a case, whose book has these bytes.
    pub fn of(case: &'a Case, book: &'a [u8]) -> Question<'a> {
        Question {
            form: case.form,
            book,
            line: &case.line,
            units: case.units,
            budget: case.budget,
            day: case.day,
            schedule: &case.schedule,
        }
    }

    /// What the model answers if buffers of these lengths are lent, and of
    /// those asked for.
    pub fn answer(&self, lent: Lengths, asked: Lengths) -> Result<Answer, u8> {
        model::answer_to(
            self.form,
            self.book,
            self.line,
            self.units,
            self.budget,
            self.day,
            self.schedule,
            lent,
            asked,
        )
    }

    /// The same in buffers that are long enough.
    pub fn answer_in_full(&self) -> Result<Answer, u8> {
        self.answer(Lengths::LEAST, Lengths::LEAST)
    }
}

/// The lent buffers that a run writes to.
pub struct Lent<'a> {
    pub work: &'a mut [u8],
    pub net: &'a mut [u8],
    pub output: &'a mut [u8],
}

impl Lent<'_> {
    pub fn lengths(&self) -> Lengths {
        Lengths {
            work: self.work.len(),
            net: self.net.len(),
            output: self.output.len(),
        }
    }
}

/// The values of an answer. After a refusal all but its number are 0.
#[derive(Clone, Copy, Debug, Default, PartialEq, Eq)]
pub struct Told {
    /// 0 if nothing is refused.
    pub refusal: u8,
    pub ending: u64,
    pub rewrites: u64,
    pub entries: u64,
    pub granted: u64,
    pub kept: u64,
    /// The symbols written at the front of the output.
    pub length: u64,
}

impl Told {
    pub fn refused(number: u8) -> Told {
        Told {
            refusal: number,
            ..Told::default()
        }
    }

    pub fn answered(answer: &Answer) -> Told {
        Told {
            refusal: 0,
            ending: answer.ending.into(),
            rewrites: answer.rewrites,
            entries: answer.entries,
            granted: answer.granted,
            kept: answer.kept,
            length: answer.term.len() as u64,
        }
    }
}

/// The book writer's values.
#[derive(Clone, Copy, Debug, Default, PartialEq, Eq)]
pub struct Written {
    pub refusal: u8,
    pub length: u64,
}

/// The strict profile's values. Unless the number is 25, the pair is two zeros.
#[derive(Clone, Copy, Debug, Default, PartialEq, Eq)]
pub struct Profile {
    pub refusal: u8,
    pub pair: [u64; 2],
}

impl Profile {
    pub fn of(checked: &Result<(), NotStrict>) -> Profile {
        let Err(fault) = checked else {
            return Profile::default();
        };
        let pair = |overlap: &strict::Overlap| [overlap.first as u64, overlap.second as u64];
        Profile {
            refusal: fault.number,
            pair: fault.overlap.as_ref().map_or([0; 2], pair),
        }
    }
}

/// The values that say how long a schedule suffices. Unless the ending is 0 the
/// other two are 0, and after a refusal all three.
#[derive(Clone, Copy, Debug, Default, PartialEq, Eq)]
pub struct Bounded {
    pub refusal: u8,
    /// Of one unit.
    pub ending: u64,
    pub orders: u64,
    pub forks: u64,
}

impl Bounded {
    pub fn of(told: &bounds::Told) -> Bounded {
        let none = Bounded::default();
        match *told {
            Err(refusal) => Bounded { refusal, ..none },
            Ok(Err(ending)) => Bounded {
                ending: ending.into(),
                ..none
            },
            Ok(Ok(bound)) => Bounded {
                orders: bound.orders,
                forks: bound.forks,
                ..none
            },
        }
    }
}

/// The values that many lines are answered. After a refusal all but its number
/// are 0.
#[derive(Clone, Copy, Debug, Default, PartialEq, Eq)]
pub struct Done {
    pub refusal: u8,
    pub lines: u64,
    pub read: u64,
    pub written: u64,
    pub stop: u64,
}

impl Done {
    pub fn of(answered: &Result<Answered, u8>) -> Done {
        match answered {
            Err(refusal) => Done {
                refusal: *refusal,
                ..Done::default()
            },
            Ok(answered) => Done {
                refusal: 0,
                lines: answered.records.len() as u64,
                read: answered.read as u64,
                written: answered.records.concat().len() as u64,
                stop: answered.stop.into(),
            },
        }
    }
}

/// Where the owners' parts are written.
pub type Parts = [i64; MOST_OWNERS];

/// The values that a posting is charged. After a refusal the fee is 0.
#[derive(Clone, Copy, Debug, Default, PartialEq, Eq)]
pub struct Charged {
    pub refusal: u8,
    pub fee: i64,
}

impl Charged {
    pub fn of(charge: &Result<Charge, u8>) -> Charged {
        match charge {
            Err(refusal) => Charged {
                refusal: *refusal,
                fee: 0,
            },
            Ok(charge) => Charged {
                refusal: 0,
                fee: charge.fee,
            },
        }
    }
}

/// The values that a line is settled as.
#[derive(Clone, Copy, Debug, Default, PartialEq, Eq)]
pub struct Settled {
    pub told: Told,
    /// 1 if the posting was charged.
    pub charged: u64,
    pub fee: i64,
}

impl Settled {
    pub fn of(settled: &Result<(Answer, Option<Charge>), u8>) -> Settled {
        match settled {
            Err(number) => Settled {
                told: Told::refused(*number),
                ..Settled::default()
            },
            Ok((answer, charge)) => Settled {
                told: Told::answered(answer),
                charged: charge.is_some().into(),
                fee: charge.as_ref().map_or(0, |charge| charge.fee),
            },
        }
    }
}

/// Buffers are lent by the comparison, which also looks at what became of
/// them; an implementation hands its values over as they come.
pub trait Subject {
    /// The published lengths; of the work area and of the net's at most 65,536
    /// each.
    fn published(&self) -> Lengths;

    /// Leaves both areas all zero unless it refuses.
    fn answer(&mut self, question: &Question, lent: &mut Lent) -> Told;

    /// The question's line are many, one after another, and the output is lent
    /// for their records. Leaves both areas all zero unless it refuses.
    fn answer_lines(&mut self, question: &Question, lent: &mut Lent) -> Done;

    fn written(&mut self, book: &[u8], output: &mut [u8]) -> Written;

    /// Charges the posting of the fees, and writes the parts in front unless it
    /// refuses.
    fn charge(&mut self, fees: &Fees, parts: &mut Parts) -> Charged;

    /// Reduces the question's line in areas of its own, and charges its posting
    /// where the run finished.
    fn settle(
        &mut self,
        question: &Question,
        fees: &Fees,
        output: &mut [u8],
        parts: &mut Parts,
    ) -> Settled;

    /// What the strict profile says of a book.
    fn profile(&mut self, book: &[u8]) -> Profile;

    /// How long a schedule suffices for the question's line; its units and its
    /// schedule don't count, and the output is not lent. Leaves both areas all
    /// zero unless it refuses.
    fn bound(&mut self, question: &Question, lent: &mut Lent) -> Bounded;
}

/// What an implementation that parks runs offers besides.
pub trait Parking {
    /// As of a subject.
    fn published(&self) -> Lengths;

    /// The published length of the buffer of points.
    fn points_length(&self) -> usize;

    /// Leaves both areas all zero unless it refuses.
    fn park(
        &mut self,
        question: &Question,
        name: &[u8],
        lent: &mut Lent,
        points: &mut [u8],
    ) -> Told;

    /// The same.
    fn resume(&mut self, name: &[u8], schedule: &[u8], lent: &mut Lent, points: &mut [u8]) -> Told;
}

/// The model needs no areas; it asks for the longest allowed so that the
/// comparison's own cost shows.
pub const MODEL_PUBLISHED: Lengths = Lengths::of_areas(65_536, 65_536);

/// The model compared with itself.
pub struct ModelSubject;

impl Subject for ModelSubject {
    fn published(&self) -> Lengths {
        MODEL_PUBLISHED
    }

    fn answer(&mut self, question: &Question, lent: &mut Lent) -> Told {
        let answer = question.answer(lent.lengths(), MODEL_PUBLISHED);
        hand_over(answer, lent)
    }

    fn answer_lines(&mut self, question: &Question, lent: &mut Lent) -> Done {
        let answered = records::answer(question, lent.lengths(), MODEL_PUBLISHED);
        hand_over_records(&answered, lent)
    }

    fn written(&mut self, book: &[u8], output: &mut [u8]) -> Written {
        match model::written(book, output.len()) {
            Err(refusal) => Written { refusal, length: 0 },
            Ok(bytes) => {
                output[..bytes.len()].copy_from_slice(&bytes);
                Written {
                    refusal: 0,
                    length: bytes.len() as u64,
                }
            }
        }
    }

    fn charge(&mut self, fees: &Fees, parts: &mut Parts) -> Charged {
        hand_over_charge(&fees::charge(&fees.term, fees), parts)
    }

    fn settle(
        &mut self,
        question: &Question,
        fees: &Fees,
        output: &mut [u8],
        parts: &mut Parts,
    ) -> Settled {
        let settled = fees::settle(question, fees, output.len());
        hand_over_settled(&settled, output, parts)
    }

    fn profile(&mut self, book: &[u8]) -> Profile {
        Profile::of(&strict::check(book))
    }

    fn bound(&mut self, question: &Question, lent: &mut Lent) -> Bounded {
        let told = bounds::answer(question, lent.lengths(), MODEL_PUBLISHED);
        hand_over_bound(&told, lent)
    }
}

impl Parking for ModelSubject {
    fn published(&self) -> Lengths {
        MODEL_PUBLISHED
    }

    fn points_length(&self) -> usize {
        POINTS_LEN
    }

    fn park(
        &mut self,
        question: &Question,
        name: &[u8],
        lent: &mut Lent,
        points: &mut [u8],
    ) -> Told {
        let answer = points::park(question, name, points, lent.lengths(), MODEL_PUBLISHED);
        hand_over(answer, lent)
    }

    fn resume(&mut self, name: &[u8], schedule: &[u8], lent: &mut Lent, points: &mut [u8]) -> Told {
        let answer = points::resume(name, schedule, points, lent.lengths(), MODEL_PUBLISHED);
        hand_over(answer, lent)
    }
}

/// Writes the owners' parts in front and answers the values.
pub fn hand_over_charge(charge: &Result<Charge, u8>, parts: &mut Parts) -> Charged {
    if let Ok(charge) = charge {
        front(parts, &charge.parts);
    }
    Charged::of(charge)
}

/// Writes the term and the owners' parts in front and answers the values.
pub fn hand_over_settled(
    settled: &Result<(Answer, Option<Charge>), u8>,
    output: &mut [u8],
    parts: &mut Parts,
) -> Settled {
    if let Ok((answer, charge)) = settled {
        front(output, &answer.term);
        let own = charge.as_ref().map_or(&[][..], |charge| &charge.parts);
        front(parts, own);
    }
    Settled::of(settled)
}

/// Clears both areas, writes the term at the output's front and answers the
/// values.
pub fn hand_over(answer: Result<Answer, u8>, lent: &mut Lent) -> Told {
    match answer {
        Err(number) => Told::refused(number),
        Ok(answer) => {
            fill(lent, &answer.term);
            Told::answered(&answer)
        }
    }
}

/// The same with the records.
pub fn hand_over_records(answered: &Result<Answered, u8>, lent: &mut Lent) -> Done {
    if let Ok(answered) = answered {
        fill(lent, &answered.records.concat());
    }
    Done::of(answered)
}

/// Clears both areas and answers the values.
pub fn hand_over_bound(told: &bounds::Told, lent: &mut Lent) -> Bounded {
    if told.is_ok() {
        fill(lent, &[]);
    }
    Bounded::of(told)
}

fn fill(lent: &mut Lent, bytes: &[u8]) {
    lent.work.fill(0);
    lent.net.fill(0);
    front(lent.output, bytes);
}

/// Only a broken model's elements can be more than there is room for.
fn front<T: Copy>(room: &mut [T], elements: &[T]) {
    for (place, element) in room.iter_mut().zip(elements) {
        *place = *element;
    }
}
