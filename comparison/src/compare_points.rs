//! Compares a subject with the model on random calls on a buffer of points.

use std::fmt::{self, Display, Formatter};
use std::ops::Range;

use crate::buffers::{buffer_difference, hexadecimal, Lenders};
use crate::compare::compare_values;
use crate::model::{ending, Answer, Form, Lengths};
use crate::parked::{Before, Parked};
use crate::parking::{lent_of, Call, Damage, How, Park, PointCase, Resume};
use crate::parks;
use crate::points::{check_points, place_for};
use crate::shrink_points::shrink;
use crate::slots::SLOTS;
use crate::subject::{Parking, Question, Told};

/// A case on which subject and model differ, as it was met and made small.
pub struct PointDifference {
    pub number: u64,
    pub met: PointCase,
    pub small: PointCase,
    /// What differs in the small case.
    pub what: String,
}

/// Compares the numbered cases of a seed up to the first difference.
pub fn compare_points(
    subject: &mut dyn Parking,
    seed: u64,
    numbers: Range<u64>,
) -> (Parked, Option<PointDifference>) {
    let mut comparison = PointComparison::new(subject);
    for number in numbers {
        let met = parks::numbered(seed, number);
        if comparison.check(&met).is_some() {
            // What is asked to make the case small is not counted.
            let tally = comparison.tally.clone();
            let small = shrink(met.clone(), &mut |case| comparison.check(case).is_some());
            let what = comparison.check(&small).unwrap_or_default();
            let difference = PointDifference {
                number,
                met,
                small,
                what,
            };
            return (tally, Some(difference));
        }
    }
    (comparison.tally, None)
}

pub struct PointComparison<'a> {
    subject: &'a mut dyn Parking,
    lent: Lenders,
    pub tally: Parked,
}

/// The buffer of points as it is due and as it was found.
struct Buffers {
    due: Vec<u8>,
    found: Vec<u8>,
    /// The slots that were changed by no call.
    foreign: [bool; SLOTS],
}

/// Bytes behind the buffer, where a write past the end shows.
const BEHIND: [u8; 64] = [0xA5; 64];

impl Buffers {
    fn new(case: &PointCase) -> Buffers {
        let due = case.points();
        Buffers {
            found: [&due[..], &BEHIND].concat(),
            due,
            foreign: [false; SLOTS],
        }
    }

    fn lent(&mut self, lacking: usize) -> &mut [u8] {
        let length = self.due.len();
        lent_of(&mut self.found[..length], lacking)
    }

    fn damage(&mut self, damage: &Damage) {
        damage.apply(&mut self.due);
        damage.apply(&mut self.found);
        self.foreign[damage.slot] = match damage.how {
            How::Freed => false,
            How::Copied(from) => self.foreign[from],
            _ => true,
        };
    }

    /// What a new run has saved is no longer foreign.
    fn saved(&mut self, call: &Call, answer: &Answer) {
        if let (Call::Park(parked), ending::CUT) = (call, answer.ending) {
            let slots = check_points(&self.due).expect("it was not refused");
            let place = place_for(&slots, &parked.name);
            self.foreign[place.expect("it was saved")] = false;
        }
    }

    fn difference(&self) -> Option<String> {
        let (found, behind) = self.found.split_at(self.due.len());
        if found != self.due {
            return Some(buffer_difference("points", &self.due, found));
        }
        (behind != BEHIND).then(|| buffer_difference("behind the points", &BEHIND, behind))
    }
}

impl<'a> PointComparison<'a> {
    pub fn new(subject: &'a mut dyn Parking) -> PointComparison<'a> {
        PointComparison {
            subject,
            lent: Lenders::default(),
            tally: Parked::default(),
        }
    }

    /// Puts the calls to both; answers what differs first, if anything does.
    pub fn check(&mut self, case: &PointCase) -> Option<String> {
        let mut buffers = Buffers::new(case);
        let mut calls = case.calls.iter().enumerate();
        calls.find_map(|(number, call)| {
            let what = self.check_call(case.junk, call, &mut buffers)?;
            Some(format!("call {number}: {what}"))
        })
    }

    fn check_call(&mut self, junk: u64, call: &Call, buffers: &mut Buffers) -> Option<String> {
        let published = self.subject.published();
        let before = Before::new(&buffers.due, buffers.foreign);
        let (expected, found) = match call {
            Call::Damage(damage) => {
                buffers.damage(damage);
                return None;
            }
            Call::Park(parked) => {
                let expected = call.carry_out(&mut buffers.due, published)?;
                (expected, self.ask_park(junk, parked, published, buffers))
            }
            Call::Resume(resumed) => {
                let expected = call.carry_out(&mut buffers.due, published)?;
                (expected, self.ask_resume(junk, resumed, published, buffers))
            }
        };
        self.tally.count(call, &before, &expected);
        if let Ok(answer) = &expected {
            buffers.saved(call, answer);
        }
        let due = match &expected {
            Ok(answer) => Told::answered(answer),
            Err(number) => Told::refused(*number),
        };
        let term = expected.as_ref().map(|answer| &answer.term[..]);
        compare_values("values", &due, &found)
            .or_else(|| self.lent.difference("output", term.ok()))
            .or_else(|| buffers.difference())
    }

    fn ask_park(
        &mut self,
        junk: u64,
        parked: &Park,
        published: Lengths,
        buffers: &mut Buffers,
    ) -> Told {
        let book = parked.case.book();
        let question = Question::of(&parked.case, &book);
        let mut lent = self.lent.lend(parked.case.lengths(published), junk);
        let points = buffers.lent(parked.lacking);
        self.subject
            .park(&question, &parked.name, &mut lent, points)
    }

    fn ask_resume(
        &mut self,
        junk: u64,
        resumed: &Resume,
        published: Lengths,
        buffers: &mut Buffers,
    ) -> Told {
        let mut lent = self.lent.lend(resumed.lengths(published), junk);
        let points = buffers.lent(resumed.lacking);
        self.subject
            .resume(&resumed.name, &resumed.schedule, &mut lent, points)
    }
}

impl Display for PointDifference {
    fn fmt(&self, text: &mut Formatter) -> fmt::Result {
        let (met, small) = (self.met.calls.len(), self.small.calls.len());
        writeln!(text, "case {} differs; as met: {met} calls", self.number)?;
        writeln!(text, "made small: {small} calls")?;
        writeln!(text, "{}", self.what)?;
        writeln!(text, "points   {} bytes behind", self.small.behind)?;
        writeln!(text, "free     slots hold seed {}", self.small.held)?;
        writeln!(text, "junk     from seed {}", self.small.junk)?;
        for (number, call) in self.small.calls.iter().enumerate() {
            write!(text, "call {number}: ")?;
            match call {
                Call::Park(parked) => write_park(text, parked)?,
                Call::Resume(resumed) => write_resume(text, resumed)?,
                Call::Damage(damage) => writeln!(text, "slot {}: {:?}", damage.slot, damage.how)?,
            }
        }
        Ok(())
    }
}

fn write_park(text: &mut Formatter, parked: &Park) -> fmt::Result {
    let case = &parked.case;
    let form = match case.form {
        Form::Line => "line",
        Form::Text => "text",
    };
    writeln!(text, "park {}", hexadecimal(&parked.name))?;
    writeln!(text, "  book     {}", hexadecimal(&case.book()))?;
    writeln!(text, "  {form}     {}", hexadecimal(&case.line))?;
    writeln!(text, "  units    {}", case.units)?;
    writeln!(text, "  budget   {}", case.budget)?;
    writeln!(text, "  day      {}", case.day)?;
    writeln!(text, "  schedule {}", hexadecimal(&case.schedule))?;
    let offsets = (case.work_offset, case.net_offset);
    write_lent(text, offsets, case.output_len, parked.lacking)
}

fn write_resume(text: &mut Formatter, resumed: &Resume) -> fmt::Result {
    writeln!(text, "resume {}", hexadecimal(&resumed.name))?;
    writeln!(text, "  schedule {}", hexadecimal(&resumed.schedule))?;
    let offsets = (resumed.work_offset, resumed.net_offset);
    write_lent(text, offsets, resumed.output_len, resumed.lacking)
}

fn write_lent(
    text: &mut Formatter,
    (work, net): (isize, isize),
    output: usize,
    lacking: usize,
) -> fmt::Result {
    writeln!(text, "  work     published length {work:+}")?;
    writeln!(text, "  net      published length {net:+}")?;
    writeln!(text, "  output   {output}")?;
    writeln!(text, "  points   {lacking} bytes not lent")
}
