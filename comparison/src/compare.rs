//! Compares a subject with the model on random cases.

use std::fmt::{self, Debug, Display, Formatter};
use std::ops::Range;

use crate::batches::{self, Batches};
use crate::bounds::{self, Bounds};
use crate::buffers::{hexadecimal, Lenders, PartsLender};
use crate::charges::{self, Charges};
use crate::days::{self, Days};
use crate::draft::{Batch, Case, Fees};
use crate::fees;
use crate::marks::{self, Marks};
use crate::model::refusal::OF_BOOKS;
use crate::model::{self, Answer, Form, Lengths};
use crate::nets::{self, Nets};
use crate::parted;
use crate::profiles::{self, Profiles};
use crate::random;
use crate::records;
use crate::repeats::{self, Repeats};
use crate::shrink::shrink;
use crate::strict;
use crate::subject::{Bounded, Charged, Done, Profile, Question, Settled, Subject, Told, Written};

/// Those of a run that are not its book's. Refusal 17 is about the program's
/// input, which a subject never sees.
const OTHERS: [u8; 9] = [10, 11, 12, 13, 14, 15, 16, 18, 19];

/// How often each ending and each refusal number was due.
#[derive(Clone, Debug, Default, PartialEq, Eq)]
pub struct Tally {
    pub cases: u64,
    pub endings: [u64; 4],
    pub refusals: [u64; 20],
    /// Those of the above that were texts.
    pub texts: u64,
    pub text_endings: [u64; 4],
    pub text_refusals: [u64; 20],
    pub books_written: u64,
    pub writer_refusals: [u64; 20],
    pub repeats: Repeats,
    pub days: Days,
    pub nets: Nets,
    pub marks: Marks,
    pub batches: Batches,
    pub charges: Charges,
    pub profiles: Profiles,
    pub bounds: Bounds,
}

impl Tally {
    /// What was never met, though enough random cases meet all of it.
    pub fn missing(&self) -> Vec<String> {
        let unmet = |name: &str, numbers: &[u8], counts: &[u64]| -> Vec<String> {
            let is_unmet = |number: &&u8| counts[usize::from(**number)] == 0;
            let numbers = numbers.iter().filter(is_unmet);
            numbers.map(|number| format!("{name} {number}")).collect()
        };
        let all = [&OF_BOOKS[..], &OTHERS].concat();
        let of_text = [&OF_BOOKS[..], &[13, 14, 15, 16, 18, 19]].concat();
        let unmet_kinds = |name: &str, kinds: &[&str], counts: &[u64]| -> Vec<String> {
            let kinds = kinds.iter().zip(counts).filter(|(_, count)| **count == 0);
            kinds.map(|(kind, _)| format!("{name} {kind}")).collect()
        };
        [
            unmet("ending", &[0, 1, 2, 3], &self.endings),
            unmet("refusal", &all, &self.refusals),
            unmet("a text's ending", &[0, 1, 2, 3], &self.text_endings),
            unmet("a text's refusal", &of_text, &self.text_refusals),
            unmet("writer's refusal", &OF_BOOKS, &self.writer_refusals),
            unmet("writer's refusal", &[16], &self.writer_refusals),
            unmet_kinds(
                "parts of a repeated variable",
                &repeats::KINDS,
                &self.repeats.counts,
            ),
            unmet_kinds("rules or runs", &days::KINDS, &self.days.counts),
            unmet_kinds("searches", &nets::KINDS, &self.nets.counts),
            unmet_kinds("orders", &marks::KINDS, &self.marks.counts),
            unmet_kinds("batches", &batches::KINDS, &self.batches.counts),
            unmet_kinds("charges", &charges::KINDS, &self.charges.counts),
            unmet_kinds("books", &profiles::KINDS, &self.profiles.counts),
            unmet_kinds("lines", &bounds::KINDS, &self.bounds.counts),
        ]
        .concat()
    }

    fn count_run(&mut self, form: Form, expected: &Result<Answer, u8>) {
        let text = u64::from(form == Form::Text);
        self.cases += 1;
        self.texts += text;
        match expected {
            Ok(answer) => {
                self.endings[usize::from(answer.ending)] += 1;
                self.text_endings[usize::from(answer.ending)] += text;
            }
            Err(number) => {
                self.refusals[usize::from(*number)] += 1;
                self.text_refusals[usize::from(*number)] += text;
            }
        }
    }

    fn count_writer(&mut self, expected: &Result<Vec<u8>, u8>) {
        match expected {
            Ok(_) => self.books_written += 1,
            Err(number) => self.writer_refusals[usize::from(*number)] += 1,
        }
    }
}

/// A case on which subject and model differ, as it was met and made small.
pub struct Difference {
    pub number: u64,
    pub met: Case,
    pub small: Case,
    /// What differs in the small case.
    pub what: String,
}

/// Compares the numbered cases of a seed up to the first difference.
pub fn compare(
    subject: &mut dyn Subject,
    seed: u64,
    numbers: Range<u64>,
) -> (Tally, Option<Difference>) {
    let mut comparison = Comparison::new(subject);
    for number in numbers {
        let case = random::numbered(seed, number);
        if comparison.check(&case).is_some() {
            // What is asked to make the case small is not counted.
            let tally = comparison.tally.clone();
            let difference = made_small(number, case, &mut |case| comparison.check(case));
            return (tally, Some(difference));
        }
    }
    (comparison.tally, None)
}

/// `check` answers what differs in a case, if anything does.
pub fn made_small(
    number: u64,
    met: Case,
    check: &mut dyn FnMut(&Case) -> Option<String>,
) -> Difference {
    let small = shrink(met.clone(), &mut |case| check(case).is_some());
    let what = check(&small)
        .unwrap_or_else(|| "the subject answered differently when asked again".to_string());
    Difference {
        number,
        met,
        small,
        what,
    }
}

/// Lends a subject the same buffers for case after case.
pub struct Comparison<'a> {
    subject: &'a mut dyn Subject,
    lent: Lenders,
    pub tally: Tally,
}

impl<'a> Comparison<'a> {
    pub fn new(subject: &'a mut dyn Subject) -> Comparison<'a> {
        Comparison {
            subject,
            lent: Lenders::default(),
            tally: Tally::default(),
        }
    }

    /// Puts one case to both; answers what differs, if anything does.
    pub fn check(&mut self, case: &Case) -> Option<String> {
        let book = case.book();
        let run = self.check_run(case, &book);
        let rounds = case.rounds;
        let bound = rounds.and_then(|seed| self.check_bound(case, &book, seed));
        let writer = self.check_writer(case, &book);
        let batch = case.batch.as_ref();
        let batch = batch.and_then(|batch| self.check_batch(case, batch, &book));
        let fees = case.fees.as_ref();
        let charge = fees.and_then(|fees| self.check_charge(case, fees));
        let settled = fees.and_then(|fees| self.check_settled(case, fees, &book));
        let profile = self.check_profile(&book);
        let rearranged = case.rearranged;
        let rearranged = rearranged.and_then(|seed| self.check_rearranged(case, &book, seed));
        run.or(bound)
            .or(writer)
            .or(batch)
            .or(charge)
            .or(settled)
            .or(profile)
            .or(rearranged)
    }

    fn check_run(&mut self, case: &Case, book: &[u8]) -> Option<String> {
        let published = self.subject.published();
        let lengths = case.lengths(published);
        let question = Question::of(case, book);
        let expected = question.answer(lengths, published);
        self.tally.count_run(case.form, &expected);
        if let Ok(answer) = &expected {
            self.tally.repeats.count(&question);
            self.tally.days.count(&question, answer);
            self.tally.nets.count(&question);
            self.tally.marks.count(&question);
        }
        self.compare_run("values", &question, case, &expected)
    }

    /// How long a schedule suffices; and that so many rounds do, of the model's
    /// runs and of the subject's.
    fn check_bound(&mut self, case: &Case, book: &[u8], seed: u64) -> Option<String> {
        let published = self.subject.published();
        let lengths = case.lengths(published);
        let question = Question::of(case, book);
        let expected = bounds::answer(&question, lengths, published);
        self.tally.bounds.count(&expected);
        let mut lent = self.lent.lend(lengths, case.junk);
        let found = self.subject.bound(&question, &mut lent);
        let front = expected.is_ok().then_some(&[][..]);
        let told = compare_values("bound", &Bounded::of(&expected), &found)
            .or_else(|| self.lent.difference("output beside a bound", front));
        if told.is_some() {
            return told;
        }
        let enough = bounds::enough(&question, &expected, seed)?;
        let claim = self.tally.bounds.try_claim(&question, &enough);
        claim.or_else(|| {
            let schedule = &enough.rounds;
            let question = Question {
                schedule,
                ..question
            };
            let expected = question.answer(lengths, published);
            self.compare_run("values of enough rounds", &question, case, &expected)
        })
    }

    /// Puts a question in the case's buffers to the subject, of which this is
    /// due.
    fn compare_run(
        &mut self,
        name: &str,
        question: &Question,
        case: &Case,
        expected: &Result<Answer, u8>,
    ) -> Option<String> {
        let lengths = case.lengths(self.subject.published());
        let mut lent = self.lent.lend(lengths, case.junk);
        let found = self.subject.answer(question, &mut lent);
        let term = expected.as_ref().map(|answer| &answer.term[..]);
        let due = match expected {
            Ok(answer) => Told::answered(answer),
            Err(number) => Told::refused(*number),
        };
        compare_values(name, &due, &found).or_else(|| self.lent.difference("output", term.ok()))
    }

    fn check_batch(&mut self, case: &Case, batch: &Batch, book: &[u8]) -> Option<String> {
        let published = self.subject.published();
        let lengths = Lengths {
            output: batch.room,
            ..case.lengths(published)
        };
        let lines = batch.bytes();
        let question = Question {
            line: &lines,
            ..Question::of(case, book)
        };
        let expected = records::answer(&question, lengths, published);
        self.tally.batches.count(&question, &expected);
        let mut lent = self.lent.lend(lengths, case.junk);
        let found = self.subject.answer_lines(&question, &mut lent);
        let due = Done::of(&expected);
        let records = expected.ok().map(|answered| answered.records.concat());
        compare_values("many lines' values", &due, &found)
            .or_else(|| self.lent.difference("records", records.as_deref()))
    }

    fn check_charge(&mut self, case: &Case, fees: &Fees) -> Option<String> {
        let expected = fees::charge(&fees.term, fees);
        self.tally.charges.count(fees, &expected);
        let mut parts = PartsLender::new(case.junk);
        let found = self.subject.charge(fees, parts.lent());
        let due = Charged::of(&expected);
        let own = expected.map_or(Vec::new(), |charge| charge.parts);
        compare_values("charge", &due, &found)
            .or_else(|| compare_values("charged parts", &parts.due(&own), &parts.found()))
    }

    fn check_settled(&mut self, case: &Case, fees: &Fees, book: &[u8]) -> Option<String> {
        let question = Question::of(case, book);
        let expected = fees::settle(&question, fees, case.output_len);
        self.tally.charges.count_settled(&question, fees, &expected);
        let mut parts = PartsLender::new(case.junk);
        let output = self.lent.output.lend(case.output_len, !case.junk);
        let found = self.subject.settle(&question, fees, output, parts.lent());
        let due = Settled::of(&expected);
        let (term, own) = match expected {
            Ok((answer, charge)) => (
                answer.term,
                charge.map_or(Vec::new(), |charge| charge.parts),
            ),
            Err(_) => (Vec::new(), Vec::new()),
        };
        compare_values("settled values", &due, &found)
            .or_else(|| compare_values("settled parts", &parts.due(&own), &parts.found()))
            .or_else(|| self.lent.output.difference("settled output", &term))
    }

    fn check_profile(&mut self, book: &[u8]) -> Option<String> {
        let expected = strict::check(book);
        self.tally.profiles.count(book, &expected);
        let found = self.subject.profile(book);
        compare_values("strict profile's values", &Profile::of(&expected), &found)
    }

    /// The rules in another order: the profile has the same number, and by an
    /// admitted book the run is answered as by the order that was given.
    fn check_rearranged(&mut self, case: &Case, book: &[u8], seed: u64) -> Option<String> {
        let read = model::read_book(book).ok()?;
        let rules = read.rules.len();
        let other = model::write_book(&parted::rearranged(&read, seed));
        let number = Profile::of(&strict::check(book)).refusal;
        let found = self.subject.profile(&other).refusal;
        let profile = compare_values("strict profile of the rules rearranged", &number, &found);
        if profile.is_some() || number != 0 {
            return profile;
        }
        let published = self.subject.published();
        let lengths = case.lengths(published);
        let question = Question::of(case, book);
        let expected = question.answer(lengths, published);
        if let Ok(answer) = &expected {
            self.tally
                .profiles
                .count_rearranged(&question, rules, answer);
        }
        self.compare_run(
            "values of the rules rearranged",
            &Question {
                book: &other,
                ..question
            },
            case,
            &expected,
        )
    }

    fn check_writer(&mut self, case: &Case, book: &[u8]) -> Option<String> {
        let full = model::written(book, usize::MAX).map_or(0, |bytes| bytes.len());
        let room = full.saturating_add_signed(case.writer_offset);
        let expected = model::written(book, room);
        self.tally.count_writer(&expected);
        let output = self.lent.output.lend(room, case.junk);
        let found = self.subject.written(book, output);
        let refusal = expected.as_ref().err().copied().unwrap_or(0);
        let bytes = expected.unwrap_or_default();
        let length = bytes.len() as u64;
        let due = Written { refusal, length };
        let name = format!("writer's values, output of {room} bytes");
        compare_values(&name, &due, &found)
            .or_else(|| self.lent.output.difference("writer's output", &bytes))
    }
}

pub fn compare_values<T: Debug + PartialEq>(name: &str, due: &T, found: &T) -> Option<String> {
    (due != found).then(|| format!("{name}\n  due   {due:?}\n  found {found:?}"))
}

impl Display for Difference {
    fn fmt(&self, text: &mut Formatter) -> fmt::Result {
        writeln!(
            text,
            "case {} differs; as met: {}",
            self.number,
            sizes(&self.met)
        )?;
        writeln!(text, "made small: {}", sizes(&self.small))?;
        writeln!(text, "{}", self.what)?;
        write_case(text, &self.small)
    }
}

fn form_name(case: &Case) -> &'static str {
    match case.form {
        Form::Line => "line",
        Form::Text => "text",
    }
}

fn sizes(case: &Case) -> String {
    format!(
        "{} operators, {} {}rules, {} book bytes, {} of {}, {} units, schedule of {}",
        case.draft.operators.len(),
        case.draft.rules.len(),
        if case.draft.dated { "dated " } else { "" },
        case.book().len(),
        form_name(case),
        case.line.len(),
        case.units,
        case.schedule.len()
    )
}

fn write_case(text: &mut Formatter, case: &Case) -> fmt::Result {
    writeln!(text, "book     {}", hexadecimal(&case.book()))?;
    writeln!(text, "{}     {}", form_name(case), hexadecimal(&case.line))?;
    writeln!(text, "units    {}", case.units)?;
    writeln!(text, "budget   {}", case.budget)?;
    writeln!(text, "day      {}", case.day)?;
    writeln!(text, "schedule {}", hexadecimal(&case.schedule))?;
    writeln!(text, "work     published length {:+}", case.work_offset)?;
    writeln!(text, "net      published length {:+}", case.net_offset)?;
    writeln!(text, "output   {}", case.output_len)?;
    writeln!(
        text,
        "writer   length of the written book {:+}",
        case.writer_offset
    )?;
    writeln!(text, "junk     from seed {}", case.junk)?;
    if let Some(seed) = case.rearranged {
        writeln!(text, "rules    rearranged from seed {seed}")?;
    }
    if let Some(seed) = case.rounds {
        writeln!(text, "rounds   from seed {seed}")?;
    }
    if let Some(batch) = &case.batch {
        write_batch(text, batch)?;
    }
    if let Some(fees) = &case.fees {
        write_fees(text, fees)?;
    }
    if let Some(input) = case.input() {
        writeln!(text, "input    {}", hexadecimal(&input))?;
    }
    Ok(())
}

fn write_batch(text: &mut Formatter, batch: &Batch) -> fmt::Result {
    writeln!(text, "many     {} bytes cut off", batch.cut)?;
    for line in &batch.lines {
        writeln!(text, "  line   {}", hexadecimal(line))?;
    }
    writeln!(text, "records  {} bytes lent", batch.room)
}

fn write_fees(text: &mut Formatter, fees: &Fees) -> fmt::Result {
    writeln!(text, "charged  {}", hexadecimal(&fees.term))?;
    writeln!(text, "amount   {}", fees.amount)?;
    writeln!(text, "rates    {}", hexadecimal(&fees.rates))?;
    writeln!(text, "shares   {:?}", fees.shares)
}

impl Display for Tally {
    fn fmt(&self, text: &mut Formatter) -> fmt::Result {
        writeln!(text, "cases    {}, texts {}", self.cases, self.texts)?;
        for (ending, count) in self.endings.iter().enumerate() {
            let texts = self.text_endings[ending];
            writeln!(text, "ending {ending:2}   {count}, texts {texts}")?;
        }
        for number in OF_BOOKS.into_iter().chain(OTHERS) {
            let place = usize::from(number);
            let (count, texts) = (self.refusals[place], self.text_refusals[place]);
            writeln!(text, "refused {number:2}  {count}, texts {texts}")?;
        }
        writeln!(text, "books written {}", self.books_written)?;
        for (number, count) in self.writer_refusals.iter().enumerate() {
            if *count > 0 {
                writeln!(text, "writer refused {number:2}  {count}")?;
            }
        }
        write!(
            text,
            "{}{}{}{}{}{}{}{}",
            self.repeats,
            self.days,
            self.nets,
            self.marks,
            self.batches,
            self.charges,
            self.profiles,
            self.bounds
        )
    }
}
