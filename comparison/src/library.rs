//! The static library as a subject. Its values are passed on as they come.

use kurvneist::{raw, Batch, Request};

use crate::draft::Fees;
use crate::model::{Form, Lengths};
use crate::subject::{
    Bounded, Charged, Done, Lent, Parking, Parts, Profile, Question, Settled, Subject, Told,
    Written,
};

/// What a value holds before the call, so that a zero that is due must be written.
const JUNK: u64 = 0x5A5A_5A5A_5A5A_5A5A;

pub struct Library;

fn request<'a>(question: &Question<'a>) -> Request<'a> {
    Request::new(question.book, question.line)
        .units(question.units)
        .budget(question.budget)
        .day(question.day)
        .schedule(question.schedule)
}

fn told(refusal: u8, values: [u64; raw::ANSWER_LENGTH]) -> Told {
    let [ending, rewrites, entries, granted, kept, length] = values;
    Told {
        refusal,
        ending,
        rewrites,
        entries,
        granted,
        kept,
        length,
    }
}

fn lent_fees(fees: &Fees) -> kurvneist::Fees<'_> {
    kurvneist::Fees::new(&fees.rates, &fees.shares)
}

impl Subject for Library {
    fn published(&self) -> Lengths {
        Lengths::of_areas(raw::work_length(), raw::net_length())
    }

    fn answer(&mut self, question: &Question, lent: &mut Lent) -> Told {
        let request = request(question);
        let call = match question.form {
            Form::Line => raw::reduce,
            Form::Text => raw::payee,
        };
        let mut values = [JUNK; raw::ANSWER_LENGTH];
        let refusal = call(&request, lent.work, lent.net, lent.output, &mut values);
        told(refusal, values)
    }

    fn answer_lines(&mut self, question: &Question, lent: &mut Lent) -> Done {
        let batch = Batch::new(question.book)
            .units(question.units)
            .budget(question.budget)
            .day(question.day)
            .schedule(question.schedule);
        let call = match question.form {
            Form::Line => raw::reduce_lines,
            Form::Text => raw::payee_lines,
        };
        let mut values = [JUNK; raw::DONE_LENGTH];
        let refusal = call(
            &batch,
            question.line,
            lent.work,
            lent.net,
            lent.output,
            &mut values,
        );
        let [lines, read, written, stop] = values;
        Done {
            refusal,
            lines,
            read,
            written,
            stop,
        }
    }

    fn written(&mut self, book: &[u8], output: &mut [u8]) -> Written {
        let mut length = JUNK;
        let refusal = raw::write_book(book, output, &mut length);
        Written { refusal, length }
    }

    fn charge(&mut self, fees: &Fees, parts: &mut Parts) -> Charged {
        let mut fee = JUNK as i64;
        let refusal = raw::charge(&fees.term, &lent_fees(fees), fees.amount, parts, &mut fee);
        Charged { refusal, fee }
    }

    fn settle(
        &mut self,
        question: &Question,
        fees: &Fees,
        output: &mut [u8],
        parts: &mut Parts,
    ) -> Settled {
        let call = match question.form {
            Form::Line => raw::settle,
            Form::Text => raw::settle_payee,
        };
        let mut values = raw::Settled {
            answer: [JUNK; raw::ANSWER_LENGTH],
            charged: JUNK,
            fee: JUNK as i64,
            parts: *parts,
        };
        let (request, lent) = (request(question), lent_fees(fees));
        let refusal = call(&request, &lent, fees.amount, output, &mut values);
        *parts = values.parts;
        Settled {
            told: told(refusal, values.answer),
            charged: values.charged,
            fee: values.fee,
        }
    }

    fn profile(&mut self, book: &[u8]) -> Profile {
        let mut pair = [JUNK; raw::PAIR_LENGTH];
        let refusal = raw::strict_book(book, &mut pair);
        Profile { refusal, pair }
    }

    fn bound(&mut self, question: &Question, lent: &mut Lent) -> Bounded {
        let call = match question.form {
            Form::Line => raw::bound,
            Form::Text => raw::bound_payee,
        };
        let mut values = [JUNK; raw::BOUND_LENGTH];
        let refusal = call(&request(question), lent.work, lent.net, &mut values);
        let [ending, orders, forks] = values;
        Bounded {
            refusal,
            ending,
            orders,
            forks,
        }
    }
}

impl Parking for Library {
    fn published(&self) -> Lengths {
        Subject::published(self)
    }

    fn points_length(&self) -> usize {
        raw::points_length()
    }

    fn park(
        &mut self,
        question: &Question,
        name: &[u8],
        lent: &mut Lent,
        points: &mut [u8],
    ) -> Told {
        let call = match question.form {
            Form::Line => raw::park,
            Form::Text => raw::park_payee,
        };
        let request = request(question);
        let Lent { work, net, output } = lent;
        let mut values = [JUNK; raw::ANSWER_LENGTH];
        let refusal = call(&request, name, work, net, points, output, &mut values);
        told(refusal, values)
    }

    fn resume(&mut self, name: &[u8], schedule: &[u8], lent: &mut Lent, points: &mut [u8]) -> Told {
        let Lent { work, net, output } = lent;
        let mut values = [JUNK; raw::ANSWER_LENGTH];
        let refusal = raw::resume(name, schedule, work, net, points, output, &mut values);
        told(refusal, values)
    }
}
