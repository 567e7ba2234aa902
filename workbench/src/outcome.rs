//! What became of a line: a posting, or why there is none.

use kurvneist::{Answer, Ending, Refusal};

use crate::fees::Charged;
use crate::items::Reason;
use crate::json::{Fields, Json};
use crate::letters;
use crate::mistake::Mistake;
use crate::names::Names;
use crate::posting::Posted;
use crate::text::printer;
use crate::told::counted;

#[derive(Clone, Debug)]
pub enum Outcome {
    /// A blank line or a comment, as it was.
    Empty(String),
    Mistyped(Reason),
    Refused(Refusal),
    /// A posting that can't be charged, and why.
    Uncharged {
        refusal: Refusal,
        told: String,
        answer: Answer,
        term: String,
    },
    /// A run, and its term by names. It is a posting if the run finished.
    Ran {
        answer: Answer,
        term: String,
        /// How the run by several units ended, if one unit made this one in
        /// its place.
        instead_of: Option<Ending>,
        /// What was charged to a posting, where fees are.
        charged: Option<Charged>,
    },
}

impl Outcome {
    pub fn mistyped(mistake: &Mistake, text: &str) -> Outcome {
        let place = ("column", mistake.place(text).1);
        Outcome::Mistyped(Reason::at(place, mistake.message()))
    }

    pub fn ran(posted: &Posted, names: &Names) -> Outcome {
        Outcome::Ran {
            answer: posted.answer,
            term: printer::term(&posted.term, names),
            instead_of: posted.instead_of,
            charged: None,
        }
    }

    /// The same with what was charged.
    pub fn charged(self, more: Charged) -> Outcome {
        match self {
            Outcome::Ran {
                answer,
                term,
                instead_of,
                ..
            } => Outcome::Ran {
                answer,
                term,
                instead_of,
                charged: Some(more),
            },
            other => other,
        }
    }

    /// What was charged, if anything was.
    pub fn charge(&self) -> Option<&Charged> {
        match self {
            Outcome::Ran { charged, .. } => charged.as_ref(),
            _ => None,
        }
    }

    /// In one line, as a batch tells it, with what to try where a run was cut.
    pub fn text(&self, with_counts: bool, advice: &str) -> String {
        match self {
            Outcome::Empty(text) => text.clone(),
            Outcome::Mistyped(reason) => format!("! {reason}"),
            Outcome::Refused(refusal) => format!("! {}", letters::told(refusal)),
            Outcome::Uncharged { told, term, .. } => format!("! {told}, at {term}"),
            Outcome::Ran {
                answer,
                term,
                charged,
                ..
            } => {
                let mut told = ran(answer, term, advice);
                if let Some(charged) = charged {
                    told = format!("{told}: {}", charged.text());
                }
                match with_counts {
                    true => format!("{told}  # {}", counts(answer)),
                    false => told,
                }
            }
        }
    }

    /// The fields of its object in JSON.
    pub fn fields(&self) -> Fields {
        match self {
            Outcome::Empty(text) => vec![("comment", text.as_str().into())],
            Outcome::Mistyped(reason) => {
                let mut fields: Fields = vec![("kind", "mistyped".into())];
                if let Some(field) = &reason.field {
                    fields.push(("field", field.as_str().into()));
                }
                fields.push(("column", reason.place.map(|(_, column)| column).into()));
                fields.push(("message", reason.message.as_str().into()));
                vec![error(fields)]
            }
            Outcome::Refused(refusal) => vec![error(vec![
                ("kind", "refused".into()),
                ("refusal", refusal.number().into()),
                ("message", letters::told(refusal).into()),
            ])],
            Outcome::Uncharged {
                refusal,
                told,
                term,
                ..
            } => vec![error(vec![
                ("kind", "refused".into()),
                ("refusal", refusal.number().into()),
                ("message", told.as_str().into()),
                ("term", term.as_str().into()),
            ])],
            Outcome::Ran {
                answer,
                term,
                instead_of,
                charged,
            } => {
                let mut fields: Fields = vec![
                    ("end", answer.ending.to_string().into()),
                    ("rewrites", answer.rewrites.into()),
                    ("entries", answer.entries.into()),
                    ("granted", answer.granted.into()),
                    ("kept", answer.kept.into()),
                    ("term", term.as_str().into()),
                ];
                if let Some(ending) = instead_of {
                    fields.push(("instead_of", ending.to_string().into()));
                }
                if let Some(charged) = charged {
                    fields.extend(charged.fields());
                }
                fields
            }
        }
    }
}

fn error(fields: Fields) -> (&'static str, Json) {
    ("error", fields.into())
}

fn ran(answer: &Answer, term: &str, advice: &str) -> String {
    match answer.ending {
        Ending::Finished => term.to_owned(),
        Ending::Spent => format!("! spent after {} at {term}", rewrites(answer)),
        Ending::Full => format!("! full after {} at {term}", rewrites(answer)),
        other => {
            let entries = counted(answer.entries, "entry", "entries");
            format!("! {other} after {entries} ({advice}) at {term}")
        }
    }
}

fn rewrites(answer: &Answer) -> String {
    counted(answer.rewrites.into(), "rewrite", "rewrites")
}

fn counts(answer: &Answer) -> String {
    format!(
        "rewrites {}, entries {}, granted {}, kept {}",
        answer.rewrites, answer.entries, answer.granted, answer.kept
    )
}
