//! Fees and owners' shares: tables in text form, amounts as they are typed, and
//! what is charged to postings.

pub mod amount;
pub mod owners;
pub mod share;
pub mod table;
mod words;

use std::sync::Arc;

use kurvneist::{charge, Charge, FeeTable, Fees, Refusal};

use crate::json::{Fields, Json};
use crate::names::Names;
use crate::told::{counted, quoted};
use owners::Owners;

/// By which rates postings are charged, and among whom the rest is split.
#[derive(Clone, Debug)]
pub struct Charging {
    table: FeeTable,
    shares: Vec<u16>,
    owners: Arc<[String]>,
}

impl Charging {
    pub fn new(table: FeeTable, owners: Owners) -> Charging {
        Charging {
            table,
            shares: owners.shares,
            owners: owners.names.into(),
        }
    }

    /// What the engine charges to a posting.
    pub fn charge(&self, posting: &[u8], amount: i64) -> Result<Charged, Refusal> {
        let fees = Fees::new(self.table.as_bytes(), &self.shares);
        let charge = charge(posting, &fees, amount)?;
        Ok(Charged::new(amount, &charge, &self.owners))
    }

    /// Nothing charged yet.
    pub fn sums(&self) -> Sums {
        Sums {
            postings: 0,
            charged: Money {
                amount: 0,
                fee: 0,
                parts: vec![0; self.owners.len()],
                owners: Arc::clone(&self.owners),
            },
        }
    }

    /// A refused charge in words. The shares are sound, so that 23 is about the
    /// root's rate.
    pub fn told(&self, refusal: Refusal, posting: &[u8], names: &Names) -> String {
        match (refusal, posting.first()) {
            (Refusal::BadRateOrShares, Some(&root)) if !table::has_rate(&self.table, root) => {
                let (number, root) = (refusal.number(), quoted(names.name(root)));
                format!("refused {number}: the table has no rate for {root}")
            }
            _ => refusal.to_string(),
        }
    }
}

/// An amount, its fee and the owners' parts, which add up to it, in cents.
#[derive(Clone, Debug, PartialEq, Eq)]
pub struct Money<Cents> {
    amount: Cents,
    fee: Cents,
    parts: Vec<Cents>,
    owners: Arc<[String]>,
}

/// What was charged to one posting.
pub type Charged = Money<i64>;

impl Charged {
    fn new(amount: i64, charge: &Charge, owners: &Arc<[String]>) -> Charged {
        Money {
            amount,
            fee: charge.fee,
            parts: charge.parts().to_vec(),
            owners: Arc::clone(owners),
        }
    }
}

impl<Cents: Copy + Into<i128>> Money<Cents> {
    /// `940.00 = fee 47.00 + Weiß 535.80 + Núñez 357.20`
    pub fn text(&self) -> String {
        let [amount, fee] = [self.amount, self.fee].map(amount::show);
        let parts = self.owners.iter().zip(&self.parts);
        let parts = parts.map(|(owner, part)| format!(" + {owner} {}", amount::show(*part)));
        format!("{amount} = fee {fee}{}", parts.collect::<String>())
    }

    /// In cents.
    pub fn fields(&self) -> Fields {
        let parts = self.owners.iter().zip(&self.parts).map(|(owner, part)| {
            let part: i128 = (*part).into();
            Json::Object(vec![
                ("owner", owner.as_str().into()),
                ("part", part.into()),
            ])
        });
        let [amount, fee]: [i128; 2] = [self.amount.into(), self.fee.into()];
        vec![
            ("amount", amount.into()),
            ("fee", fee.into()),
            ("parts", parts.collect()),
        ]
    }
}

impl Money<i128> {
    fn add<Cents: Copy + Into<i128>>(&mut self, more: &Money<Cents>) {
        self.amount += more.amount.into();
        self.fee += more.fee.into();
        for (sum, part) in self.parts.iter_mut().zip(&more.parts) {
            *sum += (*part).into();
        }
    }
}

/// What was charged to many postings.
#[derive(Clone, Debug, PartialEq, Eq)]
pub struct Sums {
    postings: u64,
    charged: Money<i128>,
}

impl Sums {
    pub fn count(&mut self, charged: &Charged) {
        self.postings += 1;
        self.charged.add(charged);
    }

    pub fn add(&mut self, more: &Sums) {
        self.postings += more.postings;
        self.charged.add(&more.charged);
    }

    /// As a comment behind the postings.
    pub fn text(&self) -> String {
        let postings = counted(self.postings, "posting", "postings");
        format!("# sum of {postings}: {}", self.charged.text())
    }

    pub fn json(&self) -> Json {
        let mut fields: Fields = vec![("postings", self.postings.into())];
        fields.extend(self.charged.fields());
        Json::Object(vec![("sums", fields.into())])
    }
}
