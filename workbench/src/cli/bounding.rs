//! `kurvneist bound`.

use kurvneist::{Bound, Ending, Engine, Enough, BOUND_ENTRIES};

use crate::cli::commands::{refused, status, Asked};
use crate::cli::options::Parsed;
use crate::cli::{files, say, Status, Stop};
use crate::json::{Fields, Json};
use crate::posting::Runner;
use crate::told::counted;

pub fn bound(parsed: &Parsed) -> Result<Status, Stop> {
    let asked = Asked::read(parsed)?;
    let request = asked.request(&[]);
    let bound = Runner::bound(&mut Engine::new(), asked.form, &request);
    let bound = bound.map_err(|refusal| refused(parsed, refusal))?;
    let (ending, enough) = match bound {
        Bound::Told(enough) => (Ending::Finished, Some(enough)),
        Bound::Unknown(ending) => (ending, None),
        other => unreachable!("a bound of a later engine: {other:?}"),
    };
    let why = enough.is_none().then(|| why(ending, request.budget));
    if parsed.has("--json") {
        let mut fields = fields(ending, enough, request.units);
        fields.extend(why.map(|why| ("message", why.into())));
        files::print(format!("{}\n", Json::from(fields)).as_bytes())?;
        return Ok(status(ending));
    }
    files::print(text(ending, enough, request.units).as_bytes())?;
    if let Some(why) = why {
        say(&format!("how long a schedule suffices is not known: {why}"));
    }
    Ok(status(ending))
}

fn text(ending: Ending, enough: Option<Enough>, units: u8) -> String {
    let Some(enough) = enough else {
        return format!("end {ending}\nrounds not known\n");
    };
    format!(
        "end {ending}\norders {}\nforks {}\nmost-orders {}\nrounds {}\nentries {}\n",
        enough.orders,
        enough.forks,
        enough.most_orders(),
        enough.rounds(),
        enough.entries(units)
    )
}

fn fields(ending: Ending, enough: Option<Enough>, units: u8) -> Fields {
    let number = |number: fn(Enough) -> u64| Json::from(enough.map(number));
    vec![
        ("end", ending.to_string().into()),
        ("orders", number(|enough| enough.orders)),
        ("forks", number(|enough| enough.forks)),
        ("most_orders", number(Enough::most_orders)),
        ("rounds", number(Enough::rounds)),
        ("units", units.into()),
        ("entries", enough.map(|enough| enough.entries(units)).into()),
    ]
}

/// Why one unit's run tells nothing.
fn why(ending: Ending, budget: u32) -> String {
    match ending {
        Ending::Spent => {
            let rewrites = counted(budget.into(), "rewrite", "rewrites");
            format!("one unit ends spent: the line takes more than the budget's {rewrites}, so no schedule finishes it")
        }
        Ending::Full => "one unit ends full; another order of units might keep the limit of \
             1,024 symbols"
            .to_owned(),
        other => {
            format!("one unit ends {other}, after {BOUND_ENTRIES} orders, and no more are tried")
        }
    }
}
