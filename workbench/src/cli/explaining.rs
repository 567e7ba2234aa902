//! `kurvneist explain`.

use kurvneist::{Ending, Engine};

use crate::cli::commands::{failed, refused, say_shown_cut, status, usage, Asked};
use crate::cli::options::Parsed;
use crate::cli::{files, Status, Stop};
use crate::explain;
use crate::progress::Progress;

/// So many comparisons with the engine, each of a run from its start, where
/// the command line doesn't say.
const COMPARISONS: u32 = 256;

pub fn explain(parsed: &Parsed) -> Result<Status, Stop> {
    parsed.number("--check", 1, 1).map_err(usage)?;
    let asked = Asked::read(parsed)?;
    let posted = asked
        .schedules
        .post(&mut Engine::new(), asked.form, &asked.request(&[]))
        .map_err(|refusal| refused(parsed, refusal))?;
    let often = posted.answer.rewrites.div_ceil(COMPARISONS).max(1);
    let stride = parsed.number("--check", 1, often).map_err(usage)?;
    let (units, schedule) = asked.schedules.explained(&posted);
    let request = asked.request(schedule).units(units);
    let explained = explain::run(asked.form, &request, stride.into(), &mut Progress::new())
        .map_err(|failure| failed(parsed, failure))?;
    let rules_only = parsed.has("--rules-only");
    let text = match (parsed.has("--json"), rules_only) {
        (true, _) => format!("{}\n", explained.json(&asked.named, rules_only)),
        (false, true) => explained.rules(&asked.named),
        (false, false) => explained.text(&asked.named),
    };
    files::write_or_print(parsed, &text)?;
    asked.say_instead(&posted);
    if explained.told.ending == Ending::Cut {
        say_shown_cut(parsed, explained.told.entries, &asked.schedules);
    }
    Ok(status(explained.told.ending))
}
