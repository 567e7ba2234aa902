//! `kurvneist check`.

use crate::cli::commands::usage;
use crate::cli::options::Parsed;
use crate::cli::{files, say, Status, Stop};
use crate::json::{Fields, Json};
use crate::mistake::Mistake;
use crate::text::check::Named;
use crate::told;
use crate::warnings::strict::{self, Fault};
use crate::warnings::{self, Kind, Warning};

pub fn check(parsed: &Parsed) -> Result<Status, Stop> {
    let text_name = &parsed.arguments[0];
    let name = &*text_name.to_string_lossy();
    let allowed = allowed(parsed.value("--allow").unwrap_or("")).map_err(usage)?;
    let encoding = parsed.encoding("--encoding").map_err(usage)?;
    let (source, read) = files::read_text(text_name, encoding)?;
    let named = match read {
        Ok(named) => named,
        Err(mistakes) if parsed.has("--json") => return mistaken(name, &source, &mistakes),
        Err(mistakes) => return Err(files::mistaken(text_name, &source, &mistakes)),
    };
    let day = parsed.day().map_err(usage)?;
    if day.is_some() && named.days.is_none() {
        say(files::DAY_IGNORED);
    }
    let mut found = warnings::of(&source, &named, day);
    found.retain(|warning| !allowed.contains(&warning.kind));
    let checked = Checked {
        name,
        source: &source,
        named: &named,
        found,
        strict: parsed.has("--strict"),
        faults: match parsed.has("--strict-profile") {
            true => Some(faults(name, &source, &named)?),
            false => None,
        },
    };
    let report = match parsed.has("--json") {
        true => checked.object(),
        false => checked.text(),
    };
    files::print(report.as_bytes())?;
    Ok(match checked.errors() {
        0 => Status::Done,
        _ => Status::Input,
    })
}

/// The text shows whatever the engine answers, or the two differ.
fn faults(name: &str, source: &str, named: &Named) -> Result<Vec<Fault>, Stop> {
    strict::faults(source, named).map_err(|told| {
        let message = format!("{name}: {told}; the text shows no reason");
        Stop::new(Status::Difference, message)
    })
}

/// The kinds of `--allow KIND,KIND`.
fn allowed(list: &str) -> Result<Vec<Kind>, String> {
    let names = list
        .split(',')
        .map(str::trim)
        .filter(|name| !name.is_empty());
    let kind = |name| {
        let found = Kind::ALL.into_iter().find(|kind| kind.name() == name);
        found.ok_or_else(|| {
            let known = Kind::ALL.map(Kind::name).join(", ");
            format!("--allow {name}: expected kinds of warnings: {known}")
        })
    };
    names.map(kind).collect()
}

/// What was found in a text without mistakes.
struct Checked<'a> {
    name: &'a str,
    source: &'a str,
    named: &'a Named,
    found: Vec<Warning>,
    /// Warnings are errors.
    strict: bool,
    /// Those of the strict profile, if it was asked for.
    faults: Option<Vec<Fault>>,
}

impl Checked<'_> {
    fn faults(&self) -> &[Fault] {
        self.faults.as_deref().unwrap_or_default()
    }

    fn errors(&self) -> usize {
        match self.strict {
            true => self.found.len() + self.faults().len(),
            false => self.faults().len(),
        }
    }

    fn warnings(&self) -> usize {
        match self.strict {
            true => 0,
            false => self.found.len(),
        }
    }

    /// Each as this says, in the order of the text.
    fn each<T>(&self, warning: impl Fn(&Warning) -> T, fault: impl Fn(&Fault) -> T) -> Vec<T> {
        let warnings = self.found.iter();
        let warnings = warnings.map(|one| (one.mistake.span.start, warning(one)));
        let faults = self.faults().iter();
        let faults = faults.map(|one| (one.mistake.span.start, fault(one)));
        let mut all: Vec<(usize, T)> = warnings.chain(faults).collect();
        all.sort_by_key(|(start, _)| *start);
        all.into_iter().map(|(_, one)| one).collect()
    }

    fn text(&self) -> String {
        let (name, source) = (self.name, self.source);
        let shown = self.each(
            |warning| warning.show(name, source, self.strict),
            |fault| fault.show(name, source),
        );
        format!("{}{name}: {}\n", shown.concat(), self.closing())
    }

    fn closing(&self) -> String {
        let counts = match (self.errors(), self.warnings()) {
            (0, 0) if self.strict => "no errors".to_owned(),
            (0, 0) => "no warnings".to_owned(),
            (errors, 0) => counted(errors, "error"),
            (0, warnings) => counted(warnings, "warning"),
            (errors, warnings) => {
                let warnings = counted(warnings, "warning");
                format!("{} and {warnings}", counted(errors, "error"))
            }
        };
        match self.is_free() {
            Some(true) => format!("{counts}; the order of the rules is free"),
            _ => counts,
        }
    }

    /// Whether the order of the rules is free, if that was asked for.
    fn is_free(&self) -> Option<bool> {
        self.faults.as_ref().map(Vec::is_empty)
    }

    fn object(&self) -> String {
        let diagnostics = self.each(
            |warning| warning.json(self.source, self.strict),
            |fault| fault.json(self.source, self.named),
        );
        let diagnostics = diagnostics.into_iter().collect();
        let free = self.is_free();
        report(self.name, self.errors(), self.warnings(), free, diagnostics)
    }
}

fn counted(count: usize, what: &str) -> String {
    told::counted(count as u64, what, &format!("{what}s"))
}

fn mistaken(name: &str, source: &str, mistakes: &[Mistake]) -> Result<Status, Stop> {
    let each = |mistake| warnings::mistake_json(mistake, source);
    let diagnostics = mistakes.iter().map(each).collect();
    files::print(report(name, mistakes.len(), 0, None, diagnostics).as_bytes())?;
    Ok(Status::Input)
}

fn report(
    name: &str,
    errors: usize,
    warnings: usize,
    order_free: Option<bool>,
    diagnostics: Json,
) -> String {
    let mut fields: Fields = vec![
        ("book", name.into()),
        ("errors", errors.into()),
        ("warnings", warnings.into()),
    ];
    fields.extend(order_free.map(|free| ("order_free", free.into())));
    fields.push(("diagnostics", diagnostics));
    format!("{}\n", Json::from(fields))
}
