//! How a batch reads its lines and amounts, as the command line says.

use comparison::model::Form;

use crate::cli::commands::{form, usage};
use crate::cli::options::Parsed;
use crate::cli::{Status, Stop};
use crate::compose::composed;
use crate::csv;
use crate::encoding::Encoding;
use crate::items::{number, Columns, Reading};
use crate::line;
use crate::names::Names;
use crate::template::Template;

pub fn of(parsed: &Parsed, has_amounts: bool) -> Result<Reading, Stop> {
    let form = form(parsed);
    let template = template(parsed, form)?;
    let encoding = encoding(parsed).map_err(usage)?;
    let columns = columns(parsed, template.as_ref()).map_err(usage)?;
    let columns = match has_amounts {
        true => with_amount(parsed, columns).map_err(usage)?,
        false => columns,
    };
    Ok(Reading {
        form,
        encoding,
        columns,
        template,
        has_amounts,
    })
}

fn encoding(parsed: &Parsed) -> Result<Encoding, String> {
    match (parsed.has("--latin1"), parsed.has("--encoding")) {
        (true, true) => Err("--latin1 and --encoding say the same thing; expected one".into()),
        (true, false) => Ok(Encoding::Latin1),
        (false, _) => parsed.encoding("--encoding"),
    }
}

fn template(parsed: &Parsed, form: Form) -> Result<Option<Template>, Stop> {
    let Some(written) = parsed.value("--template").map(composed) else {
        return Ok(None);
    };
    if form == Form::Text {
        let wrong = "--template makes lines by names, and --payee takes the text itself";
        return Err(usage(wrong.into()));
    }
    let read = Template::read(&written);
    let shown = read.map_err(|mistake| mistake.show("TEMPLATE", &written));
    shown
        .map(Some)
        .map_err(|shown| Stop::new(Status::Usage, shown))
}

/// A bank export is one of whose columns one is named.
fn columns(parsed: &Parsed, template: Option<&Template>) -> Result<Option<Columns>, String> {
    let column = parsed
        .value("--column")
        .map(|column| composed(column).into_owned());
    let asked = match (column, template) {
        (Some(column), None) => vec![column],
        (Some(column), Some(template)) => with_column(template, &column)?,
        (None, Some(template)) if template.names_columns() => {
            match template.columns.iter().all(|name| !name.is_empty()) {
                true => template.columns.clone(),
                false => return Err("the template's {} needs --column".into()),
            }
        }
        (None, _) => {
            let lone = ["--separator", "--header"]
                .into_iter()
                .find(|name| parsed.has(name));
            return match lone {
                Some(name) => Err(format!("{name} goes with --column")),
                None => Ok(None),
            };
        }
    };
    asked.iter().try_for_each(|column| check_column(column))?;
    let separator = parsed.value("--separator").unwrap_or(",");
    Ok(Some(Columns {
        separator: csv::separator(separator)
            .map_err(|wrong| format!("--separator {separator}: {wrong}"))?,
        header: parsed.has("--header") || asked.iter().any(|column| number(column).is_none()),
        asked,
    }))
}

/// The same with the column of the amounts behind the others. In a file of
/// lines an amount stands before each.
fn with_amount(parsed: &Parsed, columns: Option<Columns>) -> Result<Option<Columns>, String> {
    let amount = parsed.value("--amount").map(composed);
    match (columns, amount) {
        (None, None) => Ok(None),
        (None, Some(_)) => Err("--amount goes with --column".into()),
        (Some(_), None) => Err("a bank export needs --amount, the column of its amounts".into()),
        (Some(mut columns), Some(amount)) => {
            check_column(&amount)?;
            columns.header |= number(&amount).is_none();
            columns.asked.push(amount.into_owned());
            Ok(Some(columns))
        }
    }
}

fn check_column(column: &str) -> Result<(), String> {
    match column.parse() == Ok(0) {
        true => Err(format!("there is no column {column}; columns count from 1")),
        false => Ok(()),
    }
}

/// The template's columns, with that of the command line for `{}`.
fn with_column(template: &Template, column: &str) -> Result<Vec<String>, String> {
    if template.columns.iter().all(|name| !name.is_empty()) {
        return Err("--column has no {} in the template".into());
    }
    let asked = template.columns.iter().map(|name| match name.is_empty() {
        true => column.to_owned(),
        false => name.clone(),
    });
    Ok(asked.collect())
}

/// A template that gives no line is told once, and not for each record. It is
/// tried with a character that the book has.
pub fn check_template(parsed: &Parsed, reading: &Reading, names: &Names) -> Result<(), Stop> {
    let (Some(template), Some(written)) = (&reading.template, parsed.value("--template")) else {
        return Ok(());
    };
    let sample = (0..=255)
        .take(names.len())
        .find_map(|operator| names.character(operator));
    let sample = sample.map_or(String::new(), String::from);
    let texts = vec![sample; template.columns.len()];
    let made = template.line(&texts);
    match line::read(&made.line, names) {
        Ok(_) => Ok(()),
        Err(mistake) => {
            let message = format!("--template {written}\n{}", mistake.show("LINE", &made.line));
            Err(Stop::new(Status::Usage, message))
        }
    }
}
