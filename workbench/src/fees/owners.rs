//! Owners' shares in text form: a name and a share on each line.

use kurvneist::{MOST_OWNERS, WHOLE};

use crate::fees::share;
use crate::fees::table::in_order;
use crate::fees::words::{rows, Row};
use crate::mistake::{place_of, Mistake, Span};
use crate::told::quoted;

/// What a line is.
const ROW: &str = "an owner's name and share, as Renée Weiß 62.5%";

/// Who shares what is left, in the order of the text.
#[derive(Clone, Debug, Default, PartialEq, Eq)]
pub struct Owners {
    pub names: Vec<String>,
    pub shares: Vec<u16>,
}

/// 1 to 16 owners whose shares total 100%, or all mistakes.
pub fn read(source: &str) -> Result<Owners, Vec<Mistake>> {
    let (rows, mut mistakes) = rows(source, ROW);
    let mut owners = Owners::default();
    let mut spans: Vec<Span> = Vec::new();
    for row in &rows {
        let (name, span) = name(source, row);
        if let Some(place) = owners.names.iter().position(|other| *other == name) {
            let line = place_of(source, spans[place].start).0;
            let wrong = format!("{} has a share in line {line}", quoted(&name));
            mistakes.push(Mistake::new(span, wrong, "each owner once"));
        }
        match share::read(row.share.text, row.share.span.start) {
            Ok(share) => owners.shares.push(share),
            Err(mistake) => mistakes.push(mistake),
        }
        owners.names.push(name);
        spans.push(span);
    }
    if mistakes.is_empty() {
        mistakes.extend(miscounted(source, &owners, &rows));
    }
    match mistakes.is_empty() {
        true => Ok(owners),
        false => Err(in_order(mistakes)),
    }
}

/// The words before the share, as they stand.
fn name(source: &str, row: &Row) -> (String, Span) {
    let (first, last) = (row.names[0].span, row.names[row.names.len() - 1].span);
    let span = Span::new(first.start, last.end);
    (source[span.start..span.end].to_owned(), span)
}

/// What the engine would refuse by 23.
fn miscounted(source: &str, owners: &Owners, rows: &[Row]) -> Option<Mistake> {
    let Some(last) = rows.last() else {
        let end = source.trim_end().len();
        let wrong = "there is no owner";
        return Some(Mistake::new(Span::new(end, end), wrong, ROW).refused(23));
    };
    if let Some(row) = rows.get(MOST_OWNERS) {
        let wrong = format!("this is owner {}", MOST_OWNERS + 1);
        let expected = format!("at most {MOST_OWNERS}");
        return Some(Mistake::new(row.names[0].span, wrong, expected).refused(23));
    }
    let total: u64 = owners.shares.iter().copied().map(u64::from).sum();
    let whole = u64::from(WHOLE);
    if total == whole {
        return None;
    }
    let (difference, what) = match total < whole {
        true => (whole - total, "more"),
        false => (total - whole, "less"),
    };
    let wrong = format!("the shares total {}", share::show(total));
    let expected = format!("100%, which is {} {what}", share::show(difference));
    Some(Mistake::new(last.share.span, wrong, expected).refused(23))
}
