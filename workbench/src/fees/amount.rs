//! Amounts of money as they are typed and shown. An amount has two decimals, so
//! that its mark can't be taken for one of thousands, nor the amount for cents.

use crate::mistake::{Mistake, Span};
use crate::told::quoted;

/// What an amount is written as.
pub const EXPECTED: &str = "an amount with two decimals, as 1234.56, 1,234.56 or 1.234,56";

/// The cents of an amount: `1234.56`, `-1,234.56` or `1.234,56`. Its range is
/// the engine's to judge, which refuses what fits no number here as well.
pub fn read(written: &str) -> Result<i64, Mistake> {
    let (is_negative, digits) = signed(written);
    if digits.is_empty() {
        return Err(wrong(written, 0, "the amount is missing"));
    }
    let start = written.len() - digits.len();
    let is_stray = |character: char| !(character.is_ascii_digit() || is_mark(character));
    if let Some(at) = digits.find(is_stray) {
        return Err(stray(written, start + at));
    }
    let Some((whole, decimals)) = digits.rsplit_once(is_mark) else {
        let told = format!("{} may be cents", quoted(written));
        return Err(wrong(written, start, told));
    };
    let mark = digits[whole.len()..].chars().next().expect("a mark");
    if let Some(told) = misplaced(whole, mark, decimals.len()) {
        let told = told.replace("{}", &quoted(written));
        return Err(wrong(written, start, told));
    }
    let whole = whole.replace(is_mark, "");
    let sign = if is_negative { -1 } else { 1 };
    Ok(sign * cents(&format!("{whole}{decimals}")))
}

fn is_mark(character: char) -> bool {
    matches!(character, '.' | ',')
}

/// Whether there is a minus, and what stands behind the sign.
fn signed(written: &str) -> (bool, &str) {
    for (sign, is_negative) in [('-', true), ('\u{2212}', true), ('+', false)] {
        if let Some(rest) = written.strip_prefix(sign) {
            return (is_negative, rest);
        }
    }
    (false, written)
}

/// What is wrong with the digits before the last mark, and with so many behind
/// it.
fn misplaced(whole: &str, mark: char, decimals: usize) -> Option<&'static str> {
    match decimals {
        _ if whole.is_empty() => Some("{} has no digit before its mark"),
        3 if whole.contains(mark) => Some("{} has no decimals"),
        _ if !is_grouped(whole, mark) => Some("the digits of {} aren't in threes"),
        2 => None,
        3 => Some("the mark of {} may part thousands or decimals"),
        0 => Some("{} has no decimals behind its mark"),
        1 => Some("{} has one decimal"),
        _ => Some("{} has more than two decimals"),
    }
}

/// Digits alone, or in groups of three with the other mark between them.
fn is_grouped(whole: &str, decimal: char) -> bool {
    match whole.split_once(is_mark) {
        None => true,
        Some((first, others)) => {
            (1..=3).contains(&first.len())
                && !first.starts_with('0')
                && others.split(is_mark).all(|group| group.len() == 3)
                && !whole.contains(decimal)
        }
    }
}

/// As many as fit; all others are out of range, whichever they are.
fn cents(digits: &str) -> i64 {
    digits.parse().unwrap_or(i64::MAX)
}

fn wrong(written: &str, start: usize, told: impl Into<String>) -> Mistake {
    Mistake::new(Span::new(start, written.len()), told, EXPECTED)
}

fn stray(written: &str, at: usize) -> Mistake {
    let character = written[at..].chars().next().expect("a character");
    let span = Span::new(at, at + character.len_utf8());
    let expected = match character {
        '-' | '+' | '\u{2212}' => "a sign in front only",
        _ => EXPECTED,
    };
    let found = quoted(&character.to_string());
    Mistake::new(span, format!("found {found} in an amount"), expected)
}

/// With two decimals behind a point, and no marks between thousands.
pub fn show(cents: impl Into<i128>) -> String {
    let cents = cents.into();
    let (sign, size) = (if cents < 0 { "-" } else { "" }, cents.unsigned_abs());
    format!("{sign}{}.{:02}", size / 100, size % 100)
}

#[cfg(test)]
mod tests {
    use super::*;

    #[test]
    fn amounts_of_one_meaning() {
        for (written, cents) in [
            ("0.00", 0),
            ("0,05", 5),
            ("12.50", 1250),
            ("12,50", 1250),
            ("1234.56", 123_456),
            ("1234,56", 123_456),
            ("1,234.56", 123_456),
            ("1.234,56", 123_456),
            ("12,345,678.90", 1_234_567_890),
            ("12.345.678,90", 1_234_567_890),
            ("+180.00", 18_000),
            ("-180.00", -18_000),
            ("\u{2212}1.180,00", -118_000),
            ("-0.00", 0),
            ("007.50", 750),
            ("10000000000.01", 1_000_000_000_001),
        ] {
            assert_eq!(read(written), Ok(cents), "{written}");
        }
    }

    /// What is past every number here is past every amount.
    #[test]
    fn amounts_out_of_every_range() {
        let long = "9".repeat(40);
        assert_eq!(read(&format!("{long}.00")), Ok(i64::MAX));
        assert_eq!(read(&format!("-{long}.00")), Ok(-i64::MAX));
    }

    fn told(written: &str) -> (usize, String) {
        let mistake = read(written).unwrap_err();
        (mistake.span.start, mistake.wrong)
    }

    #[test]
    fn amounts_that_may_mean_something_else() {
        let same = |written: &str, wrong: &str| assert_eq!(told(written).1, wrong, "{written}");
        same(
            "1,234",
            "the mark of '1,234' may part thousands or decimals",
        );
        same(
            "1.234",
            "the mark of '1.234' may part thousands or decimals",
        );
        same(
            "-1.234",
            "the mark of '-1.234' may part thousands or decimals",
        );
        same(
            "1,234.567",
            "the mark of '1,234.567' may part thousands or decimals",
        );
        same("1234", "'1234' may be cents");
        same("1,234,567", "'1,234,567' has no decimals");
        same(".50", "'.50' has no digit before its mark");
        same("12.5", "'12.5' has one decimal");
        same("12.", "'12.' has no decimals behind its mark");
        same("12.3456", "'12.3456' has more than two decimals");
        for written in [
            "1,23.45",
            "1,2345.67",
            "1.234.56",
            "1,234,56",
            "1,234.567,00",
            "0,123.45",
            ",123.45",
            "1234,567.00",
            "1,,234.00",
        ] {
            same(
                written,
                &format!("the digits of '{written}' aren't in threes"),
            );
        }
    }

    #[test]
    fn what_is_no_amount() {
        assert_eq!(told(""), (0, "the amount is missing".into()));
        assert_eq!(told("-"), (0, "the amount is missing".into()));
        assert_eq!(told("12.50€"), (5, "found '€' in an amount".into()));
        assert_eq!(told("€12.50"), (0, "found '€' in an amount".into()));
        assert_eq!(told("1'234.56"), (1, "found ''' in an amount".into()));
        assert_eq!(told("12.50-"), (5, "found '-' in an amount".into()));
        assert_eq!(told("--12.50"), (1, "found '-' in an amount".into()));
        assert_eq!(told("1\u{a0}234,56").0, 1);
        assert_eq!(told("line(x)"), (0, "found 'l' in an amount".into()));
        let mistake = read("12.50-").unwrap_err();
        assert_eq!(mistake.expected, "a sign in front only");
    }

    #[test]
    fn amounts_are_shown_as_they_can_be_read() {
        for cents in [0, 1, -1, 5, 99, 100, -12_345, 1_000_000_000_000] {
            assert_eq!(read(&show(cents)), Ok(cents));
        }
        assert_eq!(show(-123_456_i64), "-1234.56");
        assert_eq!(show(-7_i64), "-0.07");
        assert_eq!(show(i128::from(i64::MAX) * 2), "184467440737095516.14");
    }
}
