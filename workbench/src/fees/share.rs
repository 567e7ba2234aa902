//! Rates and shares as they are typed: percentages and fractions that are whole
//! ten-thousandths.

use kurvneist::WHOLE;

use crate::mistake::{Mistake, Span};
use crate::told::quoted;

/// What a rate or a share is written as.
pub const EXPECTED: &str =
    "a percentage with at most two decimals, as 3.5%, or a fraction, as 35/1000";

/// The ten-thousandths of `3.5%`, `3,50%` or `35/1000`, at that place of a text.
pub fn read(written: &str, start: usize) -> Result<u16, Mistake> {
    let mistake = |told: String, expected: &str| {
        let span = Span::new(start, start + written.len());
        Mistake::new(span, told, expected)
    };
    let read = match (written.strip_suffix('%'), written.split_once('/')) {
        (Some(percent), _) => percentage(percent),
        (None, Some((over, under))) => fraction(over, under),
        (None, None) => None,
    };
    let told = quoted(written);
    match read {
        None => Err(mistake(format!("{told} is no rate or share"), EXPECTED)),
        Some(Err(())) => Err(mistake(
            format!("{told} is no whole number of ten-thousandths"),
            EXPECTED,
        )),
        Some(Ok(parts)) => match u16::try_from(parts) {
            Ok(parts @ 0..=WHOLE) => Ok(parts),
            _ => Err(mistake(format!("{told} is over 100%"), "0% to 100%").refused(23)),
        },
    }
}

/// Nothing if it isn't made of digits; an error if it is no whole number.
type Parts = Option<Result<u64, ()>>;

fn percentage(percent: &str) -> Parts {
    let (whole, decimals) = percent.split_once(['.', ',']).unwrap_or((percent, "0"));
    let (whole, length) = (number(whole)?, decimals.len());
    let decimals = number(decimals)?;
    Some(match length {
        1 => Ok(whole.saturating_mul(100).saturating_add(10 * decimals)),
        2 => Ok(whole.saturating_mul(100).saturating_add(decimals)),
        _ => Err(()),
    })
}

fn fraction(over: &str, under: &str) -> Parts {
    let (over, under) = (number(over)?, number(under)?);
    let parts = over.saturating_mul(u64::from(WHOLE));
    Some(match under {
        0 => Err(()),
        _ if parts % under != 0 => Err(()),
        _ => Ok(parts / under),
    })
}

/// Of digits alone; as many as fit, since all others are too many.
fn number(digits: &str) -> Option<u64> {
    let is_digit = |byte: u8| byte.is_ascii_digit();
    let sound = !digits.is_empty() && digits.bytes().all(is_digit);
    sound.then(|| digits.parse().unwrap_or(u64::MAX))
}

/// As a percentage with two decimals.
pub fn show(parts: impl Into<u64>) -> String {
    let parts = parts.into();
    format!("{}.{:02}%", parts / 100, parts % 100)
}

#[cfg(test)]
mod tests {
    use super::*;

    #[test]
    fn whole_ten_thousandths() {
        for (written, parts) in [
            ("0%", 0),
            ("3.5%", 350),
            ("3,5%", 350),
            ("3.50%", 350),
            ("3,50%", 350),
            ("0.01%", 1),
            ("100%", 10_000),
            ("100.00%", 10_000),
            ("35/1000", 350),
            ("350/10000", 350),
            ("1/4", 2500),
            ("1/1", 10_000),
            ("0/7", 0),
        ] {
            assert_eq!(read(written, 0), Ok(parts), "{written}");
        }
        for parts in 0..=WHOLE {
            assert_eq!(read(&show(parts), 0), Ok(parts));
        }
    }

    #[test]
    fn what_is_none() {
        let told = |written: &str| read(written, 0).unwrap_err();
        for written in [
            "", "%", "3.5", "350", "-1%", ".5%", "3.%", "a%", "1/", "/4", "1/4%",
        ] {
            let wrong = format!("{} is no rate or share", quoted(written));
            assert_eq!(told(written).wrong, wrong);
        }
        for written in ["1.234%", "0.005%", "1/3", "2/6", "1/0", "1/20000"] {
            let wrong = format!("'{written}' is no whole number of ten-thousandths");
            assert_eq!(told(written).wrong, wrong);
        }
        for written in ["100.01%", "200%", "3/2", "99999999999999999999%"] {
            assert_eq!(told(written).wrong, format!("'{written}' is over 100%"));
            assert_eq!(told(written).refusal, Some(23));
        }
    }
}
