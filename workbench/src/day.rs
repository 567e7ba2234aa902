//! Days as dates. The engine knows days as numbers; that day 0 is 1970-01-01
//! is a convention of this workbench.

use crate::told::quoted;

/// The last day, 65535, as a date.
pub const LAST: &str = "2149-06-06";

/// What a day is written as.
pub const EXPECTED: &str = "a date from 1970-01-01 to 2149-06-06, or a number from 0 to 65535";

/// A day as a date, `2026-07-01`, or as a number. Answers what is wrong, and
/// what is expected.
pub fn read(written: &str) -> Result<u16, String> {
    if written.bytes().all(|byte| byte.is_ascii_digit()) && !written.is_empty() {
        let number = written.parse();
        return number.map_err(|_| format!("{} is past day 65535", quoted(written)));
    }
    let Some([year, month, day]) = parts(written) else {
        return Err(format!("{} is no day", quoted(written)));
    };
    if !(1..=12).contains(&month) || !(1..=length(year, month)).contains(&day) {
        return Err(format!("there is no {written} in the calendar"));
    }
    if year < 1970 {
        return Err(format!("{written} is before 1970-01-01, day 0"));
    }
    u16::try_from(number(year, month, day))
        .map_err(|_| format!("{written} is past {LAST}, day 65535"))
}

/// Four digits, two and two.
fn parts(written: &str) -> Option<[u32; 3]> {
    let parts: Vec<&str> = written.split('-').collect();
    let [year, month, day] = parts[..] else {
        return None;
    };
    let lengths = [year, month, day].map(str::len);
    let digits = |part: &str| part.bytes().all(|byte| byte.is_ascii_digit());
    if lengths != [4, 2, 2] || ![year, month, day].into_iter().all(digits) {
        return None;
    }
    let numbers: Vec<u32> = parts.iter().filter_map(|part| part.parse().ok()).collect();
    numbers.try_into().ok()
}

fn is_leap(year: u32) -> bool {
    year % 4 == 0 && (year % 100 != 0 || year % 400 == 0)
}

/// The days of a month.
fn length(year: u32, month: u32) -> u32 {
    match month {
        4 | 6 | 9 | 11 => 30,
        2 if is_leap(year) => 29,
        2 => 28,
        _ => 31,
    }
}

fn year_length(year: u32) -> u32 {
    match is_leap(year) {
        true => 366,
        false => 365,
    }
}

/// The days from 1970-01-01 to a date that isn't before.
fn number(year: u32, month: u32, day: u32) -> u32 {
    let years: u32 = (1970..year).map(year_length).sum();
    let months: u32 = (1..month).map(|month| length(year, month)).sum();
    years + months + day - 1
}

/// A day as its date.
pub fn date(day: u16) -> String {
    let mut left = u32::from(day);
    let mut year = 1970;
    while left >= year_length(year) {
        left -= year_length(year);
        year += 1;
    }
    let mut month = 1;
    while left >= length(year, month) {
        left -= length(year, month);
        month += 1;
    }
    format!("{year}-{month:02}-{:02}", left + 1)
}

/// As it is told: `2026-07-01 (day 20635)`.
pub fn told(day: u16) -> String {
    format!("{} (day {day})", date(day))
}

#[cfg(test)]
mod tests {
    use super::*;

    #[test]
    fn every_day_is_its_date() {
        for day in 0..=u16::MAX {
            assert_eq!(read(&date(day)), Ok(day));
            assert_eq!(read(&day.to_string()), Ok(day));
        }
        assert_eq!(date(0), "1970-01-01");
        assert_eq!(date(58), "1970-02-28");
        assert_eq!(date(59), "1970-03-01");
        assert_eq!(date(11_016), "2000-02-29");
        assert_eq!(date(20_635), "2026-07-01");
        assert_eq!(date(47_540), "2100-02-28");
        assert_eq!(date(47_541), "2100-03-01");
        assert_eq!(date(u16::MAX), LAST);
    }

    #[test]
    fn what_is_no_day() {
        let wrong = |written: &str| read(written).unwrap_err();
        assert_eq!(wrong("65536"), "'65536' is past day 65535");
        assert_eq!(
            wrong("2149-06-07"),
            "2149-06-07 is past 2149-06-06, day 65535"
        );
        assert_eq!(
            wrong("1969-12-31"),
            "1969-12-31 is before 1970-01-01, day 0"
        );
        for written in ["2026-02-29", "2100-02-29", "2026-13-01", "2026-00-10"] {
            assert_eq!(
                wrong(written),
                format!("there is no {written} in the calendar")
            );
        }
        for written in [
            "", "1.7.2026", "2026-7-1", "26-07-01", "2026-07", "-1", "+1",
        ] {
            assert_eq!(wrong(written), format!("'{written}' is no day"));
        }
    }
}
