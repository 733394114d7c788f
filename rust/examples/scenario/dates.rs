//! Day numbers of dates in text.

use necktureen::{date_of, day_of, Date};
use std::str::FromStr;

/// The day number of a date such as 2000-06-15, or what is wrong with it.
pub fn day_number(text: &str) -> Result<u16, String> {
    let date = date(text).ok_or_else(|| format!("'{text}' is not a date such as 2000-06-15"))?;
    day_of(date).ok_or_else(|| fault(text, date))
}

/// What is wrong with a date that has no day.
fn fault(text: &str, date: Date) -> String {
    let is_in_calendar = day_of(Date { year: alike(date.year), ..date }).is_some();
    match Some(date) {
        date if is_in_calendar && date < date_of(1) => format!("{text} is before the first day, 2000-01-01"),
        date if is_in_calendar && date > date_of(u16::MAX) => format!("{text} is after the last day, 2179-06-05"),
        _ => format!("{text} is not in the calendar"),
    }
}

/// A year whose dates all have days, with the same dates as another year.
fn alike(year: u16) -> u16 {
    match year {
        year if year % 400 == 0 => 2000,
        year if year % 100 == 0 => 2100,
        year => 2000 + year % 4,
    }
}

/// Year, month and day of four, two and two digits.
fn date(text: &str) -> Option<Date> {
    let mut parts = text.split('-');
    let (year, month, day) = (parts.next()?, parts.next()?, parts.next()?);
    let date = Date { year: digits(year, 4)?, month: digits(month, 2)?, day: digits(day, 2)? };
    parts.next().is_none().then_some(date)
}

/// The number that so many digits make.
fn digits<T: FromStr>(part: &str, count: usize) -> Option<T> {
    let are_digits = part.len() == count && part.bytes().all(|byte| byte.is_ascii_digit());
    part.parse().ok().filter(|_| are_digits)
}
