//! The calendar of document 02: years and months are counted one by one from the first day, 1 January 2000.

use necktureen::Date;

const FIRST_YEAR: u16 = 2000;

fn is_leap(year: u16) -> bool {
    year % 4 == 0 && (year % 100 != 0 || year % 400 == 0)
}

fn days_in_year(year: u16) -> u32 {
    if is_leap(year) {
        366
    } else {
        365
    }
}

fn days_in_month(year: u16, month: u8) -> u32 {
    match month {
        1 | 3 | 5 | 7 | 8 | 10 | 12 => 31,
        4 | 6 | 9 | 11 => 30,
        2 if is_leap(year) => 29,
        2 => 28,
        other => panic!("there is no month {other}"),
    }
}

/// The year that a day falls in, and how many of the year's days are before it.
fn year_of(day: u16) -> (u16, u32) {
    let mut year = FIRST_YEAR;
    let mut days_before = u32::from(day) - 1;
    while days_before >= days_in_year(year) {
        days_before -= days_in_year(year);
        year += 1;
    }
    (year, days_before)
}

/// How many days the year has that a day falls in. Day 0 falls in none.
pub fn days_in_year_of(day: u16) -> u32 {
    days_in_year(year_of(day).0)
}

/// The date of a day; day 0 has none.
pub fn date_of(day: u16) -> Option<Date> {
    if day == 0 {
        return None;
    }
    let (year, mut days_before) = year_of(day);
    let mut month = 1;
    while days_before >= days_in_month(year, month) {
        days_before -= days_in_month(year, month);
        month += 1;
    }
    Some(Date { year, month, day: days_before as u8 + 1 })
}

fn is_in_calendar(date: Date) -> bool {
    (1..=12).contains(&date.month) && date.day >= 1 && u32::from(date.day) <= days_in_month(date.year, date.month)
}

/// The day of a date, where it is one of those that two bytes hold.
pub fn day_of(date: Date) -> Option<u16> {
    if !is_in_calendar(date) || date.year < FIRST_YEAR {
        return None;
    }
    let days_of_years: u32 = (FIRST_YEAR..date.year).map(days_in_year).sum();
    let days_of_months: u32 = (1..date.month).map(|month| days_in_month(date.year, month)).sum();
    u16::try_from(days_of_years + days_of_months + u32::from(date.day)).ok()
}
