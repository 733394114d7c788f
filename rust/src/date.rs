//! The calendar: the date of a day number, and back.
//!
//! Only numbers and pointers to locals are passed; the library keeps none of them.

use crate::boundary;
use core::fmt;

/// A calendar date. An earlier one is less. The fields may also name no date of the calendar, as 2001-02-29 does;
/// [`day_of`] then finds no day.
#[derive(Clone, Copy, Debug, PartialEq, Eq, PartialOrd, Ord)]
pub struct Date {
    /// The year, as in 2000.
    pub year: u16,
    /// The month, 1 to 12.
    pub month: u8,
    /// The day of the month, from 1 on.
    pub day: u8,
}

impl fmt::Display for Date {
    /// As in `2000-06-15`.
    fn fmt(&self, f: &mut fmt::Formatter<'_>) -> fmt::Result {
        write!(f, "{:04}-{:02}-{:02}", self.year, self.month, self.day)
    }
}

/// The date of a day: 2000-01-01 for day 1, and 2179-06-05 for the last, 65,535. Day 0 has none.
#[must_use]
pub fn date_of(day: u16) -> Option<Date> {
    let mut date = Date { year: 0, month: 0, day: 0 };
    // SAFETY: three fields of a local.
    unsafe { boundary::necktureen_date_of(day, &mut date.year, &mut date.month, &mut date.day) };
    (date.year != 0).then_some(date)
}

/// The day of a date; `None` for a date that is not in the calendar, before 2000-01-01 or after 2179-06-05.
#[must_use]
pub fn day_of(date: Date) -> Option<u16> {
    // SAFETY: numbers alone.
    let day = unsafe { boundary::necktureen_day_of(date.year, date.month, date.day) };
    (day != 0).then_some(day)
}
