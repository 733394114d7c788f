//! The calendar through the compiled library: every day, and every date of its years, beside the peer's counting.

mod peer;

use necktureen::{date_of, day_of, Date};
use peer::calendar;

fn date(year: u16, month: u8, day: u8) -> Date {
    Date { year, month, day }
}

/// Every month and day of a year, and some that no year has.
fn dates_of(year: u16) -> impl Iterator<Item = Date> {
    (0..=13).flat_map(move |month| (0..=32).map(move |day| date(year, month, day)))
}

// ---- Beside the peer ----

#[test]
fn every_day_has_the_date_that_the_peer_counts() {
    for day in 0..=u16::MAX {
        assert_eq!(date_of(day), calendar::date_of(day), "{day}");
    }
}

/// From 1999 to 2180, so that both ends are passed.
#[test]
fn every_date_has_the_day_that_the_peer_counts() {
    let mut days = 0;
    for date in (1999..=2180).flat_map(dates_of) {
        let day = day_of(date);
        assert_eq!(day, calendar::day_of(date), "{date}");
        if let Some(day) = day {
            assert_eq!(date_of(day), Some(date), "{day}");
            days += 1;
        }
    }
    assert_eq!(days, 65_535);
}

/// Years far from those that have days.
#[test]
fn no_other_year_has_a_day() {
    let years = [0, 1, 4, 1600, 1900, 1996, 2181, 2184, 2400, 4000, 32_768, 65_532, 65_535];
    for date in years.into_iter().flat_map(dates_of) {
        assert_eq!(day_of(date), None, "{date}");
    }
}

/// Months and days up to the largest that a byte holds.
#[test]
fn no_other_month_or_day_has_a_day() {
    for byte in 13..=u8::MAX {
        assert_eq!(day_of(date(2000, byte, 1)), None, "month {byte}");
    }
    for byte in 32..=u8::MAX {
        assert_eq!(day_of(date(2000, 1, byte)), None, "day {byte}");
    }
}

// ---- By themselves ----

#[test]
fn a_day_has_a_date_and_the_date_that_day() {
    assert_eq!(date_of(0), None);
    for day in 1..=u16::MAX {
        assert_eq!(date_of(day).and_then(day_of), Some(day));
    }
}

#[test]
fn dates_are_in_the_order_of_days() {
    for day in 1..u16::MAX {
        assert!(date_of(day) < date_of(day + 1), "{day}");
    }
}

/// The days that the README gives as dates, for a sheet that is made by hand.
#[test]
fn the_days_of_the_sheet_have_their_dates() {
    assert_eq!(date_of(1000), Some(date(2002, 9, 26)));
    assert_eq!(date_of(1600), Some(date(2004, 5, 18)));
}

/// The day numbers that document 02 names, and the two ends.
#[test]
fn years_begin_on_their_days() {
    for (year, day) in [(2000, 1), (2001, 367), (2100, 36_526), (2101, 36_891)] {
        assert_eq!(day_of(date(year, 1, 1)), Some(day));
        assert_eq!(date_of(day), Some(date(year, 1, 1)));
    }
    assert_eq!(day_of(date(2179, 6, 5)), Some(65_535));
    assert_eq!(date_of(65_535), Some(date(2179, 6, 5)));
}

#[test]
fn february_has_a_29th_in_leap_years_alone() {
    for (year, day) in [(2000, 60), (2004, 1521), (2096, 35_124), (2104, 38_045), (2176, 64_343)] {
        assert_eq!(day_of(date(year, 2, 29)), Some(day), "{year}");
        assert_eq!(date_of(day), Some(date(year, 2, 29)), "{year}");
        assert_eq!(date_of(day + 1), Some(date(year, 3, 1)), "{year}");
    }
    for (year, day) in [(2001, 426), (2003, 1156), (2100, 36_585), (2179, 65_439)] {
        assert_eq!(date_of(day), Some(date(year, 3, 1)), "{year}");
        assert_eq!(date_of(day - 1), Some(date(year, 2, 28)), "{year}");
        assert_eq!(day_of(date(year, 2, 29)), None, "{year}");
    }
}

#[test]
fn what_is_no_date_has_no_day() {
    for (year, month, day, why) in [
        (2000, 0, 1, "month 0"),
        (2000, 13, 1, "month 13"),
        (2000, 1, 0, "day 0"),
        (2000, 1, 32, "32 January"),
        (2000, 4, 31, "31 April"),
        (2000, 6, 31, "31 June"),
        (2000, 9, 31, "31 September"),
        (2000, 11, 31, "31 November"),
        (2000, 2, 30, "30 February"),
        (2001, 2, 29, "29 February of a common year"),
        (2100, 2, 29, "29 February of 2100"),
        (1999, 12, 31, "before the first day"),
        (2179, 6, 6, "after the last day"),
        (2180, 1, 1, "the year after the last"),
        (65_535, 12, 31, "the largest year"),
        (0, 0, 0, "zeros"),
    ] {
        assert_eq!(day_of(date(year, month, day)), None, "{why}");
    }
}

#[test]
fn a_date_is_printed_with_every_digit() {
    assert_eq!(date(2000, 6, 15).to_string(), "2000-06-15");
    assert_eq!(date(1, 2, 3).to_string(), "0001-02-03");
}
