//! Submissions through the compiled library: every number that they answer, the edges, leap years among them, and the
//! year of the demands.

mod common;

use common::*;
use necktureen::{
    day_of, enrol, indicator, report, submit, withdraw, Date, Number, Report, Submission, REGISTER_BYTES,
};

/// A register with a meter of four dials at place 0 and these accepted reads.
fn with_reads(capacity: u32, reads: &[(u16, u8, u32)]) -> Vec<u8> {
    let mut register = zeros();
    assert_eq!(enrol(&mut register, 0, 4, capacity).number, Number::Accepted);
    for &(day, letter, value) in reads {
        assert_eq!(submit(&mut register, 0, read(day, letter, value)).number, Number::Accepted);
    }
    register
}

/// The read is refused with this number, zeros beside it, and no byte changes.
fn refused(register: &[u8], read: Submission, number: Number) {
    let mut after = register.to_vec();
    let answer = guarded(&mut after, |r| submit(r, 0, read));
    assert_eq!(answer, refusal(number), "{read:?}");
    assert_eq!(after, register, "{read:?} changed a byte");
}

#[test]
fn case_s() {
    let mut register = zeros();
    let s =
        |day, letter, value, indicator, reread| Submission { submitted: 1600, day, value, letter, indicator, reread };
    assert_eq!(enrol(&mut register, 0, 4, 5000), taken(0, 0));
    assert_eq!(submit(&mut register, 0, s(1000, b'I', 9200, 0, 0)), taken(0, 0));
    assert_eq!(submit(&mut register, 0, s(1180, b'C', 9400, 0, 0)), taken(0, 200));
    assert_eq!(submit(&mut register, 0, s(1360, b'C', 9600, 0, 0)), taken(0, 200));
    assert_eq!(submit(&mut register, 0, s(1540, b'C', 100, 0, 0)).number, Number::Ef);
    assert_eq!(submit(&mut register, 0, s(1540, b'C', 100, 2, 0)).number, Number::High);
    assert_eq!(submit(&mut register, 0, s(1540, b'C', 100, 2, 1)), taken(1, 500));
    assert_eq!(withdraw(&mut register, 0, 1540, 100), taken(1, -500));
    assert_eq!(submit(&mut register, 0, s(1540, b'C', 100, 2, 1)).number, Number::Withdrawn);
    let expected = Report { number: Number::Accepted, standing: 3, flagged: 0, total: 400 };
    assert_eq!(report(&register, 0), expected);
}

/// A misread of April, withdrawn in May, comes back from an idle terminal in June.
#[test]
fn a_withdrawn_read_does_not_come_back() {
    let mut register = with_reads(5000, &[(1, b'I', 1000), (32, b'C', 1020), (61, b'C', 1040)]);
    let misread = read(92, b'C', 1075);
    assert_eq!(submit(&mut register, 0, misread), taken(0, 35));
    assert_eq!(withdraw(&mut register, 0, 92, 1075), taken(0, -35));
    refused(&register, misread, Number::Withdrawn);
    assert_eq!(submit(&mut register, 0, read(92, b'C', 1060)), taken(0, 20));
    refused(&register, misread, Number::Withdrawn);
    let expected = Report { number: Number::Accepted, standing: 4, flagged: 0, total: 60 };
    assert_eq!(report(&register, 0), expected);
}

#[test]
fn each_refusal_once() {
    let register = with_reads(5000, &[(100, b'I', 1000), (200, b'C', 1200), (300, b'F', 1400)]);
    let unset = read(400, b'C', 1600);
    refused(&register[..REGISTER_BYTES - 1], unset, Number::Misfit);
    refused(&zeros(), unset, Number::NoMeter);
    refused(&with_area(0, &area(&[entry(STANDING, 100, 10, b'C', 0, 0)])), unset, Number::Damaged);
    refused(&register, Submission { value: u32::MAX, ..unset }, Number::Missing);
    refused(&register, Submission { letter: b'Z', ..unset }, Number::Content);
    refused(&register, Submission { indicator: 3, ..unset }, Number::Content);
    refused(&register, Submission { reread: 2, ..unset }, Number::Content);
    refused(&register, Submission { value: 10_000, ..unset }, Number::Content);
    refused(&register, Submission { day: 0, ..unset }, Number::Date);
    refused(&register, Submission { submitted: 399, ..unset }, Number::Date);
    refused(&register, read(200, b'C', 1200), Number::Repeat);
    refused(&register, read(200, b'I', 1200), Number::At);
    refused(&register, read(200, b'F', 1200), Number::At);
    refused(&register, Submission { indicator: 1, ..read(200, b'C', 1200) }, Number::Eh);
    refused(&register, read(200, b'C', 1201), Number::Bf);
    refused(&register, read(250, b'C', 1300), Number::BackDated);
    refused(&with_reads(5000, &[]), read(10, b'C', 10), Number::Df);
    refused(&register, read(400, b'O', 1600), Number::At);
    refused(&register, read(400, b'F', 1600), Number::At);
    refused(&with_reads(5000, &[]), Submission { indicator: 2, ..read(10, b'I', 10) }, Number::IndicatorOnOpening);
    refused(&register, Submission { reread: 1, ..unset }, Number::NoOriginal);
    refused(&register, Submission { indicator: indicator::TRUE, ..unset }, Number::Ee);
    let before_the_turn = with_reads(5000, &[(100, b'I', 9400), (280, b'C', 9600), (460, b'C', 9800)]);
    refused(&before_the_turn, Submission { indicator: indicator::FALSE, ..read(640, b'C', 50) }, Number::Ee);
    refused(&register, read(400, b'C', 300), Number::Ef);
    // In 2001, a common year: the whole capacity.
    refused(&with_reads(365, &[(400, b'I', 1000)]), read(410, b'C', 1010), Number::Capacity);
}

/// A volume query stores the held read, and only its re-read, later in every way equal, is taken for it.
#[test]
fn a_volume_query_holds_the_read() {
    for (value, number) in [(1239, Number::Low), (1601, Number::High)] {
        let mut register = with_reads(5000, &[(100, b'I', 1000), (280, b'C', 1200)]);
        let query = read(460, b'C', value);
        assert_eq!(submit(&mut register, 0, query), refusal(number));
        assert_eq!(register[26..36], entry(HELD, 460, value, b'C', 0, 0));
        for other in [
            Submission { reread: 1, day: 461, ..query },
            Submission { reread: 1, value: value + 1, ..query },
            Submission { reread: 1, letter: b'U', ..query },
            Submission { reread: 1, indicator: 1, ..query },
        ] {
            refused(&register, other, Number::NoOriginal);
        }
        let again = Submission { reread: 1, ..query };
        assert_eq!(submit(&mut register, 0, again), taken(0, i64::from(value) - 1200));
        assert_eq!(register[26..36], entry(STANDING, 460, value, b'C', 0, 0));
    }
}

/// A re-read skips the threshold and not the capacity.
#[test]
fn a_reread_is_held_to_the_capacity() {
    let mut register = with_reads(900, &[(100, b'I', 1000), (280, b'C', 1200)]);
    let query = read(460, b'C', 1700);
    assert_eq!(submit(&mut register, 0, query).number, Number::High);
    refused(&register, Submission { reread: 1, ..query }, Number::Capacity);
}

// ---- Leap years in the capacity ----

fn day(year: u16, month: u8, day: u8) -> u16 {
    day_of(Date { year, month, day }).expect("a date of the calendar")
}

/// A read of a day falls in a year of so many days: a meter of just that capacity takes 9 over ten days and not 10, and
/// one of a cubic metre more takes 10 and not 11.
fn has_year(days: u32, day: u16, submitted: u16) {
    for (capacity, most) in [(days, 9), (days + 1, 10)] {
        let mut register = with_reads(capacity, &[(day - 10, b'I', 1000)]);
        let next = |advance: u32| Submission { submitted, ..read(day, b'C', 1000 + advance) };
        refused(&register, next(most + 1), Number::Capacity);
        assert_eq!(submit(&mut register, 0, next(most)), taken(0, most.into()), "day {day}, capacity {capacity}");
    }
}

/// From its first day to its last, before 29 February and after it.
#[test]
fn a_leap_year_has_366_days() {
    for year in [2004, 2096, 2104] {
        for (month, of_month) in [(1, 1), (2, 28), (2, 29), (3, 1), (12, 31)] {
            let day = day(year, month, of_month);
            has_year(366, day, day);
        }
    }
    for day in [day(2000, 2, 29), day(2000, 12, 31)] {
        has_year(366, day, day);
    }
}

/// 2100 is one, though it divides by 4.
#[test]
fn a_common_year_has_365_days() {
    for year in [2001, 2003, 2005, 2100] {
        for (month, of_month) in [(1, 1), (2, 28), (3, 1), (12, 31)] {
            let day = day(year, month, of_month);
            has_year(365, day, day);
        }
    }
}

/// The reads stand on either side of a year's end, and the later one's year is taken.
#[test]
fn the_year_is_that_of_the_later_read() {
    for (last_day, days, days_after) in [
        (day(2000, 12, 31), 366, 365),
        (day(2003, 12, 31), 365, 366),
        (day(2004, 12, 31), 366, 365),
        (day(2099, 12, 31), 365, 365),
    ] {
        has_year(days, last_day, last_day);
        has_year(days_after, last_day + 1, last_day + 1);
    }
}

/// A read of 31 December that is sent in January is a read of the old year.
#[test]
fn the_year_is_not_that_of_the_submission() {
    has_year(366, day(2004, 12, 31), day(2005, 1, 5));
    has_year(365, day(2003, 12, 31), day(2004, 1, 5));
    has_year(365, day(2099, 12, 31), day(2104, 2, 29));
}

// ---- Other edges ----

#[test]
fn the_largest_value_passes_and_the_next_does_not() {
    let register = with_reads(u32::MAX, &[(100, b'I', 9000)]);
    refused(&register, read(200, b'C', 10_000), Number::Content);
    let mut register = register;
    assert_eq!(submit(&mut register, 0, read(200, b'C', 9999)), taken(0, 999));
}

#[test]
fn the_50th_entry_is_written_and_the_51st_is_full() {
    let mut register = with_reads(5000, &[(1, b'I', 0)]);
    for day in 2..=50 {
        assert_eq!(submit(&mut register, 0, read(day, b'C', u32::from(day))).number, Number::Accepted, "{day}");
    }
    refused(&register, read(51, b'C', 51), Number::Full);
    assert_eq!(withdraw(&mut register, 0, 50, 50).number, Number::Accepted);
    refused(&register, read(51, b'C', 51), Number::Full);
}

/// I, O and Y have no volume check; a Y answers its real advance and serves as the read before.
#[test]
fn a_reconnection_has_no_volume_check() {
    let mut register = with_reads(365, &[(100, b'I', 1000), (200, b'C', 1090)]);
    assert_eq!(submit(&mut register, 0, read(201, b'Y', 2000)), taken(0, 910));
    assert_eq!(submit(&mut register, 0, read(202, b'C', 2001)).number, Number::Low);
}

/// The flag of the last read counts in the advance that a new one is compared with: without it the last advance would be
/// negative, and there would be no limit.
#[test]
fn the_last_flag_counts_in_the_threshold() {
    let mut register = with_reads(5000, &[(100, b'I', 9400), (280, b'C', 9600), (460, b'C', 9800)]);
    assert_eq!(submit(&mut register, 0, read(640, b'C', 50)), taken(1, 250));
    for (value, number) in [(99, Number::Low), (100, Number::Accepted), (550, Number::Accepted), (551, Number::High)] {
        assert_eq!(submit(&mut register.clone(), 0, read(820, b'C', value)).number, number, "{value}");
    }
    let expected = Report { number: Number::Accepted, standing: 4, flagged: 1, total: 650 };
    assert_eq!(report(&register, 0), expected);
}
