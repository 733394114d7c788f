//! Meters of three dials, as small standpipes have: the limit of a small step back beside that of other meters, the turn
//! of three dials at its edges, and a standpipe's life.

mod common;

use common::*;
use necktureen::{enrol, enrol_pseudo, fold, indicator, report, submit, withdraw, Answer, Call, Number, Submission};
use std::ops::RangeInclusive;

const PLACE: u16 = 9;

/// The day of a read that so many others stand before.
fn day(position: usize) -> u16 {
    1000 + 180 * position as u16
}

/// Standing reads of these values, evenly apart.
fn standing(of: Profile, values: &[u32]) -> Vec<[u8; 10]> {
    let letter = |position| if position == 0 { of.opens } else { of.later };
    let reads = values.iter().enumerate();
    reads.map(|(position, &value)| entry(STANDING, day(position), value, letter(position), 0, 0)).collect()
}

/// A register with these entries, and a capacity that lets all pass.
fn with_entries(of: Profile, dials: u8, entries: &[[u8; 10]]) -> Vec<u8> {
    with_area(PLACE, &area_of(&of.meter(dials, u32::MAX), entries))
}

/// In the order that answers are given in below.
const INDICATORS: [u8; 3] = [indicator::NOT_SET, indicator::FALSE, indicator::TRUE];

/// A value after these is answered so, with the indicator not set, false and true.
fn is_answered(of: Profile, dials: u8, values: &[u32], value: u32, answers: [Answer; 3]) {
    let register = with_entries(of, dials, &standing(of, values));
    for (indicator, answer) in INDICATORS.into_iter().zip(answers) {
        let read = Submission { indicator, ..read(day(values.len()), of.later, value) };
        let what = format!("{dials} dials, {values:?}, {of:?}");
        match answer.number {
            Number::Ee | Number::Ef => refuses(&register, Call::Submit { place: PLACE, read }, answer.number, &what),
            _ => assert_eq!(submit(&mut register.clone(), PLACE, read), answer, "{read}, {what}"),
        }
    }
}

// ---- The limit of a small step back ----

/// Dials, 10^n and the limit; a value, and those that are below it by one less than the limit and by the limit.
const LIMITS: [(u8, i64, i64, [u32; 3]); 7] = [
    (3, 1_000, 100, [500, 401, 400]),
    (4, 10_000, 1000, [5_000, 4_001, 4_000]),
    (5, 100_000, 1000, [50_000, 49_001, 49_000]),
    (6, 1_000_000, 1000, [500_000, 499_001, 499_000]),
    (7, 10_000_000, 1000, [5_000_000, 4_999_001, 4_999_000]),
    (8, 100_000_000, 1000, [50_000_000, 49_999_001, 49_999_000]),
    (9, 1_000_000_000, 1000, [500_000_000, 499_999_001, 499_999_000]),
];

/// Below the limit no turn is believed. From there on it is unclear where one read stands, and the indicator says.
#[test]
fn a_step_back_has_the_limit_of_the_dials() {
    let (ee, ef) = (refusal(Number::Ee), refusal(Number::Ef));
    for (dials, turn, limit, [last, small, at_limit]) in LIMITS {
        for of in PROFILES {
            is_answered(of, dials, &[last], small, [taken(0, 1 - limit), taken(0, 1 - limit), ee]);
            is_answered(of, dials, &[last], at_limit, [ef, taken(0, -limit), taken(1, turn - limit)]);
        }
    }
}

/// To every value, from both ends, from both marks of a turn, and from some between.
#[test]
fn every_step_of_three_dials_is_small_or_unclear() {
    for last in [0, 1, 99, 100, 101, 199, 500, 899, 900, 901, 998, 999] {
        let register = with_entries(ORDINARY, 3, &standing(ORDINARY, &[last]));
        for value in 0..1000 {
            let step = i64::from(value) - i64::from(last);
            let answer = if step > -100 { taken(0, step) } else { refusal(Number::Ef) };
            let sent = read(day(1), b'C', value);
            assert_eq!(submit(&mut register.clone(), PLACE, sent), answer, "{last}, then {value}");
        }
    }
}

// ---- The turn of three dials ----

/// Values, and their number and flag with the indicator not set, false and true. A read is held with its flag too.
type Row = (RangeInclusive<u32>, [(Number, u8); 3]);

/// After 940, 960 and 980.
const AFTER_980: [Row; 6] = {
    use Number::{Accepted, Content, Ee, Ef, High, Low};
    [
        // The dials turned, and went 20 to 39.
        (0..=19, [(Accepted, 1), (Ee, 0), (Accepted, 1)]),
        // Twice as far as the last time is no more seen as a turn, and not yet high.
        (20..=20, [(Ef, 0), (Low, 0), (Accepted, 1)]),
        (21..=880, [(Ef, 0), (Low, 0), (High, 1)]),
        // Small steps back, and steps of less than a fifth of the last.
        (881..=983, [(Low, 0), (Low, 0), (Ee, 0)]),
        (984..=999, [(Accepted, 0), (Accepted, 0), (Ee, 0)]),
        (1000..=1001, [(Content, 0), (Content, 0), (Content, 0)]),
    ]
};

#[test]
fn each_value_after_three_reads_is_answered_by_the_table() {
    let three = standing(ORDINARY, &[940, 960, 980]);
    for (values, numbers) in AFTER_980 {
        for value in values {
            for (indicator, (number, flag)) in INDICATORS.into_iter().zip(numbers) {
                let read = Submission { indicator, ..read(day(3), b'C', value) };
                is_written_after(&three, read, number, flag);
            }
        }
    }
}

/// The read is answered so, and is written after these entries where it is accepted or held.
fn is_written_after(three: &[[u8; 10]], read: Submission, number: Number, flag: u8) {
    let mut register = with_entries(ORDINARY, 3, three);
    let answer = guarded(&mut register, |r| submit(r, PLACE, read));
    let written = |kind| vec![entry(kind, read.day, read.value, read.letter, read.indicator, flag)];
    let (expected, more) = match number {
        Number::Accepted => (taken(flag, i64::from(read.value) - 980 + 1000 * i64::from(flag)), written(STANDING)),
        Number::Low | Number::High => (refusal(number), written(HELD)),
        _ => (refusal(number), Vec::new()),
    };
    assert_eq!(answer, expected, "{read}");
    assert!(register == with_entries(ORDINARY, 3, &[three, &more].concat()), "{read} leaves another register");
}

/// With two reads standing, or with a flag on one of the three, no turn is seen. After a carry any of them may have one.
#[test]
fn a_turn_is_seen_from_three_plain_reads() {
    let values = [940, 960, 980];
    is_answered(ORDINARY, 3, &values[1..], 19, [refusal(Number::Ef), refusal(Number::Low), taken(1, 39)]);
    let head = [&meter(3, u32::MAX)[..], &carry(5, 9, 0)].concat();
    let after_carry =
        |entries: &[[u8; 10]]| submit(&mut with_area(PLACE, &area_of(&head, entries)), PLACE, read(day(3), b'C', 19));
    let plain = standing(ORDINARY, &values);
    assert_eq!(after_carry(&plain), taken(1, 39));
    for flagged in 0..3 {
        let mut entries = plain.clone();
        entries[flagged][9] = 1;
        assert_eq!(after_carry(&entries), refusal(Number::Ef), "read {flagged} is flagged");
    }
}

/// What one of the five tests asks; standing values and a new one of which it is true, and such of which it is just not.
type Edge = (&'static str, ([u32; 3], u32), ([u32; 3], u32));

/// The marks of the first test, 900 and 100, are on no edge: a new advance below 100 is from above 900 to below 100.
const EDGES: [Edge; 6] = [
    ("the new advance is above a fifth of the last", ([890, 940, 990], 1), ([890, 940, 990], 0)),
    ("the new advance is below twice the last", ([940, 960, 980], 19), ([940, 960, 980], 20)),
    ("the new advance is below 100, onto 0", ([781, 841, 901], 0), ([780, 840, 900], 0)),
    ("the new advance is below 100, from 999", ([879, 939, 999], 98), ([879, 939, 999], 99)),
    ("the last advance is below 100", ([850, 891, 990], 50), ([850, 890, 990], 50)),
    ("the advance before is below 100", ([800, 899, 950], 20), ([799, 899, 950], 20)),
];

#[test]
fn the_five_tests_have_their_edges_on_three_dials() {
    for (asked, (values, seen), (others, unclear)) in EDGES {
        let answer = |values: [u32; 3], value| {
            submit(&mut with_entries(ORDINARY, 3, &standing(ORDINARY, &values)), PLACE, read(day(3), b'C', value))
        };
        assert_eq!(answer(values, seen), taken(1, 1000 + i64::from(seen) - i64::from(values[2])), "{asked}");
        assert_eq!(answer(others, unclear), refusal(Number::Ef), "not so: {asked}");
    }
}

// ---- A standpipe's life ----

/// Every quarter the dials go 80 on, from 740, so that they turn at quarters 4, 16 and 29.
fn quarterly(quarter: u16) -> Submission {
    let letter = if quarter == 0 { b'I' } else { b'C' };
    read(1 + 90 * quarter, letter, (740 + 80 * u32::from(quarter)) % 1000)
}

/// The entry of a quarterly read.
fn of_quarter(quarter: u16) -> [u8; 10] {
    let Submission { day, value, letter, .. } = quarterly(quarter);
    entry(STANDING, day, value, letter, 0, u8::from([4, 16, 29].contains(&quarter)))
}

fn read_quarters(register: &mut [u8], quarters: RangeInclusive<u16>) {
    for quarter in quarters {
        let flag = of_quarter(quarter)[9];
        let advance = if quarter == 0 { 0 } else { 80 };
        assert_eq!(submit(register, PLACE, quarterly(quarter)), taken(flag, advance), "quarter {quarter}");
    }
}

/// The area of a standpipe with a capacity of 1000.
fn standpipe(carry: &[u8], entries: &[[u8; 10]]) -> Vec<u8> {
    with_area(PLACE, &area_of(&[&meter(3, 1000)[..], carry].concat(), entries))
}

/// A misread past the turn is withdrawn, with its flag and the thousand that it counted.
#[test]
fn a_turned_read_is_withdrawn() {
    let mut register = standpipe(&[], &[]);
    read_quarters(&mut register, 0..=3);
    let misread = Submission { value: 75, ..quarterly(4) };
    assert_eq!(submit(&mut register, PLACE, misread), taken(1, 95));
    assert_eq!(report(&register, PLACE), reported(5, 1, 335));
    assert_eq!(withdraw(&mut register, PLACE, misread.day, 75), taken(1, -95));
    assert_eq!(report(&register, PLACE), reported(4, 0, 240));
    let gone = entry(WITHDRAWN, misread.day, 75, b'C', 0, 1);
    assert_eq!(register, standpipe(&[], &[of_quarter(0), of_quarter(1), of_quarter(2), of_quarter(3), gone]));
    assert_eq!(submit(&mut register, PLACE, misread), refusal(Number::Withdrawn));
    read_quarters(&mut register, 4..=4);
    assert_eq!(report(&register, PLACE), reported(5, 1, 320));
}

/// Three turns and two folds: the report is the sum of the advances all the time, a thousand for each turn.
#[test]
fn turns_are_counted_through_folds() {
    let mut register = zeros();
    assert_eq!(enrol(&mut register, PLACE, 3, 1000), taken(0, 0));
    read_quarters(&mut register, 0..=16);
    assert_eq!(report(&register, PLACE), reported(17, 2, 80 * 16));
    assert_eq!(fold(&mut register, PLACE), taken(0, 0));
    assert_eq!(register, standpipe(&carry(740, 14, 1), &[14, 15, 16].map(of_quarter)));
    assert_eq!(report(&register, PLACE), reported(17, 2, 80 * 16));
    read_quarters(&mut register, 17..=29);
    assert_eq!(fold(&mut register, PLACE), taken(0, 0));
    assert_eq!(register, standpipe(&carry(740, 27, 2), &[27, 28, 29].map(of_quarter)));
    assert_eq!(report(&register, PLACE), reported(30, 3, 80 * 29));
    // Of the kept reads two are left, too few for the turn to be seen again; the folded ones do not help.
    let last = quarterly(29);
    assert_eq!(withdraw(&mut register, PLACE, last.day, last.value), taken(1, -80));
    let corrected = Submission { value: 59, ..last };
    assert_eq!(submit(&mut register, PLACE, corrected), refusal(Number::Ef));
    assert_eq!(submit(&mut register, PLACE, Submission { indicator: indicator::TRUE, ..corrected }), taken(1, 79));
    assert_eq!(report(&register, PLACE), reported(30, 3, 80 * 29 - 1));
}

/// From an initial read near all nines to a final one past them: with one read before it the turn is the indicator's word.
#[test]
fn a_pseudo_meter_of_three_dials_turns() {
    let mut register = zeros();
    assert_eq!(enrol_pseudo(&mut register, PLACE, 3, 1000), taken(0, 0));
    assert_eq!(submit(&mut register, PLACE, read(100, b'I', 1000)), refusal(Number::Content));
    assert_eq!(submit(&mut register, PLACE, read(100, b'I', 970)), taken(0, 0));
    let last = read(465, b'F', 20);
    assert_eq!(submit(&mut register, PLACE, last), refusal(Number::Ef));
    let denied = Submission { indicator: indicator::FALSE, ..last };
    assert_eq!(submit(&mut register.clone(), PLACE, denied), taken(0, -950));
    assert_eq!(submit(&mut register, PLACE, Submission { indicator: indicator::TRUE, ..last }), taken(1, 50));
    assert_eq!(report(&register, PLACE), reported(2, 1, 50));
    let written = |kind| [entry(STANDING, 100, 970, b'I', 0, 0), entry(kind, 465, 20, b'F', 2, 1)];
    let left = |kind| with_area(PLACE, &area_of(&PSEUDO.meter(3, 1000), &written(kind)));
    assert_eq!(register, left(STANDING));
    assert_eq!(withdraw(&mut register, PLACE, 465, 20), taken(1, -50));
    assert_eq!(register, left(WITHDRAWN));
    assert_eq!(report(&register, PLACE), reported(1, 0, 0));
}
