//! The life of a pseudo meter: from the initial read to the final one, its volume, its folds, and a journal that is full or
//! has a carry.

mod common;

use common::*;
use necktureen::{enrol_pseudo, fold, indicator, journal, report, submit, withdraw, Call, Number, Submission};

const PLACE: u16 = 9;

fn initial() -> [u8; 10] {
    entry(STANDING, 100, 1000, b'I', 0, 0)
}

fn last(kind: u8, day: u16, value: u32) -> [u8; 10] {
    entry(kind, day, value, b'F', 0, 0)
}

/// At most an I and an F stand, and four would be damage.
#[test]
fn a_pseudo_meter_is_never_folded() {
    let withdrawn: Vec<[u8; 10]> = (0..48).map(|k| last(WITHDRAWN, 200 + k, 1100)).collect();
    let journals = [
        vec![],
        vec![initial()],
        vec![initial(), last(STANDING, 200, 1100)],
        vec![initial(), last(HELD, 200, 1100)],
        [&[initial()], &withdrawn[..], &[last(STANDING, 300, 1200)]].concat(),
        withdrawn,
    ];
    for entries in &journals {
        let fold = Call::Fold { place: PLACE };
        refuses(&with_area(PLACE, &PSEUDO.area(entries)), fold, Number::NoFold, &format!("{entries:?}"));
        if entries.first() == Some(&initial()) && entries.len() < 50 {
            let carried = PSEUDO.carried(carry(5, 99, 1), entries);
            refuses(&with_area(PLACE, &carried), fold, Number::NoFold, &format!("{entries:?} after a carry"));
        }
    }
    is_damaged(&PSEUDO.area(&[&[initial()], &daily(4)[1..]].concat()), "four standing");
}

/// A register with a pseudo meter of four dials and a capacity of 5000, enrolled by the call.
fn enrolled() -> Vec<u8> {
    let mut register = zeros();
    assert_eq!(enrol_pseudo(&mut register, PLACE, 4, 5000), taken(0, 0));
    register
}

#[test]
fn from_the_initial_read_to_the_final_one() {
    let mut register = enrolled();
    assert_eq!(report(&register, PLACE), reported(0, 0, 0));
    assert_eq!(submit(&mut register, PLACE, read(100, b'F', 1000)), refusal(Number::Df));
    assert_eq!(submit(&mut register, PLACE, read(100, b'I', 1000)), taken(0, 0));
    assert_eq!(submit(&mut register, PLACE, read(200, b'C', 1100)), refusal(Number::OtherType));
    assert_eq!(submit(&mut register, PLACE, read(300, b'F', 1600)), taken(0, 600));
    assert_eq!(submit(&mut register, PLACE, read(300, b'F', 1600)), refusal(Number::Repeat));
    assert_eq!(submit(&mut register, PLACE, read(400, b'F', 1700)), refusal(Number::At));
    assert_eq!(report(&register, PLACE), reported(2, 0, 600));
    assert_eq!(fold(&mut register, PLACE), refusal(Number::NoFold));
    assert_eq!(withdraw(&mut register, PLACE, 100, 1000), refusal(Number::NotLast));
    assert_eq!(withdraw(&mut register, PLACE, 300, 1600), taken(0, -600));
    assert_eq!(submit(&mut register, PLACE, read(300, b'F', 1600)), refusal(Number::Withdrawn));
    assert_eq!(submit(&mut register, PLACE, read(300, b'F', 1500)), taken(0, 500));
    assert_eq!(withdraw(&mut register, PLACE, 300, 1500), taken(0, -500));
    assert_eq!(withdraw(&mut register, PLACE, 100, 1000), taken(0, 0));
    assert_eq!(submit(&mut register, PLACE, read(100, b'I', 1000)), refusal(Number::Withdrawn));
    assert_eq!(submit(&mut register, PLACE, read(100, b'I', 1001)), taken(0, 0));
    let gone = [(100, 1000, b'I'), (300, 1600, b'F'), (300, 1500, b'F')];
    let gone = gone.map(|(day, value, letter)| entry(WITHDRAWN, day, value, letter, 0, 0));
    let left = PSEUDO.area(&[&gone[..], &[entry(STANDING, 100, 1001, b'I', 0, 0)]].concat());
    assert_eq!(register, with_area(PLACE, &left));
    assert_eq!(journal(&register, PLACE), &left[..46]);
}

/// No call holds one on a pseudo meter, as the next test shows, but a journal that holds one is sound.
#[test]
fn a_held_final_read_is_confirmed() {
    let mut register = with_area(PLACE, &PSEUDO.area(&[initial(), last(HELD, 300, 1600)]));
    let query = Submission { reread: 1, ..read(300, b'F', 1600) };
    assert_eq!(submit(&mut register, PLACE, Submission { letter: b'C', ..query }), refusal(Number::OtherType));
    assert_eq!(submit(&mut register, PLACE, Submission { value: 1601, ..query }), refusal(Number::NoOriginal));
    assert_eq!(submit(&mut register.clone(), PLACE, read(200, b'F', 1100)), taken(0, 100));
    assert_eq!(submit(&mut register, PLACE, query), taken(0, 600));
    assert_eq!(register, with_area(PLACE, &PSEUDO.area(&[initial(), last(STANDING, 300, 1600)])));
    assert_eq!(report(&register, PLACE), reported(2, 0, 600));
    let mut register = with_area(PLACE, &PSEUDO.area(&[initial(), last(HELD, 300, 1600)]));
    assert_eq!(withdraw(&mut register, PLACE, 100, 1000), taken(0, 0));
    assert_eq!(register, with_area(PLACE, &PSEUDO.area(&[entry(WITHDRAWN, 100, 1000, b'I', 0, 0)])));
}

/// Where an F is taken one read stands at most, so there is no advance to compare with: every value is accepted, over the
/// capacity (21) or an unclear step back (18). Days 200 and 465 are in a leap year and in a common one.
fn is_never_queried(area: &[u8], initial: u32, capacity: u32, limit: i64) {
    for (day, days, of_year) in [(200, 100, 366), (465, 365, 365)] {
        for value in 0..2 * initial {
            let advance = i64::from(value) - i64::from(initial);
            let expected = match advance {
                _ if advance <= -limit => refusal(Number::Ef),
                _ if advance * of_year < i64::from(capacity) * days => taken(0, advance),
                _ => refusal(Number::Capacity),
            };
            let answer = submit(&mut with_area(PLACE, area), PLACE, read(day, b'F', value));
            assert_eq!(answer, expected, "{} dials, day {day}, value {value}", area[1]);
        }
    }
}

/// From the middle of the dials, with as large a capacity.
#[test]
fn a_final_read_is_never_queried() {
    for (dials, initial, capacity, limit) in [(3, 500, 500, 100), (4, 5000, 5000, 1000)] {
        let head = PSEUDO.meter(dials, capacity);
        let entries = [entry(STANDING, 100, initial, b'I', 0, 0)];
        is_never_queried(&area_of(&head, &entries), initial, capacity, limit);
        is_never_queried(&area_of(&[&head[..], &carry(1, 99, 0)].concat(), &entries), initial, capacity, limit);
    }
}

/// The indicator's word is taken: with one read before it no turn is seen, or denied.
#[test]
fn a_final_read_may_be_a_rollover() {
    for (indicator, answer, flagged) in [(indicator::TRUE, taken(1, 600), 1), (indicator::FALSE, taken(0, -9400), 0)] {
        let mut register = enrolled();
        assert_eq!(submit(&mut register, PLACE, read(100, b'I', 9500)), taken(0, 0));
        assert_eq!(submit(&mut register, PLACE, Submission { indicator, ..read(300, b'F', 100) }), answer);
        assert_eq!(report(&register, PLACE), reported(2, flagged, answer.advance));
        assert_eq!(withdraw(&mut register, PLACE, 300, 100), taken(answer.flag, -answer.advance));
    }
}

/// Withdrawn reads fill it as they fill any journal, and a fold makes no room. Other types are refused as before.
#[test]
fn a_full_journal_stays_full() {
    let mut register = enrolled();
    assert_eq!(submit(&mut register, PLACE, read(100, b'I', 1000)), taken(0, 0));
    for day in 201..=249 {
        assert_eq!(submit(&mut register, PLACE, read(day, b'F', 1100)), taken(0, 100), "day {day}");
        assert_eq!(withdraw(&mut register, PLACE, day, 1100), taken(0, -100), "day {day}");
    }
    assert_eq!(journal(&register, PLACE).len(), 506);
    let full = register.clone();
    assert_eq!(submit(&mut register, PLACE, read(300, b'F', 1200)), refusal(Number::Full));
    assert_eq!(submit(&mut register, PLACE, read(300, b'C', 1200)), refusal(Number::OtherType));
    assert_eq!(fold(&mut register, PLACE), refusal(Number::NoFold));
    assert_eq!(report(&register, PLACE), reported(1, 0, 0));
    assert_eq!(register, full);
}

/// After a carry, which a register may have: the report counts it, the oldest kept read stays, and an F follows an I alone.
#[test]
fn a_carry_counts_on_a_pseudo_meter() {
    let after = |entries: &[[u8; 10]]| with_area(PLACE, &PSEUDO.carried(carry(400, 5, 2), entries));
    let mut register = after(&[initial()]);
    assert_eq!(report(&register, PLACE), reported(6, 2, 20_600));
    assert_eq!(withdraw(&mut register, PLACE, 100, 1000), refusal(Number::OldestKept));
    assert_eq!(submit(&mut register, PLACE, read(200, b'E', 1100)), refusal(Number::OtherType));
    assert_eq!(submit(&mut register, PLACE, read(200, b'F', 1100)), taken(0, 100));
    assert_eq!(register, after(&[initial(), last(STANDING, 200, 1100)]));
    assert_eq!(report(&register, PLACE), reported(7, 2, 20_700));
    let mut register = after(&[last(STANDING, 200, 1100)]);
    assert_eq!(submit(&mut register, PLACE, read(300, b'F', 1200)), refusal(Number::At));
    assert_eq!(report(&register, PLACE), reported(6, 2, 20_700));
}
