//! Pseudo meters beside ordinary ones: which types are taken and where 29 stands among the checks, both enrolments, and what
//! damages a journal of kind 7.

mod common;
mod peer;

use common::*;
use necktureen::{
    enrol, enrol_pseudo, indicator, report, submit, Answer, Call, Number, Submission, MISSING, REGISTER_BYTES,
};

const PLACE: u16 = 9;

fn initial() -> [u8; 10] {
    entry(STANDING, 100, 1000, b'I', 0, 0)
}

fn last(kind: u8, day: u16, value: u32) -> [u8; 10] {
    entry(kind, day, value, b'F', 0, 0)
}

/// A read sent to the area is answered so. Refused, it changes no byte; accepted, it is written after these entries.
fn is_answered(of: Profile, entries: &[[u8; 10]], read: Submission, number: Number) {
    let register = with_area(PLACE, &of.area(entries));
    if number != Number::Accepted {
        return refuses(&register, Call::Submit { place: PLACE, read }, number, &format!("{of:?}"));
    }
    let mut after = register.clone();
    assert_eq!(submit(&mut after, PLACE, read).number, Number::Accepted, "{read}, {of:?}");
    let written = entry(STANDING, read.day, read.value, read.letter, read.indicator, 0);
    assert_eq!(after, with_area(PLACE, &of.area(&[entries, &[written]].concat())), "{read}, {of:?}");
}

// ---- Types ----

/// What a read of each type is answered that is sent to an ordinary meter and to a pseudo meter: to each with no read, with
/// an I standing, and with an I and an F.
const TYPES: [(u8, [Number; 3], [Number; 3]); 11] = {
    use Number::{Accepted, At, Df, OtherType};
    [
        (b'I', [Accepted, At, At], [Accepted, At, At]),
        (b'O', [Accepted, At, At], [OtherType, OtherType, OtherType]),
        (b'F', [Df, Accepted, At], [Df, Accepted, At]),
        (b'C', [Df, Accepted, Accepted], [OtherType, OtherType, OtherType]),
        (b'U', [Df, Accepted, Accepted], [OtherType, OtherType, OtherType]),
        (b'R', [Df, Accepted, Accepted], [OtherType, OtherType, OtherType]),
        (b'T', [Df, Accepted, Accepted], [OtherType, OtherType, OtherType]),
        (b'S', [Df, Accepted, Accepted], [OtherType, OtherType, OtherType]),
        (b'X', [Df, Accepted, Accepted], [OtherType, OtherType, OtherType]),
        (b'Y', [Df, Accepted, Accepted], [OtherType, OtherType, OtherType]),
        (b'E', [Df, Accepted, Accepted], [OtherType, OtherType, OtherType]),
    ]
};

/// Every byte as a type. One that is not in the table is unknown to both.
#[test]
fn each_type_is_answered_by_the_table() {
    let journals = [vec![], vec![initial()], vec![initial(), last(STANDING, 200, 1100)]];
    for letter in 0..=255 {
        let unknown = (letter, [Number::Content; 3], [Number::Content; 3]);
        let row = TYPES.iter().find(|row| row.0 == letter).unwrap_or(&unknown);
        for (of, numbers) in [(ORDINARY, row.1), (PSEUDO, row.2)] {
            for (entries, number) in journals.iter().zip(numbers) {
                is_answered(of, entries, read(300, letter, 1200), number);
            }
        }
    }
}

/// Reads of a type that a pseudo meter does not take, each wrong in one more way, with the number on a pseudo meter and on
/// an ordinary one. 5 and 6 come before 29, and all else after it.
#[test]
fn another_type_is_refused_after_content_and_before_the_date() {
    let entries = [initial(), last(WITHDRAWN, 300, 1100)];
    let other = read(400, b'C', 1200);
    for (read, pseudo, ordinary) in [
        (Submission { value: MISSING, ..other }, Number::Missing, Number::Missing),
        (Submission { value: MISSING, indicator: 3, day: 0, ..other }, Number::Missing, Number::Missing),
        (Submission { indicator: 3, ..other }, Number::Content, Number::Content),
        (Submission { reread: 2, ..other }, Number::Content, Number::Content),
        (Submission { value: 10_000, ..other }, Number::Content, Number::Content),
        (Submission { value: 9_999, ..other }, Number::OtherType, Number::Capacity),
        (Submission { letter: b'Z', day: 0, ..other }, Number::Content, Number::Content),
        (other, Number::OtherType, Number::Accepted),
        (Submission { day: 0, ..other }, Number::OtherType, Number::Date),
        (Submission { submitted: 399, ..other }, Number::OtherType, Number::Date),
        (Submission { day: 300, value: 1100, ..other }, Number::OtherType, Number::Withdrawn),
        (Submission { day: 100, ..other }, Number::OtherType, Number::Bf),
        (Submission { day: 100, indicator: 1, ..other }, Number::OtherType, Number::Eh),
        (Submission { day: 99, ..other }, Number::OtherType, Number::BackDated),
        (Submission { letter: b'O', indicator: 1, ..other }, Number::OtherType, Number::At),
        (Submission { reread: 1, ..other }, Number::OtherType, Number::NoOriginal),
        (Submission { indicator: indicator::TRUE, ..other }, Number::OtherType, Number::Ee),
        // The types that it takes are judged as on any meter.
        (Submission { letter: b'F', day: 0, ..other }, Number::Date, Number::Date),
        (Submission { letter: b'F', submitted: 399, ..other }, Number::Date, Number::Date),
        (Submission { letter: b'F', day: 300, value: 1100, ..other }, Number::Withdrawn, Number::Withdrawn),
        (Submission { letter: b'I', day: 300, value: 1100, ..other }, Number::Withdrawn, Number::Withdrawn),
        (Submission { letter: b'F', day: 99, ..other }, Number::BackDated, Number::BackDated),
        (Submission { letter: b'F', reread: 1, ..other }, Number::NoOriginal, Number::NoOriginal),
    ] {
        is_answered(PSEUDO, &entries, read, pseudo);
        is_answered(ORDINARY, &entries, read, ordinary);
    }
}

/// The register's length, the place and the area come before the read.
#[test]
fn another_type_is_refused_after_the_area() {
    let call = |place| Call::Submit { place, read: read(400, b'C', 1200) };
    let sound = with_area(PLACE, &PSEUDO.area(&[initial()]));
    refuses(&sound[..REGISTER_BYTES - 1], call(PLACE), Number::Misfit, "a misfit");
    refuses(&sound, call(64), Number::NoMeter, "past the last area");
    refuses(&sound, call(PLACE + 1), Number::NoMeter, "an area of zeros");
    refuses(&with_area(PLACE, &PSEUDO.area(&[stands(100, 1000)])), call(PLACE), Number::Damaged, "a damaged area");
    refuses(&sound, call(PLACE), Number::OtherType, "a sound area");
}

/// An opening read is a type by itself: neither an indicator on it nor an empty journal matters.
#[test]
fn an_opening_read_is_of_another_type() {
    for (indicator, ordinary) in [(0, Number::Accepted), (1, Number::IndicatorOnOpening)] {
        let opening = Submission { indicator, ..read(300, b'O', 1200) };
        is_answered(PSEUDO, &[], opening, Number::OtherType);
        is_answered(ORDINARY, &[], opening, ordinary);
    }
}

// ---- Enrolment ----

type Enrolment = fn(&mut [u8], u16, u8, u32) -> Answer;

const ENROLMENTS: [(Profile, Enrolment); 2] = [(ORDINARY, enrol), (PSEUDO, enrol_pseudo)];

#[test]
fn both_enrolments_take_the_same_plates() {
    for dials in 0..=255 {
        for capacity in [0, 1, 2, 255, 256, 5000, 65_536, u32::MAX] {
            let fits = (3..=9).contains(&dials) && capacity > 0;
            for (of, enrol) in ENROLMENTS {
                let mut register = zeros();
                let answer = guarded(&mut register, |r| enrol(r, PLACE, dials, capacity));
                let (number, left) = match fits {
                    true => (Number::Accepted, with_area(PLACE, &area_of(&of.meter(dials, capacity), &[]))),
                    false => (Number::Plate, zeros()),
                };
                assert_eq!(answer, refusal(number), "{dials} dials, capacity {capacity}, {of:?}");
                assert!(register == left, "{dials} dials, capacity {capacity}, {of:?}");
            }
        }
    }
}

/// 2, 3, 24 and 25, in this order.
#[test]
fn both_enrolments_are_refused_alike() {
    let enrolled: Vec<Vec<u8>> =
        PROFILES.into_iter().flat_map(|of| [of.area(&[]), of.area(&[initial()]), of.area(&[stands(1, 1)])]).collect();
    for make in [
        |place, dials| Call::Enrol { place, dials, capacity: 5000 },
        |place, dials| Call::EnrolPseudo { place, dials, capacity: 5000 },
    ] {
        for dials in [2, 3] {
            refuses(&zeros()[1..], make(64, dials), Number::Misfit, "a misfit");
            refuses(&zeros(), make(64, dials), Number::NoMeter, "past the last area");
            for area in &enrolled {
                refuses(&with_area(PLACE, area), make(PLACE, dials), Number::Enrolled, "enrolled before");
            }
        }
        refuses(&zeros(), make(PLACE, 2), Number::Plate, "two dials");
    }
}

// ---- Damage ----

/// Library and peer take the area, or both call it damaged.
fn is_judged(area: &[u8], is_sound: bool, what: &str) {
    let register = with_area(PLACE, area);
    let number = if is_sound { Number::Accepted } else { Number::Damaged };
    assert_eq!(report(&register, PLACE).number, number, "{what}");
    assert_eq!(peer::report(&register, PLACE).number, number, "{what}, the peer");
    if !is_sound {
        is_damaged(area, what);
    }
}

/// Journals with a read of this type wherever an ordinary meter's may have one.
fn journals_with(letter: u8) -> Vec<Vec<[u8; 10]>> {
    let of_type = |kind| entry(kind, 200, 1100, letter, 0, 0);
    let mut journals = vec![vec![initial(), of_type(WITHDRAWN)], vec![of_type(WITHDRAWN), initial()]];
    if b"IO".contains(&letter) {
        journals.push(vec![of_type(STANDING)]);
        return journals;
    }
    journals.push(vec![initial(), of_type(STANDING)]);
    journals.push(vec![initial(), last(WITHDRAWN, 150, 1050), of_type(STANDING)]);
    if letter != b'Y' {
        journals.push(vec![initial(), of_type(HELD)]);
    }
    journals
}

/// A pseudo meter's journal with such a read, standing, withdrawn or held, is sound for I and F alone.
#[test]
fn a_journal_with_another_type_is_damaged() {
    for (letter, _, _) in TYPES {
        let is_sound = letter == b'I' || letter == b'F';
        for entries in journals_with(letter) {
            let what = format!("{} in {entries:?}", char::from(letter));
            is_judged(&ORDINARY.area(&entries), true, &what);
            is_judged(&PSEUDO.area(&entries), is_sound, &what);
            is_judged(&ORDINARY.carried(carry(5, 9, 1), &entries), true, &what);
            is_judged(&PSEUDO.carried(carry(5, 9, 1), &entries), is_sound, &what);
        }
    }
}

/// Any of the types that the meter takes may be the first that is kept, and flagged.
#[test]
fn the_oldest_kept_read_of_a_pseudo_meter_is_i_or_f() {
    for (letter, flag) in TYPES.iter().flat_map(|row| [(row.0, 0), (row.0, 1)]) {
        let kept = entry(STANDING, 200, 1100, letter, 0, flag);
        let what = format!("{}, flag {flag}", char::from(letter));
        is_judged(&ORDINARY.carried(carry(5, 9, 1), &[kept]), true, &what);
        is_judged(&PSEUDO.carried(carry(5, 9, 1), &[kept]), letter == b'I' || letter == b'F', &what);
    }
}

#[test]
fn no_other_kind_is_a_meter() {
    for kind in 0..=255 {
        let of = Profile { kind, ..PSEUDO };
        for area in [of.area(&[]), of.area(&[initial()]), of.carried(carry(5, 9, 1), &[initial()])] {
            is_judged(&area, kind == 1 || kind == 7, &format!("kind {kind}"));
        }
    }
}
