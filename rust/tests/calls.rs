//! The compiled calls: refusals, every edge length and place, and that a refusal changes no byte.

mod common;

use common::*;
use necktureen::{enrol, journal, report, withdraw, Answer, Number, Report, AREA_BYTES, REGISTER_BYTES};

/// Three standing reads, the last one turned over, and a withdrawn one between them.
fn journal_of_three() -> Vec<u8> {
    area(&[
        entry(STANDING, 1000, 9200, b'I', 0, 0),
        entry(STANDING, 1180, 9400, b'C', 0, 0),
        entry(WITHDRAWN, 1200, 77, b'C', 2, 1),
        entry(STANDING, 1360, 100, b'C', 2, 1),
    ])
}

#[test]
fn a_misfit_register_is_refused_by_every_call() {
    for length in
        [0, 1, 511, 512, 513, REGISTER_BYTES - 1, REGISTER_BYTES + 1, REGISTER_BYTES + 512, 2 * REGISTER_BYTES]
    {
        for content in [0, 1, 0x5A] {
            let register = vec![content; length];
            for call in [each_call(0), each_call(63), each_call(64), each_call(65_535)].concat() {
                refuses(&register, call, Number::Misfit, &format!("length {length}"));
            }
            assert!(journal(&register, 0).is_empty());
        }
    }
}

#[test]
fn a_place_past_the_last_area_has_no_meter() {
    // A meter with a read in every area, so that a place cut to one byte would find one.
    let register = area(&[entry(STANDING, 100, 10, b'I', 0, 0)]).repeat(REGISTER_BYTES / AREA_BYTES);
    for place in [64, 65, 127, 128, 255, 256, 257, 319, 320, 512, 32_768, 65_535] {
        for call in each_call(place) {
            refuses(&register, call, Number::NoMeter, "past the last area");
            refuses(&zeros(), call, Number::NoMeter, "past the last area");
        }
        assert!(journal(&register, place).is_empty(), "place {place}");
    }
}

#[test]
fn an_area_of_zeros_has_no_meter_until_it_is_enrolled() {
    for place in [0, 1, 62, 63] {
        let mut register = zeros();
        for call in each_call(place).into_iter().filter(|call| !is_enrolment(call)) {
            refuses(&register, call, Number::NoMeter, "an area of zeros");
        }
        assert_eq!(guarded(&mut register, |r| enrol(r, place, 9, u32::MAX)), refusal(Number::Accepted));
        assert_eq!(register, with_area(place, &area_of(&meter(9, u32::MAX), &[])));
        assert_eq!(report(&register, place), refused_report(Number::Accepted));
        assert_eq!(journal(&register, place), &meter(9, u32::MAX));
    }
}

#[test]
fn enrolment_refuses_what_is_there_and_a_bad_plate() {
    for (dials, capacity) in [(2, 1), (10, 1), (0, 1), (255, 1), (3, 0), (9, 0)] {
        let mut register = zeros();
        assert_eq!(enrol(&mut register, 5, dials, capacity), refusal(Number::Plate));
        assert_eq!(register, zeros());
    }
    for at in 0..AREA_BYTES {
        let mut bytes = vec![0; AREA_BYTES];
        bytes[at] = 1;
        let mut register = with_area(63, &bytes);
        let before = register.clone();
        assert_eq!(enrol(&mut register, 63, 4, 0), refusal(Number::Enrolled), "byte {at}");
        assert_eq!(register, before);
    }
}

#[test]
fn a_report_counts_what_stands() {
    for place in [0, 63] {
        let register = with_area(place, &journal_of_three());
        let expected = Report { number: Number::Accepted, standing: 3, flagged: 1, total: 100 - 9200 + 10_000 };
        assert_eq!(report(&register, place), expected);
        assert_eq!(journal(&register, place), &journal_of_three()[..46]);
    }
}

#[test]
fn a_withdrawal_marks_the_last_read_and_takes_its_advance_back() {
    for place in [0, 31, 63] {
        let mut register = with_area(place, &journal_of_three());
        let answer = guarded(&mut register, |r| withdraw(r, place, 1360, 100));
        assert_eq!(answer, Answer { number: Number::Accepted, flag: 1, advance: -(100 - 9400 + 10_000) });
        let mut expected = journal_of_three();
        expected[36] = WITHDRAWN;
        assert_eq!(register, with_area(place, &expected));

        let answer = withdraw(&mut register, place, 1180, 9400);
        assert_eq!(answer, Answer { number: Number::Accepted, flag: 0, advance: -200 });
        let answer = withdraw(&mut register, place, 1000, 9200);
        assert_eq!(answer, Answer { number: Number::Accepted, flag: 0, advance: 0 });
        expected[6] = WITHDRAWN;
        expected[16] = WITHDRAWN;
        assert_eq!(register, with_area(place, &expected));
        assert_eq!(report(&register, place), refused_report(Number::Accepted));
    }
}

#[test]
fn a_withdrawal_drops_the_held_read() {
    let held = area(&[
        entry(STANDING, 10, 100, b'O', 0, 0),
        entry(STANDING, 20, 200, b'C', 0, 0),
        entry(HELD, 30, 900, b'C', 0, 0),
    ]);
    let mut register = with_area(7, &held);
    assert_eq!(journal(&register, 7).len(), 36);
    let answer = withdraw(&mut register, 7, 20, 200);
    assert_eq!(answer, Answer { number: Number::Accepted, flag: 0, advance: -100 });
    let left = area(&[entry(STANDING, 10, 100, b'O', 0, 0), entry(WITHDRAWN, 20, 200, b'C', 0, 0)]);
    assert_eq!(register, with_area(7, &left));
}

#[test]
fn a_withdrawal_names_the_last_standing_read() {
    let mut register = with_area(0, &journal_of_three());
    let before = register.clone();
    for (day, value, number) in [
        (1360, 101, Number::NotStanding),
        (1361, 100, Number::NotStanding),
        (1200, 77, Number::NotStanding),
        (0, 0, Number::NotStanding),
        (1180, 9400, Number::NotLast),
        (1000, 9200, Number::NotLast),
    ] {
        assert_eq!(withdraw(&mut register, 0, day, value), refusal(number), "{day} {value}");
        assert_eq!(register, before);
    }
}

#[test]
fn a_full_journal_is_sound() {
    let mut entries = vec![entry(STANDING, 1, 0, b'I', 0, 0)];
    entries.extend((2..=50).map(|day| entry(STANDING, day, u32::from(day), b'C', 0, 0)));
    let register = with_area(63, &area(&entries));
    assert_eq!(report(&register, 63), Report { number: Number::Accepted, standing: 50, flagged: 0, total: 50 });
    assert_eq!(journal(&register, 63).len(), 506);
}
