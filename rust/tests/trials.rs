//! Trials by hand: the answer of a read before it is committed, and a register that stays as it was. At the end they are
//! made on registers in memory that cannot be written.

mod common;
mod lists;
mod sealed;

use common::*;
use lists::{Idle, Random};
use necktureen::{
    enrol, fold, indicator, journal, letter, report, submit, trial, withdraw, Answer, Call, Number, Reply, Submission,
    Tally, AREA_BYTES, REGISTER_BYTES,
};
use sealed::Sealed;
use std::collections::BTreeSet;
use std::hint::black_box;

/// What a trial answers. It changes no byte, and none beside the register.
fn tried(register: &[u8], place: u16, read: Submission) -> Answer {
    let mut after = register.to_vec();
    // Behind the box, or the compiler might take it for granted that bytes lent for reading stay as they are.
    let answer = guarded(&mut after, |r| trial(black_box(r), place, read));
    assert!(after == register, "the trial of {read} changed a byte");
    answer
}

/// Tries a read and commits it: both are answered the same.
fn try_and_commit(register: &mut [u8], place: u16, read: Submission) -> Answer {
    let foretold = tried(register, place, read);
    let answer = submit(register, place, read);
    assert_eq!(foretold, answer, "{read}");
    answer
}

/// Two reads half a year and 200 m³ apart: of day 460, 1239 is low and 1601 is high.
fn two_reads() -> Vec<[u8; 10]> {
    vec![entry(STANDING, 100, 1000, b'I', 0, 0), stands(280, 1200)]
}

/// Three reads that lead up to all nines: 50 is a turn on day 640.
fn before_the_turn() -> Vec<[u8; 10]> {
    vec![stands(100, 9400), stands(280, 9600), stands(460, 9800)]
}

// ---- Then the read is committed ----

#[test]
fn case_s_is_answered_on_trial_as_it_is_committed() {
    let mut register = zeros();
    let s =
        |day, letter, value, indicator, reread| Submission { submitted: 1600, day, value, letter, indicator, reread };
    assert_eq!(try_and_commit(&mut register, 0, s(1000, b'I', 9200, 0, 0)), refusal(Number::NoMeter));
    assert_eq!(enrol(&mut register, 0, 4, 5000), taken(0, 0));
    for (read, answer) in [
        (s(1000, b'I', 9200, 0, 0), taken(0, 0)),
        (s(1180, b'C', 9400, 0, 0), taken(0, 200)),
        (s(1360, b'C', 9600, 0, 0), taken(0, 200)),
        (s(1540, b'C', 100, 0, 0), refusal(Number::Ef)),
        (s(1540, b'C', 100, 2, 0), refusal(Number::High)),
        (s(1540, b'C', 100, 2, 1), taken(1, 500)),
    ] {
        assert_eq!(try_and_commit(&mut register, 0, read), answer, "{read}");
    }
    assert_eq!(withdraw(&mut register, 0, 1540, 100), taken(1, -500));
    assert_eq!(try_and_commit(&mut register, 0, s(1540, b'C', 100, 2, 1)), refusal(Number::Withdrawn));
    assert_eq!(report(&register, 0), reported(3, 0, 400));
}

#[test]
fn two_equal_trials_answer_the_same() {
    let register = with_area(5, &area(&two_reads()));
    for (value, answer) in
        [(1400, taken(0, 200)), (1239, refusal(Number::Low)), (1601, refusal(Number::High)), (100, refusal(Number::Ef))]
    {
        for _ in 0..3 {
            assert_eq!(tried(&register, 5, read(460, b'C', value)), answer, "{value}");
        }
    }
}

/// Another read of that day would be 11, a later one's advance shorter, and the first one a repeat, had any been taken.
#[test]
fn what_was_tried_does_not_stand() {
    let register = with_area(5, &area(&two_reads()));
    assert_eq!(tried(&register, 5, read(460, b'C', 1400)), taken(0, 200));
    assert_eq!(tried(&register, 5, read(460, b'C', 1401)), taken(0, 201));
    assert_eq!(tried(&register, 5, read(470, b'C', 1410)), taken(0, 210));
    assert_eq!(tried(&register, 5, read(460, b'C', 1400)), taken(0, 200));
    assert_eq!(report(&register, 5), reported(2, 0, 200));
}

// ---- Low and high reads ----

/// After the trial a re-read has no original; after the submission it has one.
#[test]
fn a_low_or_high_read_is_not_held_by_its_trial() {
    for (value, number) in [(1239, Number::Low), (1601, Number::High)] {
        let mut register = with_area(5, &area(&two_reads()));
        let query = read(460, b'C', value);
        let reread = Submission { reread: 1, ..query };
        let before = journal(&register, 5).to_vec();
        assert_eq!(tried(&register, 5, query), refusal(number));
        assert_eq!(journal(&register, 5), before);
        assert_eq!(try_and_commit(&mut register, 5, reread), refusal(Number::NoOriginal));
        assert_eq!(try_and_commit(&mut register, 5, query), refusal(number));
        assert_eq!(journal(&register, 5), [&before[..], &entry(HELD, 460, value, b'C', 0, 0)].concat());
        assert_eq!(try_and_commit(&mut register, 5, reread), taken(0, i64::from(value) - 1200));
    }
}

/// A submission drops the held read or takes its place, whether it is accepted or queried.
#[test]
fn a_held_read_stays_held_after_any_trial() {
    let held = entry(HELD, 460, 1239, b'C', 0, 0);
    let mut register = with_area(5, &area(&[&two_reads()[..], &[held]].concat()));
    let reread = Submission { reread: 1, ..read(460, b'C', 1239) };
    for (read, answer) in [
        (read(460, b'C', 1400), taken(0, 200)),
        (read(460, b'C', 1601), refusal(Number::High)),
        (read(460, b'C', 1238), refusal(Number::Low)),
        (reread, taken(0, 39)),
        (reread, taken(0, 39)),
    ] {
        assert_eq!(tried(&register, 5, read), answer, "{read}");
    }
    assert_eq!(submit(&mut register, 5, reread), taken(0, 39));
}

// ---- Full journals, withdrawn reads ----

#[test]
fn the_50th_entry_is_tried_as_accepted_and_the_51st_as_full() {
    let mut register = with_area(5, &area(&daily(49)));
    assert_eq!(try_and_commit(&mut register, 5, read(50, b'C', 50)), taken(0, 1));
    assert_eq!(try_and_commit(&mut register, 5, read(51, b'C', 51)), refusal(Number::Full));
}

/// The carry takes the room of one entry.
#[test]
fn after_a_fold_the_49th_is_tried_as_accepted_and_the_50th_as_full() {
    let mut register = with_area(5, &area(&daily(50)));
    assert_eq!(tried(&register, 5, read(51, b'C', 51)), refusal(Number::Full));
    assert_eq!(fold(&mut register, 5), taken(0, 0));
    for day in 51..=96 {
        assert_eq!(try_and_commit(&mut register, 5, read(day, b'C', day.into())), taken(0, 1), "day {day}");
    }
    assert_eq!(journal(&register, 5).len(), 505);
    assert_eq!(try_and_commit(&mut register, 5, read(97, b'C', 97)), refusal(Number::Full));
}

/// By day and value together, after a fold too, as long as the fold keeps it.
#[test]
fn a_withdrawn_read_is_withdrawn_on_trial() {
    let mut register = with_area(5, &area(&[&daily(4)[..], &[gone(9, 9), gone(2, 9)]].concat()));
    assert_eq!(tried(&register, 5, read(9, b'C', 9)), refusal(Number::Withdrawn));
    assert_eq!(tried(&register, 5, read(2, b'C', 9)), refusal(Number::Withdrawn));
    assert_eq!(tried(&register, 5, read(9, b'C', 8)), taken(0, 4));
    assert_eq!(fold(&mut register, 5), taken(0, 0));
    assert_eq!(tried(&register, 5, read(9, b'C', 9)), refusal(Number::Withdrawn));
    assert_eq!(tried(&register, 5, read(2, b'C', 9)), refusal(Number::Bf));
    assert_eq!(try_and_commit(&mut register, 5, read(9, b'C', 8)), taken(0, 4));
}

// ---- Folded and pseudo meters ----

/// The reads that were kept are enough to see a turn; the folded ones are back-dated. A report stays what it was.
#[test]
fn on_a_folded_meter_a_trial_is_judged_by_what_is_kept() {
    let mut register = with_area(5, &area(&[&[entry(STANDING, 1, 9000, b'I', 0, 0)], &before_the_turn()[..]].concat()));
    assert_eq!(fold(&mut register, 5), taken(0, 0));
    assert_eq!(register, with_area(5, &carried(carry(9000, 1, 0), &before_the_turn())));
    let turned = read(640, b'C', 50);
    assert_eq!(tried(&register, 5, turned), taken(1, 250));
    assert_eq!(tried(&register, 5, Submission { indicator: indicator::FALSE, ..turned }), refusal(Number::Ee));
    assert_eq!(tried(&register, 5, read(1, b'I', 9000)), refusal(Number::BackDated));
    assert_eq!(tried(&register, 5, read(640, b'C', 9810)), refusal(Number::Low));
    assert_eq!(report(&register, 5), reported(4, 0, 800));
    assert_eq!(try_and_commit(&mut register, 5, turned), taken(1, 250));
    assert_eq!(report(&register, 5), reported(5, 1, 1050));
}

#[test]
fn on_a_pseudo_meter_other_types_are_29_on_trial() {
    let mut register = with_area(5, &PSEUDO.area(&[]));
    for &(letter, _) in letter::ALL {
        let expected = match letter {
            letter::INITIAL => taken(0, 0),
            letter::FINAL => refusal(Number::Df),
            _ => refusal(Number::OtherType),
        };
        assert_eq!(tried(&register, 5, read(100, letter, 1000)), expected, "{letter}");
    }
    assert_eq!(try_and_commit(&mut register, 5, read(100, b'I', 1000)), taken(0, 0));
    assert_eq!(tried(&register, 5, read(200, b'C', 1100)), refusal(Number::OtherType));
    // Were the first of them taken, the second would be refused with 9.
    assert_eq!(tried(&register, 5, read(200, b'F', 1100)), taken(0, 100));
    assert_eq!(tried(&register, 5, read(300, b'F', 1200)), taken(0, 200));
    let after_a_carry = with_area(5, &PSEUDO.carried(carry(400, 5, 2), &[entry(STANDING, 100, 1000, b'I', 0, 0)]));
    assert_eq!(tried(&after_a_carry, 5, read(200, b'C', 1100)), refusal(Number::OtherType));
    assert_eq!(tried(&after_a_carry, 5, read(200, b'F', 1100)), taken(0, 100));
}

// ---- No meter to try it on ----

#[test]
fn a_misfit_register_is_refused_before_the_place() {
    for length in [0, 1, REGISTER_BYTES - 1, REGISTER_BYTES + 1] {
        let mut register = with_area(0, &area(&two_reads()));
        register.resize(length, 0);
        for place in [0, 63, 64, 65_535] {
            assert_eq!(tried(&register, place, read(460, b'C', 1400)), refusal(Number::Misfit), "{length} bytes");
        }
    }
}

/// Every area has a meter, so that a place cut to one byte would find one.
#[test]
fn a_place_without_a_meter_has_nothing_to_try_a_read_on() {
    let meters = area(&two_reads()).repeat(REGISTER_BYTES / AREA_BYTES);
    for place in [64, 65, 255, 256, 32_768, 65_535] {
        assert_eq!(tried(&meters, place, read(460, b'C', 1400)), refusal(Number::NoMeter), "place {place}");
    }
    for place in [0, 31, 63] {
        assert_eq!(tried(&meters, place, read(460, b'C', 1400)), taken(0, 200), "place {place}");
        assert_eq!(tried(&zeros(), place, read(460, b'I', 1400)), refusal(Number::NoMeter), "place {place}");
    }
}

#[test]
fn on_a_damaged_area_a_trial_is_4_before_all_that_is_asked_of_the_read() {
    for damaged in [area(&[stands(100, 10)]), area(&[gone(280, 1200), two_reads()[0], two_reads()[1]]), vec![9; 512]] {
        for sent in [read(460, b'C', 1400), read(460, b'Z', 1400), read(0, b'C', 1400), read(460, b'C', u32::MAX)] {
            assert_eq!(tried(&with_area(63, &damaged), 63, sent), refusal(Number::Damaged), "{sent}");
        }
    }
}

// ---- A tally ----

/// It is told of the trial and of its answer, in which a trial is of no kind of call.
#[test]
fn a_tally_told_of_a_trial_does_not_change() {
    let (mut register, mut tally) = (zeros(), Tally::default());
    let submission = |day, letter, value| Call::Submit { place: 5, read: read(day, letter, value) };
    for (call, sent, answer) in [
        (Call::Enrol { place: 5, dials: 4, capacity: 5000 }, read(90, b'I', 9300), taken(0, 0)),
        (submission(100, b'I', 9400), read(280, b'C', 9601), taken(0, 201)),
        (submission(280, b'C', 9600), read(460, b'C', 9610), refusal(Number::Low)),
        (submission(460, b'C', 9800), read(640, b'C', 50), taken(1, 250)),
        (submission(640, b'C', 50), read(820, b'C', 1000), refusal(Number::High)),
        (Call::Withdraw { place: 5, day: 640, value: 50 }, read(640, b'C', 50), refusal(Number::Withdrawn)),
    ] {
        let reply = call.make(&mut register);
        tally.change(&call, reply);
        let (before, trial) = (tally, Call::Trial { place: 5, read: sent });
        assert_eq!(trial.make(&mut register), Reply::Answer(answer), "{trial} after {call}");
        tally.change(&trial, Reply::Answer(answer));
        assert_eq!(tally, before, "{trial} after {call}");
        assert_eq!(tally.report(), report(&register, 5), "{trial} after {call}");
    }
    assert_eq!(tally.report(), reported(3, 0, 400));
}

// ---- Registers that cannot be written ----

/// A place for each sort of journal, and one after the other with none.
fn all_sorts() -> Vec<u8> {
    let initial = entry(STANDING, 100, 1000, b'I', 0, 0);
    let held = entry(HELD, 460, 1239, b'C', 0, 0);
    let withdrawn: Vec<[u8; 10]> = (0..49).map(|k| entry(WITHDRAWN, 200 + k, 1100, b'F', 0, 0)).collect();
    let areas = [
        area(&[]),
        area(&[&two_reads()[..], &[gone(460, 1400)]].concat()),
        area(&[&two_reads()[..], &[held]].concat()),
        area(&[&[entry(STANDING, 100, 9400, b'I', 0, 0)], &before_the_turn()[1..]].concat()),
        area(&daily(50)),
        carried(carry(9000, 1, 0), &before_the_turn()),
        carried(carry(1, 1, 0), &daily(50)[1..]),
        PSEUDO.area(&[]),
        PSEUDO.area(&[initial]),
        PSEUDO.area(&[&[initial], &withdrawn[..]].concat()),
        area_of(&meter(4, 200), &[initial]),
        area(&[stands(100, 10)]),
    ];
    let mut register = areas.concat();
    register.resize(REGISTER_BYTES - AREA_BYTES, 0);
    // The last one is full to its end, and whoever reads on is past the register's.
    [register, area(&daily(50))].concat()
}

/// Reads of every type, at the edges of every check, with all that may be beside a value.
fn all_sorts_of_reads() -> Vec<Submission> {
    let mut reads = Vec::new();
    for day in [0, 40, 50, 51, 100, 200, 280, 460, 640, 65_535] {
        for value in [0, 50, 1000, 1100, 1200, 1239, 1400, 1601, 9810, 9999, 10_000, u32::MAX] {
            for &letter in b"IOFCURTSXYEZ" {
                let read = Submission { submitted: 65_535, ..read(day, letter, value) };
                reads.extend([0, 1, 2, 3].map(|indicator| Submission { indicator, ..read }));
                reads.extend([1, 2].map(|reread| Submission { reread, ..read }));
                reads.push(Submission { submitted: day.wrapping_sub(1), ..read });
            }
        }
    }
    reads
}

/// Tries a read where nothing can be written, and holds the answer to that of a submission on a copy that can.
fn tried_sealed(sealed: &Sealed, copy: &mut [u8], place: u16, read: Submission) -> Number {
    let answer = trial(sealed.bytes(), place, read);
    assert_eq!(answer, submit(copy, place, read), "place {place}, {read}");
    copy.copy_from_slice(sealed.bytes());
    answer.number
}

/// The numbers that trials are answered on a register that cannot be written, at these places.
fn numbers_sealed(register: &[u8], places: &[u16], reads: &[Submission]) -> BTreeSet<Number> {
    let (sealed, mut copy) = (Sealed::of(register), register.to_vec());
    let each = places.iter().flat_map(|&place| reads.iter().map(move |&read| (place, read)));
    each.map(|(place, read)| tried_sealed(&sealed, &mut copy, place, read)).collect()
}

/// All that a submission is answered: 0 to 21, and 29.
#[test]
fn every_number_is_answered_where_nothing_can_be_written() {
    let (register, reads) = (all_sorts(), all_sorts_of_reads());
    let mut numbers = numbers_sealed(&register, &[0, 1, 2, 3, 4, 5, 6, 7, 8, 9, 10, 11, 12, 63, 64, 65_535], &reads);
    for length in [0, 1, REGISTER_BYTES - 1, REGISTER_BYTES + 1] {
        let mut misfit = register.clone();
        misfit.resize(length, 1);
        let answered = numbers_sealed(&misfit, &[0, 63, 64], &reads[..100]);
        assert_eq!(answered, BTreeSet::from([Number::Misfit]), "{length} bytes");
        numbers.extend(answered);
    }
    let bytes: Vec<u8> = numbers.into_iter().map(u8::from).collect();
    assert_eq!(bytes, (0..=21).chain([29]).collect::<Vec<u8>>());
}

/// Journals of every length, sound and damaged in every way, and reads that fit them.
#[test]
fn random_registers_are_tried_where_nothing_can_be_written() {
    let mut random = Random::new(7);
    let mut accepted = 0;
    for _ in 0..100 {
        let mut register = lists::any_register(&mut random);
        let (sealed, mut idle) = (Sealed::of(&register), Idle::default());
        for _ in 0..500 {
            let places = [random.index(64) as u16, 63];
            if let Call::Submit { place, read } = lists::call(&mut random, &mut idle, sealed.bytes(), &places) {
                let number = tried_sealed(&sealed, &mut register, place, read);
                accepted += usize::from(number == Number::Accepted);
            }
        }
    }
    assert!(accepted >= 2_000, "{accepted} trials were accepted");
}
