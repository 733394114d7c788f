//! Folds through the compiled library: when they are refused, and what they leave, byte by byte.

mod common;

use common::*;
use necktureen::{fold, play, report, submit, Call, Number, Report, AREA_BYTES, REGISTER_BYTES};

fn opening(day: u16, value: u32) -> [u8; 10] {
    entry(STANDING, day, value, b'I', 0, 0)
}

/// The area in a register whose other bytes are all of one kind.
fn among_others(place: u16, area: &[u8]) -> Vec<u8> {
    let mut register = vec![0xEE; REGISTER_BYTES];
    register[AREA_BYTES * usize::from(place)..][..AREA_BYTES].copy_from_slice(area);
    register
}

/// A fold of the first area is accepted and leaves the second, made and played from a sheet, and no other byte changes. A
/// report is the same before and after.
fn folds_to(before: &[u8], after: &[u8], what: &str) {
    for place in [0, 31, 63] {
        let mut register = among_others(place, before);
        let reported = report(&register, place);
        assert_eq!(reported.number, Number::Accepted, "{what}");
        let mut played = register.clone();
        assert_eq!(guarded(&mut register, |r| fold(r, place)), refusal(Number::Accepted), "{what}");
        assert_eq!(register, among_others(place, after), "{what}");
        assert_eq!(report(&register, place), reported, "{what}");
        let mut line = [0; 6];
        assert_eq!(guarded(&mut played, |r| play(&[5, place as u8], r, &mut line)), 6, "{what}");
        assert_eq!((&line, played), (b"0 0 0\n", register), "{what}");
    }
}

fn is_refused(area: &[u8], what: &str) {
    for place in [0, 63] {
        refuses(&among_others(place, area), Call::Fold { place }, Number::NoFold, what);
    }
}

// ---- When a fold is refused ----

#[test]
fn three_standing_reads_are_not_folded_and_four_are() {
    for count in 0..=3 {
        let reads = daily(count);
        is_refused(&area(&reads), &format!("{count} standing"));
        // Neither withdrawn nor held reads stand.
        let withdrawn = [&reads[..], &[gone(90, 1), gone(91, 1)]].concat();
        is_refused(&area(&withdrawn), &format!("{count} standing, two withdrawn"));
        if count > 0 {
            let held = [&reads[..], &[entry(HELD, 90, 1, b'C', 0, 0)]].concat();
            is_refused(&area(&held), &format!("{count} standing, one held"));
            // Nor do folded ones: the oldest kept read is of day 11 here, so that ten may be folded.
            let later: Vec<[u8; 10]> = (0..count).map(|k| stands(11 + k, 1)).collect();
            is_refused(&carried(carry(1, 10, 0), &later), &format!("{count} standing after a carry"));
        }
    }
    folds_to(&area(&daily(4)), &carried(carry(1, 1, 0), &daily(4)[1..]), "four standing");
    folds_to(&area(&daily(5)), &carried(carry(1, 2, 0), &daily(5)[2..]), "five standing");
}

/// It is refused wherever the F is among them.
#[test]
fn no_journal_with_a_standing_f_is_folded() {
    for (at, count) in [(3, 4), (1, 4), (2, 4), (1, 50), (46, 50), (47, 50), (49, 50)] {
        let mut reads = daily(count);
        reads[at][7] = b'F';
        is_refused(&area(&reads), &format!("F at {at} of {count}"));
    }
    let mut reads = daily(6)[1..].to_vec();
    reads[0][7] = b'F';
    is_refused(&carried(carry(1, 1, 0), &reads), "F first after a carry");
    // A withdrawn or held F does not stand.
    let f = |kind, day| entry(kind, day, 90, b'F', 0, 0);
    let before = [&daily(4)[..], &[f(WITHDRAWN, 9), f(HELD, 10)]].concat();
    folds_to(&area(&before), &carried(carry(1, 1, 0), &before[1..]), "F withdrawn and held");
}

/// The checks come in order: the length, the place, the area, then 27.
#[test]
fn a_fold_is_refused_by_the_first_check() {
    refuses(&vec![0; REGISTER_BYTES + 1], Call::Fold { place: 64 }, Number::Misfit, "a misfit");
    refuses(&zeros(), Call::Fold { place: 64 }, Number::NoMeter, "past the last area");
    refuses(&zeros(), Call::Fold { place: 63 }, Number::NoMeter, "an area of zeros");
    let damaged = area(&[opening(100, 10), opening(200, 20)]);
    refuses(&with_area(63, &damaged), Call::Fold { place: 63 }, Number::Damaged, "two standing, and a later I");
}

// ---- What it leaves ----

/// Withdrawn reads go by their day alone, wherever they are among the entries; the others close up in their order.
#[test]
fn withdrawn_reads_up_to_the_oldest_kept_day_go() {
    let held = entry(HELD, 700, 60, b'U', 1, 0);
    let before = [
        gone(150, 11),
        opening(100, 10),
        gone(100, 9),
        stands(200, 20),
        gone(300, 29),
        stands(300, 30),
        gone(300, 31),
        gone(301, 30),
        stands(400, 40),
        gone(120, 12),
        gone(299, 30),
        stands(500, 50),
        gone(65_535, 1),
        gone(300, 1),
        held,
    ];
    let kept = [stands(300, 30), gone(301, 30), stands(400, 40), stands(500, 50), gone(65_535, 1), held];
    folds_to(&area(&before), &carried(carry(10, 2, 0), &kept), "withdrawn before, on and after the day");
    let oldest_kept_of_day_2 = [&daily(4)[..], &[gone(1, 9), gone(2, 9), gone(3, 9)]].concat();
    folds_to(
        &area(&oldest_kept_of_day_2),
        &carried(carry(1, 1, 0), &[&daily(4)[1..], &[gone(3, 9)]].concat()),
        "day 2",
    );
}

#[test]
fn every_field_of_what_stays_is_kept() {
    let kept = [
        entry(STANDING, 500, 9999, b'Y', 2, 1),
        entry(WITHDRAWN, 501, 0, b'I', 0, 1),
        entry(STANDING, 600, 0, b'E', 1, 1),
        entry(STANDING, 700, 5, b'T', 0, 0),
        entry(WITHDRAWN, 700, 4, b'F', 2, 0),
        entry(HELD, 800, 9, b'F', 2, 1),
    ];
    let before = [&[opening(100, 10), entry(STANDING, 200, 20, b'X', 1, 0)], &kept[..]].concat();
    folds_to(&area(&before), &carried(carry(10, 2, 0), &kept), "every field");
}

/// The flagged among the folded are counted, and those that are kept keep their flags.
#[test]
fn flags_are_counted_where_the_reads_are() {
    for flags in 0..32_u8 {
        let flag = |k: u16| flags >> k & 1;
        let reads: Vec<[u8; 10]> = (0..5).map(|k| entry(STANDING, 20 + k, 7, b'C', 2, flag(k))).collect();
        let before = [&[opening(10, 9000)], &reads[..]].concat();
        let flagged = u16::from(flag(0) + flag(1));
        folds_to(&area(&before), &carried(carry(9000, 3, flagged), &reads[2..]), &format!("flags {flags:05b}"));
        // After a carry the first read may be flagged as well.
        let folded_before = carried(carry(1, 2, 1), &reads);
        folds_to(&folded_before, &carried(carry(1, 4, 1 + flagged), &reads[2..]), &format!("again, flags {flags:05b}"));
    }
}

#[test]
fn a_later_fold_adds_to_the_carry() {
    let mut register = with_area(7, &area(&daily(6)));
    assert_eq!(fold(&mut register, 7), refusal(Number::Accepted));
    assert_eq!(register, with_area(7, &carried(carry(1, 3, 0), &daily(6)[3..])));
    refuses(&register, Call::Fold { place: 7 }, Number::NoFold, "twice in a row");
    for count in 7..=9 {
        let next = read(count, b'C', u32::from(count));
        assert_eq!(submit(&mut register, 7, next).number, Number::Accepted);
        assert_eq!(fold(&mut register, 7), refusal(Number::Accepted));
        let reads = daily(count);
        assert_eq!(register, with_area(7, &carried(carry(1, count - 3, 0), &reads[reads.len() - 3..])));
        let total = i64::from(count) - 1;
        assert_eq!(report(&register, 7), Report { number: Number::Accepted, standing: count, flagged: 0, total });
    }
}

#[test]
fn a_full_journal_is_folded() {
    folds_to(&area(&daily(50)), &carried(carry(1, 47, 0), &daily(50)[47..]), "50 standing");
    let held = entry(HELD, 90, 60, b'C', 0, 0);
    let with_held = [&daily(49)[..], &[held]].concat();
    folds_to(&area(&with_held), &carried(carry(1, 46, 0), &with_held[46..]), "49 standing and a held one");
    // Four stand and 46 are withdrawn after them: only one entry goes, and there is just room for the carry.
    let dated_later: Vec<[u8; 10]> = (0..46).map(|k| gone(100 + k, 1)).collect();
    let mostly_withdrawn = [&daily(4)[..], &dated_later].concat();
    folds_to(&area(&mostly_withdrawn), &carried(carry(1, 1, 0), &mostly_withdrawn[1..]), "46 withdrawn");
    let withdrawn_and_held = [&daily(4)[..], &dated_later[1..], &[held]].concat();
    folds_to(&area(&withdrawn_and_held), &carried(carry(1, 1, 0), &withdrawn_and_held[1..]), "45 withdrawn, one held");
    // All but four are withdrawn before them.
    let withdrawn_first = [(0..46).map(|k| gone(1, 2 + k)).collect(), daily(4)].concat();
    folds_to(&area(&withdrawn_first), &carried(carry(1, 1, 0), &daily(4)[1..]), "46 withdrawn of the first day");
    let after_carry = daily(50)[1..].to_vec();
    let held_after_carry = [&after_carry[..48], &[held]].concat();
    folds_to(
        &carried(carry(1, 1, 0), &held_after_carry),
        &carried(carry(1, 46, 0), &held_after_carry[45..]),
        "48 and a held one after a carry",
    );
    folds_to(&carried(carry(1, 1, 0), &after_carry), &carried(carry(1, 47, 0), &daily(50)[47..]), "49 after a carry");
}
