//! Journals with a carry, of a meter and of a pseudo meter: a damaged area for each clause, beside a sound one that is
//! nearly the same. Then large counts, and the first read against withdrawn ones.

mod common;
mod peer;

use common::*;
use necktureen::{fold, journal, letter, report, Number, Report};

fn oldest() -> [u8; 10] {
    stands(100, 10)
}

fn second() -> [u8; 10] {
    stands(200, 20)
}

/// 49 entries, the last of them given.
fn forty_nine(of: Profile, last: [u8; 10]) -> Vec<[u8; 10]> {
    let more = (101..148).map(|day| of.later(of.many, day, 20));
    [of.oldest(100, 20)].into_iter().chain(more).chain([last]).collect()
}

/// An area whose carry and entries are these bytes.
fn after_meter(of: Profile, parts: &[&[u8]]) -> Vec<u8> {
    area_of(&[&of.meter(4, 5000)[..], &parts.concat()].concat(), &[])
}

/// A clause, an area that breaks it, and one that does not.
type Pair = (&'static str, Vec<u8>, Vec<u8>);

/// What a carry says.
fn of_the_carry(of: Profile) -> Vec<Pair> {
    let kept = [of.oldest(100, 10), of.later(STANDING, 200, 20)];
    let with = |first, folded, flagged| of.carried(carry(first, folded, flagged), &kept);
    let late = |folded| of.carried(carry(5, folded, 0), &[of.oldest(65_535, 10)]);
    vec![
        ("first value of 10^n", with(10_000, 9, 0), with(9_999, 9, 0)),
        ("first value of four bytes", with(u32::MAX, 9, 0), with(0, 9, 0)),
        ("flagged above folded", with(5, 9, 10), with(5, 9, 9)),
        ("flagged above folded by its high byte", with(5, 9, 256), with(5, 9, 0)),
        ("none folded", with(5, 0, 0), with(5, 1, 0)),
        ("none folded, one flagged", with(5, 0, 1), with(5, 1, 1)),
        ("folded is the oldest kept day", with(5, 100, 0), with(5, 99, 0)),
        ("folded is above the oldest kept day", with(5, 101, 0), with(5, 99, 99)),
        ("folded is below a later day alone", with(5, 199, 0), with(5, 98, 0)),
        ("folded is the last day there is", late(65_535), late(65_534)),
    ]
}

/// The read that a carry asks for.
fn of_the_oldest_kept(of: Profile) -> Vec<Pair> {
    let after = |entries: &[[u8; 10]]| of.carried(carry(5, 50, 7), entries);
    let gone = |day, value| of.later(WITHDRAWN, day, value);
    let (oldest, held) = (of.oldest(100, 10), of.later(HELD, 300, 30));
    vec![
        ("a carry alone", after(&[]), after(&[oldest])),
        ("only a withdrawn read", after(&[gone(100, 1)]), after(&[gone(100, 1), oldest])),
        ("only a held read", after(&[held]), after(&[oldest, held])),
        // The oldest kept read is the first that stands, whatever was withdrawn before it.
        (
            "folded is not below the first standing day, and is below a withdrawn one",
            after(&[gone(500, 1), of.oldest(50, 10)]),
            after(&[gone(500, 1), of.oldest(51, 10)]),
        ),
        (
            "folded is below a held day alone",
            after(&[of.oldest(50, 10), of.later(HELD, 60, 20)]),
            after(&[gone(2, 1), of.oldest(51, 10), of.later(HELD, 60, 20)]),
        ),
    ]
}

/// Where a carry is, how long it is, and how many entries follow it.
fn of_its_place(of: Profile) -> Vec<Pair> {
    let carry = carry(5, 9, 0);
    let (first, second) = (entry(STANDING, 100, 10, b'I', 0, 0), of.later(STANDING, 200, 20));
    let after_meter = |parts: &[&[u8]]| after_meter(of, parts);
    let whole = after_meter(&[&carry, &first, &second]);
    let full = of.carried(carry, &forty_nine(of, second));
    let full_with_held = of.carried(carry, &forty_nine(of, of.later(HELD, 300, 30)));
    let mut fifty = full.clone();
    fifty[505..].copy_from_slice(&of.later(of.many, 300, 30)[..7]);
    let mut last_byte = full.clone();
    last_byte[511] = 1;
    let mut behind = whole.clone();
    behind[36] = 1;
    vec![
        ("a carry before the meter", area_of(&[&carry[..], &of.meter(4, 5000)].concat(), &[first]), whole.clone()),
        ("a carry after an entry", after_meter(&[&first, &carry]), after_meter(&[&first])),
        ("a carry between entries", after_meter(&[&first, &carry, &second]), of.area(&[first, second])),
        ("a carry as the last of ten bytes", of.area(&[first, entry(5, 5, 9, 0, 0, 0)]), of.area(&[first])),
        ("two carries", after_meter(&[&carry, &carry, &first]), after_meter(&[&carry, &first])),
        ("a carry of zeros", after_meter(&[&[5; 1], &[0; 8], &first]), whole.clone()),
        ("a carry a byte short", after_meter(&[&carry[..8], &first, &second]), whole.clone()),
        ("a carry a byte long", after_meter(&[&carry, &[0], &first, &second]), whole.clone()),
        ("a byte after the zero that ends the journal", behind, whole),
        ("50 entries after a carry", fifty, full),
        ("the last byte", last_byte, full_with_held),
    ]
}

/// The reads after a carry together. Only the first standing one is freed from the opening rule.
fn of_the_reads() -> Vec<Pair> {
    let after = |entries: &[[u8; 10]]| carried(carry(5, 9, 2), entries);
    let of_type = |day, letter| entry(STANDING, day, 10, letter, 0, 0);
    let held = |day, letter| entry(HELD, day, 30, letter, 0, 0);
    let (opening, final_read) = (of_type(100, b'O'), of_type(100, b'F'));
    let one_final = [oldest(), of_type(200, b'F')];
    let held_before = [oldest(), held(150, b'C'), second()];
    let held_last = [oldest(), second(), held(201, b'C')];
    vec![
        ("a later I", after(&[oldest(), of_type(200, b'I')]), after(&[of_type(200, b'I')])),
        ("a later O", after(&[oldest(), of_type(200, b'O')]), after(&[oldest(), of_type(200, b'Y')])),
        ("an O after an O", after(&[opening, of_type(200, b'O')]), after(&[opening, second()])),
        ("two F", after(&[final_read, second(), of_type(300, b'F')]), after(&[final_read, second()])),
        ("two later F", after(&[&one_final[..], &[of_type(300, b'F')]].concat()), after(&one_final)),
        ("a held F with an F standing", after(&[final_read, held(300, b'F')]), after(&[final_read, held(300, b'C')])),
        ("a held Y", after(&[oldest(), held(300, b'Y')]), after(&[oldest(), held(300, b'F')])),
        ("held on the last standing day", after(&[oldest(), held(100, b'C')]), after(&[oldest(), held(101, b'C')])),
        ("held before a read", after(&held_before), after(&held_last)),
        ("equal standing days", after(&[oldest(), of_type(100, b'U')]), after(&[oldest(), of_type(101, b'U')])),
        ("standing as withdrawn before it", after(&[gone(100, 10), oldest()]), after(&[gone(100, 11), oldest()])),
        ("standing as withdrawn after it", after(&[oldest(), gone(100, 10)]), after(&[oldest(), gone(101, 10)])),
    ]
}

/// The same on a pseudo meter, where an I and an F are all that may stand: the first of them after a carry may be the F.
fn of_a_pseudo_meters_reads() -> Vec<Pair> {
    let after = |entries: &[[u8; 10]]| PSEUDO.carried(carry(5, 9, 2), entries);
    let initial = |day| entry(STANDING, day, 10, b'I', 0, 0);
    let last = |kind, day| entry(kind, day, 10, b'F', 0, 0);
    let (both, alone) = ([initial(100), last(STANDING, 200)], [last(STANDING, 200)]);
    let gone = |day| last(WITHDRAWN, day);
    vec![
        ("a later I", after(&[initial(100), initial(200)]), after(&both)),
        ("a later I after an F", after(&[alone[0], initial(300)]), after(&alone)),
        ("two F", after(&[alone[0], last(STANDING, 300)]), after(&[alone[0], gone(300)])),
        (
            "two later F",
            after(&[&both[..], &[last(STANDING, 300)]].concat()),
            after(&[&both[..], &[gone(300)]].concat()),
        ),
        ("a held F with an F standing", after(&[alone[0], last(HELD, 300)]), after(&[initial(100), last(HELD, 300)])),
        ("held before a read", after(&[last(HELD, 300), initial(100)]), after(&[initial(100), last(HELD, 101)])),
        (
            "held on the last standing day",
            after(&[initial(100), last(HELD, 100)]),
            after(&[initial(99), last(HELD, 100)]),
        ),
        ("equal standing days", after(&[initial(200), alone[0]]), after(&[initial(199), alone[0]])),
        ("standing as withdrawn before it", after(&[gone(200), alone[0]]), after(&[gone(201), alone[0]])),
        ("standing as withdrawn after it", after(&[initial(100), gone(100)]), after(&[initial(100), gone(101)])),
    ]
}

/// The fields of the reads after a carry.
fn of_the_fields(of: Profile) -> Vec<Pair> {
    let after = |entries: &[[u8; 10]]| of.carried(carry(5, 9, 2), entries);
    let with = |letter, indicator, flag| after(&[entry(STANDING, 100, 10, letter, indicator, flag)]);
    let oldest = of.oldest(100, 10);
    let withdrawn_on = |day| after(&[oldest, of.later(WITHDRAWN, day, 1)]);
    let of_kind = |kind| after(&[oldest, of.later(kind, 200, 20)]);
    vec![
        ("an opening with an indicator", with(of.opens, 1, 0), with(of.later, 1, 0)),
        ("flag 2", with(of.later, 0, 2), with(of.later, 0, 1)),
        ("indicator 3", with(of.later, 3, 0), with(of.later, 2, 0)),
        ("unknown type", with(b'A', 0, 0), with(of.oldest, 0, 0)),
        ("withdrawn on day 0", withdrawn_on(0), withdrawn_on(1)),
        ("value of 10^n", after(&[of.oldest(100, 10_000)]), after(&[of.oldest(100, 9_999)])),
        ("kind 1 after a carry", of_kind(1), of_kind(STANDING)),
        ("kind 6", of_kind(6), of_kind(WITHDRAWN)),
        ("kind 7 after a carry", of_kind(7), of_kind(HELD)),
    ]
}

/// The meter that a carry follows.
fn of_the_plate(of: Profile) -> Vec<Pair> {
    let with = |plate: [u8; 6]| area_of(&[&plate[..], &carry(5, 9, 0)].concat(), &[of.oldest(100, 10)]);
    let showing =
        |dials, first, kept| area_of(&[&of.meter(dials, 1)[..], &carry(first, 9, 9)].concat(), &[of.oldest(100, kept)]);
    vec![
        ("two dials", with(of.meter(2, 1)), with(of.meter(3, 1))),
        ("ten dials", with(of.meter(10, 1)), with(of.meter(9, 1))),
        ("capacity 0", with(of.meter(4, 0)), with(of.meter(4, u32::MAX))),
        ("first value of 10^3", showing(3, 1_000, 10), showing(3, 999, 10)),
        ("first value of 10^9", showing(9, 1_000_000_000, 10), showing(9, 999_999_999, 10)),
        ("kept value of 10^3", showing(3, 10, 1_000), showing(3, 10, 999)),
        ("kept value of 10^9", showing(9, 10, 1_000_000_000), showing(9, 10, 999_999_999)),
    ]
}

#[test]
fn damage_of_every_clause_has_a_sound_neighbour() {
    let of_either = [of_the_carry, of_the_oldest_kept, of_its_place, of_the_fields, of_the_plate];
    let clauses = PROFILES.into_iter().flat_map(|of| of_either.map(|clauses| clauses(of)));
    let reads = [of_the_reads(), of_a_pseudo_meters_reads()];
    for (clause, damaged, sound) in clauses.chain(reads).flatten() {
        is_damaged(&damaged, clause);
        assert_eq!(peer::report(&with_area(9, &damaged), 9).number, Number::Damaged, "{clause}, the peer");
        is_sound(&sound, &format!("beside: {clause}"));
    }
}

/// Library and peer take it, and hand back the same journal.
fn is_sound(area: &[u8], what: &str) {
    for place in [0, 63] {
        let register = with_area(place, area);
        let answer = report(&register, place);
        assert_eq!(answer.number, Number::Accepted, "{what}");
        assert_eq!(answer, peer::report(&register, place), "{what}");
        assert_eq!(journal(&register, place), peer::journal(&register, place), "{what}");
    }
}

#[test]
fn the_first_read_after_a_carry_may_have_any_type_and_flag() {
    for &(letter, word) in letter::ALL {
        let opens = letter == letter::INITIAL || letter == letter::OPENING;
        for (indicator, flag) in [(0, 0), (0, 1), (1, 0), (1, 1), (2, 0), (2, 1)] {
            let area = carried(carry(7000, 3, 1), &[entry(STANDING, 4, 10, letter, indicator, flag)]);
            if opens && indicator != 0 {
                is_damaged(&area, word);
                continue;
            }
            is_sound(&area, word);
            let flagged = 1 + u16::from(flag);
            let total = 10 - 7000 + 10_000 * i64::from(flagged);
            let expected = Report { number: Number::Accepted, standing: 4, flagged, total };
            assert_eq!(report(&with_area(2, &area), 2), expected, "{word}, indicator {indicator}, flag {flag}");
        }
    }
}

/// A journal is handed back from its start, so the carry is in it.
#[test]
fn the_journal_has_the_carry_in_it() {
    let area = carried(carry(9999, 99, 98), &forty_nine(ORDINARY, second()));
    assert_eq!(journal(&with_area(63, &area), 63), &area[..505]);
    let area = carried(carry(0, 1, 0), &[oldest()]);
    assert_eq!(journal(&with_area(0, &area), 0), &area[..25]);
}

// ---- Counts that take two bytes ----

/// Standing reads of the days up to the last one, each a day after the other and every one flagged.
fn until_the_last_day(count: u16) -> Vec<[u8; 10]> {
    (0..count).map(|k| entry(STANDING, 65_535 - (count - 1 - k), u32::from(k), b'C', 2, 1)).collect()
}

/// As many reads as there are days, all of them flagged, on nine dials.
#[test]
fn a_report_counts_up_to_the_last_day() {
    for kept in [1, 2, 4, 10, 49] {
        let folded = 65_535 - kept;
        let head = [&meter(9, u32::MAX)[..], &carry(999_999_999, folded, folded)].concat();
        let register = with_area(5, &area_of(&head, &until_the_last_day(kept)));
        let total = i64::from(kept - 1) - 999_999_999 + 1_000_000_000 * 65_535;
        let expected = Report { number: Number::Accepted, standing: 65_535, flagged: 65_535, total };
        assert_eq!(report(&register, 5), expected, "{kept} kept");
    }
}

#[test]
fn a_fold_adds_to_large_counts() {
    for (folded, flagged) in [(65_000, 65_000), (65_486, 0), (65_485, 255), (255, 255), (256, 1), (511, 256)] {
        let entries = until_the_last_day(49);
        let mut register = with_area(5, &carried(carry(1234, folded, flagged), &entries));
        let before = report(&register, 5);
        assert_eq!((before.standing, before.flagged), (folded + 49, flagged + 49));
        assert_eq!(guarded(&mut register, |r| fold(r, 5)), refusal(Number::Accepted));
        let expected = carried(carry(1234, folded + 46, flagged + 46), &entries[46..]);
        assert_eq!(register, with_area(5, &expected), "{folded} folded before");
        assert_eq!(report(&register, 5), before);
    }
}

// ---- The first read and withdrawn ones ----
//
// The library takes plain reads a short way and keeps withdrawn reads in 256 buckets, by the remainder of day and value
// together. After a carry any read may be the first.

/// A withdrawn read in the bucket of the first one, of another day.
fn in_its_bucket(k: u16) -> [u8; 10] {
    gone(300 + k, 1000 - u32::from(k))
}

/// Every order of the first read, a later one, a few withdrawn reads and one more.
fn orders(first: [u8; 10], others: &[[u8; 10]], one_more: [u8; 10]) -> [Vec<[u8; 10]>; 5] {
    let later = stands(400, 1100);
    [
        [&[one_more], others, &[first, later]].concat(),
        [others, &[one_more, first, later]].concat(),
        [others, &[first, one_more, later]].concat(),
        [&[first], others, &[one_more, later]].concat(),
        [&[first, later], others, &[one_more]].concat(),
    ]
}

#[test]
fn any_first_read_is_compared_with_each_withdrawn_one() {
    for (letter, indicator, flag) in
        [(b'C', 0, 0), (b'C', 2, 1), (b'I', 0, 0), (b'O', 0, 1), (b'F', 1, 0), (b'Y', 0, 0)]
    {
        let first = entry(STANDING, 300, 1000, letter, indicator, flag);
        for size in 0..=3 {
            let others: Vec<[u8; 10]> = (1..=size).map(in_its_bucket).collect();
            let what = format!("{}, flag {flag}, {size} withdrawn", char::from(letter));
            for entries in orders(first, &others, gone(300, 1000)) {
                is_damaged(&carried(carry(5, 299, 0), &entries), &what);
            }
            for apart in [gone(300, 1256), gone(556, 1000), in_its_bucket(9), gone(300, 1001)] {
                for entries in orders(first, &others, apart) {
                    is_sound(&carried(carry(5, 299, 0), &entries), &what);
                }
            }
        }
    }
}
