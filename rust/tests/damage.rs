//! Damaged areas: one for each clause of a sound journal, of a meter and of a pseudo meter. Every call that reads one
//! answers 4 and changes no byte. Then standing reads against withdrawn ones, which the library keeps in buckets.

mod common;
mod peer;

use common::*;
use necktureen::{report, submit, Number};
use std::ops::Range;

fn first() -> [u8; 10] {
    entry(STANDING, 100, 10, b'I', 0, 0)
}

/// Every damaged area of a kind of meter, with the clause that it breaks.
fn damaged(of: Profile) -> Vec<(&'static str, Vec<u8>)> {
    let area = |entries: &[[u8; 10]]| of.area(entries);
    let second = of.later(STANDING, 200, 20);
    let held = |day| of.later(HELD, day, 30);
    let with = |indicator, flag| area(&[first(), entry(STANDING, 200, 20, of.later, indicator, flag)]);
    let of_type = |kind, letter| area(&[first(), entry(kind, 200, 20, letter, 0, 0)]);
    let mut all = vec![
        ("kind 0 before a plate", area_of(&[0, 4, 1, 0, 0, 0], &[])),
        ("kind 2 first", area_of(&[2, 4, 1, 0, 0, 0], &[])),
        ("kind 6 first", area_of(&[6, 4, 1, 0, 0, 0], &[])),
        ("kind 8 first", area_of(&[8, 4, 1, 0, 0, 0], &[])),
        ("two dials", area_of(&of.meter(2, 1), &[])),
        ("ten dials", area_of(&of.meter(10, 1), &[])),
        ("capacity 0", area_of(&of.meter(4, 0), &[])),
        ("kind 1 not first", area(&[first(), of.later(1, 200, 20)])),
        ("kind 6", area(&[first(), of.later(6, 200, 20)])),
        ("kind 7 not first", area(&[first(), of.later(7, 200, 20)])),
        ("kind 255", area(&[first(), of.later(255, 200, 20)])),
        ("day 0", area(&[entry(STANDING, 0, 10, b'I', 0, 0)])),
        ("value of 10^n", area(&[first(), of.later(STANDING, 200, 10_000)])),
        ("withdrawn value of 10^n", area(&[first(), of.later(WITHDRAWN, 200, 10_000)])),
        ("held value of 10^n", area(&[first(), of.later(HELD, 200, 10_000)])),
        ("unknown type", of_type(STANDING, b'A')),
        ("lower case type", of_type(STANDING, of.later.to_ascii_lowercase())),
        ("withdrawn of unknown type", of_type(WITHDRAWN, 0)),
        ("indicator 3", with(3, 0)),
        ("flag 2", with(0, 2)),
        ("equal standing days", area(&[first(), of.later(STANDING, 100, 20)])),
        ("falling standing days", area(&[first(), of.later(STANDING, 99, 20)])),
        ("first standing read of type C", area(&[stands(200, 20)])),
        ("first standing read of type F", area(&[entry(STANDING, 200, 20, b'F', 0, 0)])),
        ("first standing read flagged", area(&[entry(STANDING, 100, 10, b'I', 0, 1)])),
        ("later I", of_type(STANDING, b'I')),
        ("later O", area(&[first(), second, entry(STANDING, 300, 20, b'O', 0, 0)])),
        ("two F", area(&[first(), entry(STANDING, 200, 20, b'F', 0, 0), entry(STANDING, 300, 30, b'F', 0, 0)])),
        ("opening with an indicator", area(&[entry(STANDING, 100, 10, of.opens, 1, 0)])),
        ("withdrawn opening with an indicator", area(&[first(), entry(WITHDRAWN, 50, 5, b'I', 2, 0)])),
        ("standing as withdrawn before it", area(&[of.later(WITHDRAWN, 100, 10), first()])),
        ("standing as withdrawn after it", area(&[first(), second, entry(WITHDRAWN, 200, 20, of.later, 2, 1)])),
        ("held read not last", area(&[first(), held(200), of.later(STANDING, 300, 30)])),
        ("held before the only standing read", area(&[held(200), first()])),
        ("held before a withdrawn", area(&[first(), held(200), of.later(WITHDRAWN, 300, 30)])),
        ("two held", area(&[first(), held(200), held(300)])),
        ("held of type Y", of_type(HELD, b'Y')),
        ("held of type O", of_type(HELD, b'O')),
        ("held of type I", of_type(HELD, b'I')),
        ("held with none standing", area(&[held(200)])),
        ("held on the last standing day", area(&[first(), held(100)])),
        ("held before the last standing day", area(&[first(), second, held(150)])),
        ("held before the only standing day", area(&[first(), held(99)])),
        (
            "held F with an F standing",
            area(&[first(), entry(STANDING, 200, 20, b'F', 0, 0), entry(HELD, 300, 30, b'F', 0, 0)]),
        ),
    ];
    let mut past_the_end = area(&[first()]);
    past_the_end[27] = 1;
    all.push(("a byte after the zero that ends the journal", past_the_end));
    let mut entry_past_the_end = area(&[first()]);
    entry_past_the_end[26..36].copy_from_slice(&second);
    all.push(("an entry after the zero that ends the journal", entry_past_the_end));
    let mut last_byte = area(&[first()]);
    last_byte[511] = 1;
    all.push(("the last byte", last_byte));
    let mut fifty_one = area(&fifty(of));
    fifty_one[506..512].copy_from_slice(&second[..6]);
    all.push(("a 51st entry that runs past the area", fifty_one));
    all
}

fn fifty(of: Profile) -> Vec<[u8; 10]> {
    [first()].into_iter().chain((101..150).map(|day| of.later(of.many, day, 20))).collect()
}

#[test]
fn damage_of_every_clause_is_answered_4_and_left_as_it_is() {
    for (clause, bytes) in PROFILES.into_iter().flat_map(damaged) {
        is_damaged(&bytes, clause);
    }
}

/// It is not by the types of its reads alone that a pseudo meter's area is damaged here: as an ordinary meter's it is so
/// too.
#[test]
fn the_clauses_are_those_of_any_meter() {
    for (clause, mut bytes) in damaged(PSEUDO) {
        if bytes[0] == PSEUDO.kind {
            bytes[0] = ORDINARY.kind;
            is_damaged(&bytes, clause);
        }
    }
}

/// For every number of dials the largest value that they show is sound, and the next is damage.
#[test]
fn a_value_is_below_the_power_of_the_dials() {
    let powers = [1_000, 10_000, 100_000, 1_000_000, 10_000_000, 100_000_000, 1_000_000_000];
    for (of, kind) in PROFILES.into_iter().flat_map(|of| [STANDING, WITHDRAWN, HELD].map(|kind| (of, kind))) {
        for (dials, power) in (3..=9).zip(powers) {
            let with = |value| area_of(&of.meter(dials, 5000), &[first(), of.later(kind, 200, value)]);
            is_damaged(&with(power), &format!("{power} of kind {kind} on {dials} dials"));
            let largest = report(&with_area(9, &with(power - 1)), 9);
            assert_eq!(largest.number, Number::Accepted, "{dials} dials, kind {kind}, {of:?}");
        }
    }
}

/// What looks like damage and is not.
#[test]
fn sound_journals_of_unusual_shape() {
    for of in PROFILES {
        let gone = |day, value| of.later(WITHDRAWN, day, value);
        for (shape, bytes) in [
            ("no entry", of.area(&[])),
            ("only withdrawn reads", of.area(&[entry(WITHDRAWN, 5, 5, b'I', 0, 1)])),
            ("equal withdrawn reads", of.area(&[gone(5, 5), gone(5, 5)])),
            ("withdrawn on a standing day", of.area(&[first(), gone(100, 11)])),
            ("withdrawn with a standing value", of.area(&[first(), gone(101, 10)])),
            ("held as a withdrawn read", of.area(&[first(), gone(200, 20), of.later(HELD, 200, 20)])),
            ("largest value", of.area(&[first(), entry(STANDING, 65_535, 9_999, of.later, 2, 1)])),
            ("held F with none standing", of.area(&[first(), entry(HELD, 200, 20, b'F', 0, 0)])),
            ("50 entries", of.area(&fifty(of))),
        ] {
            assert_eq!(report(&with_area(9, &bytes), 9).number, Number::Accepted, "{shape}, {of:?}");
        }
    }
}

// ---- Standing reads against withdrawn ones ----
//
// The library keeps withdrawn reads in 256 buckets. A read's bucket is the remainder of its day and value together.

/// A journal of these entries, and one that has them after a carry if they are at most so many.
fn with_and_without_carry(of: Profile, entries: &[[u8; 10]], most: usize) -> Vec<Vec<u8>> {
    let after_carry = (entries.len() <= most).then(|| of.carried(carry(5, 9, 1), entries));
    [of.area(entries)].into_iter().chain(after_carry).collect()
}

/// What library and peer answer a report on a journal of these entries. A carry before them makes no difference.
fn number(of: Profile, entries: &[[u8; 10]]) -> Number {
    let numbers = with_and_without_carry(of, entries, 49).into_iter().map(|area| {
        let register = with_area(9, &area);
        let answer = report(&register, 9);
        assert_eq!(answer, peer::report(&register, 9), "{entries:?}");
        answer.number
    });
    the_only_one(numbers)
}

fn the_only_one(mut numbers: impl Iterator<Item = Number>) -> Number {
    let first = numbers.next().expect("a number");
    assert!(numbers.all(|number| number == first), "a carry makes a difference");
    first
}

/// The bytes of an entry's day, of its value, and of both.
const DAY: Range<usize> = 1..3;
const VALUE: Range<usize> = 3..7;
const BOTH: Range<usize> = 1..7;

/// 25 standing reads and 24 withdrawn ones between their days, all of them `step` apart in value.
struct Reads {
    standing: Vec<[u8; 10]>,
    withdrawn: Vec<[u8; 10]>,
}

impl Reads {
    fn apart(step: u32) -> Reads {
        let standing = (1..25).map(|k| entry(STANDING, 100 + 20 * k, 10 + step * u32::from(k), b'C', 0, 0));
        let withdrawn = (1..25).map(|k| entry(WITHDRAWN, 105 + 20 * k, 5 + step * u32::from(k), b'C', 0, 0));
        Reads { standing: [first()].into_iter().chain(standing).collect(), withdrawn: withdrawn.collect() }
    }

    /// The withdrawn reads after the first, after all that stand, and by turns.
    fn orders(&self, withdrawn: &[[u8; 10]]) -> [Vec<[u8; 10]>; 3] {
        let standing = &self.standing;
        let turns = standing[1..].iter().zip(withdrawn).flat_map(|(stands, gone)| [*gone, *stands]);
        [
            [&standing[..1], withdrawn, &standing[1..]].concat(),
            [standing, withdrawn].concat(),
            [standing[0]].into_iter().chain(turns).collect(),
        ]
    }

    /// Gives withdrawn read k the day of a standing one, its value, or both. Only then is the journal damaged.
    fn compare(&self, k: usize, stands: &[u8; 10]) {
        for (same, expected) in [(DAY, Number::Accepted), (VALUE, Number::Accepted), (BOTH, Number::Damaged)] {
            let mut changed = self.withdrawn.clone();
            changed[k][same.clone()].copy_from_slice(&stands[same.clone()]);
            if same == DAY {
                // 4,096 more is the value of no standing read.
                changed[k][4] += 16;
            }
            for entries in self.orders(&changed) {
                assert_eq!(number(ORDINARY, &entries), expected, "withdrawn {k} with bytes {same:?} of {stands:?}");
            }
        }
    }
}

/// 64 apart each withdrawn read shares a bucket with one standing read. 236 apart, which makes 256 with the days between,
/// all share one.
#[test]
fn each_withdrawn_read_is_compared_with_each_standing_one() {
    for reads in [64, 236].map(Reads::apart) {
        for k in 0..reads.withdrawn.len() {
            reads.standing.iter().for_each(|stands| reads.compare(k, stands));
        }
    }
}

/// Day and value of a read of the crowd: each is a day later and one lower than the one before it, so that all are in one
/// bucket. Any of them may stand after the first read and after one of day 250.
fn in_crowd(k: u16) -> (u16, u32) {
    (300 + k, 1000 - u32::from(k))
}

fn crowd_read(kind: u8, k: u16, letter: u8) -> [u8; 10] {
    let (day, value) = in_crowd(k);
    entry(kind, day, value, letter, 0, 0)
}

fn crowd(of: Profile, size: u16) -> Vec<[u8; 10]> {
    (0..size).map(|k| crowd_read(WITHDRAWN, k, of.later)).collect()
}

/// The first read before a crowd and after it. Until a read stands, no entry takes the short way.
fn first_and_crowd(of: Profile, size: u16) -> [Vec<[u8; 10]>; 2] {
    [[vec![first()], crowd(of, size)].concat(), [crowd(of, size), vec![first()]].concat()]
}

/// After a crowd of this size and whatever else, each of its reads is damage if it stands; one that is only in the same
/// bucket is not.
fn crowd_clashes(of: Profile, before: &[[u8; 10]], size: u16, letter: u8) {
    for k in 0..=size {
        let expected = if k < size { Number::Damaged } else { Number::Accepted };
        let entries = [before, &[crowd_read(STANDING, k, letter)]].concat();
        assert_eq!(number(of, &entries), expected, "read {k} after a crowd of {size}, {of:?}");
    }
}

#[test]
fn a_standing_read_is_compared_with_each_withdrawn_one_in_its_bucket() {
    for (of, size) in PROFILES.into_iter().flat_map(|of| [0, 1, 2, 3, 48].map(|size| (of, size))) {
        crowd_clashes(of, &crowd(of, size), size, of.opens);
        first_and_crowd(of, size).iter().for_each(|entries| crowd_clashes(of, entries, size, of.later));
    }
}

/// Entries that few of the rules concern take a short way, and these do not.
#[test]
fn no_entry_between_hides_a_withdrawn_read() {
    let standing = [entry(STANDING, 250, 20, b'F', 0, 0), entry(STANDING, 250, 20, b'C', 2, 1)];
    standing.into_iter().for_each(|between| hides_nothing(ORDINARY, between));
    for of in PROFILES {
        hides_nothing(of, entry(WITHDRAWN, 250, 20, b'I', 0, 0));
        hides_nothing(of, entry(WITHDRAWN, 250, 20, of.later, 2, 1));
        hides_nothing(of, entry(WITHDRAWN, 50, 5, of.later, 0, 0));
    }
}

fn hides_nothing(of: Profile, between: [u8; 10]) {
    for (size, at) in (1..=3).flat_map(|size| (0..=size).map(move |at| (size, at))) {
        let mut entries = [vec![first()], crowd(of, size)].concat();
        entries.insert(1 + usize::from(at), between);
        crowd_clashes(of, &entries, size, of.later);
    }
}

#[test]
fn a_withdrawn_read_is_compared_with_each_that_stood_before_it() {
    let stood: Vec<[u8; 10]> = (0..8).map(|k| crowd_read(STANDING, k, b'C')).collect();
    let others: Vec<[u8; 10]> = (20..23).map(|k| crowd_read(WITHDRAWN, k, b'C')).collect();
    for withdrawn in [&[][..], &others] {
        for k in 0..=8 {
            let (day, value) = in_crowd(k);
            let expected = if k < 8 { Number::Damaged } else { Number::Accepted };
            let after = |gone| [&[first()], &stood[..], withdrawn, &[gone]].concat();
            assert_eq!(number(ORDINARY, &after(gone(day, value))), expected, "read {k}");
            assert_eq!(number(ORDINARY, &after(gone(day, value + 256))), Number::Accepted, "read {k}");
        }
    }
}

/// What library and peer answer if read k of the crowd is sent to a journal of these entries.
fn sent(of: Profile, entries: &[[u8; 10]], k: u16) -> Number {
    let (day, value) = in_crowd(k);
    let read = read(day, of.later, value);
    // After 49 entries and a carry no read is taken (16).
    let numbers = with_and_without_carry(of, entries, 48).into_iter().map(|area| {
        let [mut register, mut of_peer] = [0, 1].map(|_| with_area(9, &area));
        let answer = submit(&mut register, 9, read);
        assert_eq!(answer, peer::submit(&mut of_peer, 9, read), "read {k} to {entries:?}");
        assert_eq!(register, of_peer, "read {k} to {entries:?}");
        answer.number
    });
    the_only_one(numbers)
}

/// Each read of a crowd of this size is withdrawn in these entries, and one that is only in the same bucket is not.
fn crowd_stays_withdrawn(of: Profile, entries: &[[u8; 10]], size: u16) {
    for k in 0..=size {
        assert_eq!(sent(of, entries, k) == Number::Withdrawn, k < size, "read {k} after a crowd of {size}, {of:?}");
    }
}

#[test]
fn each_read_of_a_bucket_stays_withdrawn_and_no_other() {
    let last = entry(STANDING, 250, 20, b'F', 0, 0);
    for (of, size) in PROFILES.into_iter().flat_map(|of| [0, 1, 2, 3, 48].map(|size| (of, size))) {
        let held = of.later(HELD, 250, 20);
        for entries in first_and_crowd(of, size) {
            crowd_stays_withdrawn(of, &entries, size);
            crowd_stays_withdrawn(of, &[&entries[..], &[held]].concat(), size);
            crowd_stays_withdrawn(of, &[&entries[..], &[last]].concat(), size);
        }
    }
}

#[test]
fn a_standing_read_in_a_bucket_of_withdrawn_ones_is_a_repeat() {
    for (of, size) in PROFILES.into_iter().flat_map(|of| [1, 2, 3, 48].map(|size| (of, size))) {
        let entries = [vec![first()], crowd(of, size), vec![crowd_read(STANDING, size, of.later)]].concat();
        assert_eq!(sent(of, &entries, size), Number::Repeat, "after a crowd of {size}, {of:?}");
    }
}
