//! A tally by hand: a broken one for each clause, beside a sound one that is nearly the same; what each call makes of a
//! tally, at the edges of what a tally may be; and all that changes none.

mod common;

use common::*;
use necktureen::{letter, Answer, Call, Number, Reply, Tally};

/// Dials, standing, flagged, first and last value.
fn tally([dials, standing, flagged, first, last]: [u32; 5]) -> Tally {
    Tally { dials, standing, flagged, first, last }
}

/// 10^n.
fn turn(dials: u32) -> u32 {
    10_u32.pow(dials)
}

// ---- Calls and answers ----

fn enrolments(dials: u8) -> [Call; 2] {
    [Call::Enrol { place: 0, dials, capacity: 1 }, Call::EnrolPseudo { place: 0, dials, capacity: 1 }]
}

fn submission(value: u32) -> Call {
    Call::Submit { place: 0, read: read(300, letter::CYCLIC, value) }
}

fn trial(value: u32) -> Call {
    Call::Trial { place: 0, read: read(300, letter::CYCLIC, value) }
}

fn withdrawal() -> Call {
    Call::Withdraw { place: 0, day: 300, value: 30 }
}

/// Calls of every kind, with fields that a tally may be changed by.
fn every_call() -> Vec<Call> {
    let dials = [0, 2, 3, 4, 9, 10, 255].map(enrolments).concat();
    let values = [0, 1, 999, 1000, 999_999_999, u32::MAX];
    let others = [withdrawal(), Call::Report { place: 0 }, Call::Fold { place: 0 }];
    [&dials[..], &values.map(submission), &values.map(trial), &others].concat()
}

/// This number with flags and advances that a tally may be changed by, whatever a call would answer.
fn answers(number: Number) -> Vec<Reply> {
    let advances = [0, 1, -1, i64::MIN, i64::MAX];
    let of_flag = |flag| advances.map(|advance| Reply::Answer(Answer { number, flag, advance }));
    [0, 1, 255].map(of_flag).concat()
}

/// The tally after a call that was answered so, made between two others that stay as they are.
fn changed(before: Tally, call: Call, reply: Reply) -> Tally {
    let guard = tally([0xA5A5_A5A5; 5]);
    let mut three = [guard, before, guard];
    three[1].change(&call, reply);
    assert_eq!((three[0], three[2]), (guard, guard), "written beside {before:?}");
    three[1]
}

fn accepted(before: Tally, call: Call, flag: u8, advance: i64) -> Tally {
    changed(before, call, Reply::Answer(taken(flag, advance)))
}

/// What these answers make of a tally, by every call, where they change it.
fn changes(before: Tally, replies: &[Reply]) -> Vec<(Call, Reply)> {
    let told = every_call().into_iter().flat_map(|call| replies.iter().map(move |&reply| (call, reply)));
    told.filter(|&(call, reply)| changed(before, call, reply) != before).collect()
}

// ---- Broken tallies ----

/// A clause, a tally that breaks it, and one that does not.
type Pair = (String, [u32; 5], [u32; 5]);

fn pair(clause: &str, broken: [u32; 5], sound: [u32; 5]) -> Pair {
    (clause.into(), broken, sound)
}

fn of_the_dials() -> Vec<Pair> {
    let with = |dials| [dials, 2, 1, 5, 6];
    vec![
        pair("one dial", with(1), with(3)),
        pair("two dials", with(2), with(3)),
        pair("two dials and no read", [2, 0, 0, 0, 0], [3, 0, 0, 0, 0]),
        pair("ten dials", with(10), with(9)),
        pair("ten dials and no read", [10, 0, 0, 0, 0], [9, 0, 0, 0, 0]),
        pair("no dials", with(0), with(4)),
        pair("no dials, and one stands", [0, 1, 0, 0, 0], [3, 1, 0, 0, 0]),
        pair("no dials, and one is flagged", [0, 0, 1, 0, 0], [3, 1, 1, 0, 0]),
        pair("no dials, and a first value", [0, 0, 0, 1, 0], [3, 1, 0, 1, 0]),
        pair("no dials, and a last value", [0, 0, 0, 0, 1], [3, 1, 0, 0, 1]),
        pair("dials of two bytes", with(0x0104), with(4)),
        pair("dials of three bytes", with(0x0001_0004), with(4)),
        pair("dials the other way round", with(0x0400_0000), with(4)),
        pair("the most dials that four bytes hold", with(u32::MAX), with(9)),
    ]
}

fn of_the_values() -> Vec<Pair> {
    let mut pairs = vec![
        pair("none stands, a first value", [4, 0, 0, 1, 0], [4, 1, 0, 1, 0]),
        pair("none stands, a last value", [4, 0, 0, 0, 1], [4, 1, 0, 0, 1]),
        pair("none stands, both values", [4, 0, 0, 9999, 9999], [4, 1, 0, 9999, 9999]),
        pair("none stands, a first value of 256", [4, 0, 0, 256, 0], [4, 0, 0, 0, 0]),
        pair("none stands, a last value of 65,536", [5, 0, 0, 0, 65_536], [5, 0, 0, 0, 0]),
    ];
    for dials in 3..=9 {
        let (nines, turn) = (turn(dials) - 1, turn(dials));
        let of = |clause: &str| format!("{clause}, {dials} dials");
        pairs.push((of("a first value of 10^n"), [dials, 2, 1, turn, 0], [dials, 2, 1, nines, 0]));
        pairs.push((of("a last value of 10^n"), [dials, 2, 1, 0, turn], [dials, 2, 1, 0, nines]));
        pairs.push((of("both values of 10^n"), [dials, 2, 0, turn, turn], [dials, 2, 0, nines, nines]));
        pairs.push((of("the largest first value"), [dials, 1, 0, u32::MAX, 0], [dials, 1, 0, nines, 0]));
        pairs.push((of("the largest last value"), [dials, 1, 0, 0, u32::MAX], [dials, 1, 0, 0, nines]));
    }
    pairs
}

fn of_the_counts() -> Vec<Pair> {
    let with = |standing, flagged| [4, standing, flagged, 9999, 0];
    vec![
        pair("one flagged, none standing", [4, 0, 1, 0, 0], [4, 0, 0, 0, 0]),
        pair("two flagged, one standing", with(1, 2), with(1, 1)),
        pair("256 flagged, 255 standing", with(255, 256), with(255, 255)),
        pair("65,535 flagged, 65,534 standing", with(65_534, 65_535), with(65_534, 65_534)),
        pair("65,536 flagged, 65,535 standing", with(65_535, 65_536), with(65_535, 65_535)),
        pair("flagged of three bytes", with(1, 0x0001_0001), with(1, 1)),
        pair("the most flagged that four bytes hold", with(65_535, u32::MAX), with(65_535, 0)),
        pair("65,536 standing", with(65_536, 0), with(65_535, 0)),
        pair("65,537 standing", with(65_537, 1), with(65_535, 1)),
        pair("65,536 standing and flagged", with(65_536, 65_536), with(65_535, 65_535)),
        pair("the most standing that four bytes hold", with(u32::MAX, 0), with(65_535, 0)),
        pair("the most standing and flagged", with(u32::MAX, u32::MAX), with(65_535, 65_535)),
    ]
}

fn broken_and_sound() -> Vec<Pair> {
    [of_the_dials(), of_the_values(), of_the_counts()].concat()
}

#[test]
fn a_broken_tally_of_every_clause_reports_4_beside_a_sound_one() {
    for (clause, broken, sound) in broken_and_sound() {
        assert_eq!(tally(broken).report(), refused_report(Number::Damaged), "{clause}");
        let [dials, standing, flagged, first, last] = sound.map(i64::from);
        let total = last - first + flagged * 10_i64.pow(dials as u32);
        assert_eq!(tally(sound).report(), reported(standing as u16, flagged as u16, total), "beside: {clause}");
    }
}

#[test]
fn the_largest_total_and_the_least_are_reported() {
    let nines = 999_999_999;
    let largest = 65_535 * 1_000_000_000 + i64::from(nines);
    assert_eq!(tally([9, 65_535, 65_535, 0, nines]).report(), reported(65_535, 65_535, largest));
    assert_eq!(tally([9, 65_535, 0, nines, 0]).report(), reported(65_535, 0, -i64::from(nines)));
    assert_eq!(tally([3, 1, 1, 999, 0]).report(), reported(1, 1, 1));
    assert_eq!(tally([3, 0, 0, 0, 0]).report(), reported(0, 0, 0));
}

/// By no call and no answer; the sound one is changed by some.
#[test]
fn a_broken_tally_is_not_changed() {
    for (clause, broken, sound) in broken_and_sound() {
        assert_eq!(changes(tally(broken), &answers(Number::Accepted)), [], "{clause}");
        assert_ne!(changes(tally(sound), &answers(Number::Accepted)), [], "beside: {clause}");
    }
}

// ---- Enrolments ----

#[test]
fn a_tally_of_zeros_reports_3_and_takes_an_enrolment_alone() {
    let zeros = Tally::default();
    assert_eq!(zeros, tally([0; 5]));
    assert_eq!(zeros.report(), refused_report(Number::NoMeter));
    for (dials, reply) in (0..=255).flat_map(|dials| answers(Number::Accepted).into_iter().map(move |r| (dials, r))) {
        let enrolled = if (3..=9).contains(&dials) { tally([u32::from(dials), 0, 0, 0, 0]) } else { zeros };
        for call in enrolments(dials) {
            assert_eq!(changed(zeros, call, reply), enrolled, "{call}, {reply}");
        }
    }
    let changes = changes(zeros, &answers(Number::Accepted));
    assert!(changes.iter().all(|(call, _)| is_enrolment(call)), "{changes:?}");
}

#[test]
fn no_other_tally_takes_an_enrolment() {
    for (beside, broken, sound) in broken_and_sound() {
        for (before, dials) in
            [broken, sound].into_iter().flat_map(|numbers| (0..=10).map(move |dials| (numbers, dials)))
        {
            for call in enrolments(dials) {
                assert_eq!(accepted(tally(before), call, 0, 0), tally(before), "{call}, {before:?}, {beside}");
            }
        }
    }
}

// ---- Submissions ----

/// A submission of this value, accepted with this flag, makes one tally of the other, whatever the answered advance.
fn takes(before: [u32; 5], value: u32, flag: u8, after: [u32; 5]) {
    for advance in [0, 200, -200, i64::MIN, i64::MAX] {
        let made = accepted(tally(before), submission(value), flag, advance);
        assert_eq!(made, tally(after), "{value} with flag {flag} and advance {advance} to {before:?}");
    }
}

#[test]
fn a_read_becomes_the_last_and_where_none_stands_the_first() {
    takes([4, 0, 0, 0, 0], 9200, 0, [4, 1, 0, 9200, 9200]);
    takes([4, 1, 0, 9200, 9200], 9400, 0, [4, 2, 0, 9200, 9400]);
    takes([4, 2, 0, 9200, 9400], 9300, 0, [4, 3, 0, 9200, 9300]);
    takes([4, 2, 0, 9200, 9400], 100, 1, [4, 3, 1, 9200, 100]);
    takes([4, 3, 1, 9200, 100], 0, 0, [4, 4, 1, 9200, 0]);
    takes([4, 0, 0, 0, 0], 0, 0, [4, 1, 0, 0, 0]);
    takes([4, 1, 0, 0, 0], 7, 0, [4, 2, 0, 0, 7]);
}

#[test]
fn a_read_that_the_dials_do_not_show_is_not_taken() {
    for dials in 3..=9 {
        let (nines, turn) = (turn(dials) - 1, turn(dials));
        for before in [[dials, 0, 0, 0, 0], [dials, 5, 2, nines, 0]] {
            let [_, standing, flagged, first, _] = before;
            let first = if standing == 0 { nines } else { first };
            takes(before, nines, 0, [dials, standing + 1, flagged, first, nines]);
            for value in [turn, turn + 1, u32::MAX] {
                takes(before, value, 0, before);
            }
        }
    }
}

#[test]
fn at_most_65_535_reads_are_taken() {
    takes([4, 65_533, 0, 1, 2], 3, 0, [4, 65_534, 0, 1, 3]);
    takes([4, 65_534, 0, 1, 2], 3, 0, [4, 65_535, 0, 1, 3]);
    takes([4, 65_535, 0, 1, 2], 3, 0, [4, 65_535, 0, 1, 2]);
    takes([4, 65_534, 65_534, 1, 2], 3, 1, [4, 65_535, 65_535, 1, 3]);
    takes([4, 65_535, 65_535, 1, 2], 3, 1, [4, 65_535, 65_535, 1, 2]);
}

/// A flag is the number itself, and no more are flagged than stand.
#[test]
fn a_flag_is_added_to_the_flagged() {
    takes([4, 0, 0, 0, 0], 5, 1, [4, 1, 1, 5, 5]);
    takes([4, 0, 0, 0, 0], 5, 2, [4, 0, 0, 0, 0]);
    takes([4, 2, 2, 1, 2], 3, 1, [4, 3, 3, 1, 3]);
    takes([4, 2, 2, 1, 2], 3, 2, [4, 2, 2, 1, 2]);
    takes([4, 2, 1, 1, 2], 3, 2, [4, 3, 3, 1, 3]);
    takes([4, 254, 0, 1, 2], 3, 255, [4, 255, 255, 1, 3]);
    takes([4, 253, 0, 1, 2], 3, 255, [4, 253, 0, 1, 2]);
    takes([4, 300, 46, 1, 2], 3, 255, [4, 301, 301, 1, 3]);
    takes([4, 300, 47, 1, 2], 3, 255, [4, 300, 47, 1, 2]);
}

// ---- Withdrawals ----

/// An accepted withdrawal with this flag and advance makes one tally of the other.
fn gives_back(before: [u32; 5], flag: u8, advance: i64, after: [u32; 5]) {
    let made = accepted(tally(before), withdrawal(), flag, advance);
    assert_eq!(made, tally(after), "flag {flag} and advance {advance} to {before:?}");
}

#[test]
fn a_withdrawal_takes_back_a_read_its_flag_and_its_advance() {
    gives_back([4, 2, 0, 9200, 9400], 0, -200, [4, 1, 0, 9200, 9200]);
    gives_back([4, 3, 0, 9200, 9300], 0, 100, [4, 2, 0, 9200, 9400]);
    gives_back([4, 3, 1, 9200, 100], 1, -700, [4, 2, 0, 9200, 9400]);
    gives_back([4, 5, 2, 9200, 100], 1, -700, [4, 4, 1, 9200, 9400]);
    gives_back([4, 5, 2, 9200, 100], 0, -100, [4, 4, 2, 9200, 0]);
    gives_back([4, 65_535, 0, 1, 2], 0, 0, [4, 65_534, 0, 1, 2]);
}

#[test]
fn nothing_is_taken_back_where_none_stands() {
    let none = [4, 0, 0, 0, 0];
    for (flag, advance) in [0, 1, 255].into_iter().flat_map(|flag| [0, 1, -1, i64::MIN, i64::MAX].map(|a| (flag, a))) {
        gives_back(none, flag, advance, none);
    }
}

/// For each number of dials and some flags, the last value goes down to 0 and up to all nines and no further.
#[test]
fn the_last_value_stays_on_the_dials() {
    for (dials, flag) in (3..=9).flat_map(|dials| [0, 1, 2, 255].map(|flag| (dials, flag))) {
        let (nines, turns) = (turn(dials) - 1, i64::from(turn(dials)) * i64::from(flag));
        for last in [0, 5, nines] {
            let before = [dials, 300, 255, 7, last];
            let after = |last| [dials, 299, 255 - u32::from(flag), 7, last];
            let to_zero = -i64::from(last) - turns;
            let to_nines = to_zero + i64::from(nines);
            gives_back(before, flag, to_zero, after(0));
            gives_back(before, flag, to_zero + 1, after(1));
            gives_back(before, flag, to_nines, after(nines));
            for advance in [to_zero - 1, to_nines + 1, i64::MIN, i64::MIN + 1, i64::MAX - 1, i64::MAX] {
                gives_back(before, flag, advance, before);
            }
        }
    }
}

#[test]
fn no_more_flags_are_taken_back_than_there_are() {
    for (before, flag) in [([4, 3, 0, 5, 5], 1), ([4, 3, 1, 5, 5], 2), ([4, 300, 254, 5, 5], 255)] {
        gives_back(before, flag, -10_000 * i64::from(flag), before);
        let enough = [4, before[1], before[2] + 1, 5, 5];
        gives_back(enough, flag, -10_000 * i64::from(flag), [4, before[1] - 1, 0, 5, 5]);
    }
    // Nor are fewer, where more would be flagged than stand.
    gives_back([4, 3, 3, 5, 5], 0, 0, [4, 3, 3, 5, 5]);
    gives_back([4, 3, 3, 5, 5], 1, -10_000, [4, 2, 2, 5, 5]);
}

/// Whatever the answered advance: the last value does not matter where none is left.
#[test]
fn the_only_read_leaves_two_values_of_0() {
    for advance in [0, 1, -1, 200, -200, i64::MIN, i64::MAX] {
        gives_back([4, 1, 0, 9200, 9200], 0, advance, [4, 0, 0, 0, 0]);
        gives_back([4, 1, 0, 0, 9999], 0, advance, [4, 0, 0, 0, 0]);
        gives_back([4, 1, 1, 9200, 9200], 1, advance, [4, 0, 0, 0, 0]);
        gives_back([4, 1, 0, 9200, 9200], 1, advance, [4, 1, 0, 9200, 9200]);
        gives_back([4, 1, 1, 9200, 9200], 0, advance, [4, 1, 1, 9200, 9200]);
    }
}

// ---- What changes no tally ----

/// Of zeros, of no read and of reads.
const BEFORE: [[u32; 5]; 4] = [[0; 5], [4, 0, 0, 0, 0], [4, 1, 0, 30, 30], [9, 300, 255, 7, 8]];

/// Held reads too, and a number that this version has no row for; the flag and the advance do not matter.
#[test]
fn a_refusal_changes_no_tally() {
    for before in BEFORE.map(tally) {
        for &number in Number::ALL.iter().chain(&[Number::Unknown]) {
            let changes = changes(before, &answers(number));
            assert_eq!(changes.is_empty(), number != Number::Accepted, "{number}, {before:?}: {changes:?}");
        }
    }
}

#[test]
fn a_fold_and_a_report_change_no_tally() {
    let calls = [Call::Fold { place: 0 }, Call::Report { place: 0 }];
    for (before, call) in BEFORE.map(tally).into_iter().flat_map(|before| calls.map(|call| (before, call))) {
        for reply in answers(Number::Accepted).into_iter().chain([Reply::Report(reported(300, 255, 1))]) {
            assert_eq!(changed(before, call, reply), before, "{call}, {reply}");
        }
    }
}

/// Nothing is told of it, whatever it was answered; a submission of the same read is.
#[test]
fn a_trial_changes_no_tally() {
    for before in BEFORE.map(tally) {
        for reply in answers(Number::Accepted) {
            assert_eq!(changed(before, trial(30), reply), before, "{before:?}, {reply}");
        }
        let is_enrolled = before != Tally::default();
        assert_eq!(accepted(before, submission(30), 0, 0) != before, is_enrolled, "{before:?}");
    }
}

/// A report is no answer to any other call.
#[test]
fn a_reply_that_does_not_fit_the_call_changes_no_tally() {
    let replies = [reported(0, 0, 0), reported(1, 1, 1), refused_report(Number::NoMeter)].map(Reply::Report);
    for before in BEFORE.map(tally) {
        assert_eq!(changes(before, &replies), []);
    }
}

/// By nothing of a call but an enrolment's dials and a submission's value.
#[test]
fn the_other_fields_of_a_call_do_not_matter() {
    let before = tally([4, 2, 1, 9200, 100]);
    for place in [0, 1, 63, 64, 65_535] {
        for (day, value) in [(0, 0), (300, 100), (65_535, u32::MAX)] {
            let withdrawn = accepted(before, Call::Withdraw { place, day, value }, 1, -300);
            assert_eq!(withdrawn, tally([4, 1, 0, 9200, 9800]), "place {place}, day {day}, value {value}");
            let mut read = read(day, letter::FINAL, 500);
            (read.submitted, read.indicator, read.reread) = (day, 2, 1);
            let taken = accepted(before, Call::Submit { place, read }, 0, 400);
            assert_eq!(taken, tally([4, 3, 1, 9200, 500]), "place {place}, day {day}");
        }
        for capacity in [0, 1, u32::MAX] {
            let enrolled = accepted(Tally::default(), Call::EnrolPseudo { place, dials: 3, capacity }, 0, 0);
            assert_eq!(enrolled, tally([3, 0, 0, 0, 0]), "place {place}, capacity {capacity}");
        }
    }
}
