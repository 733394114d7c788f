//! Document 01, with the leap years, the folds, the same-day search, the pseudo meters, the three-dial meters, the standing
//! tally and the trials of document 02, written a second time, by hand and from the papers alone, for the tests and the
//! benchmark.
//!
//! It shares with the library the types of a submission, of a date, of a call and of the answers and nothing else: register,
//! rules, order of checks, tally, calendar and day sheet are its own. Where the paper leaves room, a comment says how it
//! is read.
#![allow(dead_code, unused_imports)]

pub mod calendar;
mod fold;
mod journal;
mod profile;
mod register;
mod search;
mod sheet;
mod sound;
mod submission;
mod tally;
mod withdrawal;

pub use sheet::{play, run};
pub use tally::Tally;

use necktureen::{Answer, Number, Report, Search, Submission};
use profile::Profile;
use register::{all_zero, area_range, open, plate_fits, write_entry};
use register::{AREA_BYTES, ENTRY_BYTES, HELD, METER_BYTES, STANDING, WITHDRAWN};

const POWERS: [i64; 10] = [1, 10, 100, 1_000, 10_000, 100_000, 1_000_000, 10_000_000, 100_000_000, 1_000_000_000];

// ---- The calls ----

pub fn enrol(register: &mut [u8], place: u16, dials: u8, capacity: u32) -> Answer {
    enrol_as(Profile::Ordinary, register, place, dials, capacity)
}

pub fn enrol_pseudo(register: &mut [u8], place: u16, dials: u8, capacity: u32) -> Answer {
    enrol_as(Profile::Pseudo, register, place, dials, capacity)
}

/// The checks are the same, and so is the body.
fn enrol_as(profile: Profile, register: &mut [u8], place: u16, dials: u8, capacity: u32) -> Answer {
    let range = match area_range(register, place) {
        Ok(range) => range,
        Err(number) => return refused(number),
    };
    let area = &mut register[range];
    if !all_zero(area) {
        return refused(Number::Enrolled);
    }
    if !plate_fits(dials, capacity) {
        return refused(Number::Plate);
    }
    area[0] = profile.kind();
    area[1] = dials;
    area[2..METER_BYTES].copy_from_slice(&capacity.to_le_bytes());
    Answer { number: Number::Accepted, flag: 0, advance: 0 }
}

pub fn submit(register: &mut [u8], place: u16, read: Submission) -> Answer {
    let verdict = match submission::judge(register, place, &read) {
        Ok(verdict) => verdict,
        Err(number) => return refused(number),
    };
    let kind = if verdict.number == Number::Accepted { STANDING } else { HELD };
    let start = AREA_BYTES * usize::from(place) + verdict.at;
    write_entry(&mut register[start..start + ENTRY_BYTES], kind, &read, verdict.flag);
    if verdict.number == Number::Accepted {
        Answer { number: Number::Accepted, flag: verdict.flag, advance: verdict.advance }
    } else {
        refused(verdict.number)
    }
}

/// "A trial takes the same arguments as a submission and gives the answer that the submission would give on a copy of the
/// register. The register given is not written."
pub fn trial(register: &[u8], place: u16, read: Submission) -> Answer {
    let mut copy = register.to_vec();
    submit(&mut copy, place, read)
}

pub fn withdraw(register: &mut [u8], place: u16, day: u16, value: u32) -> Answer {
    let withdrawal = match withdrawal::judge(register, place, day, value) {
        Ok(withdrawal) => withdrawal,
        Err(number) => return refused(number),
    };
    let start = AREA_BYTES * usize::from(place);
    let area = &mut register[start..start + AREA_BYTES];
    area[withdrawal.at] = WITHDRAWN;
    if let Some(held_at) = withdrawal.held_at {
        area[held_at..held_at + ENTRY_BYTES].fill(0);
    }
    Answer { number: Number::Accepted, flag: withdrawal.flag, advance: withdrawal.advance }
}

pub fn fold(register: &mut [u8], place: u16) -> Answer {
    let folded = match fold::judge(register, place) {
        Ok(folded) => folded,
        Err(number) => return refused(number),
    };
    let start = AREA_BYTES * usize::from(place);
    register[start..start + AREA_BYTES].copy_from_slice(&folded);
    Answer { number: Number::Accepted, flag: 0, advance: 0 }
}

/// Folded reads are counted, and the first value is that of the first of them.
pub fn report(register: &[u8], place: u16) -> Report {
    let journal = match open(register, place) {
        Ok(journal) => journal,
        Err(number) => return Report { number, standing: 0, flagged: 0, total: 0 },
    };
    let mut standing = journal.standing().count();
    let mut flagged = journal.standing().filter(|read| read.flag == 1).count();
    let mut first = journal.standing().next().map(|read| read.value);
    if let Some(carry) = journal.carry {
        standing += usize::from(carry.folded);
        flagged += usize::from(carry.flagged);
        first = Some(carry.first);
    }
    let total = match (first, journal.last()) {
        (Some(first), Some(last)) => i64::from(last.value) - i64::from(first) + journal.turn() * flagged as i64,
        _ => 0,
    };
    Report { number: Number::Accepted, standing: standing as u16, flagged: flagged as u16, total }
}

pub fn journal(register: &[u8], place: u16) -> &[u8] {
    match open(register, place) {
        Ok(journal) => {
            let start = AREA_BYTES * usize::from(place);
            &register[start..start + journal.start() + journal.entries.len()]
        }
        Err(_) => &[],
    }
}

/// What the same-day search answers for one day.
pub fn search(register: &[u8], place: u16, day: u16) -> Search {
    match open(register, place) {
        Ok(journal) => search::search(&journal.standing().collect::<Vec<_>>(), day),
        Err(number) => Search { number, found: None, compared: 0 },
    }
}

/// What the same-day search answers for each day from 0 to 65,535, or the number that refuses it on every day.
pub fn search_each_day(register: &[u8], place: u16) -> Result<Vec<Search>, Number> {
    open(register, place).map(|journal| search::search_each_day(&journal))
}

fn refused(number: Number) -> Answer {
    Answer { number, flag: 0, advance: 0 }
}
