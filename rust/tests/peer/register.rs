//! The register: where an area lies, and an area as plate, carry and entries.

use super::journal::{Carry, Entry, Journal, Read};
use super::profile::Profile;
use necktureen::{Number, Submission};
use std::ops::Range;

pub const REGISTER_BYTES: usize = 32_768;
pub const AREA_BYTES: usize = 512;
pub const METER_BYTES: usize = 6;
pub const CARRY_BYTES: usize = 9;
pub const ENTRY_BYTES: usize = 10;
pub const MOST_ENTRIES: usize = 50;
pub const MOST_ENTRIES_AFTER_CARRY: usize = 49;

pub const STANDING: u8 = 2;
pub const WITHDRAWN: u8 = 3;
pub const HELD: u8 = 4;
pub const CARRY: u8 = 5;

/// Where the area of a place lies: checks 2 and, for the place, 3.
pub fn area_range(register: &[u8], place: u16) -> Result<Range<usize>, Number> {
    if register.len() != REGISTER_BYTES {
        return Err(Number::Misfit);
    }
    if place > 63 {
        return Err(Number::NoMeter);
    }
    let start = AREA_BYTES * usize::from(place);
    Ok(start..start + AREA_BYTES)
}

/// The journal of a place: checks 2 to 4.
pub fn open(register: &[u8], place: u16) -> Result<Journal<'_>, Number> {
    let area = &register[area_range(register, place)?];
    if all_zero(area) {
        return Err(Number::NoMeter);
    }
    match split(area) {
        Some(journal) if journal.is_sound() => Ok(journal),
        _ => Err(Number::Damaged),
    }
}

/// Parts an area into plate, carry, entries and zeros. A journal ends at its first zero kind byte, and from there on
/// every byte is zero; so a kind byte too near the end for its body, or after the most entries, is damage.
fn split(area: &[u8]) -> Option<Journal<'_>> {
    let profile = Profile::of_kind(area[0])?;
    let (plate, after_plate) = area.split_at(METER_BYTES);
    let carry = (after_plate[0] == CARRY).then(|| read_carry(after_plate));
    let capacity = u32::from_le_bytes([plate[2], plate[3], plate[4], plate[5]]);
    let mut journal = Journal { profile, dials: plate[1], capacity, carry, entries: &[] };
    let body = &area[journal.start()..];
    let may_follow = body.chunks_exact(ENTRY_BYTES).take(journal.most_entries());
    let count = may_follow.take_while(|entry| entry[0] != 0).count();
    let (entries, rest) = body.split_at(ENTRY_BYTES * count);
    journal.entries = entries;
    all_zero(rest).then_some(journal)
}

pub fn all_zero(bytes: &[u8]) -> bool {
    bytes.iter().all(|&byte| byte == 0)
}

pub fn plate_fits(dials: u8, capacity: u32) -> bool {
    (3..=9).contains(&dials) && capacity >= 1
}

fn read_carry(bytes: &[u8]) -> Carry {
    Carry {
        first: u32::from_le_bytes([bytes[1], bytes[2], bytes[3], bytes[4]]),
        folded: u16::from_le_bytes([bytes[5], bytes[6]]),
        flagged: u16::from_le_bytes([bytes[7], bytes[8]]),
    }
}

pub fn write_carry(bytes: &mut [u8], carry: Carry) {
    bytes[0] = CARRY;
    bytes[1..5].copy_from_slice(&carry.first.to_le_bytes());
    bytes[5..7].copy_from_slice(&carry.folded.to_le_bytes());
    bytes[7..CARRY_BYTES].copy_from_slice(&carry.flagged.to_le_bytes());
}

pub fn read_entry(bytes: &[u8]) -> Entry {
    let read = Read {
        day: u16::from_le_bytes([bytes[1], bytes[2]]),
        value: u32::from_le_bytes([bytes[3], bytes[4], bytes[5], bytes[6]]),
        letter: bytes[7],
        indicator: bytes[8],
        flag: bytes[9],
    };
    Entry { kind: bytes[0], read }
}

pub fn write_entry(bytes: &mut [u8], kind: u8, read: &Submission, flag: u8) {
    bytes[0] = kind;
    bytes[1..3].copy_from_slice(&read.day.to_le_bytes());
    bytes[3..7].copy_from_slice(&read.value.to_le_bytes());
    bytes[7] = read.letter;
    bytes[8] = read.indicator;
    bytes[9] = flag;
}
