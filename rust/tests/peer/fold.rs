//! A fold: its checks, and the area that it leaves.

use super::journal::{Carry, Entry, Journal, Read};
use super::register::{open, read_entry, write_carry};
use super::register::{AREA_BYTES, CARRY_BYTES, ENTRY_BYTES, METER_BYTES, STANDING, WITHDRAWN};
use necktureen::Number;

/// How many standing reads are kept.
const KEPT: usize = 3;

/// 2, 3, 4 and 27, or the area as it is left.
pub fn judge(register: &[u8], place: u16) -> Result<Vec<u8>, Number> {
    let journal = open(register, place)?;
    let standing: Vec<Read> = journal.standing().collect();
    // Folded reads do not stand any more: these are the kind 2 entries alone.
    if standing.len() < KEPT + 1 || journal.final_stands() {
        return Err(Number::NoFold);
    }
    let (folded, kept) = standing.split_at(standing.len() - KEPT);
    let start = AREA_BYTES * usize::from(place);
    // The meter's entry stays as it is, of either kind.
    let mut area = register[start..start + METER_BYTES].to_vec();
    area.resize(METER_BYTES + CARRY_BYTES, 0);
    write_carry(&mut area[METER_BYTES..], carry_with(journal.carry, folded));
    for entry in journal.entries.chunks_exact(ENTRY_BYTES) {
        if stays(read_entry(entry), kept[0].day) {
            area.extend_from_slice(entry);
        }
    }
    area.resize(AREA_BYTES, 0);
    Ok(area)
}

/// The carry that there is, or that of no read, with these reads added. The first value of all is kept.
fn carry_with(carry: Option<Carry>, folded: &[Read]) -> Carry {
    let before = carry.unwrap_or(Carry { first: folded[0].value, folded: 0, flagged: 0 });
    Carry {
        first: before.first,
        folded: before.folded + folded.len() as u16,
        flagged: before.flagged + folded.iter().filter(|read| read.flag == 1).count() as u16,
    }
}

/// Withdrawn entries go if they are dated no later than the oldest kept read. A held read is later than every standing
/// one, and stays.
fn stays(entry: Entry, oldest_day: u16) -> bool {
    match entry.kind {
        STANDING => entry.read.day >= oldest_day,
        WITHDRAWN => entry.read.day > oldest_day,
        _ => true,
    }
}
