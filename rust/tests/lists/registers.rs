//! Random registers: areas of every sort, and lengths that do not fit.

use super::journals::{any_read, put_carry, sound_area, write_meter, write_read};
use super::journals::{CARRY_BYTES, ENTRY_BYTES, METER_BYTES};
use super::meter::{head_bytes, look_at};
use super::Random;
use necktureen::{AREA_BYTES, REGISTER_BYTES};

/// A register of 64 areas of every sort: sound, damaged, random, all zero.
pub fn any_register(random: &mut Random) -> Vec<u8> {
    (0..REGISTER_BYTES / AREA_BYTES).flat_map(|_| any_area(random)).collect()
}

fn any_area(random: &mut Random) -> Vec<u8> {
    let mut area = vec![0; AREA_BYTES];
    match random.index(26) {
        0 => {}
        1 => area.fill_with(|| random.byte()),
        2 => {
            area.fill_with(|| random.byte());
            write_meter(random, &mut area);
        }
        3 => random_entries(random, &mut area),
        4..=15 => sound_area(random, &mut area),
        16..=19 => {
            sound_area(random, &mut area);
            damage_bytes(random, &mut area);
        }
        20..=23 => {
            sound_area(random, &mut area);
            damage_an_entry(random, &mut area);
        }
        // A meter of the other kind, or of none.
        _ => {
            sound_area(random, &mut area);
            area[0] = random.pick(&[0, 1, 2, 6, 7, 7, 8, 255]);
        }
    }
    area
}

/// A few entries whose fields are in range and whose order means nothing.
fn random_entries(random: &mut Random, area: &mut [u8]) {
    let head = write_meter(random, area);
    let count = random.index(5);
    if random.once_in(3) {
        let [first, folded, flagged] = [head.turn, 4, 3].map(|most| random.between(0, most));
        put_carry(&mut area[METER_BYTES..], first as u32, folded as u16, flagged as u16);
    }
    let start = head_bytes(area);
    for entry in area[start..].chunks_exact_mut(ENTRY_BYTES).take(count) {
        let kind = random.pick(&[2, 2, 3, 4]);
        let flag = random.pick(&[0, 0, 1]);
        write_read(entry, kind, any_read(random, head), flag);
    }
}

/// One byte or a few, mostly among the entries or just behind them.
fn damage_bytes(random: &mut Random, area: &mut [u8]) {
    let used = area.iter().rposition(|&byte| byte != 0).unwrap_or(0) + 1;
    for _ in 0..random.pick(&[1, 1, 1, 2, 4]) {
        let at = match random.index(4) {
            0 => random.index(AREA_BYTES),
            1 => random.index(8),
            2 => AREA_BYTES - 1 - random.index(8),
            _ => random.index((used + 2).min(AREA_BYTES)),
        };
        area[at] = match random.index(4) {
            0 => random.byte(),
            1 => area[at] ^ (1 << random.index(8)),
            2 => area[at].wrapping_add(1),
            _ => random.pick(&[0, 1, 2, 3, 4, 5, 7, 255]),
        };
    }
}

/// One field of one entry takes a value that breaks, or nearly breaks, a rule of soundness.
fn damage_an_entry(random: &mut Random, area: &mut [u8]) {
    let start = head_bytes(area);
    if start > METER_BYTES && random.once_in(2) {
        return damage_a_carry(random, area);
    }
    let count = area[start..].chunks_exact(ENTRY_BYTES).take_while(|entry| entry[0] != 0).count();
    if count == 0 {
        return damage_bytes(random, area);
    }
    let turn = 10_u32.pow(u32::from(area[1]));
    let other: [u8; 10] = area[start + ENTRY_BYTES * random.index(count)..][..10].try_into().expect("ten bytes");
    let entry = &mut area[start + ENTRY_BYTES * random.index(count)..][..ENTRY_BYTES];
    match random.index(12) {
        0 => entry[0] = random.pick(&[1, 2, 3, 4, 5, 7]),
        1 => entry[1..3].copy_from_slice(&other[1..3]),
        2 => entry[1..7].copy_from_slice(&other[1..7]),
        3 => entry[1..3].copy_from_slice(&random.pick(&[0_u16, 1, 65_535]).to_le_bytes()),
        4 => entry[3..7].copy_from_slice(&random.pick(&[turn - 1, turn, turn + 1, u32::MAX]).to_le_bytes()),
        5 => entry[7] = random.pick(b"IOFCURTSXYEiZ"),
        6 => entry[7] = random.byte(),
        7 => entry[7] = random.pick(b"IOF"),
        8 => entry[8] = random.pick(&[0, 1, 2, 3]),
        9 => entry[9] = random.pick(&[0, 1, 2]),
        10 => entry.fill(0),
        _ => entry.copy_from_slice(&other),
    }
}

/// The same of a carry: at the edge of one of its clauses, or with its bytes out of place.
fn damage_a_carry(random: &mut Random, area: &mut [u8]) {
    let turn = 10_u32.pow(u32::from(area[1]));
    let oldest = look_at(area).standing.first().map_or(1, |&(read, _)| read.day);
    let carry = &mut area[METER_BYTES..][..CARRY_BYTES];
    let folded = u16::from_le_bytes([carry[5], carry[6]]);
    match random.index(7) {
        0 => carry[1..5].copy_from_slice(&random.pick(&[turn - 1, turn, turn + 1, u32::MAX]).to_le_bytes()),
        1 => carry[5..7].copy_from_slice(&(oldest.wrapping_add(random.between(-1, 1) as u16)).to_le_bytes()),
        2 => carry[5..9].copy_from_slice(&random.pick(&[[0, 0, 0, 0], [1, 0, 1, 0], [0, 1, 1, 0], [1, 0, 0, 1]])),
        3 => carry[7..9].copy_from_slice(&(folded.wrapping_add(random.between(-1, 1) as u16)).to_le_bytes()),
        4 => carry[0] = random.pick(&[0, 1, 2, 3, 4, 6, 7]),
        5 => area.copy_within(METER_BYTES..AREA_BYTES - CARRY_BYTES, METER_BYTES + CARRY_BYTES),
        _ => area.copy_within(METER_BYTES + 1.., METER_BYTES),
    }
}

/// A register of another length than the right one, with any content.
pub fn misfit_register(random: &mut Random) -> Vec<u8> {
    let any_length = random.index(40_000);
    let length = random.pick(&[0, 1, 511, 512, REGISTER_BYTES - 1, REGISTER_BYTES + 1, 2 * REGISTER_BYTES, any_length]);
    let length = if length == REGISTER_BYTES { 0 } else { length };
    let fill = random.pick(&[0, 1, 255]);
    vec![fill; length]
}
