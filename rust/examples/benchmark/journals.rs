//! The registers that calls are made on: 64 equal journals, with reads of every type but F, of which only one may stand.
//! Those of pseudo meters have an I and an F, and those whose dials are about to turn three reads just below the turn.

use necktureen::{Submission, Tally, AREA_BYTES};

pub const PLACES: u16 = 64;
pub const DIALS: u8 = 6;
/// 300 m³ a year let 100 m³ in 180 days pass and refuse 190 m³, which is below twice as much.
pub const CAPACITY: u32 = 300;
/// How far the dials go from one read to the next.
pub const ADVANCE: u32 = 100;

const FIRST_DAY: u16 = 1000;
const DAYS: u16 = 180;
/// The letters of the reads after the opening one, in turn.
const LETTERS: [u8; 8] = *b"CURTSXYE";
/// How many reads were dated ahead, where some were.
const AHEAD: usize = 24;
/// The library keeps withdrawn reads in so many buckets. A read's bucket is the remainder of its day and value together.
const BUCKETS: u32 = 256;
/// How many reads stand where the dials are about to turn, how far these go from one read to the next, and how far below
/// the turn the last of them is.
pub const BEFORE_TURN: usize = 3;
const ADVANCE_TO_TURN: u32 = 40;
const BELOW_TURN: u32 = 10;
/// How many reads were folded where a journal has a carry: as many as a fold of 50 folds.
const FOLDED: usize = 47;
const METER_BYTES: usize = 6;
const CARRY_BYTES: usize = 9;
const ENTRY_BYTES: usize = 10;

/// What a journal begins with.
#[derive(Clone, Copy, PartialEq)]
pub enum Head {
    Meter,
    /// A meter and a carry.
    Carried,
    PseudoMeter,
}

/// Which entries of a journal are withdrawn.
#[derive(Clone, Copy)]
pub enum Withdrawn {
    None,
    /// A misread before each read but the first. No two misreads share a bucket.
    EverySecond,
    /// The same, but each misread is in the bucket of the read that it is a misread of, and has to be looked at for it.
    EverySecondAlike,
    /// The same, but all reads are in one bucket too. From the second misread on it is crowded: each entry is then taken by
    /// all the rules, each read that stands is in doubt, and in the end each misread is looked up.
    OneBucket,
    /// Misreads after the first read.
    AllButFirst,
    /// 24 reads after the first were sent with a day that is half a round ahead, and all of them withdrawn before they
    /// were sent again.
    DatedAhead,
}

impl Withdrawn {
    /// How many of a journal's first entries stand.
    pub fn standing(self, entries: usize) -> usize {
        match self {
            Withdrawn::None => entries,
            Withdrawn::EverySecond | Withdrawn::EverySecondAlike | Withdrawn::OneBucket => entries.div_ceil(2),
            Withdrawn::AllButFirst => entries.min(1),
            Withdrawn::DatedAhead => entries.min(1) + entries.saturating_sub(1 + AHEAD),
        }
    }

    /// How far the dials go from one read to the next. Reads stay in one bucket if advance and days together make 256.
    pub fn advance(self) -> u32 {
        match self {
            Withdrawn::OneBucket => BUCKETS - u32::from(DAYS),
            _ => ADVANCE,
        }
    }

    /// What the dials show at the read that so many others stand before.
    pub fn value(self, standing: usize) -> u32 {
        self.advance() * (standing as u32 + 1)
    }

    /// The read that follows so many standing ones, with this advance.
    pub fn next_read(self, standing: usize, advance: u32) -> Submission {
        let (day, last) = (day(standing), self.value(standing) - self.advance());
        Submission { submitted: day, day, value: last + advance, letter: letter(standing), indicator: 0, reread: 0 }
    }

    /// Day and value of the withdrawn read at a position, with so many standing before it.
    fn read_at(self, position: usize, standing: usize) -> (u16, u32) {
        let read = self.value(standing);
        match self {
            Withdrawn::DatedAhead => (day(position) + DAYS / 2, self.value(position)),
            Withdrawn::EverySecondAlike | Withdrawn::OneBucket => (day(standing), read + BUCKETS),
            _ => (day(standing), read + 1 + position as u32),
        }
    }
}

/// The day of the read that so many others stand before.
pub fn day(standing: usize) -> u16 {
    FIRST_DAY + DAYS * standing as u16
}

fn letter(standing: usize) -> u8 {
    match standing.checked_sub(1) {
        None => b'I',
        Some(later) => LETTERS[later % LETTERS.len()],
    }
}

/// An area with a meter and no read.
fn empty_area() -> Vec<u8> {
    let mut area = vec![0; AREA_BYTES];
    area[..2].copy_from_slice(&[1, DIALS]);
    area[2..METER_BYTES].copy_from_slice(&CAPACITY.to_le_bytes());
    area
}

/// A register with the same journal at every place. A withdrawn entry is a misread of the read that stands next, of its
/// day and type with another value, or was dated ahead.
pub fn register(entries: usize, withdrawn: Withdrawn) -> Vec<u8> {
    let mut area = empty_area();
    for (position, entry) in area[METER_BYTES..].chunks_exact_mut(ENTRY_BYTES).take(entries).enumerate() {
        let standing = withdrawn.standing(position);
        let stands = withdrawn.standing(position + 1) > standing;
        let (kind, (day, value)) = if stands {
            (2, (day(standing), withdrawn.value(standing)))
        } else {
            (3, withdrawn.read_at(position, standing))
        };
        write_entry(entry, kind, day, value, letter(standing));
    }
    area.repeat(usize::from(PLACES))
}

/// The tally of such a journal where nothing is withdrawn: of so many reads, at least one.
pub fn tally(entries: usize) -> Tally {
    let [first, last] = [0, entries - 1].map(|standing| Withdrawn::None.value(standing));
    Tally { dials: DIALS.into(), standing: entries as u32, flagged: 0, first, last }
}

/// The same with a carry of the first reads, and so many standing ones after it.
pub fn carried_register(entries: usize) -> Vec<u8> {
    let mut area = empty_area();
    let (carry, body) = area[METER_BYTES..].split_at_mut(CARRY_BYTES);
    carry[0] = 5;
    carry[1..5].copy_from_slice(&Withdrawn::None.value(0).to_le_bytes());
    carry[5..7].copy_from_slice(&(FOLDED as u16).to_le_bytes());
    for (position, entry) in body.chunks_exact_mut(ENTRY_BYTES).take(entries).enumerate() {
        let standing = FOLDED + position;
        write_entry(entry, 2, day(standing), Withdrawn::None.value(standing), letter(standing));
    }
    area.repeat(usize::from(PLACES))
}

/// A register of pseudo meters, each with an initial read, and after it a final one that stands or misreads of it.
pub fn pseudo_register(entries: usize, withdrawn: Withdrawn) -> Vec<u8> {
    let mut register = register(entries, withdrawn);
    for area in register.chunks_exact_mut(AREA_BYTES) {
        area[0] = 7;
        area[METER_BYTES..].chunks_exact_mut(ENTRY_BYTES).take(entries).skip(1).for_each(|entry| entry[7] = b'F');
    }
    register
}

/// A register of meters with so many dials, which are about to turn.
pub fn register_before_turn(dials: u8) -> Vec<u8> {
    let mut register = register(BEFORE_TURN, Withdrawn::None);
    let last = 10_u32.pow(u32::from(dials)) - BELOW_TURN;
    for area in register.chunks_exact_mut(AREA_BYTES) {
        area[1] = dials;
        let reads = area[METER_BYTES..].chunks_exact_mut(ENTRY_BYTES).take(BEFORE_TURN);
        for (value, entry) in (0..).map(|k| last - ADVANCE_TO_TURN * k).zip(reads.rev()) {
            entry[3..7].copy_from_slice(&value.to_le_bytes());
        }
    }
    register
}

/// The read after the turn, as far from the last one as that is from the one before.
pub fn read_after_turn() -> Submission {
    Submission { value: ADVANCE_TO_TURN - BELOW_TURN, ..Withdrawn::None.next_read(BEFORE_TURN, ADVANCE) }
}

/// The read that follows so many standing ones after a carry.
pub fn next_read_carried(entries: usize) -> Submission {
    Withdrawn::None.next_read(FOLDED + entries, ADVANCE)
}

fn write_entry(entry: &mut [u8], kind: u8, day: u16, value: u32, letter: u8) {
    entry[0] = kind;
    entry[1..3].copy_from_slice(&day.to_le_bytes());
    entry[3..7].copy_from_slice(&value.to_le_bytes());
    entry[7..].copy_from_slice(&[letter, 0, 0]);
}

/// Gives the entry that follows so many others an unknown type, at every place.
pub fn damage(register: &mut [u8], entries: usize) {
    for area in register.chunks_exact_mut(AREA_BYTES) {
        area[METER_BYTES + ENTRY_BYTES * entries + 7] = b'Z';
    }
}
