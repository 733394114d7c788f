//! Random journals: sound ones, of every length and with all that they may hold.

use super::meter::Read;
use super::reads::in_first_bucket;
use super::{plate, Random};

pub const METER_BYTES: usize = 6;
pub const CARRY_BYTES: usize = 9;
pub const ENTRY_BYTES: usize = 10;

/// What the reads of a journal have to fit.
#[derive(Clone, Copy)]
pub struct Head {
    pub is_pseudo: bool,
    /// 10^n.
    pub turn: i64,
}

impl Head {
    /// The types that it takes.
    fn letters(self) -> &'static [u8] {
        if self.is_pseudo {
            b"IF"
        } else {
            b"IOFCURTSXYE"
        }
    }
}

/// One in three is a pseudo meter.
pub fn write_meter(random: &mut Random, area: &mut [u8]) -> Head {
    let (dials, capacity) = plate(random);
    let is_pseudo = random.once_in(3);
    area[..2].copy_from_slice(&[if is_pseudo { 7 } else { 1 }, dials]);
    area[2..6].copy_from_slice(&capacity.to_le_bytes());
    Head { is_pseudo, turn: 10_i64.pow(u32::from(dials)) }
}

pub fn write_read(entry: &mut [u8], kind: u8, read: Read, flag: u8) {
    entry[0] = kind;
    entry[1..3].copy_from_slice(&read.day.to_le_bytes());
    entry[3..7].copy_from_slice(&read.value.to_le_bytes());
    entry[7..10].copy_from_slice(&[read.letter, read.indicator, flag]);
}

pub fn any_read(random: &mut Random, head: Head) -> Read {
    let letter = random.pick(head.letters());
    let indicator = if letter == b'I' || letter == b'O' { 0 } else { random.pick(&[0, 1, 2]) };
    let value = random.between(0, head.turn - 1) as u32;
    Read { day: random.between(1, 200) as u16, value, letter, indicator }
}

/// A journal meant to be sound, also one that no list of calls leads to. One in three has a carry.
pub fn sound_area(random: &mut Random, area: &mut [u8]) {
    let head = write_meter(random, area);
    let is_carried = random.once_in(3);
    let style = Style::any(random, head, is_carried);
    let (most, start) = if is_carried { (49, METER_BYTES + CARRY_BYTES) } else { (50, METER_BYTES) };
    let any_count = random.index(most + 1);
    let count = random.pick(&[0, 1, 2, 3, 4, 5, 10, 25, most - 2, most - 1, most, any_count]);
    let first = write_entries(random, &style, &mut area[start..], count.max(usize::from(is_carried)));
    if is_carried {
        write_carry(random, head.turn, &mut area[METER_BYTES..], first.map_or(2, |read| read.day));
    }
}

/// How the reads of a journal follow each other.
struct Style {
    head: Head,
    is_carried: bool,
    pace: i64,
    steady: bool,
    one_bucket: bool,
    /// The first read is near the last day there is, and the others are a day apart.
    late: bool,
    withdrawn_in: u64,
    has_held: bool,
}

impl Style {
    fn any(random: &mut Random, head: Head, is_carried: bool) -> Style {
        Style {
            head,
            is_carried,
            pace: random.between(0, head.turn / 11),
            steady: random.once_in(2),
            one_bucket: random.once_in(4),
            late: random.once_in(8),
            withdrawn_in: random.pick(&[2, 4, 100]),
            has_held: random.once_in(4),
        }
    }

    fn next_day(&self, random: &mut Random, last: Option<Read>) -> i64 {
        match last {
            None if self.late => 65_535 - random.pick(&[48, 49, 50, 60, 400]),
            None => random.between(2, 2000),
            Some(read) if self.late => i64::from(read.day) + 1,
            Some(read) if self.steady => i64::from(read.day) + 180,
            Some(read) => i64::from(read.day) + random.between(1, 400),
        }
    }

    /// The read after the last one, if any, and whether it is flagged.
    fn next(&self, random: &mut Random, last: Option<Read>) -> (Read, u8) {
        let (day, turn) = (self.next_day(random, last), self.head.turn);
        let value = match last {
            None => random.between(turn / 2, turn - 1),
            Some(read) if self.steady => i64::from(read.value) + self.pace,
            Some(read) => i64::from(read.value) + random.between(0, turn / 12),
        };
        let flag = u8::from(value >= turn && !random.once_in(4));
        let value = if random.once_in(20) { random.between(0, turn - 1) } else { value % turn };
        let mut read = Read { day: day as u16, value: value as u32, ..any_read(random, self.head) };
        if self.one_bucket {
            let near = (value + 256 * random.between(0, 3)) % turn;
            read.value = in_first_bucket(read.day, near as u32, turn);
        }
        (read, flag)
    }

    /// A value in the place of another, mostly of the same bucket: above it, or mostly below where the dials do not go so
    /// far. Now and then it is the same, which is damage if both have one day.
    fn misread(&self, random: &mut Random, value: u32) -> u32 {
        let away = if random.once_in(60) { 0 } else { random.pick(&[1, 256, 256, 512, 768]) };
        let (value, turn) = (i64::from(value), self.head.turn);
        let misread = if value + away < turn { value + away } else { (value - 256).rem_euclid(turn) };
        misread as u32
    }

    /// Whether one more read may stand. On a pseudo meter a final one alone follows the first, and none where one is to be
    /// held.
    fn may_stand(&self, last: Option<Read>, final_stands: bool) -> bool {
        !self.head.is_pseudo || last.is_none() || !final_stands && !self.has_held
    }

    /// The types that a held read may have, if any.
    fn held_letters(&self, final_stands: bool) -> &'static [u8] {
        match (self.head.is_pseudo, final_stands) {
            (true, true) => b"",
            (true, false) => b"F",
            (false, true) => b"CURTSXE",
            (false, false) => b"CURTSFXE",
        }
    }

    /// The type of the first standing read where there is no carry.
    fn first_letter(&self, random: &mut Random) -> u8 {
        if self.head.is_pseudo {
            b'I'
        } else {
            random.pick(b"IO")
        }
    }

    /// The type of a standing read after the first.
    fn later_letter(&self, random: &mut Random, final_stands: bool) -> u8 {
        if self.head.is_pseudo || !final_stands && random.once_in(30) {
            b'F'
        } else {
            random.pick(b"CCURTSXYE")
        }
    }
}

/// Writes so many entries of a journal, and answers its first standing read.
fn write_entries(random: &mut Random, style: &Style, body: &mut [u8], count: usize) -> Option<Read> {
    let (mut first, mut last): (Option<Read>, Option<Read>) = (None, None);
    let mut final_stands = false;
    for (position, entry) in body.chunks_exact_mut(ENTRY_BYTES).take(count).enumerate() {
        let is_last = position + 1 == count;
        let (mut read, mut flag) = style.next(random, last);
        let held_letters = style.held_letters(final_stands);
        if style.has_held && is_last && last.is_some() && !held_letters.is_empty() {
            read.letter = random.pick(held_letters);
            write_read(entry, 4, read, flag);
            break;
        }
        // A carry asks for a standing read.
        let must_stand = style.is_carried && is_last && last.is_none();
        if !must_stand && (random.once_in(style.withdrawn_in) || !style.may_stand(last, final_stands)) {
            let misread = Read { value: style.misread(random, read.value), ..read };
            write_read(entry, 3, misread, random.pick(&[0, 0, 1]));
            continue;
        }
        match last {
            // Any type and flag will do after a carry.
            None if style.is_carried => flag = random.pick(&[0, 1]),
            None => (read.letter, read.indicator, flag) = (style.first_letter(random), 0, 0),
            Some(_) => read.letter = style.later_letter(random, final_stands),
        }
        write_read(entry, 2, read, flag);
        final_stands |= read.letter == b'F';
        first = first.or(Some(read));
        last = Some(read);
    }
    first
}

/// A carry before a journal whose first standing read is of this day.
fn write_carry(random: &mut Random, turn: i64, carry: &mut [u8], first_day: u16) {
    let most = first_day - 1;
    let any_folded = random.between(1, i64::from(most)) as u16;
    let folded = random.pick(&[1, most, any_folded, any_folded]);
    let any_flagged = random.between(0, i64::from(folded)) as u16;
    let flagged = random.pick(&[0, folded, any_flagged]);
    put_carry(carry, random.between(0, turn - 1) as u32, folded, flagged);
}

pub fn put_carry(carry: &mut [u8], first: u32, folded: u16, flagged: u16) {
    carry[0] = 5;
    carry[1..5].copy_from_slice(&first.to_le_bytes());
    carry[5..7].copy_from_slice(&folded.to_le_bytes());
    carry[7..9].copy_from_slice(&flagged.to_le_bytes());
}
