//! A journal, and what the checks ask of it. Folded reads are in the carry alone, and nothing here finds them.

use super::profile::Profile;
use super::register::{read_entry, CARRY_BYTES, ENTRY_BYTES, METER_BYTES};
use super::register::{HELD, MOST_ENTRIES, MOST_ENTRIES_AFTER_CARRY, STANDING, WITHDRAWN};
use super::POWERS;

pub const NOT_SET: u8 = 0;
pub const FALSE: u8 = 1;
pub const TRUE: u8 = 2;

pub const LETTERS: &[u8] = b"IOFCURTSXYE";

/// The body of a standing, withdrawn or held entry.
#[derive(Clone, Copy)]
pub struct Read {
    pub day: u16,
    pub value: u32,
    pub letter: u8,
    pub indicator: u8,
    pub flag: u8,
}

#[derive(Clone, Copy)]
pub struct Entry {
    pub kind: u8,
    pub read: Read,
}

/// What a carry keeps of the folded reads: the first one's value, how many they are, and how many are flagged.
#[derive(Clone, Copy)]
pub struct Carry {
    pub first: u32,
    pub folded: u16,
    pub flagged: u16,
}

/// An area that starts with a meter: its profile and plate, the carry if one is right after it, and the bytes of the
/// entries that follow.
pub struct Journal<'a> {
    pub profile: Profile,
    pub dials: u8,
    pub capacity: u32,
    pub carry: Option<Carry>,
    pub entries: &'a [u8],
}

pub fn is_opening(letter: u8) -> bool {
    letter == b'I' || letter == b'O'
}

impl Journal<'_> {
    /// Where in the area the entries start.
    pub fn start(&self) -> usize {
        match self.carry {
            Some(_) => METER_BYTES + CARRY_BYTES,
            None => METER_BYTES,
        }
    }

    pub fn most_entries(&self) -> usize {
        match self.carry {
            Some(_) => MOST_ENTRIES_AFTER_CARRY,
            None => MOST_ENTRIES,
        }
    }

    pub fn entries(&self) -> impl DoubleEndedIterator<Item = Entry> + ExactSizeIterator + '_ {
        self.entries.chunks_exact(ENTRY_BYTES).map(read_entry)
    }

    fn of_kind(&self, kind: u8) -> impl DoubleEndedIterator<Item = Read> + '_ {
        self.entries().filter(move |entry| entry.kind == kind).map(|entry| entry.read)
    }

    pub fn standing(&self) -> impl DoubleEndedIterator<Item = Read> + '_ {
        self.of_kind(STANDING)
    }

    pub fn withdrawn(&self) -> impl DoubleEndedIterator<Item = Read> + '_ {
        self.of_kind(WITHDRAWN)
    }

    /// The last standing read.
    pub fn last(&self) -> Option<Read> {
        self.standing().next_back()
    }

    /// The held read. In a sound journal it is the last entry.
    pub fn held(&self) -> Option<Read> {
        self.entries().next_back().filter(|entry| entry.kind == HELD).map(|entry| entry.read)
    }

    /// Standing and withdrawn entries. In a sound journal they come before a held one.
    pub fn kept(&self) -> usize {
        self.entries().len() - usize::from(self.held().is_some())
    }

    /// Where in the area the standing and withdrawn entries end.
    pub fn end_without_held(&self) -> usize {
        self.start() + ENTRY_BYTES * self.kept()
    }

    /// Where in the area the last standing entry starts.
    pub fn last_standing_at(&self) -> usize {
        let position = self.entries().rposition(|entry| entry.kind == STANDING).expect("a read stands");
        self.start() + ENTRY_BYTES * position
    }

    pub fn final_stands(&self) -> bool {
        self.standing().any(|read| read.letter == b'F')
    }

    /// 10^n: what one rollover adds.
    pub fn turn(&self) -> i64 {
        POWERS[usize::from(self.dials)]
    }

    pub fn advance(&self, from: u32, to: u32, flag: u8) -> i64 {
        i64::from(to) - i64::from(from) + i64::from(flag) * self.turn()
    }
}
