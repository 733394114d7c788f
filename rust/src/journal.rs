//! A meter's journal, read entry by entry.

use crate::fields::Fields;
use crate::{indicator, letter};
use core::fmt;

/// A read as the journal keeps it.
#[derive(Clone, Copy, Debug, PartialEq, Eq)]
pub struct Read {
    /// The day of the read; day 1 is 1 January 2000.
    pub day: u16,
    /// What the dials showed, in m³.
    pub value: u32,
    /// Its type, one of [`letter`].
    pub letter: u8,
    /// Its [`indicator`].
    pub indicator: u8,
    /// 1 if it was taken as a rollover, else 0.
    pub flag: u8,
}

/// An entry of a journal. Later versions add kinds.
#[derive(Clone, Copy, Debug, PartialEq, Eq)]
#[non_exhaustive]
pub enum Entry {
    /// Kind 1, the meter: the first entry. That of a pseudo meter is [`Entry::Pseudo`].
    Meter {
        /// How many dials it has.
        dials: u8,
        /// Its capacity in m³ a year.
        capacity: u32,
    },
    /// Kind 2, a read that stands.
    Standing(Read),
    /// Kind 3, a read that was withdrawn.
    Withdrawn(Read),
    /// Kind 4, a read that a volume query (19 or 20) left to be confirmed by a re-read.
    Held(Read),
    /// Kind 5, what is kept of the reads that were folded. It is right after the meter, if there is one.
    Carry {
        /// The value of the first of them, in m³.
        first: u32,
        /// How many they are.
        folded: u16,
        /// How many of them are flagged as rollovers.
        flagged: u16,
    },
    /// Kind 7, a pseudo meter: the first entry, where [`Entry::Meter`] would be.
    Pseudo {
        /// How many dials it would have.
        dials: u8,
        /// Its capacity in m³ a year.
        capacity: u32,
    },
}

impl Entry {
    /// The entry that these fields begin with; `None` where they end, and for a kind that is not known.
    fn next(fields: &mut Fields<'_>) -> Option<Entry> {
        Some(match fields.byte()? {
            1 => Entry::Meter { dials: fields.byte()?, capacity: fields.four()? },
            2 => Entry::Standing(Read::next(fields)?),
            3 => Entry::Withdrawn(Read::next(fields)?),
            4 => Entry::Held(Read::next(fields)?),
            5 => Entry::Carry { first: fields.four()?, folded: fields.two()?, flagged: fields.two()? },
            7 => Entry::Pseudo { dials: fields.byte()?, capacity: fields.four()? },
            _ => return None,
        })
    }

    /// Its kind byte.
    pub fn kind(&self) -> u8 {
        match self {
            Entry::Meter { .. } => 1,
            Entry::Standing(_) => 2,
            Entry::Withdrawn(_) => 3,
            Entry::Held(_) => 4,
            Entry::Carry { .. } => 5,
            Entry::Pseudo { .. } => 7,
        }
    }

    /// The paper's word for its kind.
    pub fn word(&self) -> &'static str {
        match self {
            Entry::Meter { .. } => "meter",
            Entry::Standing(_) => "standing",
            Entry::Withdrawn(_) => "withdrawn",
            Entry::Held(_) => "held",
            Entry::Carry { .. } => "carry",
            Entry::Pseudo { .. } => "pseudo meter",
        }
    }

    /// Its read; `None` for the meter and a carry.
    pub fn read(&self) -> Option<Read> {
        match *self {
            Entry::Standing(read) | Entry::Withdrawn(read) | Entry::Held(read) => Some(read),
            Entry::Meter { .. } | Entry::Carry { .. } | Entry::Pseudo { .. } => None,
        }
    }
}

impl Read {
    fn next(fields: &mut Fields<'_>) -> Option<Read> {
        Some(Read {
            day: fields.two()?,
            value: fields.four()?,
            letter: fields.byte()?,
            indicator: fields.byte()?,
            flag: fields.byte()?,
        })
    }
}

impl fmt::Display for Entry {
    /// As in `meter, 4 dials, capacity 5000`, `pseudo meter, 4 dials, capacity 5000`,
    /// `standing, day 1540, value 100, cyclic, true, flag 1` or `carry, first value 9200, 47 folded, 2 flagged`.
    fn fmt(&self, f: &mut fmt::Formatter<'_>) -> fmt::Result {
        f.write_str(self.word())?;
        match *self {
            Entry::Meter { dials, capacity } | Entry::Pseudo { dials, capacity } => {
                write!(f, ", {dials} dials, capacity {capacity}")
            }
            Entry::Standing(read) | Entry::Withdrawn(read) | Entry::Held(read) => write!(f, ", {read}"),
            Entry::Carry { first, folded, flagged } => {
                write!(f, ", first value {first}, {folded} folded, {flagged} flagged")
            }
        }
    }
}

impl fmt::Display for Read {
    fn fmt(&self, f: &mut fmt::Formatter<'_>) -> fmt::Result {
        let letter = letter::word(self.letter).unwrap_or("unknown type");
        let indicator = indicator::word(self.indicator).unwrap_or("unknown indicator");
        write!(f, "day {}, value {}, {letter}, {indicator}, flag {}", self.day, self.value, self.flag)
    }
}

/// The entries of a [`journal`](crate::journal), the meter's first. It ends where the bytes do, and at a kind that is
/// not known.
#[must_use]
pub fn entries(journal: &[u8]) -> Entries<'_> {
    Entries(Fields(journal))
}

/// An iterator over the entries of a journal, made by [`entries`].
#[derive(Clone, Debug)]
pub struct Entries<'a>(Fields<'a>);

impl Iterator for Entries<'_> {
    type Item = Entry;

    fn next(&mut self) -> Option<Entry> {
        let entry = Entry::next(&mut self.0);
        if entry.is_none() {
            self.0 = Fields(&[]);
        }
        entry
    }
}

impl core::iter::FusedIterator for Entries<'_> {}
