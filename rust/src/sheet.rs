//! Day sheets: calls one after another as bytes.

use crate::fields::Fields;
use crate::{Call, Submission};
use core::fmt;
use core::ops::Deref;

/// The most bytes that a day sheet may have.
pub const SHEET_BYTES: usize = 60_000;

/// For each byte of a sheet, the most text that [`play`](crate::play) writes.
pub const TEXT_BYTES: usize = 43;

/// The most bytes that one call takes on a sheet.
const ENTRY_BYTES: usize = 13;

/// The bytes of one call on a day sheet: its kind and its body.
#[derive(Clone, Copy, Debug, PartialEq, Eq)]
pub struct SheetEntry {
    bytes: [u8; ENTRY_BYTES],
    length: usize,
}

impl SheetEntry {
    /// A kind byte and a place of one byte.
    fn of(kind: u8, place: u16) -> Option<SheetEntry> {
        let place = u8::try_from(place).ok()?;
        let none = SheetEntry { bytes: [0; ENTRY_BYTES], length: 0 };
        Some(none.and([kind, place]))
    }

    fn and<const N: usize>(mut self, field: [u8; N]) -> SheetEntry {
        let end = self.length + N;
        if let Some(room) = self.bytes.get_mut(self.length..end) {
            room.copy_from_slice(&field);
            self.length = end;
        }
        self
    }
}

impl Deref for SheetEntry {
    type Target = [u8];

    fn deref(&self) -> &[u8] {
        self.bytes.get(..self.length).unwrap_or(&self.bytes)
    }
}

impl Call {
    /// Its bytes on a day sheet; `None` if a sheet has no entry for it, which is so for a place above 255 and for a trial.
    #[must_use]
    pub fn sheet_entry(&self) -> Option<SheetEntry> {
        Some(match *self {
            Call::Enrol { place, dials, capacity } => {
                SheetEntry::of(1, place)?.and([dials]).and(capacity.to_le_bytes())
            }
            Call::Submit { place, read } => SheetEntry::of(2, place)?
                .and(read.submitted.to_le_bytes())
                .and(read.day.to_le_bytes())
                .and(read.value.to_le_bytes())
                .and([read.letter, read.indicator, read.reread]),
            Call::Withdraw { place, day, value } => {
                SheetEntry::of(3, place)?.and(day.to_le_bytes()).and(value.to_le_bytes())
            }
            Call::Report { place } => SheetEntry::of(4, place)?,
            Call::Fold { place } => SheetEntry::of(5, place)?,
            Call::EnrolPseudo { place, dials, capacity } => {
                SheetEntry::of(6, place)?.and([dials]).and(capacity.to_le_bytes())
            }
            Call::Trial { .. } => return None,
        })
    }

    /// The call that these fields begin with; `None` where they end or have a fault.
    fn next(fields: &mut Fields<'_>) -> Option<Call> {
        let kind = fields.byte()?;
        let place = u16::from(fields.byte()?);
        Some(match kind {
            1 => Call::Enrol { place, dials: fields.byte()?, capacity: fields.four()? },
            2 => Call::Submit { place, read: Submission::next(fields)? },
            3 => Call::Withdraw { place, day: fields.two()?, value: fields.four()? },
            4 => Call::Report { place },
            5 => Call::Fold { place },
            6 => Call::EnrolPseudo { place, dials: fields.byte()?, capacity: fields.four()? },
            _ => return None,
        })
    }
}

impl Submission {
    fn next(fields: &mut Fields<'_>) -> Option<Submission> {
        Some(Submission {
            submitted: fields.two()?,
            day: fields.two()?,
            value: fields.four()?,
            letter: fields.byte()?,
            indicator: fields.byte()?,
            reread: fields.byte()?,
        })
    }
}

/// The calls of a day sheet, up to its end or its first fault.
#[must_use]
pub fn calls(sheet: &[u8]) -> Calls<'_> {
    Calls(Fields(sheet))
}

/// An iterator over the calls of a day sheet, made by [`calls`].
#[derive(Clone, Debug)]
pub struct Calls<'a>(Fields<'a>);

impl<'a> Calls<'a> {
    /// What is not read yet. After the last call it is empty, or begins with the fault.
    #[must_use]
    pub fn rest(&self) -> &'a [u8] {
        self.0 .0
    }
}

impl Iterator for Calls<'_> {
    type Item = Call;

    fn next(&mut self) -> Option<Call> {
        let mut fields = self.0;
        let call = Call::next(&mut fields)?;
        self.0 = fields;
        Some(call)
    }
}

impl core::iter::FusedIterator for Calls<'_> {}

/// Writes a day sheet into bytes that are lent.
#[derive(Debug)]
pub struct SheetWriter<'a> {
    room: &'a mut [u8],
    length: usize,
}

impl<'a> SheetWriter<'a> {
    /// An empty sheet in these bytes.
    pub fn new(room: &'a mut [u8]) -> SheetWriter<'a> {
        SheetWriter { room, length: 0 }
    }

    /// Adds a call; one that cannot be added changes nothing.
    pub fn write(&mut self, call: &Call) -> Result<(), Unwritten> {
        let entry = call.sheet_entry().ok_or(Unwritten::NoEntry)?;
        let end = self.length + entry.len();
        if end > SHEET_BYTES {
            return Err(Unwritten::NoRoom);
        }
        let room = self.room.get_mut(self.length..end).ok_or(Unwritten::NoRoom)?;
        room.copy_from_slice(&entry);
        self.length = end;
        Ok(())
    }

    /// The sheet so far.
    #[must_use]
    pub fn sheet(&self) -> &[u8] {
        self.room.get(..self.length).unwrap_or(&[])
    }
}

/// Why a call was not written to a sheet.
#[derive(Clone, Copy, Debug, PartialEq, Eq)]
#[non_exhaustive]
pub enum Unwritten {
    /// A sheet has no entry for it: its place is above 255, or it is a trial.
    NoEntry,
    /// The lent bytes, or the [`SHEET_BYTES`] that a sheet may have, do not hold it.
    NoRoom,
}

impl fmt::Display for Unwritten {
    fn fmt(&self, f: &mut fmt::Formatter<'_>) -> fmt::Result {
        f.write_str(match self {
            Unwritten::NoEntry => "a day sheet holds places up to 255, and no trials",
            Unwritten::NoRoom => "the day sheet is full",
        })
    }
}

impl core::error::Error for Unwritten {}
