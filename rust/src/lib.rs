//! Safe calls into the proved validator of water meter reads.
//!
//! A register is a slice of [`REGISTER_BYTES`] bytes that the caller lends, all zero at first. Each call is a function:
//! [`enrol`], [`enrol_pseudo`], [`submit`], [`withdraw`], [`report`], [`fold`], [`trial`] and [`journal`]; or a value, a
//! [`Call`], that can be kept, written to a day sheet and made. [`play`] plays a whole day sheet.
//!
//! [`trial`] answers what [`submit`] would, and writes nothing: for those who want to know before they commit.
//!
//! [`search`] answers which read of a meter stands on a day, and how many standing days were compared to find it.
//!
//! A site that has no dial is enrolled by [`enrol_pseudo`]. Such a pseudo meter takes initial and final reads only, and is
//! in all else a meter as any other.
//!
//! A journal has room for 50 entries. [`fold`] makes room: it keeps the last three standing reads and what the others
//! come to, and a report stays the same.
//!
//! A [`Tally`] is kept by those who ask for one meter's total every few seconds: it is changed after each call on the
//! meter, and reports without a register.
//!
//! A day is a number, 1 for 1 January 2000. [`date_of`] answers its calendar [`Date`], [`day_of`] the day of a date.
//!
//! No call relies on what its caller checked. A register of another length is answered [`Number::Misfit`], damaged
//! bytes [`Number::Damaged`], and a refusal changes no byte. Nothing here panics, allocates or keeps anything between
//! calls, and the standard library is not needed.
//!
//! A register's bytes are the file format: a register that one version wrote is read by the next. Numbers keep their
//! words and letters their types; later versions add more.

#![no_std]
#![deny(missing_docs)]

mod answer;
mod boundary;
mod call;
mod calls;
mod date;
mod fields;
pub mod indicator;
mod journal;
pub mod letter;
mod number;
mod sheet;
mod tally;

pub use answer::{Answer, Reply, Report, Search};
pub use call::{Call, Submission, MISSING};
pub use calls::{enrol, enrol_pseudo, fold, journal, play, report, search, submit, trial, withdraw};
pub use date::{date_of, day_of, Date};
pub use journal::{entries, Entries, Entry, Read};
pub use number::{Number, UnknownNumber};
pub use sheet::{calls, Calls, SheetEntry, SheetWriter, Unwritten, SHEET_BYTES, TEXT_BYTES};
pub use tally::Tally;

/// The bytes of a register: 64 areas of 512.
pub const REGISTER_BYTES: usize = 32_768;

/// The bytes of one meter's area.
pub const AREA_BYTES: usize = 512;
