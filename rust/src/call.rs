//! A call as a value.

use crate::{enrol, enrol_pseudo, fold, indicator, report, submit, trial, withdraw, Reply};
use core::fmt;

/// The value that marks one that is missing: answered [`Number::Missing`](crate::Number::Missing).
pub const MISSING: u32 = u32::MAX;

/// A submitted read.
#[derive(Clone, Copy, Debug, PartialEq, Eq)]
pub struct Submission {
    /// The day that it is submitted on.
    pub submitted: u16,
    /// The day that the dials were read on; day 1 is 1 January 2000.
    pub day: u16,
    /// What the dials showed, in m³, or [`MISSING`].
    pub value: u32,
    /// Its type, one of [`letter`](crate::letter).
    pub letter: u8,
    /// One of [`indicator`].
    pub indicator: u8,
    /// 1 if it confirms the held read, else 0.
    pub reread: u8,
}

/// A call with its arguments. Later versions add calls.
#[derive(Clone, Copy, Debug, PartialEq, Eq)]
#[non_exhaustive]
pub enum Call {
    /// See [`enrol`].
    Enrol {
        /// Where.
        place: u16,
        /// How many dials the meter has, 3 to 9.
        dials: u8,
        /// Its capacity in m³ a year, at least 1.
        capacity: u32,
    },
    /// See [`submit`].
    Submit {
        /// Which meter.
        place: u16,
        /// The read.
        read: Submission,
    },
    /// See [`withdraw`].
    Withdraw {
        /// Which meter.
        place: u16,
        /// The read's day.
        day: u16,
        /// The read's value.
        value: u32,
    },
    /// See [`report`].
    Report {
        /// Which meter.
        place: u16,
    },
    /// See [`fold`].
    Fold {
        /// Which meter.
        place: u16,
    },
    /// See [`enrol_pseudo`].
    EnrolPseudo {
        /// Where.
        place: u16,
        /// How many dials the meter would have, 3 to 9: its values are below 10 to this power.
        dials: u8,
        /// Its capacity in m³ a year, at least 1.
        capacity: u32,
    },
    /// See [`trial`]. It is no call on the meter, and no day sheet has an entry for it.
    Trial {
        /// Which meter.
        place: u16,
        /// The read.
        read: Submission,
    },
}

impl Call {
    /// Makes the call on a register.
    pub fn make(&self, register: &mut [u8]) -> Reply {
        match *self {
            Call::Enrol { place, dials, capacity } => Reply::Answer(enrol(register, place, dials, capacity)),
            Call::Submit { place, read } => Reply::Answer(submit(register, place, read)),
            Call::Withdraw { place, day, value } => Reply::Answer(withdraw(register, place, day, value)),
            Call::Report { place } => Reply::Report(report(register, place)),
            Call::Fold { place } => Reply::Answer(fold(register, place)),
            Call::EnrolPseudo { place, dials, capacity } => {
                Reply::Answer(enrol_pseudo(register, place, dials, capacity))
            }
            Call::Trial { place, read } => Reply::Answer(trial(register, place, read)),
        }
    }

    /// The place that it names.
    pub fn place(&self) -> u16 {
        match *self {
            Call::Enrol { place, .. }
            | Call::Submit { place, .. }
            | Call::Withdraw { place, .. }
            | Call::Report { place }
            | Call::Fold { place }
            | Call::EnrolPseudo { place, .. }
            | Call::Trial { place, .. } => place,
        }
    }
}

impl fmt::Display for Call {
    /// As a line of a scenario: `withdraw place 0 day 1540 value 100`.
    fn fmt(&self, f: &mut fmt::Formatter<'_>) -> fmt::Result {
        match self {
            Call::Enrol { place, dials, capacity } => {
                write!(f, "enrol place {place} dials {dials} capacity {capacity}")
            }
            Call::Submit { place, read } => write!(f, "submit place {place} {read}"),
            Call::Withdraw { place, day, value } => write!(f, "withdraw place {place} day {day} value {value}"),
            Call::Report { place } => write!(f, "report place {place}"),
            Call::Fold { place } => write!(f, "fold place {place}"),
            Call::EnrolPseudo { place, dials, capacity } => {
                write!(f, "enrol-pseudo place {place} dials {dials} capacity {capacity}")
            }
            Call::Trial { place, read } => write!(f, "trial place {place} {read}"),
        }
    }
}

impl fmt::Display for Submission {
    /// As in a line of a scenario; an indicator that is not set and a re-read of 0 are left out.
    fn fmt(&self, f: &mut fmt::Formatter<'_>) -> fmt::Result {
        write!(f, "submitted {} day {} type ", self.submitted, self.day)?;
        match self.letter {
            letter if letter.is_ascii_alphabetic() => write!(f, "{}", char::from(letter))?,
            other => write!(f, "{other}")?,
        }
        write!(f, " value {}", self.value)?;
        match (self.indicator, indicator::word(self.indicator)) {
            (indicator::NOT_SET, _) => {}
            (_, Some(word)) => write!(f, " indicator {word}")?,
            (other, None) => write!(f, " indicator {other}")?,
        }
        match self.reread {
            0 => Ok(()),
            1 => f.write_str(" re-read yes"),
            other => write!(f, " re-read {other}"),
        }
    }
}
