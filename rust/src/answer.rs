//! What the calls answer.

use crate::{Number, Read};
use core::fmt;

/// The answer to an enrolment, a submission, a withdrawal or a fold. Flag and advance are 0 unless accepted.
#[derive(Clone, Copy, Debug, PartialEq, Eq)]
#[must_use = "an answer may be a refusal"]
pub struct Answer {
    /// Accepted, or the first rule broken.
    pub number: Number,
    /// 1 if the read was taken as a rollover, else 0. Enrolment and fold have no read.
    pub flag: u8,
    /// How far the dials went, in m³; a withdrawal answers it negated. 0 for enrolment and fold.
    pub advance: i64,
}

/// The answer to a report. All but the number is 0 unless accepted.
#[derive(Clone, Copy, Debug, PartialEq, Eq)]
#[must_use = "a report may be a refusal"]
pub struct Report {
    /// Accepted, or why there is nothing to report.
    pub number: Number,
    /// How many reads stand, those that were folded among them.
    pub standing: u16,
    /// How many of them are flagged as rollovers.
    pub flagged: u16,
    /// How far the dials went from the first standing read to the last, in m³.
    pub total: i64,
}

/// The answer to a search for the standing read of a day. Nothing is found and 0 are compared unless accepted.
#[derive(Clone, Copy, Debug, PartialEq, Eq)]
#[must_use = "a search may be a refusal"]
pub struct Search {
    /// Accepted, or why there is no journal to search.
    pub number: Number,
    /// The read that stands on the day.
    pub found: Option<Read>,
    /// How many standing days were compared: those later than the day, and one more if any is not later.
    pub compared: u8,
}

/// The answer to a [`Call`](crate::Call).
#[derive(Clone, Copy, Debug, PartialEq, Eq)]
#[must_use = "a reply may be a refusal"]
#[non_exhaustive]
pub enum Reply {
    /// To an enrolment, a submission, a withdrawal or a fold.
    Answer(Answer),
    /// To a report.
    Report(Report),
}

impl Reply {
    /// The number, whatever was called.
    pub fn number(self) -> Number {
        match self {
            Reply::Answer(answer) => answer.number,
            Reply::Report(report) => report.number,
        }
    }
}

impl fmt::Display for Answer {
    /// As in `0 accepted, flag 1, advance 500` or `18 EF`.
    fn fmt(&self, f: &mut fmt::Formatter<'_>) -> fmt::Result {
        match self.number {
            Number::Accepted => write!(f, "{}, flag {}, advance {}", self.number, self.flag, self.advance),
            refusal => write!(f, "{refusal}"),
        }
    }
}

impl fmt::Display for Report {
    /// As in `0 accepted, 3 standing, 0 flagged, total 400` or `3 no meter`.
    fn fmt(&self, f: &mut fmt::Formatter<'_>) -> fmt::Result {
        let Report { number, standing, flagged, total } = *self;
        match number {
            Number::Accepted => write!(f, "{number}, {standing} standing, {flagged} flagged, total {total}"),
            refusal => write!(f, "{refusal}"),
        }
    }
}

impl fmt::Display for Search {
    /// As in `0 accepted, 2 compared, day 280, value 20, cyclic, not set, flag 0`, `0 accepted, 1 compared, none found` or
    /// `3 no meter`.
    fn fmt(&self, f: &mut fmt::Formatter<'_>) -> fmt::Result {
        let Search { number, found, compared } = *self;
        match (number, found) {
            (Number::Accepted, Some(read)) => write!(f, "{number}, {compared} compared, {read}"),
            (Number::Accepted, None) => write!(f, "{number}, {compared} compared, none found"),
            (refusal, _) => write!(f, "{refusal}"),
        }
    }
}

impl fmt::Display for Reply {
    fn fmt(&self, f: &mut fmt::Formatter<'_>) -> fmt::Result {
        match self {
            Reply::Answer(answer) => answer.fmt(f),
            Reply::Report(report) => report.fmt(f),
        }
    }
}
