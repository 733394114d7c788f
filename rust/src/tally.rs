//! The tally of one meter, for those who ask for its total every few seconds. Its two functions, the calls and the two of
//! the calendar are all that is unsafe in this crate.

use crate::boundary;
use crate::{Answer, Call, Number, Reply, Report};

/// What a report of one meter says, kept beside the register by its caller: no journal is walked to ask for it.
///
/// It starts as [`Tally::default`], all zero, before its meter is enrolled. After every call that names the meter it is
/// changed by the call and its reply; then [`Tally::report`] is what [`report`](crate::report) would answer, after folds
/// and withdrawals too. It does not know its meter's place: give it that meter's calls and no other's.
///
/// The numbers are the caller's, and nothing here relies on them. A tally whose numbers no meter can have reports
/// [`Number::Damaged`] and does not change.
#[repr(C)]
#[derive(Clone, Copy, Debug, Default, PartialEq, Eq)]
pub struct Tally {
    /// How many dials the meter has, 3 to 9.
    pub dials: u32,
    /// How many reads stand, those that were folded among them, at most 65,535.
    pub standing: u32,
    /// How many of them are flagged as rollovers.
    pub flagged: u32,
    /// The value of the first of them, 0 where none stands.
    pub first: u32,
    /// The value of the last of them, 0 where none stands.
    pub last: u32,
}

impl Tally {
    /// Changes the tally as the call, answered so, changed its meter. A refusal changes nothing, nor does a fold, a report or
    /// a trial. A change that leads from or to a tally that reports [`Number::Damaged`] is not made, nor is a second
    /// enrolment.
    pub fn change(&mut self, call: &Call, reply: Reply) {
        let Reply::Answer(Answer { number, flag, advance }) = reply else { return };
        let (kind, dials, value) = match *call {
            Call::Enrol { dials, .. } => (1, dials, 0),
            Call::Submit { read, .. } => (2, 0, read.value),
            Call::Withdraw { value, .. } => (3, 0, value),
            Call::Report { .. } => (4, 0, 0),
            Call::Fold { .. } => (5, 0, 0),
            Call::EnrolPseudo { dials, .. } => (6, dials, 0),
            // No kind: there is nothing to tell of it.
            Call::Trial { .. } => (0, 0, 0),
        };
        // SAFETY: a tally that is lent to this call alone; it has the layout of the library's, five numbers of four bytes.
        unsafe { boundary::necktureen_tally_change(self, kind, dials, value, number as u8, flag, advance) }
    }

    /// What a report of the meter would answer: [`Number::NoMeter`] for a tally of zeros, [`Number::Damaged`] for one
    /// that is broken.
    pub fn report(&self) -> Report {
        let (mut standing, mut flagged, mut total) = (0, 0, 0);
        // SAFETY: the tally, which is read alone, and three locals.
        let number = unsafe { boundary::necktureen_tally_report(self, &mut standing, &mut flagged, &mut total) };
        Report { number: Number::answered(number), standing, flagged, total }
    }
}
