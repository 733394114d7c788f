//! The calls on a register as functions: with the two of the calendar, in `date`, and the two of a tally, in `tally`, all
//! that is unsafe in this crate.
//!
//! Each passes a slice's own pointer and length and, for the other fields, pointers to locals; the library keeps none
//! of them.

use crate::boundary;
use crate::{Answer, Number, Read, Report, Search, Submission, AREA_BYTES};

/// Enrols a meter of 3 to 9 dials and a capacity in m³ a year at a place.
pub fn enrol(register: &mut [u8], place: u16, dials: u8, capacity: u32) -> Answer {
    let (at, length) = (register.as_mut_ptr(), register.len());
    let (mut flag, mut advance) = (0, 0);
    // SAFETY: the register's own pointer and length, and two locals.
    let number = unsafe { boundary::necktureen_enrol(at, length, place, dials, capacity, &mut flag, &mut advance) };
    Answer { number: Number::answered(number), flag, advance }
}

/// Enrols a pseudo meter, for a site that has no dial, with the same arguments and the same answers as [`enrol`]. It
/// takes reads of types I and F only; one of the nine other types is answered [`Number::OtherType`]. All else is as with
/// any meter.
pub fn enrol_pseudo(register: &mut [u8], place: u16, dials: u8, capacity: u32) -> Answer {
    let (at, length) = (register.as_mut_ptr(), register.len());
    let (mut flag, mut advance) = (0, 0);
    // SAFETY: as for `enrol`.
    let number =
        unsafe { boundary::necktureen_enrol_pseudo(at, length, place, dials, capacity, &mut flag, &mut advance) };
    Answer { number: Number::answered(number), flag, advance }
}

/// Submits a read of the meter at a place. Accepted, it answers the flag that the read was taken with, and how far the
/// dials went since the last standing read.
pub fn submit(register: &mut [u8], place: u16, read: Submission) -> Answer {
    let (at, length) = (register.as_mut_ptr(), register.len());
    let Submission { submitted, day, value, letter, indicator, reread } = read;
    let (mut flag, mut advance) = (0, 0);
    // SAFETY: as for `enrol`.
    let number = unsafe {
        boundary::necktureen_submit(
            at,
            length,
            place,
            submitted,
            day,
            value,
            letter,
            indicator,
            reread,
            &mut flag,
            &mut advance,
        )
    };
    Answer { number: Number::answered(number), flag, advance }
}

/// Tries a read: answers what [`submit`] would answer to it now, [`Number::Low`] and [`Number::High`] too, and writes
/// nothing, so that no read is held either. It is no call on the meter: whatever comes after it comes as without it.
#[must_use = "a trial does nothing but answer"]
pub fn trial(register: &[u8], place: u16, read: Submission) -> Answer {
    let (at, length) = (register.as_ptr(), register.len());
    let Submission { submitted, day, value, letter, indicator, reread } = read;
    let (mut flag, mut advance) = (0, 0);
    // SAFETY: the register's own pointer and length, which is read alone, and two locals.
    let number = unsafe {
        boundary::necktureen_trial(
            at,
            length,
            place,
            submitted,
            day,
            value,
            letter,
            indicator,
            reread,
            &mut flag,
            &mut advance,
        )
    };
    Answer { number: Number::answered(number), flag, advance }
}

/// Withdraws the meter's last standing read, named by its day and value. Accepted, it answers the read's flag and its
/// advance negated. The oldest read that a [`fold`] kept is not withdrawn.
pub fn withdraw(register: &mut [u8], place: u16, day: u16, value: u32) -> Answer {
    let (at, length) = (register.as_mut_ptr(), register.len());
    let (mut flag, mut advance) = (0, 0);
    // SAFETY: as for `enrol`.
    let number = unsafe { boundary::necktureen_withdraw(at, length, place, day, value, &mut flag, &mut advance) };
    Answer { number: Number::answered(number), flag, advance }
}

/// Folds the meter's standing reads but the last three into a carry, which is added to by a later fold, and drops the
/// withdrawn reads dated no later than the oldest read that is kept. A report is the same before and after; every check
/// sees the reads that are kept alone. Accepted, it answers flag 0 and advance 0.
pub fn fold(register: &mut [u8], place: u16) -> Answer {
    let (at, length) = (register.as_mut_ptr(), register.len());
    let (mut flag, mut advance) = (0, 0);
    // SAFETY: as for `enrol`.
    let number = unsafe { boundary::necktureen_fold(at, length, place, &mut flag, &mut advance) };
    Answer { number: Number::answered(number), flag, advance }
}

/// Counts the meter's standing reads, folded ones among them, and adds up their advances.
pub fn report(register: &[u8], place: u16) -> Report {
    let (at, length) = (register.as_ptr(), register.len());
    let (mut standing, mut flagged, mut total) = (0, 0, 0);
    // SAFETY: the register's own pointer and length, and three locals.
    let number = unsafe { boundary::necktureen_report(at, length, place, &mut standing, &mut flagged, &mut total) };
    Report { number: Number::answered(number), standing, flagged, total }
}

/// The meter's part of the register, from its area's start to its last entry's end; empty where a report is refused.
/// [`entries`](crate::entries) reads it.
#[must_use]
pub fn journal(register: &[u8], place: u16) -> &[u8] {
    // SAFETY: the register's own pointer and length.
    let length = unsafe { boundary::necktureen_journal(register.as_ptr(), register.len(), place) };
    let start = AREA_BYTES * usize::from(place);
    register.get(start..).and_then(|area| area.get(..length)).unwrap_or(&[])
}

/// Searches for the meter's standing read of a day, and answers with it how many standing days were compared. It is asked
/// where a [`report`] is: the number is a report's.
pub fn search(register: &[u8], place: u16, day: u16) -> Search {
    let (at, length) = (register.as_ptr(), register.len());
    let (mut found, mut value, mut compared) = (0, 0, 0);
    let (mut letter, mut indicator, mut flag) = (0, 0, 0);
    // SAFETY: the register's own pointer and length, and six locals.
    let number = unsafe {
        boundary::necktureen_search(
            at,
            length,
            place,
            day,
            &mut found,
            &mut value,
            &mut letter,
            &mut indicator,
            &mut flag,
            &mut compared,
        )
    };
    let found = (found == 1).then_some(Read { day, value, letter, indicator, flag });
    Search { number: Number::answered(number), found, compared }
}

/// Plays a day sheet on a register, each call on what the last one left, and writes a line of text for each: number,
/// flag and advance; for a report number, standing, flagged and total. A fault of the sheet gives the line `26 0 0`
/// and ends it; a sheet over [`SHEET_BYTES`](crate::SHEET_BYTES) gives that line alone.
///
/// It answers the length of the whole text. `text` takes as much of it as there is room for; the calls are made all the
/// same. [`TEXT_BYTES`](crate::TEXT_BYTES) for each byte of the sheet are always enough.
#[must_use = "the text may be longer than the room for it"]
pub fn play(sheet: &[u8], register: &mut [u8], text: &mut [u8]) -> usize {
    let (at, length) = (register.as_mut_ptr(), register.len());
    // SAFETY: three slices, each with its own pointer and length; the two that are written are lent to this call alone.
    unsafe { boundary::necktureen_play(sheet.as_ptr(), sheet.len(), at, length, text.as_mut_ptr(), text.len()) }
}
