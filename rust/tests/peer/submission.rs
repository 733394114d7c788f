//! The checks of a submission, in the paper's order, with detection and volume.

use super::calendar;
use super::journal::{is_opening, Journal, Read, FALSE, LETTERS, NOT_SET, TRUE};
use super::register::open;
use super::POWERS;
use necktureen::{Number, Submission};

const UNPOPULATED: u32 = 4_294_967_295;

// The detection settings.
const HIGH_MARK: i64 = 90;
const LOW_MARK: i64 = 10;
const LOW_PERCENT: i64 = 20;
const HIGH_PERCENT: i64 = 200;
const FRACTION: i64 = 10;

/// The first step back that is not small: "the limit is −100 for three dials and −1000 otherwise".
fn step_back(dials: u8) -> i64 {
    if dials == 3 {
        100
    } else {
        1000
    }
}

enum Detection {
    NotARollover,
    Rollover,
    Indeterminate,
}

/// What a submission that is stored leads to: `number` is accepted, low or high.
pub struct Verdict {
    pub number: Number,
    pub flag: u8,
    pub advance: i64,
    /// Where in the area the read is written.
    pub at: usize,
}

pub fn judge(register: &[u8], place: u16, read: &Submission) -> Result<Verdict, Number> {
    let journal = open(register, place)?;
    check_content(&journal, read)?;
    check_type(&journal, read)?;
    check_date(read)?;
    check_withdrawn(&journal, read)?;
    check_same_day(&journal, read)?;
    check_sequence(&journal, read)?;
    check_original(&journal, read)?;
    if journal.kept() == journal.most_entries() {
        return Err(Number::Full);
    }
    let flag = rollover_flag(detect(&journal, read), read.indicator)?;
    let last = journal.last();
    let advance = last.map_or(0, |last| journal.advance(last.value, read.value, flag));
    let number = check_volume(&journal, read, advance)?;
    Ok(Verdict { number, flag, advance, at: journal.end_without_held() })
}

/// 5 and 6. A type is unknown here if no meter takes it.
fn check_content(journal: &Journal, read: &Submission) -> Result<(), Number> {
    if read.value == UNPOPULATED {
        return Err(Number::Missing);
    }
    let known = LETTERS.contains(&read.letter) && read.indicator <= TRUE && read.reread <= 1;
    if !known || i64::from(read.value) >= journal.turn() {
        return Err(Number::Content);
    }
    Ok(())
}

/// 29.
fn check_type(journal: &Journal, read: &Submission) -> Result<(), Number> {
    if journal.profile.takes(read.letter) {
        Ok(())
    } else {
        Err(Number::OtherType)
    }
}

/// 7.
fn check_date(read: &Submission) -> Result<(), Number> {
    if read.day == 0 || read.day > read.submitted {
        return Err(Number::Date);
    }
    Ok(())
}

/// 8: by day and value together, so that a corrected value of the same day is not refused.
fn check_withdrawn(journal: &Journal, read: &Submission) -> Result<(), Number> {
    if journal.withdrawn().any(|gone| gone.day == read.day && gone.value == read.value) {
        return Err(Number::Withdrawn);
    }
    Ok(())
}

/// 1, 9, 10 and 11, if a read of that day stands. Here 9 is about I and F, not about O.
fn check_same_day(journal: &Journal, read: &Submission) -> Result<(), Number> {
    let Some(standing) = journal.standing().find(|standing| standing.day == read.day) else {
        return Ok(());
    };
    let same_indicator = standing.indicator == read.indicator;
    if same_indicator && standing.letter == read.letter && standing.value == read.value {
        return Err(Number::Repeat);
    }
    if read.letter == b'I' || read.letter == b'F' {
        return Err(Number::At);
    }
    Err(if same_indicator { Number::Bf } else { Number::Eh })
}

/// 12, 13, 9 and 14.
fn check_sequence(journal: &Journal, read: &Submission) -> Result<(), Number> {
    let opening = is_opening(read.letter);
    match journal.last() {
        Some(last) if read.day < last.day => return Err(Number::BackDated),
        Some(_) if opening => return Err(Number::At),
        None if !opening => return Err(Number::Df),
        _ => {}
    }
    if read.letter == b'F' && journal.final_stands() {
        return Err(Number::At);
    }
    if opening && read.indicator != NOT_SET {
        return Err(Number::IndicatorOnOpening);
    }
    Ok(())
}

/// 15.
fn check_original(journal: &Journal, read: &Submission) -> Result<(), Number> {
    if read.reread == 0 {
        return Ok(());
    }
    match journal.held() {
        Some(held)
            if held.day == read.day
                && held.value == read.value
                && held.letter == read.letter
                && held.indicator == read.indicator =>
        {
            Ok(())
        }
        _ => Err(Number::NoOriginal),
    }
}

fn detect(journal: &Journal, read: &Submission) -> Detection {
    let mut newest_first = journal.standing().rev();
    let Some(last) = newest_first.next() else {
        return Detection::NotARollover;
    };
    if i64::from(read.value) - i64::from(last.value) > -step_back(journal.dials) {
        return Detection::NotARollover;
    }
    // Tests 2, 4 and 5 speak of the two reads before; a test whose reads do not exist fails.
    let (Some(second), Some(third)) = (newest_first.next(), newest_first.next()) else {
        return Detection::Indeterminate;
    };
    if five_tests(journal, read, last, second, third) {
        Detection::Rollover
    } else {
        Detection::Indeterminate
    }
}

fn five_tests(journal: &Journal, read: &Submission, last: Read, second: Read, third: Read) -> bool {
    if last.flag != 0 || second.flag != 0 || third.flag != 0 {
        return false;
    }
    let turn = journal.turn();
    let hundredth = POWERS[usize::from(journal.dials) - 2];
    let new_value = i64::from(read.value);
    let (value, value_before) = (i64::from(last.value), i64::from(second.value));
    let new_advance = turn + new_value - value;
    let advance = value - value_before;
    let advance_before = value_before - i64::from(third.value);
    let new_days = i64::from(read.day) - i64::from(last.day);
    let days = i64::from(last.day) - i64::from(second.day);

    let past_the_nines = value >= HIGH_MARK * hundredth && new_value < LOW_MARK * hundredth;
    let like_before = LOW_PERCENT * advance * new_days < 100 * new_advance * days
        && 100 * new_advance * days < HIGH_PERCENT * advance * new_days;
    past_the_nines
        && like_before
        && FRACTION * new_advance < turn
        && FRACTION * advance < turn
        && FRACTION * advance_before < turn
}

/// 17 and 18, or the flag.
fn rollover_flag(detection: Detection, indicator: u8) -> Result<u8, Number> {
    match (detection, indicator) {
        (Detection::Rollover, FALSE) => Err(Number::Ee),
        (Detection::Rollover, _) => Ok(1),
        (Detection::NotARollover, TRUE) => Err(Number::Ee),
        (Detection::NotARollover, _) => Ok(0),
        (Detection::Indeterminate, NOT_SET) => Err(Number::Ef),
        (Detection::Indeterminate, indicator) => Ok(u8::from(indicator == TRUE)),
    }
}

/// 19, 20 and 21, where only 21 refuses outright: the other two are stored as held.
///
/// I, O and Y, by the submitted letter, have neither check; a Y that stands still serves as the read before.
fn check_volume(journal: &Journal, read: &Submission, advance: i64) -> Result<Number, Number> {
    let mut newest_first = journal.standing().rev();
    let (Some(last), before) = (newest_first.next(), newest_first.next()) else {
        return Ok(Number::Accepted);
    };
    if is_opening(read.letter) || read.letter == b'Y' {
        return Ok(Number::Accepted);
    }
    let days = i64::from(read.day) - i64::from(last.day);
    if let (0, Some(before)) = (read.reread, before) {
        let usual = journal.advance(before.value, last.value, last.flag);
        let usual_days = i64::from(last.day) - i64::from(before.day);
        if usual > 0 && 100 * advance * usual_days < LOW_PERCENT * usual * days {
            return Ok(Number::Low);
        }
        if usual > 0 && 100 * advance * usual_days > HIGH_PERCENT * usual * days {
            return Ok(Number::High);
        }
    }
    // The year is that of the read, whenever it is submitted.
    let days_in_year = i64::from(calendar::days_in_year_of(read.day));
    if advance * days_in_year < i64::from(journal.capacity) * days {
        Ok(Number::Accepted)
    } else {
        Err(Number::Capacity)
    }
}
