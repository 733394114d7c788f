//! The checks of a withdrawal.

use super::journal::Journal;
use super::register::open;
use necktureen::Number;

/// What a withdrawal changes, as places in the area, and what it answers.
pub struct Withdrawal {
    pub at: usize,
    pub held_at: Option<usize>,
    pub flag: u8,
    pub advance: i64,
}

/// 2, 3, 4, 22, 23 and 28.
pub fn judge(register: &[u8], place: u16, day: u16, value: u32) -> Result<Withdrawal, Number> {
    let journal = open(register, place)?;
    let mut newest_first = journal.standing().rev();
    let Some(last) = newest_first.next() else {
        return Err(Number::NotStanding);
    };
    if last.day != day || last.value != value {
        let stands = newest_first.any(|read| read.day == day && read.value == value);
        return Err(if stands { Number::NotLast } else { Number::NotStanding });
    }
    let before = newest_first.next();
    // 28 comes after 23: the oldest kept read is not last while others stand, and is the last when it stands alone.
    if before.is_none() && journal.carry.is_some() {
        return Err(Number::OldestKept);
    }
    // The only standing read has no advance to take back.
    let advance = before.map_or(0, |before| journal.advance(before.value, last.value, last.flag));
    Ok(Withdrawal {
        at: journal.last_standing_at(),
        held_at: journal.held().map(|_| journal.end_without_held()),
        flag: last.flag,
        advance: -advance,
    })
}
