//! The search for a standing read of a day, with how many standing days it compares.

use super::journal::{Journal, Read};
use necktureen::{Number, Search};

/// "Those later than the submitted day, and one more if any is not later": counted over all that stand, wherever a search
/// would end.
pub fn search(standing: &[Read], day: u16) -> Search {
    let found = standing.iter().find(|read| read.day == day).map(|read| {
        let Read { day, value, letter, indicator, flag } = *read;
        necktureen::Read { day, value, letter, indicator, flag }
    });
    let later = standing.iter().filter(|read| read.day > day).count();
    let one_more = standing.iter().any(|read| read.day <= day);
    Search { number: Number::Accepted, found, compared: (later + usize::from(one_more)) as u8 }
}

/// For every day that two bytes hold.
pub fn search_each_day(journal: &Journal) -> Vec<Search> {
    let standing: Vec<Read> = journal.standing().collect();
    (0..=u16::MAX).map(|day| search(&standing, day)).collect()
}
