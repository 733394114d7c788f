//! An area as the count of states sees it.

use super::Area;
use necktureen::{entries, Entry, Read};

/// What an area holds.
#[derive(Default)]
pub struct Journal {
    pub is_carried: bool,
    /// How many of the folded reads are flagged.
    pub flagged_in_carry: u16,
    pub standing: Vec<Read>,
    pub withdrawn: Vec<Read>,
    pub held: Option<Read>,
}

impl Journal {
    pub fn of(area: &Area) -> Journal {
        let mut journal = Journal::default();
        for entry in entries(area) {
            match entry {
                Entry::Carry { flagged, .. } => (journal.is_carried, journal.flagged_in_carry) = (true, flagged),
                Entry::Standing(read) => journal.standing.push(read),
                Entry::Withdrawn(read) => journal.withdrawn.push(read),
                Entry::Held(read) => journal.held = Some(read),
                _ => {}
            }
        }
        journal
    }

    /// The standing and withdrawn entries.
    pub fn kept(&self) -> usize {
        self.standing.len() + self.withdrawn.len()
    }

    pub fn entries(&self) -> usize {
        self.kept() + usize::from(self.held.is_some())
    }
}
