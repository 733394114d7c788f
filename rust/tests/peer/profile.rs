//! The two profiles of a meter: with a dial on the wall, or a pseudo meter, for a site that has none. All else that the
//! papers say is the same for both.

use super::journal::LETTERS;

#[derive(Clone, Copy)]
pub enum Profile {
    Ordinary,
    Pseudo,
}

impl Profile {
    /// The kind byte of its entry, the first of a journal.
    pub fn kind(self) -> u8 {
        match self {
            Profile::Ordinary => 1,
            Profile::Pseudo => 7,
        }
    }

    pub fn of_kind(kind: u8) -> Option<Profile> {
        [Profile::Ordinary, Profile::Pseudo].into_iter().find(|profile| profile.kind() == kind)
    }

    /// The types of read that it takes.
    pub fn takes(self, letter: u8) -> bool {
        match self {
            Profile::Ordinary => LETTERS.contains(&letter),
            Profile::Pseudo => letter == b'I' || letter == b'F',
        }
    }
}
