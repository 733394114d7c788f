//! Field staff, who want to know the answer before they commit.

use super::Random;
use necktureen::{Call, Submission};

/// The trial that was made last, if the call after it is still to come.
#[derive(Default)]
pub struct Staff(Option<(u16, Submission)>);

impl Staff {
    /// What comes right after a trial, where it has to do with it: the same read, committed or tried again, or its re-read,
    /// as if the trial had held it.
    pub fn after_a_trial(&mut self, random: &mut Random) -> Option<Call> {
        let (place, read) = self.0.take()?;
        match random.index(16) {
            0..=3 => Some(Call::Submit { place, read }),
            4..=6 => Some(Call::Submit { place, read: Submission { reread: 1, ..read } }),
            7 => Some(self.tries(place, read)),
            _ => None,
        }
    }

    /// One submission in six is tried in its place, which makes about one call in eight a trial.
    pub fn may_try(&mut self, random: &mut Random, call: Call) -> Call {
        match call {
            Call::Submit { place, read } if random.once_in(6) => self.tries(place, read),
            _ => call,
        }
    }

    fn tries(&mut self, place: u16, read: Submission) -> Call {
        self.0 = Some((place, read));
        Call::Trial { place, read }
    }
}
