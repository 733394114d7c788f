//! Reads that idle terminals still have, and send again long after.

use super::meter::{Meter, Read};
use super::Random;

const MOST: usize = 200;

/// Reads that stood or were withdrawn when a fold was called, each with its meter's place. The register may not have them
/// any more.
#[derive(Default)]
pub struct Idle(Vec<(u16, Read)>);

impl Idle {
    /// Keeps the withdrawn reads of a meter and one that stands. What is kept already gives way.
    pub fn keep(&mut self, random: &mut Random, place: u16, meter: &Meter) {
        let standing = (!meter.standing.is_empty()).then(|| random.pick(&meter.standing).0);
        for &read in meter.withdrawn.iter().chain(&standing) {
            if self.0.len() < MOST {
                self.0.push((place, read));
            } else {
                let at = random.index(MOST);
                self.0[at] = (place, read);
            }
        }
    }

    /// One of a meter, if there is one.
    pub fn of(&self, random: &mut Random, place: u16) -> Option<Read> {
        let reads: Vec<Read> = self.0.iter().filter(|kept| kept.0 == place).map(|kept| kept.1).collect();
        (!reads.is_empty()).then(|| random.pick(&reads))
    }
}
