//! The tallies of both sides: one for each meter, changed by each call on it, and held to the full report.

use super::super::peer;
use necktureen::{report, Call, Reply, Tally, AREA_BYTES, REGISTER_BYTES};

/// The places of a register, and one more for all the places that it has not.
const TALLIES: usize = REGISTER_BYTES / AREA_BYTES + 1;

/// A tally of each place, all zero at first, on both sides.
pub struct Tallies {
    library: [Tally; TALLIES],
    peer: [peer::Tally; TALLIES],
    /// Whether they began with a register of zeros, as a tally has to.
    pub are_kept: bool,
}

impl Tallies {
    pub fn beside(register: &[u8]) -> Tallies {
        let are_kept = register.len() == REGISTER_BYTES && register.iter().all(|&byte| byte == 0);
        Tallies { library: [Tally::default(); TALLIES], peer: [peer::Tally::default(); TALLIES], are_kept }
    }

    fn at(place: u16) -> usize {
        usize::from(place).min(TALLIES - 1)
    }

    pub fn of(&self, place: u16) -> Tally {
        self.library[Tallies::at(place)]
    }

    /// Tells both tallies of the call's meter of the call, and holds them to each other.
    pub fn change(&mut self, call: &Call, reply: Reply) -> Result<(), String> {
        let (library, peer) = (&mut self.library[Tallies::at(call.place())], &mut self.peer[Tallies::at(call.place())]);
        library.change(call, reply);
        peer.change(call, reply);
        if peer::Tally::from(*library) != *peer {
            return Err(format!("the library's tally is {library:?}\nthe peer's tally is    {peer:?}"));
        }
        let (from_library, from_peer) = (library.report(), peer.report());
        if from_library != from_peer {
            return Err(format!("the library's tally reports {from_library}\nthe peer's tally reports    {from_peer}"));
        }
        Ok(())
    }

    /// Holds the tally of a place to the full report, if it was kept from the beginning.
    pub fn compare(&self, register: &[u8], place: u16) -> Result<(), String> {
        if !self.are_kept {
            return Ok(());
        }
        let (from_tally, full) = (self.of(place).report(), report(register, place));
        if from_tally == full {
            return Ok(());
        }
        Err(format!("the tally of place {place} reports {from_tally}\na full report of it is       {full}"))
    }
}
