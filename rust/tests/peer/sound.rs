//! When a journal is sound.

use super::journal::{is_opening, Entry, Journal, NOT_SET, TRUE};
use super::register::{plate_fits, HELD, STANDING, WITHDRAWN};

const LETTERS_HELD: &[u8] = b"CURTSFXE";

impl Journal<'_> {
    pub fn is_sound(&self) -> bool {
        // The plate comes first: the bound of the values is looked up by its dials.
        plate_fits(self.dials, self.capacity)
            && self.entries().all(|entry| self.entry_fits(entry))
            && self.standing_is_sound()
            && self.carry_is_sound()
            && self.no_withdrawn_read_stands()
            && self.held_is_sound()
    }

    /// The ranges of the fields, alike in all three kinds, and so are the types: a pseudo meter's journal holds no other
    /// than it takes, withdrawn or held neither. The flag is tied to nothing here.
    fn entry_fits(&self, entry: Entry) -> bool {
        let read = entry.read;
        (entry.kind == STANDING || entry.kind == WITHDRAWN || entry.kind == HELD)
            && read.day >= 1
            && i64::from(read.value) < self.turn()
            && self.profile.takes(read.letter)
            && read.indicator <= TRUE
            && read.flag <= 1
            && (read.indicator == NOT_SET || !is_opening(read.letter))
    }

    fn standing_is_sound(&self) -> bool {
        let mut day_before = 0;
        let mut finals = 0;
        for (position, read) in self.standing().enumerate() {
            let opening = is_opening(read.letter);
            let in_place = match (position, self.carry) {
                // After a carry the first standing read may have any type and flag.
                (0, Some(_)) => true,
                (0, None) => opening && read.flag == 0,
                _ => !opening,
            };
            if read.day <= day_before || !in_place {
                return false;
            }
            if read.letter == b'F' {
                finals += 1;
            }
            day_before = read.day;
        }
        finals <= 1
    }

    /// A journal without a carry has nothing to ask for.
    fn carry_is_sound(&self) -> bool {
        let Some(carry) = self.carry else {
            return true;
        };
        let Some(oldest) = self.standing().next() else {
            return false;
        };
        i64::from(carry.first) < self.turn()
            && carry.flagged <= carry.folded
            && carry.folded >= 1
            && carry.folded < oldest.day
    }

    fn no_withdrawn_read_stands(&self) -> bool {
        self.withdrawn().all(|gone| !self.standing().any(|read| read.day == gone.day && read.value == gone.value))
    }

    fn held_is_sound(&self) -> bool {
        let Some(position) = self.entries().position(|entry| entry.kind == HELD) else {
            return true;
        };
        let (Some(held), Some(last)) = (self.held(), self.last()) else {
            return false;
        };
        position + 1 == self.entries().len()
            && LETTERS_HELD.contains(&held.letter)
            && held.day > last.day
            && !(held.letter == b'F' && self.final_stands())
    }
}
