//! Library and peer side by side: the same call made on a register of each, and everything compared.

mod tallies;

use super::lists::{hexadecimal, shortened};
use super::peer;
use necktureen::{Call, Reply, AREA_BYTES};
use std::fmt::Write as _;
use tallies::Tallies;

const GUARD: u8 = 0xA5;

/// The library's register, between guard bytes, and the peer's, with a tally of each meter.
pub struct Pair {
    wide: Vec<u8>,
    start: usize,
    pub peer: Vec<u8>,
    pub tallies: Tallies,
}

impl Pair {
    /// Both sides begin alike. `before` guard bytes stand before the library's register.
    pub fn new(register: &[u8], before: usize) -> Pair {
        let mut wide = vec![GUARD; before];
        wide.extend_from_slice(register);
        wide.extend([GUARD; 64]);
        Pair { wide, start: before, peer: register.to_vec(), tallies: Tallies::beside(register) }
    }

    /// The area of a place in the peer's register, if it has one.
    pub fn peer_area(&self, place: u16) -> Option<[u8; AREA_BYTES]> {
        let area = self.peer.get(AREA_BYTES * usize::from(place)..)?.first_chunk();
        area.copied()
    }

    fn library(&self) -> &[u8] {
        &self.wide[self.start..self.start + self.peer.len()]
    }

    /// Makes the call on both sides: the reply that both give, or what differs. A submission is tried first.
    pub fn call(&mut self, call: &Call) -> Result<Reply, String> {
        let foretold = self.foretold(call)?;
        let end = self.start + self.peer.len();
        let library = call.make(&mut self.wide[self.start..end]);
        let peer = peer_reply(&mut self.peer, call);
        if library != peer {
            return Err(format!("the library answers {library:?}\nthe peer answers    {peer:?}"));
        }
        if let Some(foretold) = foretold.filter(|&foretold| foretold != library) {
            return Err(format!("the submission is answered {library:?}\nits trial was answered     {foretold:?}"));
        }
        self.compare_bytes()?;
        self.compare_journals(call.place())?;
        self.tallies.change(call, library)?;
        self.tallies.compare(self.library(), call.place())?;
        Ok(library)
    }

    /// What the library answers to the trial of a submission, which writes nothing into the meter's area. Nor does it
    /// elsewhere: all bytes are compared after the submission.
    fn foretold(&self, call: &Call) -> Result<Option<Reply>, String> {
        let Call::Submit { place, read } = *call else {
            return Ok(None);
        };
        let answer = necktureen::trial(self.library(), place, read);
        let area = AREA_BYTES * usize::from(place)..AREA_BYTES * (usize::from(place) + 1);
        if self.library().get(area.clone()) != self.peer.get(area) {
            return Err(format!("the trial before it wrote into the area of place {place}"));
        }
        Ok(Some(Reply::Answer(answer)))
    }

    /// Holds the tally of every place to the full report.
    pub fn compare_tallies(&self) -> Result<(), String> {
        (0..64).try_for_each(|place| self.tallies.compare(self.library(), place))
    }

    fn compare_bytes(&self) -> Result<(), String> {
        let end = self.start + self.peer.len();
        if self.wide[..self.start].iter().any(|&byte| byte != GUARD) {
            return Err("the library wrote before the register".into());
        }
        if self.wide[end..].iter().any(|&byte| byte != GUARD) {
            return Err("the library wrote past the register".into());
        }
        let library = self.library();
        if library == self.peer {
            return Ok(());
        }
        let at = library.iter().zip(&self.peer).position(|(a, b)| a != b).expect("a byte differs");
        let (place, offset) = (at / AREA_BYTES, at % AREA_BYTES);
        let (mine, other) = (library[at], self.peer[at]);
        Err(format!("byte {offset} of place {place} is {mine} in the library's register and {other} in the peer's"))
    }

    fn compare_journals(&self, place: u16) -> Result<(), String> {
        let peer = peer::journal(&self.peer, place);
        let library = necktureen::journal(self.library(), place);
        if library == peer {
            return Ok(());
        }
        Err(format!("the library's journal has {} bytes, the peer's {}", library.len(), peer.len()))
    }
}

pub fn peer_reply(register: &mut [u8], call: &Call) -> Reply {
    use peer::{enrol, enrol_pseudo, fold, report, submit, trial, withdraw};
    match *call {
        Call::Enrol { place, dials, capacity } => Reply::Answer(enrol(register, place, dials, capacity)),
        Call::Submit { place, read } => Reply::Answer(submit(register, place, read)),
        Call::Withdraw { place, day, value } => Reply::Answer(withdraw(register, place, day, value)),
        Call::Report { place } => Reply::Report(report(register, place)),
        Call::Fold { place } => Reply::Answer(fold(register, place)),
        Call::EnrolPseudo { place, dials, capacity } => Reply::Answer(enrol_pseudo(register, place, dials, capacity)),
        Call::Trial { place, read } => Reply::Answer(trial(register, place, read)),
        other => panic!("the peer has no call {other}"),
    }
}

/// A register to start from and the calls made on it.
#[derive(Clone)]
pub struct List {
    pub start: Vec<u8>,
    pub calls: Vec<Call>,
}

impl List {
    /// How the two sides first differ, and the tallies at the end.
    fn difference(&self) -> Option<String> {
        let mut pair = Pair::new(&self.start, 64);
        let calls = self.calls.iter().try_for_each(|call| pair.call(call).map(drop));
        calls.and_then(|()| pair.compare_tallies()).err()
    }

    /// Takes away calls, areas and entries that the difference does without.
    fn shorten(&mut self) {
        let start = self.start.clone();
        self.calls =
            shortened(&self.calls, |calls| List { start: start.clone(), calls: calls.to_vec() }.difference().is_some());
        self.empty_areas();
        self.drop_entries();
    }

    fn empty_areas(&mut self) {
        for at in 0..self.start.len() / AREA_BYTES {
            let mut emptier = self.clone();
            emptier.start[AREA_BYTES * at..][..AREA_BYTES].fill(0);
            if emptier.difference().is_some() {
                *self = emptier;
            }
        }
    }

    fn drop_entries(&mut self) {
        for at in 0..self.start.len() / AREA_BYTES {
            let head = if self.start[AREA_BYTES * at + 6] == 5 { 15 } else { 6 };
            // From the last to the first, so that those still to be tried stay where they are.
            for entry in (head..AREA_BYTES - 10).step_by(10).rev() {
                let mut emptier = self.clone();
                let area = &mut emptier.start[AREA_BYTES * at..][..AREA_BYTES];
                area.copy_within(entry + 10.., entry);
                area[AREA_BYTES - 10..].fill(0);
                if emptier.start != self.start && emptier.difference().is_some() {
                    *self = emptier;
                }
            }
        }
    }

    fn describe(&self) -> String {
        let mut text = String::new();
        let _ = writeln!(text, "on a register of {} bytes, all zero{}", self.start.len(), self.describe_start());
        for call in &self.calls {
            let _ = writeln!(text, "  {call}");
        }
        let sheet: Vec<u8> = self.calls.iter().filter_map(Call::sheet_entry).flat_map(|entry| entry.to_vec()).collect();
        let _ = writeln!(text, "as a day sheet, without trials: {}", hexadecimal(&sheet));
        if let Some(difference) = self.difference() {
            let _ = writeln!(text, "at the last call {difference}");
        }
        text
    }

    fn describe_start(&self) -> String {
        let mut text = String::new();
        for (place, area) in self.start.chunks(AREA_BYTES).enumerate() {
            if let Some(last) = area.iter().rposition(|&byte| byte != 0) {
                let _ = write!(text, "\n  but place {place}: {}", hexadecimal(&area[..=last]));
            }
        }
        text
    }
}

pub fn fail(mut list: List, seed: u64) -> ! {
    list.shorten();
    let what = "library and peer differ, or a tally and the full report, or a trial and its submission";
    panic!("{what}, seed {seed}\n{}", list.describe());
}
