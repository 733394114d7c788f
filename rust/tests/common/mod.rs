//! Journals made by hand, from the papers' tables of bytes, for the tests.
#![allow(dead_code)]

use necktureen::{
    indicator, journal, letter, play, Answer, Call, Number, Reply, Report, Submission, AREA_BYTES, REGISTER_BYTES,
};

pub const STANDING: u8 = 2;
pub const WITHDRAWN: u8 = 3;
pub const HELD: u8 = 4;

/// A register of zeros.
pub fn zeros() -> Vec<u8> {
    vec![0; REGISTER_BYTES]
}

/// A body with its kind: day, value, type, indicator and flag.
pub fn entry(kind: u8, day: u16, value: u32, letter: u8, indicator: u8, flag: u8) -> [u8; 10] {
    let (d, v) = (day.to_le_bytes(), value.to_le_bytes());
    [kind, d[0], d[1], v[0], v[1], v[2], v[3], letter, indicator, flag]
}

/// A standing cyclic read.
pub fn stands(day: u16, value: u32) -> [u8; 10] {
    entry(STANDING, day, value, b'C', 0, 0)
}

/// A withdrawn cyclic read.
pub fn gone(day: u16, value: u32) -> [u8; 10] {
    entry(WITHDRAWN, day, value, b'C', 0, 0)
}

/// So many standing reads, a day and a cubic metre apart, from day 1 on.
pub fn daily(count: u16) -> Vec<[u8; 10]> {
    let later = (2..=count).map(|day| stands(day, u32::from(day)));
    [entry(STANDING, 1, 1, b'I', 0, 0)].into_iter().chain(later).take(usize::from(count)).collect()
}

/// The meter's entry: kind 1, dials and capacity.
pub fn meter(dials: u8, capacity: u32) -> [u8; 6] {
    ORDINARY.meter(dials, capacity)
}

/// A carry: the first value, how many reads were folded, and how many of them are flagged.
pub fn carry(first: u32, folded: u16, flagged: u16) -> [u8; 9] {
    let (v, n, f) = (first.to_le_bytes(), folded.to_le_bytes(), flagged.to_le_bytes());
    [5, v[0], v[1], v[2], v[3], n[0], n[1], f[0], f[1]]
}

/// An area of four dials and a capacity of 5000 with these entries after the meter's.
pub fn area(entries: &[[u8; 10]]) -> Vec<u8> {
    ORDINARY.area(entries)
}

/// The same with a carry after the meter's entry.
pub fn carried(carry: [u8; 9], entries: &[[u8; 10]]) -> Vec<u8> {
    ORDINARY.carried(carry, entries)
}

/// An area with this head and these entries, then zeros.
pub fn area_of(head: &[u8], entries: &[[u8; 10]]) -> Vec<u8> {
    let mut bytes = head.to_vec();
    for e in entries {
        bytes.extend_from_slice(e);
    }
    assert!(bytes.len() <= AREA_BYTES, "no area holds it");
    bytes.resize(AREA_BYTES, 0);
    bytes
}

// ---- Journals of either kind of meter ----

/// What a journal of this kind of meter is made of.
#[derive(Clone, Copy, Debug)]
pub struct Profile {
    /// The kind byte of its head.
    pub kind: u8,
    /// A type that a first read may have.
    pub opens: u8,
    /// The type of the oldest kept read after a carry.
    pub oldest: u8,
    /// A type that a later read may have, and a held one.
    pub later: u8,
    /// The kind of entry that there may be many of: on a pseudo meter no more than two reads stand.
    pub many: u8,
}

pub const ORDINARY: Profile = Profile { kind: 1, opens: b'O', oldest: b'C', later: b'C', many: STANDING };
pub const PSEUDO: Profile = Profile { kind: 7, opens: b'I', oldest: b'I', later: b'F', many: WITHDRAWN };
pub const PROFILES: [Profile; 2] = [ORDINARY, PSEUDO];

impl Profile {
    /// Its entry: the kind, dials and capacity.
    pub fn meter(self, dials: u8, capacity: u32) -> [u8; 6] {
        let c = capacity.to_le_bytes();
        [self.kind, dials, c[0], c[1], c[2], c[3]]
    }

    /// An area of four dials and a capacity of 5000 with these entries after the meter's.
    pub fn area(self, entries: &[[u8; 10]]) -> Vec<u8> {
        area_of(&self.meter(4, 5000), entries)
    }

    /// The same with a carry after the meter's entry.
    pub fn carried(self, carry: [u8; 9], entries: &[[u8; 10]]) -> Vec<u8> {
        area_of(&[&self.meter(4, 5000)[..], &carry].concat(), entries)
    }

    /// A read of a later type.
    pub fn later(self, kind: u8, day: u16, value: u32) -> [u8; 10] {
        entry(kind, day, value, self.later, 0, 0)
    }

    /// The oldest kept read after a carry.
    pub fn oldest(self, day: u16, value: u32) -> [u8; 10] {
        entry(STANDING, day, value, self.oldest, 0, 0)
    }
}

/// A register of zeros but for one area.
pub fn with_area(place: u16, area: &[u8]) -> Vec<u8> {
    let mut register = zeros();
    let start = AREA_BYTES * usize::from(place);
    register[start..start + AREA_BYTES].copy_from_slice(area);
    register
}

/// Runs a call on a register that stands between guard bytes, and holds the guards to what they were.
pub fn guarded<T>(register: &mut [u8], call: impl FnOnce(&mut [u8]) -> T) -> T {
    const GUARD: usize = 64;
    let mut wide = vec![0xA5; register.len() + 2 * GUARD];
    let end = GUARD + register.len();
    wide[GUARD..end].copy_from_slice(register);
    let answer = call(&mut wide[GUARD..end]);
    assert!(wide[..GUARD].iter().all(|&b| b == 0xA5), "written before the register");
    assert!(wide[end..].iter().all(|&b| b == 0xA5), "written past the register");
    register.copy_from_slice(&wide[GUARD..end]);
    answer
}

/// Accepted, with this flag and advance.
pub fn taken(flag: u8, advance: i64) -> Answer {
    Answer { number: Number::Accepted, flag, advance }
}

/// Refused: a number, and zeros beside it.
pub fn refusal(number: Number) -> Answer {
    Answer { number, flag: 0, advance: 0 }
}

/// A report that is answered.
pub fn reported(standing: u16, flagged: u16, total: i64) -> Report {
    Report { number: Number::Accepted, standing, flagged, total }
}

pub fn refused_report(number: Number) -> Report {
    Report { number, standing: 0, flagged: 0, total: 0 }
}

/// A read submitted on day 60,000 with the indicator not set and no re-read.
pub fn read(day: u16, letter: u8, value: u32) -> Submission {
    Submission { submitted: 60_000, day, value, letter, indicator: indicator::NOT_SET, reread: 0 }
}

/// One call of each kind on a place, and a trial.
pub fn each_call(place: u16) -> [Call; 7] {
    [
        Call::Enrol { place, dials: 4, capacity: 1 },
        Call::Submit { place, read: read(300, letter::CYCLIC, 30) },
        Call::Withdraw { place, day: 100, value: 10 },
        Call::Report { place },
        Call::Fold { place },
        Call::EnrolPseudo { place, dials: 4, capacity: 1 },
        Call::Trial { place, read: read(300, letter::CYCLIC, 30) },
    ]
}

pub fn is_enrolment(call: &Call) -> bool {
    matches!(call, Call::Enrol { .. } | Call::EnrolPseudo { .. })
}

/// Holds a call to a number with zeros beside it and to changing no byte, both made and played from a sheet.
pub fn refuses(register: &[u8], call: Call, number: Number, what: &str) {
    let (expected, line) = match call {
        Call::Report { .. } => (Reply::Report(refused_report(number)), format!("{} 0 0 0\n", number as u8)),
        _ => (Reply::Answer(refusal(number)), format!("{} 0 0\n", number as u8)),
    };
    let mut after = register.to_vec();
    assert_eq!(guarded(&mut after, |r| call.make(r)), expected, "{call}, {what}");
    assert_eq!(after, register, "{call} changed a byte, {what}");
    if let Some(entry) = call.sheet_entry() {
        let mut text = [0; 64];
        let length = guarded(&mut after, |r| play(&entry, r, &mut text));
        assert_eq!(&text[..length], line.as_bytes(), "{call} played, {what}");
        assert_eq!(after, register, "{call} played changed a byte, {what}");
    }
}

/// Holds every call that reads this area to 4 and to changing no byte.
pub fn is_damaged(area: &[u8], clause: &str) {
    for place in [0, 63] {
        let register = with_area(place, area);
        for call in each_call(place) {
            // An enrolment asks only whether the area is all zero.
            let number = if is_enrolment(&call) { Number::Enrolled } else { Number::Damaged };
            refuses(&register, call, number, clause);
        }
        assert!(journal(&register, place).is_empty(), "{clause}");
    }
}
