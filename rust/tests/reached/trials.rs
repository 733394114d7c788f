//! What trials were answered, the states that they were made in, and what came right after them.

use super::journal::Journal;
use super::{true_of, Area, Told, NUMBERS, PSEUDO_METER};
use necktureen::{Answer, Call, Number, Reply, Submission};

pub const STATES: &[&str] = &[
    "a trial, accepted with flag 1",
    "a trial, accepted as a re-read",
    "a trial, accepted with a read held",
    "a trial, accepted as the 50th entry",
    "a trial, accepted beside a tally of reads",
    "a trial, 19 and nothing is held",
    "a trial, 19 with a read held",
    "a trial, 20 and nothing is held",
    "a trial, 20 with a read held",
    "a trial, 16 at 50 entries",
    "a trial after a carry, accepted",
    "a trial after a carry, accepted with flag 1",
    "a trial after a carry, accepted as the 49th entry",
    "a trial after a carry, 8",
    "a trial after a carry, 16 at 49 entries",
    "a trial after a carry, 19",
    "a trial after a carry, 20",
    "a trial on a pseudo meter, accepted",
    "a trial on a pseudo meter, accepted with flag 1",
    "a trial on a pseudo meter, accepted after a carry",
    "a trial on a pseudo meter, 16",
    "a trial on a pseudo meter, 29",
    "right after a trial, the same trial",
    "right after a trial, the same submission accepted",
    "right after a trial, the same submission refused",
    "right after a trial, the same submission held with 19",
    "right after a trial, the same submission held with 20",
    "right after a trial answered 19, the re-read refused with 15",
    "right after a trial answered 20, the re-read refused with 15",
];

/// The numbers that no submission answers: 22 to 28.
const OF_OTHER_CALLS: std::ops::RangeInclusive<u8> = 22..=28;

/// How often trials were answered each number, and the last call if it was a trial.
pub struct Trials {
    numbers: [u64; NUMBERS],
    last: Option<(u16, Submission, Number)>,
}

impl Trials {
    pub fn new() -> Trials {
        Trials { numbers: [0; NUMBERS], last: None }
    }

    pub fn begin(&mut self) {
        self.last = None;
    }

    /// Each number that a submission may be answered, with how often a trial was.
    pub fn answered(&self) -> impl Iterator<Item = (Number, u64)> + '_ {
        Number::ALL.iter().copied().zip(self.numbers).filter(|row| !OF_OTHER_CALLS.contains(&(row.0 as u8)))
    }

    /// The states that a call was in, by the area before it, and by the trial right before it.
    pub fn states(&mut self, call: &Call, reply: Reply, before: Option<&Area>, told: Told) -> Vec<&'static str> {
        let last = self.last.take();
        match (*call, reply) {
            (Call::Trial { place, read }, Reply::Answer(answer)) => {
                self.numbers[answer.number as usize] += 1;
                self.last = Some((place, read, answer.number));
                let is_again = last == self.last;
                let mut states = true_of(&[(is_again, "right after a trial, the same trial")]);
                states.extend(before.map_or(Vec::new(), |area| of_trial(read, answer, area, told)));
                states
            }
            (Call::Submit { place, read }, Reply::Answer(answer)) => {
                let tried = last.filter(|tried| tried.0 == place);
                tried.map_or(Vec::new(), |(_, tried, number)| of_commitment(tried, number, read, answer.number))
            }
            _ => Vec::new(),
        }
    }
}

// ---- Trials ----

fn of_trial(read: Submission, answer: Answer, area: &Area, told: Told) -> Vec<&'static str> {
    if answer.number == Number::Damaged {
        return Vec::new();
    }
    let journal = Journal::of(area);
    let of_numbers = match answer.number {
        Number::Accepted => of_accepted(read, answer, &journal, told),
        Number::Low | Number::High => of_query(answer.number, &journal),
        Number::Full if !journal.is_carried => vec!["a trial, 16 at 50 entries"],
        _ => Vec::new(),
    };
    let of_carry = if journal.is_carried { after_carry(answer, &journal) } else { Vec::new() };
    let of_pseudo = if area[0] == PSEUDO_METER { on_pseudo_meter(answer, &journal) } else { Vec::new() };
    [of_numbers, of_carry, of_pseudo].concat()
}

fn of_accepted(read: Submission, answer: Answer, journal: &Journal, told: Told) -> Vec<&'static str> {
    let beside_a_tally = told.is_kept && told.before.standing > 0 && told.is_unchanged();
    true_of(&[
        (answer.flag == 1, "a trial, accepted with flag 1"),
        (read.reread == 1, "a trial, accepted as a re-read"),
        (journal.held.is_some(), "a trial, accepted with a read held"),
        (!journal.is_carried && journal.kept() == 49, "a trial, accepted as the 50th entry"),
        (beside_a_tally, "a trial, accepted beside a tally of reads"),
    ])
}

/// A submission would hold the read, in the place of one that is held.
fn of_query(number: Number, journal: &Journal) -> Vec<&'static str> {
    vec![match (number, journal.held.is_some()) {
        (Number::Low, false) => "a trial, 19 and nothing is held",
        (Number::Low, true) => "a trial, 19 with a read held",
        (_, false) => "a trial, 20 and nothing is held",
        (_, true) => "a trial, 20 with a read held",
    }]
}

fn after_carry(answer: Answer, journal: &Journal) -> Vec<&'static str> {
    match answer.number {
        Number::Accepted => true_of(&[
            (true, "a trial after a carry, accepted"),
            (answer.flag == 1, "a trial after a carry, accepted with flag 1"),
            (journal.kept() == 48, "a trial after a carry, accepted as the 49th entry"),
        ]),
        Number::Withdrawn => vec!["a trial after a carry, 8"],
        Number::Full => vec!["a trial after a carry, 16 at 49 entries"],
        Number::Low => vec!["a trial after a carry, 19"],
        Number::High => vec!["a trial after a carry, 20"],
        _ => Vec::new(),
    }
}

fn on_pseudo_meter(answer: Answer, journal: &Journal) -> Vec<&'static str> {
    match answer.number {
        Number::Accepted => true_of(&[
            (true, "a trial on a pseudo meter, accepted"),
            (answer.flag == 1, "a trial on a pseudo meter, accepted with flag 1"),
            (journal.is_carried, "a trial on a pseudo meter, accepted after a carry"),
        ]),
        Number::Full => vec!["a trial on a pseudo meter, 16"],
        Number::OtherType => vec!["a trial on a pseudo meter, 29"],
        _ => Vec::new(),
    }
}

// ---- Right after a trial ----

/// A submission to the meter that a read was tried on: of that read, or of its re-read.
fn of_commitment(tried: Submission, answered: Number, sent: Submission, number: Number) -> Vec<&'static str> {
    if sent == tried {
        return vec![match number {
            Number::Accepted => "right after a trial, the same submission accepted",
            Number::Low => "right after a trial, the same submission held with 19",
            Number::High => "right after a trial, the same submission held with 20",
            _ => "right after a trial, the same submission refused",
        }];
    }
    let is_reread = sent == Submission { reread: 1, ..tried };
    match (answered, number) {
        (Number::Low, Number::NoOriginal) if is_reread => {
            vec!["right after a trial answered 19, the re-read refused with 15"]
        }
        (Number::High, Number::NoOriginal) if is_reread => {
            vec!["right after a trial answered 20, the re-read refused with 15"]
        }
        _ => Vec::new(),
    }
}
