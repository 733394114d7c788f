//! The states that folds lead to.

use super::journal::Journal;
use super::{true_of, Area};
use necktureen::{letter, Answer, Call, Number, Reply, Report};
use std::collections::BTreeSet;

pub const STATES: &[&str] = &[
    "a fold accepted, no carry before it",
    "a fold accepted, a carry before it",
    "a fold accepted, four standing",
    "a fold accepted, 50 entries",
    "a fold accepted, 49 entries after a carry",
    "a fold accepted, a held read kept",
    "a fold accepted, a flagged read folded",
    "a fold accepted, the oldest kept read flagged",
    "a fold accepted, a withdrawn read before the oldest kept day dropped",
    "a fold accepted, a withdrawn read of the oldest kept day dropped",
    "a fold accepted, a withdrawn read after the oldest kept day kept",
    "a fold refused with 27, three standing",
    "a fold refused with 27, three standing after a carry",
    "a fold refused with 27, an F among four standing or more",
    "after a carry, a read accepted",
    "after a carry, a read accepted with one kept",
    "after a carry, the 49th entry written",
    "after a carry, a rollover accepted",
    "after a carry, a read held",
    "after a carry, a re-read accepted",
    "after a carry, 8",
    "after a carry, 9 for an F with the oldest kept read an F",
    "after a carry, 16 at 49 entries",
    "without a carry, 16 at 50 entries",
    "after a carry, 18 with two kept",
    "after a carry, 23 for the oldest kept read",
    "after a carry, 28 with a held read",
    "after a carry, 28 for a flagged read",
    "after a carry, a report",
    "after a carry, a report of 60,000 reads or more",
    "after a carry, an area damaged",
    "sent again after a fold dropped it, 9",
    "sent again after a fold dropped it, 10",
    "sent again after a fold dropped it, 11",
    "sent again after a fold dropped it, 12",
];

/// The states that a call was in, by the area before it and after.
pub fn states(call: &Call, reply: Reply, before: &Area, after: &Area) -> Vec<&'static str> {
    let is_carried = before[6] == 5;
    match (call, reply) {
        (Call::Fold { .. }, Reply::Answer(answer)) => of_fold(answer.number, &Journal::of(before)),
        (_, Reply::Answer(Answer { number: Number::Full, .. })) => of_full(is_carried),
        _ if !is_carried => Vec::new(),
        (_, reply) if reply.number() == Number::Damaged => vec!["after a carry, an area damaged"],
        (Call::Submit { read, .. }, Reply::Answer(answer)) => {
            of_submission((read.letter, read.reread), answer, &Journal::of(before), after)
        }
        (Call::Withdraw { day, .. }, Reply::Answer(answer)) => of_withdrawal(*day, answer.number, &Journal::of(before)),
        (_, Reply::Report(report)) => of_report(report),
        _ => Vec::new(),
    }
}

fn of_fold(number: Number, journal: &Journal) -> Vec<&'static str> {
    match number {
        Number::Accepted => of_accepted_fold(journal),
        Number::NoFold => {
            let (three, more) = (journal.standing.len() == 3, journal.standing.len() > 3);
            true_of(&[
                (three && !journal.is_carried, "a fold refused with 27, three standing"),
                (three && journal.is_carried, "a fold refused with 27, three standing after a carry"),
                (more, "a fold refused with 27, an F among four standing or more"),
            ])
        }
        _ => Vec::new(),
    }
}

fn of_accepted_fold(journal: &Journal) -> Vec<&'static str> {
    let (folded, kept) = journal.standing.split_at(journal.standing.len() - 3);
    let oldest = kept[0];
    let any_withdrawn = |is: fn(&u16, &u16) -> bool| journal.withdrawn.iter().any(|read| is(&read.day, &oldest.day));
    true_of(&[
        (!journal.is_carried, "a fold accepted, no carry before it"),
        (journal.is_carried, "a fold accepted, a carry before it"),
        (folded.len() == 1, "a fold accepted, four standing"),
        (!journal.is_carried && journal.entries() == 50, "a fold accepted, 50 entries"),
        (journal.is_carried && journal.entries() == 49, "a fold accepted, 49 entries after a carry"),
        (journal.held.is_some(), "a fold accepted, a held read kept"),
        (folded.iter().any(|read| read.flag == 1), "a fold accepted, a flagged read folded"),
        (oldest.flag == 1, "a fold accepted, the oldest kept read flagged"),
        (any_withdrawn(u16::lt), "a fold accepted, a withdrawn read before the oldest kept day dropped"),
        (any_withdrawn(u16::eq), "a fold accepted, a withdrawn read of the oldest kept day dropped"),
        (any_withdrawn(u16::gt), "a fold accepted, a withdrawn read after the oldest kept day kept"),
    ])
}

fn of_full(is_carried: bool) -> Vec<&'static str> {
    vec![if is_carried { "after a carry, 16 at 49 entries" } else { "without a carry, 16 at 50 entries" }]
}

fn of_submission((letter, reread): (u8, u8), answer: Answer, journal: &Journal, after: &Area) -> Vec<&'static str> {
    let kept = journal.standing.len();
    let oldest_is_final = journal.standing.first().is_some_and(|read| read.letter == letter::FINAL);
    match answer.number {
        Number::Accepted => true_of(&[
            (true, "after a carry, a read accepted"),
            (kept == 1, "after a carry, a read accepted with one kept"),
            (after[495] == 2, "after a carry, the 49th entry written"),
            (answer.flag == 1, "after a carry, a rollover accepted"),
            (reread == 1, "after a carry, a re-read accepted"),
        ]),
        Number::Low | Number::High => vec!["after a carry, a read held"],
        Number::Withdrawn => vec!["after a carry, 8"],
        Number::At if letter == letter::FINAL && oldest_is_final => {
            vec!["after a carry, 9 for an F with the oldest kept read an F"]
        }
        Number::Ef if kept == 2 => vec!["after a carry, 18 with two kept"],
        _ => Vec::new(),
    }
}

fn of_withdrawal(day: u16, number: Number, journal: &Journal) -> Vec<&'static str> {
    let oldest = journal.standing.first().filter(|read| read.day == day);
    let is_flagged = oldest.is_some_and(|read| read.flag == 1);
    match number {
        Number::NotLast if oldest.is_some() => vec!["after a carry, 23 for the oldest kept read"],
        Number::OldestKept => true_of(&[
            (journal.held.is_some(), "after a carry, 28 with a held read"),
            (is_flagged, "after a carry, 28 for a flagged read"),
        ]),
        _ => Vec::new(),
    }
}

fn of_report(report: Report) -> Vec<&'static str> {
    let is_accepted = report.number == Number::Accepted;
    true_of(&[
        (is_accepted, "after a carry, a report"),
        (is_accepted && report.standing >= 60_000, "after a carry, a report of 60,000 reads or more"),
    ])
}

// ---- Reads that a fold dropped ----

/// Place, day and value of the withdrawn reads that folds dropped.
#[derive(Default)]
pub struct Dropped(BTreeSet<(u16, u16, u32)>);

impl Dropped {
    pub fn enter(&mut self, call: &Call, reply: Reply, before: &Area, after: &Area) {
        let (Call::Fold { place }, Number::Accepted) = (*call, reply.number()) else {
            return;
        };
        let kept = Journal::of(after).withdrawn;
        let dropped = Journal::of(before).withdrawn.into_iter().filter(|read| !kept.contains(read));
        self.0.extend(dropped.map(|read| (place, read.day, read.value)));
    }

    /// How a dropped read is answered when it is sent again.
    pub fn state(&self, call: &Call, reply: Reply) -> Option<&'static str> {
        let Call::Submit { place, read } = *call else {
            return None;
        };
        if !self.0.contains(&(place, read.day, read.value)) {
            return None;
        }
        match reply.number() {
            Number::At => Some("sent again after a fold dropped it, 9"),
            Number::Eh => Some("sent again after a fold dropped it, 10"),
            Number::Bf => Some("sent again after a fold dropped it, 11"),
            Number::BackDated => Some("sent again after a fold dropped it, 12"),
            _ => None,
        }
    }
}
