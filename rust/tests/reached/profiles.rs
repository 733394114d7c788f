//! The states that pseudo meters lead to.

use super::journal::Journal;
use super::{true_of, Area, PSEUDO_METER};
use necktureen::{letter, report, Answer, Call, Number, Reply, Submission, AREA_BYTES, REGISTER_BYTES};

pub const STATES: &[&str] = &[
    "a pseudo meter enrolled",
    "on a pseudo meter, an I accepted",
    "on a pseudo meter, an I accepted after withdrawn reads",
    "on a pseudo meter, an F accepted",
    "on a pseudo meter, an F accepted as a rollover",
    "on a pseudo meter, an F accepted after a carry",
    "on a pseudo meter, a held F accepted as a re-read",
    "on a pseudo meter, 6 for a type that nobody knows",
    "on a pseudo meter, 7",
    "on a pseudo meter, 8",
    "on a pseudo meter, 9 for an F",
    "on a pseudo meter, 13",
    "on a pseudo meter, 16",
    "on a pseudo meter, 18",
    "on a pseudo meter, 21",
    "on a pseudo meter, 29 for type O",
    "on a pseudo meter, 29 for type C",
    "on a pseudo meter, 29 for type U",
    "on a pseudo meter, 29 for type R",
    "on a pseudo meter, 29 for type T",
    "on a pseudo meter, 29 for type S",
    "on a pseudo meter, 29 for type X",
    "on a pseudo meter, 29 for type Y",
    "on a pseudo meter, 29 for type E",
    "on a pseudo meter, 29 with no entry",
    "on a pseudo meter, 29 with 50 entries",
    "on a pseudo meter, 29 after a carry",
    "on a pseudo meter, 29 and the date is wrong too",
    "on a pseudo meter, 29 and the read is withdrawn too",
    "on a pseudo meter, 29 and a read of that day stands",
    "on a pseudo meter, 29 for a re-read",
    "on a pseudo meter, an I withdrawn",
    "on a pseudo meter, an F withdrawn",
    "on a pseudo meter, a held F dropped by a withdrawal",
    "on a pseudo meter, 23",
    "on a pseudo meter, 28",
    "on a pseudo meter, 27 with an F standing",
    "on a pseudo meter, 27 with an I alone standing",
    "on a pseudo meter, a report of two reads",
    "on a pseudo meter, a report after a carry",
    "a pseudo meter's journal damaged by a standing read's type alone",
    "a pseudo meter's journal damaged by a withdrawn read's type alone",
    "a pseudo meter's journal damaged by a held read's type alone",
    "damaged, of a kind that no meter has",
];

const METER: u8 = 1;

/// The states that a call was in, by the area before it and after.
pub fn states(call: &Call, reply: Reply, before: &Area, after: &Area) -> Vec<&'static str> {
    let number = reply.number();
    match (before[0], number) {
        (0, Number::Accepted) => true_of(&[(after[0] == PSEUDO_METER, "a pseudo meter enrolled")]),
        (PSEUDO_METER, Number::Damaged) => of_damage(before).into_iter().collect(),
        (PSEUDO_METER, _) => of_call(call, reply, &Journal::of(before)),
        (METER, _) => Vec::new(),
        (_, Number::Damaged) => vec!["damaged, of a kind that no meter has"],
        _ => Vec::new(),
    }
}

fn of_call(call: &Call, reply: Reply, journal: &Journal) -> Vec<&'static str> {
    match (call, reply) {
        (Call::Submit { read, .. }, Reply::Answer(answer)) if answer.number == Number::Accepted => {
            of_accepted(read, answer, journal)
        }
        (Call::Submit { read, .. }, Reply::Answer(answer)) if answer.number == Number::OtherType => {
            of_other_type(read, journal)
        }
        (Call::Submit { read, .. }, Reply::Answer(answer)) => of_refused(read, answer.number),
        (Call::Withdraw { .. }, Reply::Answer(answer)) => of_withdrawal(answer.number, journal),
        (Call::Fold { .. }, reply) if reply.number() == Number::NoFold => true_of(&[
            (final_stands(journal), "on a pseudo meter, 27 with an F standing"),
            (!final_stands(journal) && !journal.standing.is_empty(), "on a pseudo meter, 27 with an I alone standing"),
        ]),
        (_, Reply::Report(_)) => true_of(&[
            (journal.standing.len() == 2, "on a pseudo meter, a report of two reads"),
            (journal.is_carried, "on a pseudo meter, a report after a carry"),
        ]),
        _ => Vec::new(),
    }
}

fn final_stands(journal: &Journal) -> bool {
    journal.standing.iter().any(|read| read.letter == letter::FINAL)
}

// ---- Submissions ----

fn of_accepted(read: &Submission, answer: Answer, journal: &Journal) -> Vec<&'static str> {
    let is_final = read.letter == letter::FINAL;
    let was_withdrawn = !journal.withdrawn.is_empty();
    true_of(&[
        (!is_final, "on a pseudo meter, an I accepted"),
        (!is_final && was_withdrawn, "on a pseudo meter, an I accepted after withdrawn reads"),
        (is_final, "on a pseudo meter, an F accepted"),
        (is_final && answer.flag == 1, "on a pseudo meter, an F accepted as a rollover"),
        (is_final && journal.is_carried, "on a pseudo meter, an F accepted after a carry"),
        (is_final && read.reread == 1, "on a pseudo meter, a held F accepted as a re-read"),
    ])
}

fn of_other_type(read: &Submission, journal: &Journal) -> Vec<&'static str> {
    let is_withdrawn = journal.withdrawn.iter().any(|gone| (gone.day, gone.value) == (read.day, read.value));
    let mut states = true_of(&[
        (journal.entries() == 0, "on a pseudo meter, 29 with no entry"),
        (journal.entries() == 50, "on a pseudo meter, 29 with 50 entries"),
        (journal.is_carried, "on a pseudo meter, 29 after a carry"),
        (read.day == 0 || read.day > read.submitted, "on a pseudo meter, 29 and the date is wrong too"),
        (is_withdrawn, "on a pseudo meter, 29 and the read is withdrawn too"),
        (journal.standing.iter().any(|s| s.day == read.day), "on a pseudo meter, 29 and a read of that day stands"),
        (read.reread == 1, "on a pseudo meter, 29 for a re-read"),
    ]);
    let name = format!("on a pseudo meter, 29 for type {}", char::from(read.letter));
    states.push(STATES.iter().find(|state| **state == name).expect("a type that a pseudo meter does not take"));
    states
}

fn of_refused(read: &Submission, number: Number) -> Vec<&'static str> {
    let is_unknown = letter::word(read.letter).is_none();
    match number {
        Number::Content => true_of(&[(is_unknown, "on a pseudo meter, 6 for a type that nobody knows")]),
        Number::Date => vec!["on a pseudo meter, 7"],
        Number::Withdrawn => vec!["on a pseudo meter, 8"],
        Number::At => true_of(&[(read.letter == letter::FINAL, "on a pseudo meter, 9 for an F")]),
        Number::Df => vec!["on a pseudo meter, 13"],
        Number::Full => vec!["on a pseudo meter, 16"],
        Number::Ef => vec!["on a pseudo meter, 18"],
        Number::Capacity => vec!["on a pseudo meter, 21"],
        _ => Vec::new(),
    }
}

// ---- The other calls ----

fn of_withdrawal(number: Number, journal: &Journal) -> Vec<&'static str> {
    match number {
        Number::Accepted => true_of(&[
            (!final_stands(journal), "on a pseudo meter, an I withdrawn"),
            (final_stands(journal), "on a pseudo meter, an F withdrawn"),
            (journal.held.is_some(), "on a pseudo meter, a held F dropped by a withdrawal"),
        ]),
        Number::NotLast => vec!["on a pseudo meter, 23"],
        Number::OldestKept => vec!["on a pseudo meter, 28"],
        _ => Vec::new(),
    }
}

/// Where one read alone has a type that a pseudo meter does not take, and an ordinary meter's journal would be sound.
fn of_damage(area: &Area) -> Option<&'static str> {
    let journal = Journal::of(area);
    let others = |reads: &[necktureen::Read]| reads.iter().filter(|read| !b"IF".contains(&read.letter)).count();
    let counts = (others(&journal.standing), others(&journal.withdrawn), others(journal.held.as_slice()));
    let state = match counts {
        (1, 0, 0) => "a pseudo meter's journal damaged by a standing read's type alone",
        (0, 1, 0) => "a pseudo meter's journal damaged by a withdrawn read's type alone",
        (0, 0, 1) => "a pseudo meter's journal damaged by a held read's type alone",
        _ => return None,
    };
    let mut register = vec![0; REGISTER_BYTES];
    register[..AREA_BYTES].copy_from_slice(area);
    register[0] = METER;
    (report(&register, 0).number == Number::Accepted).then_some(state)
}
