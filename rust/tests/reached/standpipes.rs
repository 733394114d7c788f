//! The states of meters with three dials, as small standpipes have, and of four dials at the limit of their step back.

use super::journal::Journal;
use super::{true_of, Area, PSEUDO_METER};
use necktureen::{indicator, letter, report, Answer, Call, Number, Reply, Submission, AREA_BYTES, REGISTER_BYTES};

pub const STATES: &[&str] = &[
    "three dials, a meter enrolled",
    "three dials, a value of 999 accepted",
    "three dials, a value of 1000 refused with 6",
    "three dials, a step back of 99 accepted, indicator not set",
    "three dials, a step back of 99 accepted with false",
    "three dials, a step back of 99 refused with 17 for true",
    "three dials, a step back of 100 refused with 18",
    "three dials, a step back of 100 accepted with false",
    "three dials, a step back of 100 accepted with true",
    "three dials, a rollover accepted, indicator not set",
    "three dials, a rollover accepted with true",
    "three dials, a rollover accepted after a carry, indicator not set",
    "three dials, a rollover refused with 17 for false",
    "three dials, past all nines with two reads standing, refused with 18",
    "three dials, a rollover held with 19",
    "three dials, a rollover held with 20",
    "three dials, a rollover accepted as a re-read",
    "three dials, a rollover refused with 21",
    "three dials, a read after a rollover accepted",
    "three dials, a read after a rollover held with 19",
    "three dials, a read after a rollover held with 20",
    "three dials, a rollover withdrawn",
    "three dials, a fold accepted, a flagged read folded",
    "three dials, a report of flagged reads after a carry",
    "three dials, a pseudo meter enrolled",
    "three dials, a pseudo meter's I accepted",
    "three dials, a pseudo meter's F accepted",
    "three dials, a pseudo meter's F accepted as a rollover",
    "three dials, a pseudo meter's F refused with 18",
    "four dials, a step back of 999 accepted, indicator not set",
    "four dials, a step back of 1000 refused with 18",
    "damaged by two dials alone",
];

/// The states that a call was in, by the area before it and after.
pub fn states(call: &Call, reply: Reply, before: &Area, after: &Area) -> Vec<&'static str> {
    match (after[1], reply.number()) {
        (2, Number::Damaged) => true_of(&[(is_sound_with_three(before), "damaged by two dials alone")]),
        (_, Number::Damaged) => Vec::new(),
        (3, _) => of_three_dials(call, reply, before, after),
        (4, _) => of_four_dials(call, reply, before),
        _ => Vec::new(),
    }
}

fn is_sound_with_three(area: &Area) -> bool {
    let mut register = vec![0; REGISTER_BYTES];
    register[..AREA_BYTES].copy_from_slice(area);
    register[1] = 3;
    report(&register, 0).number == Number::Accepted
}

fn of_three_dials(call: &Call, reply: Reply, before: &Area, after: &Area) -> Vec<&'static str> {
    let is_accepted = reply.number() == Number::Accepted;
    let flagged = |area| Journal::of(area).flagged_in_carry;
    match (call, reply) {
        (Call::Submit { read, .. }, Reply::Answer(answer)) => {
            let mut states = of_submission(read, answer, &Journal::of(before), after);
            if before[0] == PSEUDO_METER {
                states.extend(of_pseudo_meter(read, answer));
            }
            states
        }
        (Call::Withdraw { .. }, Reply::Answer(answer)) => {
            true_of(&[(answer.flag == 1, "three dials, a rollover withdrawn")])
        }
        (Call::Fold { .. }, _) => {
            true_of(&[(flagged(after) > flagged(before), "three dials, a fold accepted, a flagged read folded")])
        }
        (Call::Report { .. }, _) => {
            true_of(&[(flagged(before) > 0, "three dials, a report of flagged reads after a carry")])
        }
        _ => true_of(&[
            (is_accepted, "three dials, a meter enrolled"),
            (is_accepted && after[0] == PSEUDO_METER, "three dials, a pseudo meter enrolled"),
        ]),
    }
}

/// How far a read goes from the last standing one, by the values alone.
fn step(read: &Submission, journal: &Journal) -> Option<i64> {
    let last = journal.standing.last()?;
    Some(i64::from(read.value) - i64::from(last.value))
}

// ---- Submissions ----

fn of_submission(read: &Submission, answer: Answer, journal: &Journal, after: &Area) -> Vec<&'static str> {
    let step = step(read, journal).unwrap_or(0);
    let last = journal.standing.last();
    let after_rollover = last.is_some_and(|last| last.flag == 1);
    let held_as_rollover = Journal::of(after).held.is_some_and(|held| held.flag == 1);
    match answer.number {
        Number::Accepted => of_accepted(read, answer, journal, step),
        Number::Content => {
            let by_value = letter::word(read.letter).is_some() && read.indicator <= 2 && read.reread <= 1;
            true_of(&[(by_value && read.value == 1000, "three dials, a value of 1000 refused with 6")])
        }
        Number::Ee => true_of(&[
            (step == -99, "three dials, a step back of 99 refused with 17 for true"),
            (read.indicator == indicator::FALSE, "three dials, a rollover refused with 17 for false"),
        ]),
        Number::Ef => {
            let past_all_nines = last.is_some_and(|last| last.value >= 900) && read.value < 100;
            let two_stand = journal.standing.len() == 2;
            true_of(&[
                (step == -100, "three dials, a step back of 100 refused with 18"),
                (past_all_nines && two_stand, "three dials, past all nines with two reads standing, refused with 18"),
            ])
        }
        Number::Low => true_of(&[
            (held_as_rollover, "three dials, a rollover held with 19"),
            (after_rollover, "three dials, a read after a rollover held with 19"),
        ]),
        Number::High => true_of(&[
            (held_as_rollover, "three dials, a rollover held with 20"),
            (after_rollover, "three dials, a read after a rollover held with 20"),
        ]),
        // Without a flag a step back is no advance that a capacity would refuse.
        Number::Capacity => true_of(&[(step < 0, "three dials, a rollover refused with 21")]),
        _ => Vec::new(),
    }
}

fn of_accepted(read: &Submission, answer: Answer, journal: &Journal, step: i64) -> Vec<&'static str> {
    let not_set = read.indicator == indicator::NOT_SET;
    let is_rollover = answer.flag == 1;
    let seen = is_rollover && not_set;
    let after_rollover = journal.standing.last().is_some_and(|last| last.flag == 1);
    true_of(&[
        (read.value == 999, "three dials, a value of 999 accepted"),
        (step == -99 && not_set, "three dials, a step back of 99 accepted, indicator not set"),
        (step == -99 && !not_set, "three dials, a step back of 99 accepted with false"),
        (step == -100 && !is_rollover, "three dials, a step back of 100 accepted with false"),
        (step == -100 && is_rollover, "three dials, a step back of 100 accepted with true"),
        (seen, "three dials, a rollover accepted, indicator not set"),
        (seen && journal.is_carried, "three dials, a rollover accepted after a carry, indicator not set"),
        (is_rollover && !not_set, "three dials, a rollover accepted with true"),
        (is_rollover && read.reread == 1, "three dials, a rollover accepted as a re-read"),
        (after_rollover, "three dials, a read after a rollover accepted"),
    ])
}

fn of_pseudo_meter(read: &Submission, answer: Answer) -> Vec<&'static str> {
    let is_final = read.letter == letter::FINAL;
    match answer.number {
        Number::Accepted => true_of(&[
            (!is_final, "three dials, a pseudo meter's I accepted"),
            (is_final, "three dials, a pseudo meter's F accepted"),
            (is_final && answer.flag == 1, "three dials, a pseudo meter's F accepted as a rollover"),
        ]),
        Number::Ef => vec!["three dials, a pseudo meter's F refused with 18"],
        _ => Vec::new(),
    }
}

fn of_four_dials(call: &Call, reply: Reply, before: &Area) -> Vec<&'static str> {
    let Call::Submit { read, .. } = call else {
        return Vec::new();
    };
    let not_set = read.indicator == indicator::NOT_SET;
    match (reply.number(), step(read, &Journal::of(before))) {
        (Number::Accepted, Some(-999)) if not_set => vec!["four dials, a step back of 999 accepted, indicator not set"],
        (Number::Ef, Some(-1000)) => vec!["four dials, a step back of 1000 refused with 18"],
        _ => Vec::new(),
    }
}
