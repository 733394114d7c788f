//! The states that tallies come to, and those in which they stay as they are.

use super::{true_of, Area, PSEUDO_METER};
use necktureen::{letter, Answer, Call, Number, Reply, Report, Submission, Tally};

pub const STATES: &[&str] = &[
    "a tally of zeros, an enrolment",
    "a tally of zeros, a pseudo meter's enrolment",
    "a tally of zeros, a read refused with 3",
    "a tally of zeros, an enrolment refused with 25",
    "a tally of no read, an enrolment refused with 24",
    "a tally of reads, an enrolment refused with 24",
    "a tally, a read held with 19",
    "a tally, a read held with 20",
    "a tally, a held read taken as a re-read",
    "a tally, a rollover taken",
    "a tally, a step back taken without a flag",
    "a tally, a last value of 0 taken after others",
    "a tally, a last value of all nines taken after others",
    "a tally, a first read taken after the only one was withdrawn",
    "a tally, a flagged read withdrawn",
    "a tally, a flagged read withdrawn with another one standing",
    "a tally, a step back withdrawn that had no flag",
    "a tally, a withdrawal back to a value of 0",
    "a tally, a withdrawal back to a value of all nines",
    "a tally, the only read withdrawn",
    "a tally, a fold accepted",
    "a tally, a fold accepted with a flagged read standing",
    "a tally, a fold refused with 27",
    "a tally of folded reads, a read taken",
    "a tally of folded reads, a rollover taken",
    "a tally of folded reads, a read withdrawn",
    "a tally of folded reads, a flagged read withdrawn",
    "a tally of folded reads, withdrawn down to the oldest kept read",
    "a tally of folded reads, 28",
    "a tally of folded reads, a fold accepted",
    "a tally of folded reads, more of them than a journal holds",
    "a tally of three dials, a rollover taken",
    "a tally of three dials, a flagged read withdrawn",
    "a tally of three dials, a fold accepted with a flagged read standing",
    "a tally of nine dials, a rollover taken",
    "a tally of nine dials, a flagged read withdrawn",
    "a tally of a pseudo meter, a final read taken",
    "a tally of a pseudo meter, a final read withdrawn",
    "a tally of a pseudo meter, a flagged read withdrawn",
    "a tally of a pseudo meter, the only read withdrawn",
    "a tally, a report of two turns or more",
    "a tally, a report of a total below 0",
    "a tally, a report of no read",
    "a tally of zeros beside another register, a read accepted",
    "a tally of zeros beside another register, a withdrawal accepted",
    "a tally of zeros beside another register, a fold accepted",
];

/// A tally before a call and after it.
#[derive(Clone, Copy)]
pub struct Told {
    /// Whether it was kept from a register of zeros on.
    pub is_kept: bool,
    pub before: Tally,
    pub after: Tally,
}

impl Told {
    /// The largest value that the dials show.
    fn nines(self) -> u32 {
        10_u32.pow(self.before.dials) - 1
    }

    pub fn is_unchanged(self) -> bool {
        self.before == self.after
    }
}

/// The states that a call was in, by the area before it and by its tally.
pub fn states(call: &Call, reply: Reply, area: &Area, told: Told) -> Vec<&'static str> {
    match (call, reply) {
        (call, reply) if !told.is_kept => of_another_register(call, reply.number(), told),
        (Call::Submit { read, .. }, Reply::Answer(answer)) if answer.number == Number::Accepted => {
            of_read(read, answer, area, told)
        }
        (Call::Submit { .. }, Reply::Answer(answer)) => of_refused_read(answer.number, told),
        (Call::Withdraw { .. }, Reply::Answer(answer)) => of_withdrawal(answer, area, told),
        (Call::Fold { .. }, reply) => of_fold(reply.number(), area, told),
        (_, Reply::Report(report)) => of_report(report),
        _ => of_enrolment(reply.number(), matches!(call, Call::EnrolPseudo { .. }), told),
    }
}

fn is_carried(area: &Area) -> bool {
    area[6] == 5
}

fn of_enrolment(number: Number, is_pseudo: bool, told: Told) -> Vec<&'static str> {
    let unchanged = told.is_unchanged();
    match number {
        Number::Accepted => true_of(&[
            (!unchanged, "a tally of zeros, an enrolment"),
            (!unchanged && is_pseudo, "a tally of zeros, a pseudo meter's enrolment"),
        ]),
        Number::Plate => true_of(&[(unchanged, "a tally of zeros, an enrolment refused with 25")]),
        Number::Enrolled => true_of(&[
            (unchanged && told.before.standing == 0, "a tally of no read, an enrolment refused with 24"),
            (unchanged && told.before.standing > 0, "a tally of reads, an enrolment refused with 24"),
        ]),
        _ => Vec::new(),
    }
}

// ---- Submissions ----

fn of_read(read: &Submission, answer: Answer, area: &Area, told: Told) -> Vec<&'static str> {
    let is_rollover = answer.flag == 1;
    let (later, last) = (told.before.standing > 0, told.after.last);
    let carried = is_carried(area);
    let is_final = read.letter == letter::FINAL;
    true_of(&[
        (read.reread == 1, "a tally, a held read taken as a re-read"),
        (is_rollover, "a tally, a rollover taken"),
        (answer.advance < 0, "a tally, a step back taken without a flag"),
        (later && last == 0, "a tally, a last value of 0 taken after others"),
        (later && last == told.nines(), "a tally, a last value of all nines taken after others"),
        // The entry after the meter's is a withdrawn one.
        (!later && area[6] == 3, "a tally, a first read taken after the only one was withdrawn"),
        (carried, "a tally of folded reads, a read taken"),
        (carried && is_rollover, "a tally of folded reads, a rollover taken"),
        (carried && told.after.standing > 50, "a tally of folded reads, more of them than a journal holds"),
        (is_rollover && told.before.dials == 3, "a tally of three dials, a rollover taken"),
        (is_rollover && told.before.dials == 9, "a tally of nine dials, a rollover taken"),
        (is_final && area[0] == PSEUDO_METER, "a tally of a pseudo meter, a final read taken"),
    ])
}

fn of_refused_read(number: Number, told: Told) -> Vec<&'static str> {
    let unchanged = told.is_unchanged();
    match number {
        Number::NoMeter => true_of(&[(unchanged, "a tally of zeros, a read refused with 3")]),
        Number::Low => true_of(&[(unchanged, "a tally, a read held with 19")]),
        Number::High => true_of(&[(unchanged, "a tally, a read held with 20")]),
        _ => Vec::new(),
    }
}

// ---- The other calls ----

fn of_withdrawal(answer: Answer, area: &Area, told: Told) -> Vec<&'static str> {
    match answer.number {
        Number::Accepted => of_withdrawn(answer.flag == 1, answer.advance, area, told),
        Number::OldestKept => true_of(&[(told.is_unchanged(), "a tally of folded reads, 28")]),
        _ => Vec::new(),
    }
}

fn of_withdrawn(is_flagged: bool, advance: i64, area: &Area, told: Told) -> Vec<&'static str> {
    let (before, after) = (told.before, told.after);
    let (is_only, carried, is_pseudo) = (after.standing == 0, is_carried(area), area[0] == PSEUDO_METER);
    let folded = u32::from(u16::from_le_bytes([area[11], area[12]]));
    let is_emptied = is_only && before.first != 0 && (after.first, after.last) == (0, 0);
    true_of(&[
        (is_flagged, "a tally, a flagged read withdrawn"),
        (is_flagged && after.flagged > 0, "a tally, a flagged read withdrawn with another one standing"),
        (!is_flagged && advance > 0, "a tally, a step back withdrawn that had no flag"),
        (!is_only && after.last == 0, "a tally, a withdrawal back to a value of 0"),
        (!is_only && after.last == told.nines(), "a tally, a withdrawal back to a value of all nines"),
        (is_emptied, "a tally, the only read withdrawn"),
        (carried, "a tally of folded reads, a read withdrawn"),
        (carried && is_flagged, "a tally of folded reads, a flagged read withdrawn"),
        (carried && after.standing == folded + 1, "a tally of folded reads, withdrawn down to the oldest kept read"),
        (is_flagged && before.dials == 3, "a tally of three dials, a flagged read withdrawn"),
        (is_flagged && before.dials == 9, "a tally of nine dials, a flagged read withdrawn"),
        (is_pseudo && before.standing == 2, "a tally of a pseudo meter, a final read withdrawn"),
        (is_pseudo && is_flagged, "a tally of a pseudo meter, a flagged read withdrawn"),
        (is_pseudo && is_emptied, "a tally of a pseudo meter, the only read withdrawn"),
    ])
}

fn of_fold(number: Number, area: &Area, told: Told) -> Vec<&'static str> {
    let (unchanged, has_flagged) = (told.is_unchanged(), told.before.flagged > 0);
    let three_dials = told.before.dials == 3;
    match number {
        Number::Accepted => true_of(&[
            (unchanged, "a tally, a fold accepted"),
            (unchanged && has_flagged, "a tally, a fold accepted with a flagged read standing"),
            (unchanged && is_carried(area), "a tally of folded reads, a fold accepted"),
            (
                unchanged && has_flagged && three_dials,
                "a tally of three dials, a fold accepted with a flagged read standing",
            ),
        ]),
        Number::NoFold => true_of(&[(unchanged, "a tally, a fold refused with 27")]),
        _ => Vec::new(),
    }
}

fn of_report(report: Report) -> Vec<&'static str> {
    let is_accepted = report.number == Number::Accepted;
    true_of(&[
        (report.flagged >= 2, "a tally, a report of two turns or more"),
        (report.total < 0, "a tally, a report of a total below 0"),
        (is_accepted && report.standing == 0, "a tally, a report of no read"),
    ])
}

/// A tally that does not know of its meter's enrolment takes nothing.
fn of_another_register(call: &Call, number: Number, told: Told) -> Vec<&'static str> {
    if number != Number::Accepted || told.before != Tally::default() || !told.is_unchanged() {
        return Vec::new();
    }
    match call {
        Call::Submit { .. } => vec!["a tally of zeros beside another register, a read accepted"],
        Call::Withdraw { .. } => vec!["a tally of zeros beside another register, a withdrawal accepted"],
        Call::Fold { .. } => vec!["a tally of zeros beside another register, a fold accepted"],
        _ => Vec::new(),
    }
}
