//! Demand 3, played: run A on random lists of calls, run B on those that it keeps of each meter, and the two compared.
//! Trials stand anywhere in the lists. A trial is no call on the meter: run B does not play it, and the list less its trials
//! is played as the whole one. The claims themselves are proved for every list; this shows that the compiled library keeps
//! them.

mod common;
mod lists;

use common::is_enrolment;
use lists::{Idle, Random, Staff};
use necktureen::{report, Answer, Call, Number, Reply, Report, AREA_BYTES, REGISTER_BYTES};
use std::collections::HashMap;

/// What a meter's calls and answers come to, and never its bytes.
#[derive(Default)]
struct Ledger {
    /// All that name it, trials among them, and those that were accepted.
    calls: usize,
    accepted: usize,
    is_pseudo: bool,
    dials: u32,
    standing: Vec<(u16, u32)>,
    withdrawn: Vec<(u16, u32)>,
    /// How many of the first standing reads were folded, and how many folds did it.
    folded: usize,
    folds: usize,
    advances: i64,
    flags: i64,
}

impl Ledger {
    /// "n is from the meter's accepted enrolment; without one nothing is accepted there and both sides of the sum are 0."
    fn enter(&mut self, call: Call, reply: Reply) {
        self.calls += 1;
        self.accepted += usize::from(reply.number() == Number::Accepted);
        self.change(call, reply);
        if !self.is_enrolled() {
            let sum = (self.advances, self.span() + 10_i64.pow(self.dials) * self.flags);
            assert_eq!((self.accepted, sum), (0, (0, 0)), "without an enrolment: {call}");
        }
    }

    fn is_enrolled(&self) -> bool {
        self.dials > 0
    }

    fn change(&mut self, call: Call, reply: Reply) {
        let Reply::Answer(Answer { number: Number::Accepted, flag, advance }) = reply else { return };
        match call {
            Call::Enrol { dials, .. } => self.dials = u32::from(dials),
            Call::EnrolPseudo { dials, .. } => (self.is_pseudo, self.dials) = (true, u32::from(dials)),
            Call::Submit { read, .. } => {
                assert!(!self.is_pseudo || b"IF".contains(&read.letter), "{read} on a pseudo meter");
                self.standing.push((read.day, read.value));
                self.advances += advance;
                self.flags += i64::from(flag);
            }
            Call::Withdraw { day, value, .. } => {
                self.standing.retain(|&named| named != (day, value));
                self.withdrawn.push((day, value));
                self.advances += advance;
                self.flags -= i64::from(flag);
            }
            // The list of standing reads stays as it is, and the last three of it are kept as entries.
            Call::Fold { .. } => {
                assert_eq!((flag, advance), (0, 0));
                self.folded = self.standing.len() - 3;
                self.folds += 1;
            }
            // A trial too: accepted, it counts as nothing.
            _ => {}
        }
    }

    /// The last standing value less the first.
    fn span(&self) -> i64 {
        match (self.standing.last(), self.standing.first()) {
            (Some(last), Some(first)) => i64::from(last.1) - i64::from(first.1),
            _ => 0,
        }
    }

    fn holds(&self, area: &[u8]) {
        assert_eq!(self.advances, self.span() + 10_i64.pow(self.dials) * self.flags, "the sum");
        assert!(self.standing.iter().all(|named| !self.withdrawn.contains(named)), "a withdrawn read stands");
        assert_eq!(kind_2_entries(area), self.standing[self.folded..], "the kind 2 entries");
        let carry = (self.folds > 0).then(|| (self.standing[0].1, self.folded as u16));
        assert_eq!(carry_of(area), carry, "the carry");
    }

    /// A report counts the list of standing reads, those that were folded too.
    fn is_reported(&self, report: Report) {
        if report.number == Number::Accepted {
            let counted = (self.standing.len(), self.flags, self.advances);
            assert_eq!((usize::from(report.standing), i64::from(report.flagged), report.total), counted, "the report");
        }
    }
}

/// The first value and the folded reads of an area's carry, read off its bytes.
fn carry_of(area: &[u8]) -> Option<(u32, u16)> {
    let carry = &area[6..15];
    let first = u32::from_le_bytes([carry[1], carry[2], carry[3], carry[4]]);
    (carry[0] == 5).then(|| (first, u16::from_le_bytes([carry[5], carry[6]])))
}

/// The days and values of an area's kind 2 entries, read off its bytes.
fn kind_2_entries(area: &[u8]) -> Vec<(u16, u32)> {
    let head = if carry_of(area).is_some() { 15 } else { 6 };
    area[head..]
        .chunks_exact(10)
        .filter(|e| e[0] == 2)
        .map(|e| (u16::from_le_bytes([e[1], e[2]]), u32::from_le_bytes([e[3], e[4], e[5], e[6]])))
        .collect()
}

/// A random list played on a register of zeros, which it leaves as run A does, with each call's reply.
fn run_a(seed: u64) -> (Vec<u8>, Vec<(Call, Reply)>) {
    let places = [0, 1, 31, 63, 64, 256, 65_535];
    let (mut random, mut idle, mut staff) = (Random::new(seed), Idle::default(), Staff::default());
    let mut register = vec![0; REGISTER_BYTES];
    let exchanges = (0..2_400).map(|_| {
        let call = lists::call_or_trial(&mut random, &mut idle, &mut staff, &register, &places);
        (call, call.make(&mut register))
    });
    let exchanges = exchanges.collect();
    (register, exchanges)
}

fn is_trial(call: &Call) -> bool {
    matches!(call, Call::Trial { .. })
}

/// Whether run B plays a call that run A answered so.
fn is_picked(call: &Call, reply: Reply) -> bool {
    !is_trial(call) && matches!(reply.number(), Number::Accepted | Number::Low | Number::High)
}

/// Plays run B and holds both runs to the claim at a meter. What the meter's calls in run A come to is handed back.
fn two_runs(seed: u64, a: &[u8], exchanges: &[(Call, Reply)], meter: u16) -> Ledger {
    let mut b = vec![0; REGISTER_BYTES];
    let (mut in_a, mut in_b) = (Ledger::default(), Ledger::default());
    for &(call, reply) in exchanges.iter().filter(|(call, _)| call.place() == meter) {
        in_a.enter(call, reply);
        if is_picked(&call, reply) {
            assert_eq!(call.make(&mut b), reply, "seed {seed}, meter {meter}, {call:?}");
            in_b.enter(call, reply);
            in_b.is_reported(report(&b, meter));
        }
    }
    let area = AREA_BYTES * usize::from(meter)..AREA_BYTES * (usize::from(meter) + 1);
    assert_eq!(a[area.clone()], b[area.clone()], "seed {seed}, meter {meter}");
    in_a.holds(&a[area.clone()]);
    in_b.holds(&b[area]);
    in_a.is_reported(report(a, meter));
    in_a
}

#[test]
fn two_runs_agree_at_every_meter() {
    let (mut folded, mut folded_again, mut pseudo, mut three_dials, mut unenrolled) = (0, 0, 0, 0, 0);
    for seed in 0..60 {
        let (a, exchanges) = run_a(seed);
        for meter in 0..64 {
            let in_a = two_runs(seed, &a, &exchanges, meter);
            folded += usize::from(in_a.folds > 0);
            folded_again += usize::from(in_a.folds > 1);
            pseudo += usize::from(in_a.is_pseudo && !in_a.standing.is_empty() && !in_a.withdrawn.is_empty());
            three_dials += usize::from(in_a.dials == 3 && in_a.flags > 0);
            unenrolled += usize::from(in_a.calls > 0 && !in_a.is_enrolled());
        }
    }
    assert!(folded >= 50 && folded_again >= 25, "{folded} meters were folded, {folded_again} of them again");
    assert!(pseudo >= 50, "{pseudo} pseudo meters have a standing read and a withdrawn one");
    assert!(three_dials >= 20, "{three_dials} meters of three dials turned");
    assert!(unenrolled >= 50, "{unenrolled} meters were called and never enrolled");
}

/// The same lists without the enrolments that these meters would take; those with a wrong plate stay. Calls of every sort
/// then meet a meter that has none.
#[test]
fn nothing_is_accepted_without_an_enrolment() {
    let meters = [0, 1, 31, 63];
    let mut refused: HashMap<_, usize> = HashMap::new();
    for seed in 0..60 {
        let mut a = vec![0; REGISTER_BYTES];
        let mut exchanges = run_a(seed).1;
        exchanges.retain(|(call, reply)| {
            !is_enrolment(call) || reply.number() == Number::Plate || !meters.contains(&call.place())
        });
        for (call, reply) in &mut exchanges {
            *reply = call.make(&mut a);
        }
        for meter in meters {
            let in_a = two_runs(seed, &a, &exchanges, meter);
            assert_eq!((in_a.is_enrolled(), in_a.accepted), (false, 0), "seed {seed}, meter {meter}");
        }
        for (call, _) in exchanges.iter().filter(|(call, _)| meters.contains(&call.place())) {
            *refused.entry(std::mem::discriminant(call)).or_default() += 1;
        }
    }
    let counts: Vec<usize> = refused.into_values().collect();
    assert!(counts.len() == 7 && counts.iter().all(|&count| count >= 5), "{counts:?} calls of each sort");
}

/// How often trials were answered what a submission would write for, and on which meters.
#[derive(Debug, Default)]
struct Tried {
    accepted: usize,
    turned: usize,
    queried: usize,
    accepted_after_a_fold: usize,
    accepted_on_a_pseudo_meter: usize,
}

impl Tried {
    fn count(&mut self, reply: Reply, area: &[u8]) {
        let Reply::Answer(answer) = reply else { return };
        let is_accepted = answer.number == Number::Accepted;
        self.accepted += usize::from(is_accepted);
        self.turned += usize::from(answer.flag == 1);
        self.queried += usize::from(matches!(answer.number, Number::Low | Number::High));
        self.accepted_after_a_fold += usize::from(is_accepted && carry_of(area).is_some());
        self.accepted_on_a_pseudo_meter += usize::from(is_accepted && area[0] == 7);
    }

    fn is_enough(&self) -> bool {
        let meters = [self.accepted_after_a_fold, self.accepted_on_a_pseudo_meter];
        self.accepted >= 1_500 && self.turned >= 75 && self.queried >= 300 && meters.iter().all(|&count| count >= 100)
    }
}

/// From the all-zero register: the answers of all other calls are the same, and so is every byte.
#[test]
fn a_list_less_its_trials_is_played_as_the_whole_list() {
    let mut tried = Tried::default();
    for seed in 0..60 {
        let (whole, exchanges) = run_a(seed);
        let mut less = vec![0; REGISTER_BYTES];
        for &(call, reply) in &exchanges {
            if !is_trial(&call) {
                assert_eq!(call.make(&mut less), reply, "seed {seed}, {call}");
            } else if let Some(area) = less.chunks_exact(AREA_BYTES).nth(call.place().into()) {
                tried.count(reply, area);
            }
        }
        assert_eq!(less, whole, "seed {seed}");
    }
    assert!(tried.is_enough(), "{tried:?}");
}
