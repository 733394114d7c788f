//! Tallies beside the peer's: random numbers, most of them near an edge of what a tally may be, changed by random calls and
//! answers near an edge of what it takes, also by those that no meter answers.

mod lists;
mod peer;

use lists::{say, seed, Random};
use necktureen::{Answer, Call, Number, Reply, Report, Submission, Tally};
use std::collections::BTreeMap;

const TALLIES: u64 = 250_000;
/// How often each is changed, one change after the other.
const CHANGES: u64 = 4;

// ---- Random tallies ----

/// 10^n; of dials that no meter has any power will do.
fn turn(dials: u32) -> i64 {
    10_i64.pow(dials.clamp(3, 9))
}

fn any_tally(random: &mut Random) -> Tally {
    if random.once_in(30) {
        return Tally::default();
    }
    let dials = any_dials(random);
    let standing = count_near(random, &[0, 1, 2, 3, 255, 256, 65_535]);
    let flagged =
        count_near(random, &[0, 1, 255, i64::from(standing)]).min(if random.once_in(4) { u32::MAX } else { standing });
    let [first, last] = [0, 1].map(|_| if standing == 0 && !random.once_in(4) { 0 } else { any_value(random, dials) });
    Tally { dials, standing, flagged, first, last }
}

fn any_dials(random: &mut Random) -> u32 {
    match random.index(20) {
        0 => random.pick(&[0, 1, 2, 10, 11, 255, 256 + 4, 0x0400_0000, u32::MAX]),
        1 => random.next() as u32,
        _ => random.between(3, 9) as u32,
    }
}

/// One of these, or beside it; now and then any other.
fn count_near(random: &mut Random, edges: &[i64]) -> u32 {
    match random.index(16) {
        0 => random.next() as u32,
        1..=3 => random.between(0, 65_535) as u32,
        _ => (random.pick(edges) + random.between(-1, 1)).max(0) as u32,
    }
}

fn any_value(random: &mut Random, dials: u32) -> u32 {
    let turn = turn(dials);
    match random.index(40) {
        0 => random.next() as u32,
        1 => (turn + random.between(0, 1)) as u32,
        2..=9 => random.between(0, 2) as u32,
        10..=17 => (turn - 1 - random.between(0, 2)) as u32,
        _ => random.between(0, turn - 1) as u32,
    }
}

// ---- Random calls and answers ----

fn any_call(random: &mut Random, tally: &Tally) -> Call {
    let (place, capacity) = (random.next() as u16, random.next() as u32);
    let dials = if random.once_in(2) { random.byte() } else { random.between(2, 10) as u8 };
    let (day, value) = (random.next() as u16, any_value(random, tally.dials));
    let [letter, indicator, reread] = [0, 1, 2].map(|_| random.byte());
    let read = Submission { submitted: day, day, value, letter, indicator, reread };
    match random.index(13) {
        0 => Call::Enrol { place, dials, capacity },
        1 => Call::EnrolPseudo { place, dials, capacity },
        2 => Call::Report { place },
        3 => Call::Fold { place },
        4 => Call::Trial { place, read },
        5..=8 => Call::Submit { place, read },
        _ => Call::Withdraw { place, day, value },
    }
}

fn any_reply(random: &mut Random, tally: &Tally) -> Reply {
    let number = match random.index(16) {
        0 => random.pick(Number::ALL),
        1 => random.pick(&[Number::Low, Number::High, Number::Unknown]),
        _ => Number::Accepted,
    };
    let flag = any_flag(random, tally);
    let advance = any_advance(random, tally, flag);
    if random.once_in(40) {
        return Reply::Report(Report { number, standing: random.next() as u16, flagged: flag.into(), total: advance });
    }
    Reply::Answer(Answer { number, flag, advance })
}

/// Mostly 0 or 1; also as many as are flagged, or could be, and one more or less.
fn any_flag(random: &mut Random, tally: &Tally) -> u8 {
    match random.index(16) {
        0 => random.byte(),
        1 => random.pick(&[2, 254, 255]),
        2 => tally.flagged.saturating_add_signed(random.between(-1, 1) as i32).min(255) as u8,
        3 => tally.standing.saturating_sub(tally.flagged).saturating_add(random.between(0, 2) as u32).min(255) as u8,
        4..=8 => 1,
        _ => 0,
    }
}

/// Mostly one that leads to a value that the dials show, its flag counted, or nearly does.
fn any_advance(random: &mut Random, tally: &Tally, flag: u8) -> i64 {
    let turn = turn(tally.dials);
    let aim = match random.index(16) {
        0 => return random.pick(&[i64::MIN, i64::MIN + 1, i64::MAX - 1, i64::MAX]),
        1 => return random.next() as i64,
        2..=4 => random.between(-2, 2),
        5..=7 => turn + random.between(-2, 2),
        _ => random.between(0, turn - 1),
    };
    aim - i64::from(tally.last) - turn * i64::from(flag)
}

// ---- The comparison ----

/// What a call would do to a tally and did, in a few words.
fn outcome(call: &Call, reply: Reply, before: Tally, after: Tally) -> String {
    let of = match before.report().number {
        Number::NoMeter => "a tally of zeros",
        Number::Damaged => "a broken tally",
        _ if before.standing == 0 => "a tally of no read",
        _ => "a tally of reads",
    };
    let told = match (call, reply) {
        (_, Reply::Report(_)) => "a report's reply",
        (_, reply) if reply.number() != Number::Accepted => "a refusal",
        (Call::Enrol { .. } | Call::EnrolPseudo { .. }, _) => "an enrolment",
        (Call::Submit { .. }, _) => "a read",
        (Call::Withdraw { .. }, _) => "a withdrawal",
        (Call::Trial { .. }, _) => "a trial",
        _ => "a fold or a report",
    };
    let made = if before == after { "not made" } else { "made" };
    format!("{of}, {told}, {made}")
}

/// The outcomes that there are.
const OUTCOMES: [&str; 33] = [
    "a broken tally, a fold or a report, not made",
    "a broken tally, a read, not made",
    "a broken tally, a refusal, not made",
    "a broken tally, a report's reply, not made",
    "a broken tally, a trial, not made",
    "a broken tally, a withdrawal, not made",
    "a broken tally, an enrolment, not made",
    "a tally of no read, a fold or a report, not made",
    "a tally of no read, a read, made",
    "a tally of no read, a read, not made",
    "a tally of no read, a refusal, not made",
    "a tally of no read, a report's reply, not made",
    "a tally of no read, a trial, not made",
    "a tally of no read, a withdrawal, not made",
    "a tally of no read, an enrolment, not made",
    "a tally of reads, a fold or a report, not made",
    "a tally of reads, a read, made",
    "a tally of reads, a read, not made",
    "a tally of reads, a refusal, not made",
    "a tally of reads, a report's reply, not made",
    "a tally of reads, a trial, not made",
    "a tally of reads, a withdrawal, made",
    "a tally of reads, a withdrawal, not made",
    "a tally of reads, an enrolment, not made",
    "a tally of zeros, a fold or a report, not made",
    "a tally of zeros, a read, not made",
    "a tally of zeros, a refusal, not made",
    "a tally of zeros, a report's reply, not made",
    "a tally of zeros, a trial, not made",
    "a tally of zeros, a withdrawal, not made",
    "a tally of zeros, an enrolment, made",
    "a tally of zeros, an enrolment, not made",
    "a withdrawal that leaves no read",
];

#[test]
fn a_tally_is_changed_and_reports_as_the_peers_does() {
    let seed = seed();
    let mut random = Random::new(seed);
    let mut seen: BTreeMap<String, u64> = BTreeMap::new();
    for _ in 0..TALLIES {
        let mut tally = any_tally(&mut random);
        let mut peer = peer::Tally::from(tally);
        for _ in 0..CHANGES {
            let before = tally;
            assert_eq!(before.report(), peer.report(), "seed {seed}, {before:?}");
            let (call, reply) = (any_call(&mut random, &tally), any_reply(&mut random, &tally));
            tally.change(&call, reply);
            peer.change(&call, reply);
            assert_eq!(peer::Tally::from(tally), peer, "seed {seed}, {before:?}, {call}, {reply:?}");
            *seen.entry(outcome(&call, reply, before, tally)).or_default() += 1;
            if (before.standing, tally.standing) == (1, 0) {
                *seen.entry("a withdrawal that leaves no read".into()).or_default() += 1;
            }
        }
        assert_eq!(tally.report(), peer.report(), "seed {seed}, {tally:?}");
    }
    let table: String = seen.iter().map(|(outcome, count)| format!("{count:>9}  {outcome}\n")).collect();
    say(&format!("{} changes compared, seed {seed}\n{table}", TALLIES * CHANGES));
    assert_eq!(seen.keys().collect::<Vec<_>>(), OUTCOMES);
}
