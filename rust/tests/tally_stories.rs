//! Stories of a meter and its tally, each number written out: after every call the tally is told of it, and reports what a
//! full report answers.

mod common;

use common::*;
use necktureen::{indicator, letter, report, Answer, Call, Number, Reply, Submission, Tally};

const PLACE: u16 = 5;

/// A call, what it is answered, and the tally after it: dials, standing, flagged, first and last value. Then the total.
type Line = (Call, Answer, [u32; 5], i64);

fn line(call: Call, answer: Answer, tally: [u32; 5], total: i64) -> Line {
    (call, answer, tally, total)
}

fn submission(read: Submission) -> Call {
    Call::Submit { place: PLACE, read }
}

fn cyclic(day: u16, value: u32) -> Call {
    submission(read(day, letter::CYCLIC, value))
}

fn withdrawal(day: u16, value: u32) -> Call {
    Call::Withdraw { place: PLACE, day, value }
}

const FOLD: Call = Call::Fold { place: PLACE };

/// Makes the calls on a register of zeros, with another meter's calls between them of which the tally is not told.
fn play(story: &[Line]) -> Tally {
    let (mut register, mut tally) = (zeros(), Tally::default());
    let others = [
        Call::Enrol { place: PLACE + 1, dials: 3, capacity: 5000 },
        Call::Submit { place: PLACE + 1, read: read(1, letter::INITIAL, 77) },
    ];
    for (position, &(call, answer, [dials, standing, flagged, first, last], total)) in story.iter().enumerate() {
        for other in others {
            let _ = other.make(&mut register);
        }
        let reply = call.make(&mut register);
        assert_eq!(reply, Reply::Answer(answer), "line {position}, {call}");
        tally.change(&call, reply);
        assert_eq!(tally, Tally { dials, standing, flagged, first, last }, "line {position}, {call}");
        let expected = match dials {
            0 => refused_report(Number::NoMeter),
            _ => reported(standing as u16, flagged as u16, total),
        };
        assert_eq!(tally.report(), expected, "line {position}, {call}");
        assert_eq!(report(&register, PLACE), expected, "line {position}, {call}");
    }
    tally
}

/// A house of four dials: they turn, the read is withdrawn and corrected, the journal is folded, a high read is held and
/// confirmed, and all that may be is withdrawn.
fn house() -> Vec<Line> {
    let initial = submission(read(1000, letter::INITIAL, 9200));
    let high = read(2080, letter::CYCLIC, 1000);
    let confirmed = Submission { reread: 1, ..high };
    vec![
        line(Call::Enrol { place: PLACE, dials: 4, capacity: 5000 }, taken(0, 0), [4, 0, 0, 0, 0], 0),
        line(initial, taken(0, 0), [4, 1, 0, 9200, 9200], 0),
        line(cyclic(1180, 9400), taken(0, 200), [4, 2, 0, 9200, 9400], 200),
        line(cyclic(1180, 9401), refusal(Number::Bf), [4, 2, 0, 9200, 9400], 200),
        line(cyclic(1360, 9600), taken(0, 200), [4, 3, 0, 9200, 9600], 400),
        line(FOLD, refusal(Number::NoFold), [4, 3, 0, 9200, 9600], 400),
        line(cyclic(1540, 9800), taken(0, 200), [4, 4, 0, 9200, 9800], 600),
        // The dials turn: 100 − 9200 + 10,000.
        line(cyclic(1720, 100), taken(1, 300), [4, 5, 1, 9200, 100], 900),
        // 100 − 300 + 10,000 is the value before it.
        line(withdrawal(1720, 100), taken(1, -300), [4, 4, 0, 9200, 9800], 600),
        line(cyclic(1720, 100), refusal(Number::Withdrawn), [4, 4, 0, 9200, 9800], 600),
        line(cyclic(1720, 150), taken(1, 350), [4, 5, 1, 9200, 150], 950),
        // 9600, 9800 and 150 are kept.
        line(FOLD, taken(0, 0), [4, 5, 1, 9200, 150], 950),
        line(Call::Enrol { place: PLACE, dials: 5, capacity: 1 }, refusal(Number::Enrolled), [4, 5, 1, 9200, 150], 950),
        line(cyclic(1900, 400), taken(0, 250), [4, 6, 1, 9200, 400], 1200),
        line(submission(high), refusal(Number::High), [4, 6, 1, 9200, 400], 1200),
        line(submission(confirmed), taken(0, 600), [4, 7, 1, 9200, 1000], 1800),
        line(FOLD, taken(0, 0), [4, 7, 1, 9200, 1000], 1800),
        // 150, 400 and 1000 are kept.
        line(withdrawal(1900, 400), refusal(Number::NotLast), [4, 7, 1, 9200, 1000], 1800),
        line(withdrawal(2080, 1000), taken(0, -600), [4, 6, 1, 9200, 400], 1200),
        line(withdrawal(1900, 400), taken(0, -250), [4, 5, 1, 9200, 150], 950),
        line(withdrawal(1720, 150), refusal(Number::OldestKept), [4, 5, 1, 9200, 150], 950),
        // A small step back, and back again.
        line(cyclic(2260, 140), taken(0, -10), [4, 6, 1, 9200, 140], 940),
        line(withdrawal(2260, 140), taken(0, 10), [4, 5, 1, 9200, 150], 950),
    ]
}

/// A site without a dial, three digits wide: its final read is past all nines, and both reads are withdrawn. What is sent
/// then is read a little back, so that the total is below 0.
fn site() -> Vec<Line> {
    let initial = |day, value| submission(read(day, letter::INITIAL, value));
    let past_nines = Submission { indicator: indicator::TRUE, ..read(1180, letter::FINAL, 40) };
    let plate = Call::EnrolPseudo { place: PLACE, dials: 3, capacity: 5000 };
    vec![
        line(Call::EnrolPseudo { place: PLACE, dials: 2, capacity: 5000 }, refusal(Number::Plate), [0; 5], 0),
        line(initial(1000, 990), refusal(Number::NoMeter), [0; 5], 0),
        line(plate, taken(0, 0), [3, 0, 0, 0, 0], 0),
        line(cyclic(1000, 990), refusal(Number::OtherType), [3, 0, 0, 0, 0], 0),
        line(initial(1000, 990), taken(0, 0), [3, 1, 0, 990, 990], 0),
        line(submission(past_nines), taken(1, 50), [3, 2, 1, 990, 40], 50),
        line(withdrawal(1180, 40), taken(1, -50), [3, 1, 0, 990, 990], 0),
        line(withdrawal(1000, 990), taken(0, 0), [3, 0, 0, 0, 0], 0),
        line(withdrawal(1000, 990), refusal(Number::NotStanding), [3, 0, 0, 0, 0], 0),
        line(plate, refusal(Number::Enrolled), [3, 0, 0, 0, 0], 0),
        line(initial(1000, 999), taken(0, 0), [3, 1, 0, 999, 999], 0),
        line(submission(read(1180, letter::FINAL, 900)), taken(0, -99), [3, 2, 0, 999, 900], -99),
    ]
}

#[test]
fn a_house_and_its_tally() {
    play(&house());
}

#[test]
fn a_site_without_a_dial_and_its_tally() {
    play(&site());
}

/// A second run without the refused calls, the held read aside, leaves the same tally.
#[test]
fn two_runs_leave_one_tally() {
    for story in [house(), site()] {
        let kept = |line: &&Line| matches!(line.1.number, Number::Accepted | Number::Low | Number::High);
        let second: Vec<Line> = story.iter().filter(kept).copied().collect();
        assert!(second.len() + 4 <= story.len());
        assert_eq!(play(&second), play(&story));
    }
}
