//! What a comparison reached: every number, and the states that take a long way to reach.

mod folds;
mod journal;
mod profiles;
mod standpipes;
mod tallies;
mod trials;

pub use tallies::Told;

use super::lists::step_back;
use super::peer::calendar;
use folds::Dropped;
use necktureen::{
    entries, indicator, letter, Answer, Call, Entry, Number, Read, Reply, Submission, AREA_BYTES, REGISTER_BYTES,
};
use std::collections::BTreeMap;
use std::fmt::Write as _;
use trials::Trials;

const NUMBERS: usize = Number::ALL.len();
const PLACES: usize = REGISTER_BYTES / AREA_BYTES;

/// The kind of a pseudo meter's entry.
const PSEUDO_METER: u8 = 7;

pub type Area = [u8; AREA_BYTES];

/// How often each number was answered, and each state that takes a long way to reach.
pub struct Reached {
    numbers: [u64; NUMBERS],
    deep: BTreeMap<&'static str, u64>,
    /// The volume query that left each place's held read.
    query: [Option<Number>; PLACES],
    dropped: Dropped,
    trials: Trials,
}

const DEEP: [&str; 26] = [
    "3 dials, a read accepted",
    "4 dials, a read accepted",
    "5 dials, a read accepted",
    "6 dials, a read accepted",
    "7 dials, a read accepted",
    "8 dials, a read accepted",
    "9 dials, a read accepted",
    "a read of day 65,535 accepted",
    "a re-read accepted after 19",
    "a re-read accepted after 20",
    "a re-read refused with 17",
    "a re-read refused with 18",
    "a re-read refused with 21",
    "an F accepted",
    "a Y accepted",
    "a Y accepted against the capacity",
    "a step back of the limit or more accepted with false",
    "a rollover accepted, indicator not set",
    "a rollover accepted with true",
    "a rollover withdrawn",
    "the 50th entry written",
    "the most that the capacity lets pass in a common year",
    "the most that the capacity lets pass in a leap year",
    "the least that is refused with 21 in a common year",
    "the least that is refused with 21 in a leap year",
    "refused with 21, and in a common year it would pass",
];

impl Reached {
    pub fn new() -> Reached {
        let states = [&DEEP[..], folds::STATES, profiles::STATES, standpipes::STATES, tallies::STATES, trials::STATES];
        let deep = states.concat().into_iter().map(|name| (name, 0)).collect();
        let (dropped, trials) = (Dropped::default(), Trials::new());
        Reached { numbers: [0; NUMBERS], deep, query: [None; PLACES], dropped, trials }
    }

    pub fn calls(&self) -> u64 {
        self.numbers.iter().sum()
    }

    /// A new list begins: nothing is held, nothing was dropped, and nothing was tried.
    pub fn begin(&mut self) {
        self.query = [None; PLACES];
        self.dropped = Dropped::default();
        self.trials.begin();
    }

    fn see(&mut self, name: &'static str) {
        *self.deep.get_mut(name).expect("a name of the table") += 1;
    }

    /// Counts a call by its reply, by the area of its place, before it and after, if the register has one, and by the
    /// place's tally.
    pub fn count(&mut self, call: &Call, reply: Reply, before: Option<Area>, after: Option<Area>, told: Told) {
        self.numbers[reply.number() as usize] += 1;
        for name in self.trials.states(call, reply, before.as_ref(), told) {
            self.see(name);
        }
        let place = usize::from(call.place());
        let (Some(before), Some(after), true) = (before, after, place < PLACES) else {
            return;
        };
        // The states below are those of the calls on a meter, and a trial is none.
        if matches!(call, Call::Trial { .. }) {
            return;
        }
        for name in folds::states(call, reply, &before, &after).into_iter().chain(self.dropped.state(call, reply)) {
            self.see(name);
        }
        let of_meters = [profiles::states, standpipes::states];
        for name in of_meters.map(|states| states(call, reply, &before, &after)).concat() {
            self.see(name);
        }
        for name in tallies::states(call, reply, &before, told) {
            self.see(name);
        }
        self.dropped.enter(call, reply, &before, &after);
        let Reply::Answer(answer) = reply else {
            return;
        };
        match *call {
            Call::Submit { read, .. } => {
                if answer.number == Number::Accepted {
                    self.count_accepted(read, answer, &after);
                }
                if [Number::Accepted, Number::Capacity].contains(&answer.number) {
                    self.count_edge(&after, read, answer.number);
                }
                self.count_query(place, read, answer.number);
            }
            Call::Withdraw { .. } if answer.flag == 1 => self.see("a rollover withdrawn"),
            _ => {}
        }
    }

    fn count_accepted(&mut self, read: Submission, answer: Answer, area: &Area) {
        self.see(accepted_on(area[1]));
        match (answer.flag, read.indicator) {
            (1, indicator::NOT_SET) => self.see("a rollover accepted, indicator not set"),
            (1, _) => self.see("a rollover accepted with true"),
            (_, indicator::FALSE) if answer.advance <= -step_back(area[1]) => {
                self.see("a step back of the limit or more accepted with false")
            }
            _ => {}
        }
        match read.letter {
            letter::FINAL => self.see("an F accepted"),
            letter::RECONNECTION => self.see("a Y accepted"),
            _ => {}
        }
        if read.letter == letter::RECONNECTION && answer.advance > 180 * capacity(area) {
            self.see("a Y accepted against the capacity");
        }
        if read.day == 65_535 {
            self.see("a read of day 65,535 accepted");
        }
        if area[6] != 5 && area[496] == 2 {
            self.see("the 50th entry written");
        }
    }

    /// Reads at the edge of the capacity: one more would be refused, or one less pass.
    fn count_edge(&mut self, area: &Area, read: Submission, number: Number) {
        // A Y has no capacity check, and a rollover goes further than from value to value.
        let by_values = |last: &Read| read.letter != letter::RECONNECTION && last.value <= read.value;
        let Some(last) = last_before(area, read.day).filter(by_values) else {
            return;
        };
        let (advance, days) = (i64::from(read.value) - i64::from(last.value), i64::from(read.day - last.day));
        let (year, room) = (i64::from(calendar::days_in_year_of(read.day)), capacity(area) * days);
        match (number, year) {
            (Number::Accepted, _) if (advance + 1) * year < room => {}
            (Number::Accepted, 365) => self.see("the most that the capacity lets pass in a common year"),
            (Number::Accepted, _) => self.see("the most that the capacity lets pass in a leap year"),
            (_, _) if (advance - 1) * year >= room => {}
            (_, 365) => self.see("the least that is refused with 21 in a common year"),
            (_, _) => self.see("the least that is refused with 21 in a leap year"),
        }
        if number == Number::Capacity && advance * 365 < room {
            self.see("refused with 21, and in a common year it would pass");
        }
    }

    fn count_query(&mut self, place: usize, read: Submission, number: Number) {
        match (read.reread, number, self.query[place]) {
            (1, Number::Accepted, Some(Number::Low)) => self.see("a re-read accepted after 19"),
            (1, Number::Accepted, Some(Number::High)) => self.see("a re-read accepted after 20"),
            (1, Number::Ee, _) => self.see("a re-read refused with 17"),
            (1, Number::Ef, _) => self.see("a re-read refused with 18"),
            (1, Number::Capacity, _) => self.see("a re-read refused with 21"),
            _ => {}
        }
        match number {
            Number::Low | Number::High => self.query[place] = Some(number),
            Number::Accepted => self.query[place] = None,
            _ => {}
        }
    }

    /// Each number that calls answer, which 26 is not, with how often it was.
    fn answered(&self) -> impl Iterator<Item = (Number, u64)> + '_ {
        Number::ALL.iter().copied().zip(self.numbers).filter(|row| row.0 != Number::Sheet)
    }

    pub fn table(&self) -> String {
        let mut text = String::new();
        for (number, count) in self.answered() {
            let _ = writeln!(text, "{count:>9}  {number}");
        }
        for (number, count) in self.trials.answered() {
            let _ = writeln!(text, "{count:>9}  a trial, {number}");
        }
        for (name, count) in &self.deep {
            let _ = writeln!(text, "{count:>9}  {name}");
        }
        text
    }

    /// What was never reached.
    pub fn unseen(&self) -> Vec<String> {
        let numbers = self.answered().filter(|row| row.1 == 0).map(|row| row.0.to_string());
        let tried = self.trials.answered().filter(|row| row.1 == 0).map(|row| format!("a trial, {}", row.0));
        let deep = self.deep.iter().filter(|row| *row.1 == 0).map(|row| row.0.to_string());
        numbers.chain(tried).chain(deep).collect()
    }
}

fn capacity(area: &Area) -> i64 {
    i64::from(u32::from_le_bytes([area[2], area[3], area[4], area[5]]))
}

fn accepted_on(dials: u8) -> &'static str {
    let name = format!("{dials} dials, a read accepted");
    DEEP.iter().find(|row| **row == name).expect("a number of dials that a meter may have")
}

/// The last standing read before a day.
fn last_before(area: &Area, day: u16) -> Option<Read> {
    let standing = entries(area).filter(|entry| matches!(entry, Entry::Standing(_))).filter_map(|entry| entry.read());
    standing.filter(|read| read.day < day).last()
}

/// The names of the rows that are true.
fn true_of(rows: &[(bool, &'static str)]) -> Vec<&'static str> {
    rows.iter().filter(|row| row.0).map(|row| row.1).collect()
}
