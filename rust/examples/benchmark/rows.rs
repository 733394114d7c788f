//! A row of the tables: a call, the journals that it is made on, and the answer that it gets. A call of the calendar is
//! made on none, and that of a tally on 64 equal ones.

use crate::journals::Head;
use crate::sides::{Side, LIBRARY, PEER};
use necktureen::{Call, Date, Number, Reply, Submission, Tally};
use std::hint::black_box;
use std::time::{Duration, Instant};

/// A call without its place. The two of the calendar have no place: each of the 64 stands for a day.
#[derive(Clone, Copy)]
pub enum Made {
    Enrol { dials: u8, capacity: u32 },
    EnrolPseudo { dials: u8, capacity: u32 },
    Submit(Submission),
    Trial(Submission),
    Withdraw { day: u16, value: u32 },
    Fold,
    Report,
    Journal,
    Search { day: u16 },
    TallyReport(Tally),
    TallyChange(Change),
    DateOf,
    DayOf,
}

/// What a tally is told of, and what becomes of it.
#[derive(Clone, Copy)]
pub struct Change {
    pub before: Tally,
    pub call: Call,
    pub reply: Reply,
    pub after: Tally,
}

/// From one day that the calendar is asked for to the next: 64 of them are spread over its years, and over the months.
const DAYS_APART: u16 = 1021;
/// How many tallies there are, one for each place.
const PLACES: usize = crate::journals::PLACES as usize;

fn day_at(place: u16) -> u16 {
    DAYS_APART * (place + 1)
}

fn date_at(place: u16) -> Date {
    (PEER.date_of)(day_at(place)).expect("a day of the calendar")
}

impl Change {
    fn made_by(self, side: Side) -> Tally {
        let mut tally = self.before;
        (side.tally_change)(&mut tally, &self.call, self.reply);
        tally
    }
}

impl Made {
    pub fn word(self) -> &'static str {
        match self {
            Made::Enrol { .. } => "enrol",
            Made::EnrolPseudo { .. } => "enrol_pseudo",
            Made::Submit(_) => "submit",
            Made::Trial(_) => "trial",
            Made::Withdraw { .. } => "withdraw",
            Made::Fold => "fold",
            Made::Report => "report",
            Made::Journal => "journal",
            Made::Search { .. } => "search",
            Made::TallyReport(_) => "tally_report",
            Made::TallyChange(_) => "tally_change",
            Made::DateOf => "date_of",
            Made::DayOf => "day_of",
        }
    }

    /// However it is answered, it leaves the register as it is, and a tally too.
    fn only_reads(self) -> bool {
        matches!(
            self,
            Made::Trial(_)
                | Made::Report
                | Made::Journal
                | Made::Search { .. }
                | Made::TallyReport(_)
                | Made::DateOf
                | Made::DayOf
        )
    }
}

pub struct Row {
    pub call: &'static str,
    pub case: &'static str,
    pub entries: usize,
    /// What the journals begin with, which is no entry of theirs.
    pub head: Head,
    /// What the call is answered. The journal call, which answers no number, has that of a report. A call of the calendar
    /// is accepted if it is answered as the peer's, a tally's report if it is the register's, and a change if it is right.
    pub expected: Number,
    pub made: Made,
    /// Where the calls go, one after the other.
    pub places: Vec<u16>,
    pub register: Vec<u8>,
}

impl Row {
    /// How many calls a pass makes.
    pub fn calls(&self) -> u32 {
        self.places.len() as u32
    }

    /// A call that stores, marks or folds reads finds another register the second time.
    fn changes(&self) -> bool {
        let stored = [Number::Accepted, Number::Low, Number::High].contains(&self.expected);
        stored && !self.made.only_reads()
    }

    /// Holds both sides to the answer that the row names.
    pub fn check(&self) {
        for side in [LIBRARY, PEER] {
            let mut register = self.register.clone();
            let expected = self.places.iter().all(|&place| self.answer(side, &mut register, place) == self.expected);
            assert!(expected, "{} {} {}: not answered {}", self.call, self.case, self.entries, self.expected);
        }
    }

    fn answer(&self, side: Side, register: &mut [u8], place: u16) -> Number {
        match self.made {
            Made::Enrol { dials, capacity } => (side.enrol)(register, place, dials, capacity).number,
            Made::EnrolPseudo { dials, capacity } => (side.enrol_pseudo)(register, place, dials, capacity).number,
            Made::Submit(read) => (side.submit)(register, place, read).number,
            Made::Trial(read) => (side.trial)(register, place, read).number,
            Made::Withdraw { day, value } => (side.withdraw)(register, place, day, value).number,
            Made::Fold => (side.fold)(register, place).number,
            Made::Report => (side.report)(register, place).number,
            Made::Journal if (side.journal)(register, place).is_empty() => Number::NoMeter,
            Made::Journal => Number::Accepted,
            Made::Search { day } => (side.search)(register, place, day).number,
            Made::TallyReport(tally) if (side.tally_report)(&tally) == (side.report)(register, place) => {
                Number::Accepted
            }
            Made::TallyChange(change) if change.made_by(side) == change.after => Number::Accepted,
            Made::TallyReport(_) | Made::TallyChange(_) => Number::Damaged,
            Made::DateOf if (side.date_of)(day_at(place)) == (PEER.date_of)(day_at(place)) => Number::Accepted,
            Made::DayOf if (side.day_of)(date_at(place)) == Some(day_at(place)) => Number::Accepted,
            Made::DateOf | Made::DayOf => Number::Date,
        }
    }

    /// Goes through the places so many times, with a call at each, and says how long the calls took.
    pub fn run(&self, side: Side, passes: u32) -> Duration {
        match self.made {
            Made::Enrol { dials, capacity } => self.stretches(passes, |register, place| {
                let _ = black_box((side.enrol)(register, place, black_box(dials), black_box(capacity)));
            }),
            Made::EnrolPseudo { dials, capacity } => self.stretches(passes, |register, place| {
                let _ = black_box((side.enrol_pseudo)(register, place, black_box(dials), black_box(capacity)));
            }),
            Made::Submit(read) => self.stretches(passes, |register, place| {
                let _ = black_box((side.submit)(register, place, black_box(read)));
            }),
            Made::Trial(read) => self.stretches(passes, |register, place| {
                let _ = black_box((side.trial)(register, place, black_box(read)));
            }),
            Made::Withdraw { day, value } => self.stretches(passes, |register, place| {
                let _ = black_box((side.withdraw)(register, place, black_box(day), black_box(value)));
            }),
            Made::Fold => self.stretches(passes, |register, place| {
                let _ = black_box((side.fold)(register, place));
            }),
            Made::Report => self.stretches(passes, |register, place| {
                let _ = black_box((side.report)(register, place));
            }),
            Made::Journal => self.stretches(passes, |register, place| {
                let _ = black_box((side.journal)(register, place));
            }),
            Made::Search { day } => self.stretches(passes, |register, place| {
                let _ = black_box((side.search)(register, place, black_box(day)));
            }),
            Made::TallyReport(tally) => self.run_tally_report(side, passes, tally),
            Made::TallyChange(change) => self.run_tally_change(side, passes, change),
            Made::DateOf => self.stretches(passes, |_, place| {
                let _ = black_box((side.date_of)(day_at(place)));
            }),
            Made::DayOf => {
                let dates: Vec<Date> = (0..64).map(date_at).collect();
                self.stretches(passes, |_, place| {
                    let _ = black_box((side.day_of)(dates[usize::from(place)]));
                })
            }
        }
    }

    fn run_tally_report(&self, side: Side, passes: u32, tally: Tally) -> Duration {
        self.stretches_on(&[tally; PLACES], passes, |tallies, place| {
            let _ = black_box((side.tally_report)(&tallies[usize::from(place)]));
        })
    }

    fn run_tally_change(&self, side: Side, passes: u32, Change { before, call, reply, .. }: Change) -> Duration {
        self.stretches_on(&[before; PLACES], passes, |tallies, place| {
            (side.tally_change)(&mut tallies[usize::from(place)], black_box(&call), black_box(reply));
        })
    }

    fn stretches(&self, passes: u32, call: impl Fn(&mut [u8], u16)) -> Duration {
        self.stretches_on(&self.register, passes, call)
    }

    /// Where calls change the register, or the tallies, these are copied back before each pass, outside the time.
    fn stretches_on<T: Copy>(&self, prepared: &[T], passes: u32, call: impl Fn(&mut [T], u16)) -> Duration {
        let mut lent = prepared.to_vec();
        let (stretches, passes) = if self.changes() { (passes, 1) } else { (1, passes) };
        let mut spent = Duration::ZERO;
        for _ in 0..stretches {
            lent.copy_from_slice(prepared);
            spent += self.stretch(passes, &mut lent, &call);
        }
        spent
    }

    fn stretch<T>(&self, passes: u32, lent: &mut [T], call: &impl Fn(&mut [T], u16)) -> Duration {
        let begin = Instant::now();
        for _ in 0..passes {
            for &place in &self.places {
                call(black_box(&mut *lent), black_box(place));
            }
        }
        begin.elapsed()
    }
}
