//! A site that is read every month for sixty years, and whose journal is folded whenever it is full: a house, and a
//! standpipe of three dials. After every call its report, and that of a tally kept beside it, is held to what is counted
//! here, without a look at the register.

mod common;

use common::*;
use necktureen::{day_of, journal, report, Answer, Call, Date, Number, Reply, Report, Submission, Tally, AREA_BYTES};

const MONTHS: u16 = 720;

/// A meter, and what passes through it.
#[derive(Clone, Copy)]
struct Meter {
    dials: u8,
    capacity: u32,
    /// 10^n.
    turn: i64,
    /// What the dials show at the first read.
    start: i64,
    /// How far they go in a month, at least and at most.
    least: i64,
    most: i64,
}

const HOUSE: Meter = Meter { dials: 4, capacity: 5000, turn: 10_000, start: 9_000, least: 120, most: 180 };
const STANDPIPE: Meter = Meter { dials: 3, capacity: 500, turn: 1_000, start: 900, least: 12, most: 18 };

impl Meter {
    fn advance_of(self, month: u16) -> i64 {
        self.least + i64::from(month) * 37 % (self.most - self.least + 1)
    }

    /// What the dials show after so many m³, and how often they have turned by then.
    fn dials_after(self, total: i64) -> (u32, i64) {
        (((self.start + total) % self.turn) as u32, (self.start + total) / self.turn)
    }
}

fn first_of(month: u16) -> u16 {
    let (year, month) = (2000 + month / 12, 1 + (month % 12) as u8);
    day_of(Date { year, month, day: 1 }).expect("a day of the calendar")
}

/// The register, the meter's tally, and what was counted.
struct Site {
    meter: Meter,
    register: Vec<u8>,
    tally: Tally,
    standing: u16,
    flagged: u16,
    total: i64,
    folds: u32,
    flags_withdrawn: u32,
    /// Withdrawn reads that were sent again: how many were refused with 8, and how many with 9 to 12.
    known: u32,
    dropped: u32,
}

impl Site {
    fn new(meter: Meter) -> Site {
        let mut site = Site {
            meter,
            register: zeros(),
            tally: Tally::default(),
            standing: 0,
            flagged: 0,
            total: 0,
            folds: 0,
            flags_withdrawn: 0,
            known: 0,
            dropped: 0,
        };
        let enrolment = Call::Enrol { place: 40, dials: meter.dials, capacity: meter.capacity };
        assert_eq!(site.make(enrolment).number, Number::Accepted);
        site
    }

    /// Makes a call, and tells the tally of it.
    fn make(&mut self, call: Call) -> Answer {
        let reply = guarded(&mut self.register, |r| call.make(r));
        self.tally.change(&call, reply);
        match reply {
            Reply::Answer(answer) => answer,
            other => panic!("{call} is answered {other}"),
        }
    }

    fn submit(&mut self, read: Submission) -> Answer {
        self.make(Call::Submit { place: 40, read })
    }

    fn is_reported(&self) {
        let Site { standing, flagged, total, .. } = *self;
        let expected = Report { number: Number::Accepted, standing, flagged, total };
        assert_eq!(report(&self.register, 40), expected);
        assert_eq!(self.tally.report(), expected);
    }

    /// The read of a day, on which the total is this.
    fn read(&self, day: u16, total: i64) -> Submission {
        let letter = if self.standing == 0 { b'I' } else { b'C' };
        read(day, letter, self.meter.dials_after(total).0)
    }

    /// Sends a read. If the journal is full it is folded, and the read sent again.
    fn take(&mut self, day: u16, total: i64) {
        let read = self.read(day, total);
        let mut answer = self.submit(read);
        if answer.number == Number::Full {
            self.is_reported();
            self.fold();
            answer = self.submit(read);
        }
        let flag = self.meter.dials_after(total).1 - self.meter.dials_after(self.total).1;
        let expected = Answer { number: Number::Accepted, flag: flag as u8, advance: total - self.total };
        assert_eq!(answer, expected, "day {day}");
        self.standing += 1;
        self.flagged += flag as u16;
        self.total = total;
        self.is_reported();
    }

    fn fold(&mut self) {
        let entries = journal(&self.register, 40).len();
        assert_eq!(entries, if self.folds == 0 { 506 } else { 505 });
        assert_eq!(self.make(Call::Fold { place: 40 }), refusal(Number::Accepted));
        self.is_reported();
        assert_eq!(self.make(Call::Fold { place: 40 }), refusal(Number::NoFold), "twice in a row");
        self.is_reported();
        self.folds += 1;
    }

    /// A misread: sent, and withdrawn again.
    fn misread(&mut self, day: u16, total: i64) {
        let (before, flagged) = (self.total, self.flagged);
        self.take(day, total);
        let answer = self.make(Call::Withdraw { place: 40, day, value: self.meter.dials_after(total).0 });
        let flag = (self.flagged - flagged) as u8;
        assert_eq!(answer, Answer { number: Number::Accepted, flag, advance: before - total });
        (self.standing, self.flagged, self.total) = (self.standing - 1, flagged, before);
        self.flags_withdrawn += u32::from(flag);
        self.is_reported();
    }

    /// A read that was withdrawn is refused whenever it comes again, and changes no byte.
    fn comes_again(&mut self, day: u16, total: i64) {
        let before = self.register.clone();
        let again = read(day, b'C', self.meter.dials_after(total).0);
        let number = self.submit(again).number;
        match number {
            Number::Withdrawn => self.known += 1,
            Number::At | Number::Eh | Number::Bf | Number::BackDated => self.dropped += 1,
            other => panic!("a withdrawn read of day {day} is answered {other}"),
        }
        assert_eq!(self.register, before);
        self.is_reported();
    }
}

fn is_read_for_sixty_years(meter: Meter) {
    let mut site = Site::new(meter);
    site.is_reported();
    let (mut total, mut misreads) = (0, Vec::new());
    site.take(first_of(0), total);
    for month in 1..=MONTHS {
        let day = first_of(month);
        total += meter.advance_of(month);
        if month % 5 == 0 {
            site.misread(day, total + 3);
            misreads.push((day, total + 3));
        }
        site.take(day, total);
        for &(day, total) in misreads.iter().rev().step_by(6).take(3) {
            site.comes_again(day, total);
        }
    }
    assert_eq!(site.standing, MONTHS + 1);
    assert_eq!(i64::from(site.flagged), (meter.start + total) / meter.turn);
    assert!(site.flagged >= 10 && site.folds >= 15, "{} turns, {} folds", site.flagged, site.folds);
    assert!(site.flags_withdrawn >= 1, "no misread was taken as a rollover");
    assert!(site.known >= 100 && site.dropped >= 100, "{} known, {} dropped", site.known, site.dropped);
    assert!(site.register[..AREA_BYTES * 40].iter().all(|&byte| byte == 0), "another area was written");
}

#[test]
fn a_report_is_the_running_total_for_sixty_years() {
    is_read_for_sixty_years(HOUSE);
}

#[test]
fn a_report_is_the_running_total_of_three_dials() {
    is_read_for_sixty_years(STANDPIPE);
}
