//! The standing tally of document 02, written from its sentences alone.

use necktureen::{Answer, Call, Number, Reply, Report};

/// "The caller keeps a small tally (dials, standing, flagged, first value, last value)".
///
/// The numbers are wide and signed: no sum overflows, and "a number below 0" can be seen as one.
#[derive(Clone, Copy, Debug, Default, PartialEq, Eq)]
pub struct Tally {
    pub dials: i128,
    pub standing: i128,
    pub flagged: i128,
    pub first: i128,
    pub last: i128,
}

impl From<necktureen::Tally> for Tally {
    /// The same numbers.
    fn from(kept: necktureen::Tally) -> Self {
        Tally {
            dials: i128::from(kept.dials),
            standing: i128::from(kept.standing),
            flagged: i128::from(kept.flagged),
            first: i128::from(kept.first),
            last: i128::from(kept.last),
        }
    }
}

impl Tally {
    /// "An all-zero tally reports 3"; "any other with" a fault "reports 4"; the rest report 0.
    pub fn number(&self) -> Number {
        if self.is_all_zero() {
            Number::NoMeter
        } else if self.is_damaged() {
            Number::Damaged
        } else {
            Number::Accepted
        }
    }

    /// "Report answers number, standing reads, flagged among them, and total".
    pub fn report(&self) -> Report {
        let number = self.number();
        if number != Number::Accepted {
            // "A refused report: its number and three zeros."
            return Report { number, standing: 0, flagged: 0, total: 0 };
        }
        // Nothing is cut off here: 0 <= flagged <= standing <= 65,535, and both values are below 10^9.
        Report { number, standing: self.standing as u16, flagged: self.flagged as u16, total: self.total() as i64 }
    }

    /// "Changed in place after every answered call on that meter, by the call and its answer alone".
    pub fn change(&mut self, call: &Call, reply: Reply) {
        // An answer of the wrong kind changes nothing; a report's own reply is not an `Answer` either.
        let Reply::Answer(answer) = reply else { return };
        // "Accepted means answered 0": every refused call changes nothing.
        if answer.number != Number::Accepted {
            return;
        }
        let Some(next) = self.after(call, answer) else { return };
        // "A change ... to one, or to a number below 0, is not made."
        if next.number() == Number::Accepted {
            *self = next;
        }
    }

    /// What an accepted call would make of this tally; `None` where it takes no such call.
    fn after(&self, call: &Call, answer: Answer) -> Option<Tally> {
        match *call {
            Call::Enrol { dials, .. } | Call::EnrolPseudo { dials, .. } => self.after_enrolment(dials),
            Call::Submit { read, .. } => self.after_submission(read.value, answer.flag),
            Call::Withdraw { .. } => self.after_withdrawal(answer.flag, answer.advance),
            // A fold and a report change nothing, and a trial is no call on the meter.
            _ => None,
        }
    }

    /// "An all-zero tally ... takes only an enrolment, which no other takes."
    fn after_enrolment(&self, dials: u8) -> Option<Tally> {
        if !self.is_all_zero() {
            return None;
        }
        Some(Tally { dials: i128::from(dials), ..*self })
    }

    /// "An accepted submission's value becomes the last", and the first where none stands.
    fn after_submission(&self, value: u32, flag: u8) -> Option<Tally> {
        if !self.takes_reads() {
            return None;
        }
        let mut next = *self;
        next.last = i128::from(value);
        if self.standing == 0 {
            next.first = i128::from(value);
        }
        next.standing += 1;
        next.flagged += i128::from(flag);
        Some(next)
    }

    /// "An accepted withdrawal's answered advance and flag × 10^n are added to the last."
    fn after_withdrawal(&self, flag: u8, advance: i64) -> Option<Tally> {
        if !self.takes_reads() {
            return None;
        }
        let mut next = *self;
        next.standing -= 1;
        next.flagged -= i128::from(flag);
        if next.standing == 0 {
            // "Both values are 0 where none stands", whatever advance was answered.
            next.first = 0;
            next.last = 0;
        } else {
            next.last += i128::from(advance) + i128::from(flag) * self.ten_to_the_n();
        }
        Some(next)
    }

    /// Neither all-zero, which "takes only an enrolment", nor damaged: "a change from ... one ... is not made".
    fn takes_reads(&self) -> bool {
        self.number() == Number::Accepted
    }

    /// "last − first + 10^n × flagged, 0 if none stands". Asked only of a tally that reports 0.
    fn total(&self) -> i128 {
        if self.standing == 0 {
            return 0;
        }
        self.last - self.first + self.ten_to_the_n() * self.flagged
    }

    /// "An all-zero tally".
    fn is_all_zero(&self) -> bool {
        *self == Tally::default()
    }

    /// The faults of "any other", in the paper's order.
    fn is_damaged(&self) -> bool {
        !self.has_good_dials()
            || !self.is_good_value(self.first)
            || !self.is_good_value(self.last)
            || self.flagged > self.standing
            || self.standing > 65_535
            || self.has_number_below_zero()
    }

    /// "Dials not 3 to 9" are a fault.
    fn has_good_dials(&self) -> bool {
        (3..=9).contains(&self.dials)
    }

    /// "A value not below 10^n or not 0 where none stands" is a fault. Asked only where the dials are good.
    fn is_good_value(&self, value: i128) -> bool {
        value < self.ten_to_the_n() && (self.standing != 0 || value == 0)
    }

    /// "A number below 0": no kept tally can hold one, so it is no better than a damaged one.
    fn has_number_below_zero(&self) -> bool {
        self.dials < 0 || self.standing < 0 || self.flagged < 0 || self.first < 0 || self.last < 0
    }

    /// 10^n, "n is the meter's number of dials". Asked only where the dials are good.
    fn ten_to_the_n(&self) -> i128 {
        10_i128.pow(self.dials as u32)
    }
}
