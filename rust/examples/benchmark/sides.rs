//! The two sides: the library, and the peer, a second writing of the same rules by hand.

use crate::peer;
use necktureen::{Answer, Call, Date, Reply, Report, Search, Submission, Tally};

/// Both sides are called through pointers, so that neither is inlined into the loop that calls it.
#[derive(Clone, Copy)]
pub struct Side {
    pub enrol: fn(&mut [u8], u16, u8, u32) -> Answer,
    pub enrol_pseudo: fn(&mut [u8], u16, u8, u32) -> Answer,
    pub submit: fn(&mut [u8], u16, Submission) -> Answer,
    pub trial: fn(&[u8], u16, Submission) -> Answer,
    pub withdraw: fn(&mut [u8], u16, u16, u32) -> Answer,
    pub fold: fn(&mut [u8], u16) -> Answer,
    pub report: fn(&[u8], u16) -> Report,
    pub journal: fn(&[u8], u16) -> &[u8],
    pub search: fn(&[u8], u16, u16) -> Search,
    pub tally_change: fn(&mut Tally, &Call, Reply),
    pub tally_report: fn(&Tally) -> Report,
    pub date_of: fn(u16) -> Option<Date>,
    pub day_of: fn(Date) -> Option<u16>,
}

pub const LIBRARY: Side = Side {
    enrol: necktureen::enrol,
    enrol_pseudo: necktureen::enrol_pseudo,
    submit: necktureen::submit,
    trial: necktureen::trial,
    withdraw: necktureen::withdraw,
    fold: necktureen::fold,
    report: necktureen::report,
    journal: necktureen::journal,
    search: necktureen::search,
    tally_change: Tally::change,
    tally_report: Tally::report,
    date_of: necktureen::date_of,
    day_of: necktureen::day_of,
};

pub const PEER: Side = Side {
    enrol: peer::enrol,
    enrol_pseudo: peer::enrol_pseudo,
    submit: peer::submit,
    trial: peer::trial,
    withdraw: peer::withdraw,
    fold: peer::fold,
    report: peer::report,
    journal: peer::journal,
    search: peer::search,
    tally_change: peer_tally_change,
    tally_report: peer_tally_report,
    date_of: peer::calendar::date_of,
    day_of: peer::calendar::day_of,
};

/// The peer has wide numbers of its own: those of a tally are put in them first, and back after a change.
fn peer_tally_change(tally: &mut Tally, call: &Call, reply: Reply) {
    let mut wide = peer::Tally::from(*tally);
    wide.change(call, reply);
    let numbers = [wide.dials, wide.standing, wide.flagged, wide.first, wide.last];
    let [dials, standing, flagged, first, last] = numbers.map(|number| number as u32);
    *tally = Tally { dials, standing, flagged, first, last };
}

fn peer_tally_report(tally: &Tally) -> Report {
    peer::Tally::from(*tally).report()
}
