//! Random calls and random registers for the comparison.
//!
//! A call is picked with an eye on the register that it meets, so that lists get past the first checks and reach deep
//! states: long journals, rollovers, held reads, withdrawals, folds, pseudo meters' reads. Trials of such reads stand
//! anywhere between them where a test asks for them. What an answer should be is not decided here.

// Each test uses its part.
#![allow(dead_code, unused_imports)]

mod idle;
mod journals;
mod meter;
mod random;
mod reads;
mod registers;
mod settings;
mod shorten;
mod staff;

pub use idle::Idle;
pub use meter::step_back;
pub use random::Random;
pub use registers::{any_register, misfit_register};
pub use settings::{say, seed, setting};
pub use shorten::{hexadecimal, shortened};
pub use staff::Staff;

use meter::{look_at, Meter, Read};
use necktureen::{Call, AREA_BYTES};
use reads::submission;

/// A call as below, or a trial of a read that could as well be submitted.
pub fn call_or_trial(random: &mut Random, idle: &mut Idle, staff: &mut Staff, register: &[u8], places: &[u16]) -> Call {
    if let Some(call) = staff.after_a_trial(random) {
        return call;
    }
    let call = call(random, idle, register, places);
    staff.may_try(random, call)
}

/// A call on one of these places, now and then on any other. Some are of reads that idle terminals still have.
pub fn call(random: &mut Random, idle: &mut Idle, register: &[u8], places: &[u16]) -> Call {
    let place = if random.once_in(60) { any_place(random) } else { random.pick(places) };
    let start = AREA_BYTES * usize::from(place);
    let Some(area) = register.get(start..start + AREA_BYTES) else {
        return call_on(random, idle, place, &look_at(&[0; AREA_BYTES]));
    };
    let enrolled = area.iter().any(|&byte| byte != 0);
    if !enrolled && !random.once_in(6) {
        return enrolment(random, place);
    }
    call_on(random, idle, place, &look_at(area))
}

/// Any place, those that two bytes hold and one does not too.
fn any_place(random: &mut Random) -> u16 {
    match random.index(8) {
        0 => random.next() as u16,
        1 => random.pick(&[63, 64, 255, 256, 257, 319, 320, 32_768, 65_535]),
        _ => u16::from(random.byte()),
    }
}

fn call_on(random: &mut Random, idle: &mut Idle, place: u16, meter: &Meter) -> Call {
    if random.once_in(meter.calls_to_a_fold()) {
        idle.keep(random, place, meter);
        return Call::Fold { place };
    }
    match random.index(40) {
        0 => enrolment(random, place),
        1..=2 => Call::Report { place },
        3..=7 => withdrawal(random, place, meter),
        // Down to the oldest kept read, and on.
        _ if meter.is_carried && meter.standing.len() <= 3 && random.once_in(3) => withdrawal(random, place, meter),
        // Nothing follows a pseudo meter's final read until it is withdrawn.
        _ if meter.is_pseudo && meter.final_stands() && random.once_in(3) => withdrawal(random, place, meter),
        _ => {
            let idle = idle.of(random, place);
            Call::Submit { place, read: submission(random, idle, meter) }
        }
    }
}

/// One in three is of a pseudo meter.
fn enrolment(random: &mut Random, place: u16) -> Call {
    let (mut dials, mut capacity) = plate(random);
    match random.index(12) {
        0 => dials = random.pick(&[0, 2, 10, 255]),
        1 => capacity = 0,
        _ => {}
    }
    if random.once_in(3) {
        Call::EnrolPseudo { place, dials, capacity }
    } else {
        Call::Enrol { place, dials, capacity }
    }
}

/// Dials and a capacity: mostly one that leaves room for a few turns of the dials a year, also small and large ones. One
/// meter in four has three dials, whose step back has a limit of its own.
fn plate(random: &mut Random) -> (u8, u32) {
    let dials = if random.once_in(4) { 3 } else { random.between(4, 9) as u8 };
    let turn = 10_i64.pow(u32::from(dials));
    let capacity = match random.index(8) {
        0 => random.between(1, 400),
        1 => random.between(1, 10_000),
        2 => i64::from(u32::MAX) - random.between(0, 1),
        3 => random.between(1, i64::from(u32::MAX)),
        _ => random.between(turn / 4, 4 * turn),
    };
    (dials, capacity.clamp(1, i64::from(u32::MAX)) as u32)
}

fn withdrawal(random: &mut Random, place: u16, meter: &Meter) -> Call {
    let any = Read { day: random.next() as u16, value: random.next() as u32 % 10_000, letter: b'C', indicator: 0 };
    let last = meter.standing.last().map_or(any, |&(read, _)| read);
    let read = match random.index(12) {
        0..=1 if !meter.standing.is_empty() => random.pick(&meter.standing).0,
        2 if !meter.withdrawn.is_empty() => random.pick(&meter.withdrawn),
        3 => meter.held.unwrap_or(any),
        4 => Read { value: last.value.wrapping_add(1), ..last },
        5 => Read { day: last.day.wrapping_sub(1), ..last },
        6 => any,
        _ => last,
    };
    Call::Withdraw { place, day: read.day, value: read.value }
}
