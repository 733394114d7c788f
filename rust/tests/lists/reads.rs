//! Reads that are sent: those that a journal already has, and those that would follow.

use super::meter::{Meter, Read};
use super::Random;
use necktureen::{date_of, day_of, Date, Submission};

/// A read for a meter. An idle terminal may have one.
pub fn submission(random: &mut Random, idle: Option<Read>, meter: &Meter) -> Submission {
    let (read, reread) = match (random.index(24), meter.held, idle) {
        (0, _, _) if !meter.standing.is_empty() => (random.pick(&meter.standing).0, 0),
        (1, _, _) if !meter.withdrawn.is_empty() => (random.pick(&meter.withdrawn), random.once_in(3) as u8),
        (2..=12, Some(held), _) => (held, 1),
        (13, Some(held), _) => (held, 0),
        (14..=15, _, Some(read)) => (nearly(random, read), 0),
        _ => (next_read(random, meter), random.once_in(30) as u8),
    };
    let late = if random.once_in(3) { 0 } else { random.between(0, 40) as u16 };
    let mut submission = Submission {
        submitted: read.day.saturating_add(late),
        day: read.day,
        value: read.value,
        letter: read.letter,
        indicator: read.indicator,
        reread,
    };
    if random.once_in(7) {
        change_a_field(random, meter, &mut submission);
    }
    submission
}

/// The same day and value, now and then with another type or indicator.
fn nearly(random: &mut Random, read: Read) -> Read {
    match random.index(6) {
        0 => Read { letter: random.pick(b"IF"), ..read },
        1 => Read { indicator: random.pick(&[0, 1, 2]), ..read },
        _ => read,
    }
}

fn change_a_field(random: &mut Random, meter: &Meter, read: &mut Submission) {
    match random.index(12) {
        0 => read.value = u32::MAX,
        1 => read.value = (meter.turn + random.between(-1, 1)) as u32,
        2 => read.value = (i64::from(read.value) + random.between(-1, 1)).max(0) as u32,
        3 => read.value = random.next() as u32,
        4 => read.letter = random.byte(),
        5 => read.letter = random.pick(b"IOFCURTSXYE"),
        6 => read.indicator = random.pick(&[0, 1, 2, 2, 3, 255]),
        7 => read.reread = random.pick(&[0, 1, 1, 2, 255]),
        8 => read.day = 0,
        9 => read.submitted = read.day.wrapping_sub(1),
        10 => read.day = read.day.wrapping_add(random.between(-2, 2) as u16),
        _ => read.submitted = random.next() as u16,
    }
}

/// The reads of one meter in eight all share a bucket.
fn next_read(random: &mut Random, meter: &Meter) -> Read {
    let read = match meter.standing.last() {
        None => opening_read(random, meter),
        Some(&(last, _)) => following_read(random, meter, last),
    };
    let value = if meter.capacity % 8 == 0 { in_first_bucket(read.day, read.value, meter.turn) } else { read.value };
    Read { value, ..read }
}

/// The next value that the dials show, from this one on and from 0 again, with which a read of this day is in the first of
/// the 256 buckets that the library keeps withdrawn reads in: day and value together are a multiple of 256.
pub fn in_first_bucket(day: u16, value: u32, turn: i64) -> u32 {
    let from = |value: u32| value + (256 - (u32::from(day) + value) % 256) % 256;
    if i64::from(from(value)) < turn {
        from(value)
    } else {
        from(0)
    }
}

/// A first read, often near all nines. Days start low, so that many reads fit after it.
fn opening_read(random: &mut Random, meter: &Meter) -> Read {
    let day = match random.index(8) {
        0 => random.between(1, 65_535),
        1 => random.between(65_000, 65_535),
        // In 2099 or 2100, which is no leap year.
        2 => random.between(36_161, 36_890),
        _ => random.between(1, 3000),
    };
    let after = meter.withdrawn.iter().map(|read| i64::from(read.day)).max().unwrap_or(0);
    let day = if random.once_in(2) { (after + random.between(0, 30)).clamp(1, 65_535) } else { day };
    let value = match random.index(4) {
        0 => random.between(0, meter.turn - 1),
        1 => random.between(0, meter.turn / 10),
        _ => random.between(meter.turn * 3 / 4, meter.turn - 1),
    };
    let letter = match meter.is_pseudo {
        true => pseudo_letter(random, b'I'),
        false if random.once_in(12) => letter(random),
        false => random.pick(b"IO"),
    };
    let indicator = if random.once_in(12) { random.pick(&[1, 2]) } else { 0 };
    Read { day: day as u16, value: value as u32, letter, indicator }
}

fn following_read(random: &mut Random, meter: &Meter, last: Read) -> Read {
    let days = match random.index(9) {
        0 => 1,
        1 => random.between(1, 400),
        2 => random.between(1, 1500),
        3 => random.between(-30, 2),
        4 => days_to_new_year(last.day) - random.between(0, 1),
        _ => random.pick(&[30, 90, 180, 180, 365]),
    };
    let aim = i64::from(last.value) + advance(random, meter, last, days);
    let value = if random.once_in(40) { aim.clamp(0, meter.turn) } else { aim.rem_euclid(meter.turn) };
    let turned_back = value < i64::from(last.value);
    let indicator = match random.index(8) {
        0..=5 if !turned_back => 0,
        _ => random.pick(&[0, 1, 2, 2]),
    };
    let day = (i64::from(last.day) + days).clamp(0, 65_535);
    let letter = if meter.is_pseudo { pseudo_letter(random, b'F') } else { letter(random) };
    Read { day: day as u16, value: value as u32, letter, indicator }
}

fn days_to_new_year(day: u16) -> i64 {
    let year = date_of(day).map_or(2000, |date| date.year + 1);
    let new_year = day_of(Date { year, month: 1, day: 1 }).unwrap_or(u16::MAX);
    i64::from(new_year) - i64::from(day)
}

/// How far to go on from the last read: like the time before, or at an edge of one of the rules.
fn advance(random: &mut Random, meter: &Meter, last: Read, days: i64) -> i64 {
    let (turn, days) = (meter.turn, days.max(1));
    // By either length of a year: what the other one lets pass is worth a call too.
    let by_capacity = meter.capacity * days / random.pick(&[365, 366]);
    let room = by_capacity.min(turn / 11);
    let edge = random.between(-2, 2);
    let (usual, usual_days) = meter.pace().unwrap_or((random.between(0, room), days));
    let hundredth_of_usual = |percent: i64| percent * usual * days / (100 * usual_days);
    match random.index(24) {
        0 => hundredth_of_usual(20) + edge,
        1 => hundredth_of_usual(200) + edge,
        2 => by_capacity + edge,
        3 => -meter.step_back + edge,
        4 => random.between(-meter.step_back * 11 / 10, meter.step_back / 100),
        // Onto the marks of the first test, and onto all nines.
        5 => turn / 10 - i64::from(last.value) + edge,
        6 => turn * 9 / 10 - i64::from(last.value) + edge,
        7 => turn - 1 - i64::from(last.value) - random.between(0, 3),
        8 => turn / 10 + edge,
        9 => random.between(0, turn - 1),
        10..=11 => random.between(0, room),
        _ => {
            let percent = random.between(40, 170);
            hundredth_of_usual(percent).clamp(0, room.max(1))
        }
    }
}

fn letter(random: &mut Random) -> u8 {
    match random.index(60) {
        0 => random.byte(),
        1..=2 => random.pick(b"IO"),
        3 => b'F',
        4..=6 => b'Y',
        _ => random.pick(b"CCCCURTSXE"),
    }
}

/// For a pseudo meter: mostly the type that is due, and often one that it does not take.
fn pseudo_letter(random: &mut Random, due: u8) -> u8 {
    match random.index(12) {
        0..=2 => random.pick(b"IOFCURTSXYE"),
        3 if random.once_in(5) => random.byte(),
        _ => due,
    }
}
