//! Every number of the table, answered at least once: by the scenario of numbers, and by hand where a scenario cannot
//! lead to it.

mod common;
mod text;

use common::*;
use necktureen::{play, Call, Number, REGISTER_BYTES};
use std::collections::BTreeSet;

/// The numbers that a scenario is answered with.
fn answered(scenario: &str) -> BTreeSet<Number> {
    let mut register = zeros();
    text::calls(scenario).iter().map(|call| call.make(&mut register).number()).collect()
}

/// A journal of 50 entries, the last of them withdrawn.
fn full() -> Vec<u8> {
    let mut entries = vec![entry(STANDING, 1, 0, b'I', 0, 0)];
    entries.extend((2..=49).map(|day| entry(STANDING, day, u32::from(day), b'C', 0, 0)));
    entries.push(entry(WITHDRAWN, 50, 50, b'C', 0, 0));
    with_area(0, &area(&entries))
}

#[test]
fn every_number_is_answered() {
    let mut numbers = answered(&text::scenario("numbers.txt"));
    let call = Call::Submit { place: 0, read: read(300, b'C', 60) };
    for (register, number) in [
        (vec![0; REGISTER_BYTES - 1], Number::Misfit),
        (with_area(0, &[9; 512]), Number::Damaged),
        (full(), Number::Full),
    ] {
        refuses(&register, call, number, "by hand");
        numbers.insert(number);
    }
    let mut line = [0; 7];
    assert_eq!(play(&[9], &mut zeros(), &mut line), 7);
    assert_eq!(&line, b"26 0 0\n");
    numbers.insert(Number::Sheet);
    assert_eq!(numbers.into_iter().collect::<Vec<_>>(), Number::ALL);
}
