//! The library beside a second writing of the papers: the same random calls to both, trials among them, every field of every
//! answer and every byte compared. Every submission is tried first, and the trial's answer is held to its own. Both sides
//! keep a tally of each meter, which is compared too, and is held to the full report where the register was all zero at
//! first.
//!
//! `NECKTUREEN_CALLS` sets how many calls are compared and `NECKTUREEN_SEED` which; both are printed. A difference is
//! cut down to a short list of calls and printed as a scenario and as a day sheet.

mod lists;
mod peer;
mod reached;
mod sides;

use lists::{say, seed, setting, Idle, Random, Staff};
use necktureen::REGISTER_BYTES;
use reached::{Reached, Told};
use sides::{List, Pair};

const CALLS: u64 = 3_000_000;

/// What a list starts from, where its calls go, and how many they are.
fn beginning(random: &mut Random) -> (Vec<u8>, Vec<u16>, usize) {
    let every_place: Vec<u16> = (0..=63).collect();
    match random.index(20) {
        0 => (lists::misfit_register(random), vec![0, 1, 63], 8),
        1..=8 => (lists::any_register(random), every_place, 400),
        9 => (vec![0; REGISTER_BYTES], every_place, 2000),
        _ => {
            let places = (0..random.between(1, 3)).map(|_| random.index(64) as u16).collect();
            let length = random.pick(&[30, 150, 400]);
            (vec![0; REGISTER_BYTES], places, length)
        }
    }
}

fn compare_a_list(random: &mut Random, seed: u64, reached: &mut Reached) {
    let (start, places, length) = beginning(random);
    // The guard's length varies, so that the register starts at every alignment.
    let mut pair = Pair::new(&start, 64 + random.index(16));
    reached.begin();
    let (mut idle, mut staff) = (Idle::default(), Staff::default());
    let mut calls = Vec::with_capacity(length);
    for _ in 0..length {
        let call = lists::call_or_trial(random, &mut idle, &mut staff, &pair.peer, &places);
        calls.push(call);
        let (before, tally) = (pair.peer_area(call.place()), pair.tallies.of(call.place()));
        match pair.call(&call) {
            Ok(reply) => {
                let told = Told { is_kept: pair.tallies.are_kept, before: tally, after: pair.tallies.of(call.place()) };
                reached.count(&call, reply, before, pair.peer_area(call.place()), told);
            }
            Err(_) => sides::fail(List { start, calls }, seed),
        }
    }
    if pair.compare_tallies().is_err() {
        sides::fail(List { start, calls }, seed);
    }
}

#[test]
fn the_library_answers_and_writes_as_the_peer_does() {
    let (seed, calls) = (seed(), setting("NECKTUREEN_CALLS", CALLS));
    say(&format!("comparing {calls} calls, seed {seed}"));
    let mut random = Random::new(seed);
    let mut reached = Reached::new();
    while reached.calls() < calls {
        compare_a_list(&mut random, seed, &mut reached);
    }
    say(&format!("{} calls compared, seed {seed}\n{}", reached.calls(), reached.table()));
    let unseen = reached.unseen();
    assert!(calls < CALLS || unseen.is_empty(), "never reached, seed {seed}: {unseen:?}");
}
