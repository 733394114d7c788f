//! What a call takes: nanoseconds of the library beside those of the peer.

use crate::before;
use crate::cases::rows;
use crate::cells::{decimal, grouped, or_dash};
use crate::rows::Row;
use crate::sides::{LIBRARY, PEER};
use std::hint::black_box;

const ROUNDS: usize = 41;
/// How often a round goes through the 64 places.
const PASSES: u32 = 50;

/// Nanoseconds a call in one round.
struct Round {
    library: f64,
    peer: f64,
}

impl Round {
    fn of(row: &Row) -> Round {
        let calls = f64::from(PASSES * row.calls());
        let [library, peer] = [LIBRARY, PEER].map(|side| row.run(black_box(side), PASSES).as_nanos() as f64 / calls);
        Round { library, peer }
    }
}

/// The rounds of every row. Each round goes through all rows, so that a time when the machine is busy falls on all of
/// them.
fn measure(rows: &[Row]) -> Vec<Vec<Round>> {
    let mut rounds: Vec<Vec<Round>> = rows.iter().map(|_| Vec::with_capacity(ROUNDS)).collect();
    for _ in 0..ROUNDS {
        for (row, rounds) in rows.iter().zip(&mut rounds) {
            rounds.push(Round::of(row));
        }
    }
    rounds
}

/// The time that a tenth of the rounds were faster than. What else the machine does only adds to a time, so this says more
/// than the median where the machine is busy, and the same where it is not.
pub fn fast_tenth(times: impl Iterator<Item = f64>) -> f64 {
    let mut sorted: Vec<f64> = times.collect();
    sorted.sort_by(f64::total_cmp);
    sorted[sorted.len() / 10]
}

pub fn print_calls() {
    let rows = rows();
    rows.iter().for_each(Row::check);
    print!("| call | case | entries | before ns | before library/peer ");
    println!("| library ns | library calls/s | peer ns | library/peer |");
    println!("|---|---|---:|---:|---:|---:|---:|---:|---:|");
    for (row, rounds) in rows.iter().zip(measure(&rows)) {
        print_row(row, &rounds);
    }
}

fn print_row(row: &Row, rounds: &[Round]) {
    let library = fast_tenth(rounds.iter().map(|round| round.library));
    let peer = fast_tenth(rounds.iter().map(|round| round.peer));
    let (ratio, calls) = (library / peer, grouped((1e9 / library) as u64));
    let before = before::of_call(row).and_then(|before| before.times);
    let before_library = or_dash(before, |before| decimal(before.nanoseconds, 1));
    let before_ratio = or_dash(before, |before| decimal(before.ratio, 2));
    let Row { call, case, entries, .. } = row;
    print!("| {call} | {case} | {entries} | {before_library} | {before_ratio} ");
    println!("| {library:.1} | {calls} | {peer:.1} | {ratio:.2} |");
}
