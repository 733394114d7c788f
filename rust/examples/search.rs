use necktureen::{enrol, indicator, letter, search, submit, Submission, REGISTER_BYTES};

fn main() {
    let mut register = vec![0; REGISTER_BYTES];
    println!("{}", enrol(&mut register, 0, 4, 5000));
    for (day, letter, value) in [(1000, letter::INITIAL, 1200), (1180, letter::CYCLIC, 1400)] {
        let read = Submission { submitted: day, day, value, letter, indicator: indicator::NOT_SET, reread: 0 };
        println!("{}", submit(&mut register, 0, read));
    }
    // The back office asks which read stands on a day.
    for (place, day) in [(0, 1181), (0, 1180), (0, 1179), (0, 1000), (1, 1000)] {
        println!("place {place}, day {day}: {}", search(&register, place, day));
    }
}
