use necktureen::{enrol, entries, indicator, journal, letter, submit, Submission, REGISTER_BYTES};

fn main() {
    let mut register = vec![0; REGISTER_BYTES];
    println!("{}", enrol(&mut register, 0, 4, 5000));
    let opening = Submission {
        submitted: 1600,
        day: 1000,
        value: 9200,
        letter: letter::INITIAL,
        indicator: indicator::NOT_SET,
        reread: 0,
    };
    println!("{}", submit(&mut register, 0, opening));
    let next = Submission { day: 1180, value: 9400, letter: letter::CYCLIC, ..opening };
    println!("{}", submit(&mut register, 0, next));
    for entry in entries(journal(&register, 0)) {
        println!("{entry}");
    }
}
