use necktureen::{enrol, indicator, letter, report, submit, trial};
use necktureen::{Number, Submission, REGISTER_BYTES};

/// A read of a meter, sent on the day that its dials were read.
fn read(day: u16, letter: u8, value: u32) -> Submission {
    Submission { submitted: day, day, value, letter, indicator: indicator::NOT_SET, reread: 0 }
}

fn main() {
    let mut register = vec![0; REGISTER_BYTES];
    println!("{}", enrol(&mut register, 0, 4, 5000));
    println!("{}", submit(&mut register, 0, read(1000, letter::INITIAL, 1200)));
    println!("{}", submit(&mut register, 0, read(1180, letter::CYCLIC, 1400)));
    // On site: what the dials show is tried before it is sent. The first time two digits are swapped.
    for value in [6120, 1620] {
        let read = read(1360, letter::CYCLIC, value);
        let answer = trial(&register, 0, read);
        println!("tried {value}: {answer}");
        if answer.number == Number::Accepted {
            println!("sent {value}: {}", submit(&mut register, 0, read));
        }
    }
    println!("{}", report(&register, 0));
}
