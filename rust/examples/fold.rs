use necktureen::{enrol, entries, fold, indicator, journal, letter, report, submit};
use necktureen::{Answer, Number, Submission, REGISTER_BYTES};

/// Submits a read. Where the journal is full, its old reads are folded first.
fn submit_or_fold(register: &mut [u8], place: u16, read: Submission) -> Answer {
    let answer = submit(register, place, read);
    if answer.number != Number::Full || fold(register, place).number != Number::Accepted {
        return answer;
    }
    submit(register, place, read)
}

fn main() {
    let mut register = vec![0; REGISTER_BYTES];
    println!("{}", enrol(&mut register, 0, 4, 5000));
    for month in 0..60 {
        let (day, value) = (1 + 30 * month, (9000 + 100 * u32::from(month)) % 10_000);
        let letter = if month == 0 { letter::INITIAL } else { letter::CYCLIC };
        let read = Submission { submitted: day, day, value, letter, indicator: indicator::NOT_SET, reread: 0 };
        let answer = submit_or_fold(&mut register, 0, read);
        assert_eq!(answer.number, Number::Accepted);
    }
    println!("{}", report(&register, 0));
    for entry in entries(journal(&register, 0)).take(3) {
        println!("{entry}");
    }
}
