use necktureen::{indicator, letter, Call, Submission, Tally, REGISTER_BYTES};

/// A read of the meter at a place.
fn read(place: u16, day: u16, letter: u8, value: u32) -> Call {
    let read = Submission { submitted: day, day, value, letter, indicator: indicator::NOT_SET, reread: 0 };
    Call::Submit { place, read }
}

fn main() {
    let mut register = vec![0; REGISTER_BYTES];
    let mut tally = Tally::default();
    let calls = [
        Call::Enrol { place: 0, dials: 4, capacity: 5000 },
        Call::Enrol { place: 1, dials: 3, capacity: 900 },
        read(0, 1000, letter::INITIAL, 9400),
        read(1, 1000, letter::INITIAL, 17),
        read(0, 1180, letter::CYCLIC, 9600),
        read(0, 1360, letter::CYCLIC, 9800),
        read(0, 1540, letter::CYCLIC, 100),
        Call::Withdraw { place: 0, day: 1540, value: 100 },
        read(0, 1540, letter::CYCLIC, 120),
        Call::Fold { place: 0 },
    ];
    for call in calls {
        let reply = call.make(&mut register);
        // The tally is that of place 0: it is told of that meter's calls alone.
        if call.place() == 0 {
            tally.change(&call, reply);
            println!("{}", tally.report());
        }
    }
}
