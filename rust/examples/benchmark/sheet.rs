//! A day sheet of the greatest length.

use crate::journals::{Withdrawn, ADVANCE, CAPACITY, DIALS, PLACES};
use necktureen::{Call, SheetWriter, REGISTER_BYTES, SHEET_BYTES};
use std::hint::black_box;

/// 60,000 bytes: 64 meters, a read of each in turn, every tenth read withdrawn, then reports. A meter that has 50 entries
/// refuses the reads that follow (16).
pub fn long_sheet() -> Vec<u8> {
    let enrolments = (0..PLACES).map(|place| Call::Enrol { place, dials: DIALS, capacity: CAPACITY });
    let reports = std::iter::repeat(Call::Report { place: 0 });
    let mut room = vec![0; SHEET_BYTES];
    let mut sheet = SheetWriter::new(&mut room);
    for call in enrolments.chain((0..66).flat_map(reads)).chain(reports) {
        if sheet.write(&call).is_err() {
            break;
        }
    }
    assert_eq!(sheet.sheet().len(), SHEET_BYTES);
    sheet.sheet().to_vec()
}

/// A read at each place, and its withdrawal where it is the tenth.
fn reads(position: usize) -> Vec<Call> {
    let read = Withdrawn::None.next_read(position, ADVANCE);
    let mut calls: Vec<Call> = (0..PLACES).map(|place| Call::Submit { place, read }).collect();
    if position % 10 == 9 {
        calls.extend((0..PLACES).map(|place| Call::Withdraw { place, day: read.day, value: read.value }));
    }
    calls
}

/// Makes the calls of a sheet through the library, on a register of zeros, and prints nothing.
pub fn make_calls(calls: &[Call]) {
    let mut register = vec![0; REGISTER_BYTES];
    for call in calls {
        let _ = black_box(black_box(call).make(&mut register));
    }
}
