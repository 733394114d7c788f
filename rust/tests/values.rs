//! The library's values: numbers, letters, calls on a sheet, and a journal's entries.

mod common;

use common::*;
use necktureen::*;

#[test]
fn a_number_is_known_or_not() {
    for byte in 0..=255 {
        match Number::try_from(byte) {
            Ok(number) => {
                assert_eq!(u8::from(number), byte);
                assert_eq!(Number::ALL[usize::from(byte)], number);
                assert_eq!(number.to_string(), format!("{byte} {}", number.word()));
            }
            Err(unknown) => {
                assert!(usize::from(byte) >= Number::ALL.len(), "{byte}");
                assert_eq!(unknown, UnknownNumber(byte));
            }
        }
    }
}

#[test]
fn letters_and_indicators_have_words() {
    let letters: Vec<u8> = letter::ALL.iter().map(|row| row.0).collect();
    assert_eq!(letters, b"IOFCURTSXYE");
    for byte in 0..=255 {
        assert_eq!(letter::word(byte).is_some(), letters.contains(&byte), "{byte}");
        assert_eq!(indicator::word(byte).is_some(), byte <= 2, "{byte}");
    }
    assert_eq!((letter::word(b'S'), indicator::word(2)), (Some("estimated transfer"), Some("true")));
}

// ---- Sheets ----

/// The bytes of FORMAT's example, and one call of each kind.
#[test]
fn a_call_has_its_bytes_on_a_sheet() {
    let opening =
        Submission { submitted: 1600, day: 1000, value: 9200, letter: letter::INITIAL, indicator: 2, reread: 1 };
    for (call, bytes) in [
        (Call::Enrol { place: 1, dials: 4, capacity: 5000 }, &[1, 1, 4, 0x88, 0x13, 0, 0][..]),
        (Call::Submit { place: 2, read: opening }, &[2, 2, 0x40, 0x06, 0xE8, 0x03, 0xF0, 0x23, 0, 0, 0x49, 2, 1]),
        (Call::Withdraw { place: 63, day: 0x1234, value: 0x89AB_CDEF }, &[3, 63, 0x34, 0x12, 0xEF, 0xCD, 0xAB, 0x89]),
        (Call::Report { place: 255 }, &[4, 255]),
        (Call::Fold { place: 64 }, &[5, 64]),
        (Call::EnrolPseudo { place: 3, dials: 9, capacity: 0x89AB_CDEF }, &[6, 3, 9, 0xEF, 0xCD, 0xAB, 0x89]),
    ] {
        let entry = call.sheet_entry().expect("an entry");
        assert_eq!(&entry[..], bytes, "{call}");
        let mut read = calls(&entry);
        assert_eq!((read.next(), read.next(), read.rest()), (Some(call), None, &[][..]), "{call}");
    }
}

#[test]
fn a_place_above_255_has_no_entry() {
    for place in [256, 257, 65_535] {
        for call in each_call(place) {
            assert_eq!(call.sheet_entry(), None, "{call}");
            let mut room = [0; 100];
            let mut writer = SheetWriter::new(&mut room);
            assert_eq!(writer.write(&call), Err(Unwritten::NoEntry), "{call}");
            assert!(writer.sheet().is_empty());
        }
    }
}

/// The sheet stays as it was, and the next call is written where the trial would have been.
#[test]
fn a_trial_has_no_entry() {
    let trial = Call::Trial { place: 2, read: read(1000, letter::CYCLIC, 9400) };
    let mut room = [0xA5; 6];
    let mut writer = SheetWriter::new(&mut room);
    assert_eq!(writer.write(&Call::Report { place: 7 }), Ok(()));
    assert_eq!(trial.sheet_entry(), None);
    assert_eq!(writer.write(&trial), Err(Unwritten::NoEntry));
    assert_eq!(writer.sheet(), [4, 7]);
    assert_eq!(writer.write(&Call::Fold { place: 8 }), Ok(()));
    assert_eq!(writer.sheet(), [4, 7, 5, 8]);
    assert_eq!(room[4..], [0xA5, 0xA5]);
}

#[test]
fn what_is_not_written_says_why() {
    assert_eq!(Unwritten::NoEntry.to_string(), "a day sheet holds places up to 255, and no trials");
    assert_eq!(Unwritten::NoRoom.to_string(), "the day sheet is full");
}

#[test]
fn a_sheet_ends_where_its_room_does() {
    let (enrol, report) = (Call::Enrol { place: 0, dials: 4, capacity: 1 }, Call::Report { place: 0 });
    let mut room = [0xA5; 10];
    let mut writer = SheetWriter::new(&mut room);
    assert_eq!(writer.write(&enrol), Ok(()));
    assert_eq!(writer.write(&enrol), Err(Unwritten::NoRoom));
    assert_eq!(writer.write(&report), Ok(()));
    assert_eq!(writer.write(&report), Err(Unwritten::NoRoom));
    assert_eq!(writer.sheet(), [1, 0, 4, 1, 0, 0, 0, 4, 0]);
    assert_eq!(room[9], 0xA5);

    let mut room = vec![0; SHEET_BYTES + 100];
    let mut writer = SheetWriter::new(&mut room);
    while writer.write(&report).is_ok() {}
    assert_eq!(writer.sheet().len(), SHEET_BYTES);
}

/// What follows the last whole call is left, whether it is cut or of an unknown kind.
#[test]
fn a_fault_is_what_is_left_of_a_sheet() {
    for fault in
        [&[0][..], &[9, 0], &[1], &[1, 0, 4, 1, 0, 0], &[2, 0, 0, 0], &[4], &[5], &[6, 0, 4, 1, 0, 0], &[255; 20]]
    {
        let sheet = [&[4, 7, 4, 8][..], fault].concat();
        let mut read = calls(&sheet);
        let places: Vec<u16> = read.by_ref().map(|call| call.place()).collect();
        assert_eq!((places, read.rest()), (vec![7, 8], fault));
        assert_eq!((read.next(), read.rest()), (None, fault));
    }
}

#[test]
fn text_that_does_not_fit_is_cut_and_the_calls_are_made() {
    let sheet: Vec<u8> = each_call(5).iter().filter_map(Call::sheet_entry).flat_map(|entry| entry.to_vec()).collect();
    let whole = b"0 0 0\n13 0 0\n22 0 0\n0 0 0 0\n27 0 0\n24 0 0\n";
    for room in 0..=whole.len() + 1 {
        let (mut register, mut text) = (zeros(), vec![0xA5; room]);
        assert_eq!(guarded(&mut register, |r| play(&sheet, r, &mut text)), whole.len());
        let fits = room.min(whole.len());
        assert_eq!(&text[..fits], &whole[..fits]);
        assert!(text[fits..].iter().all(|&byte| byte == 0xA5));
        assert_eq!(register, with_area(5, &area_of(&meter(4, 1), &[])));
    }
}

// ---- Trials ----

/// The fields are a submission's, and so is the text but for its first word.
#[test]
fn a_trial_is_printed_as_a_submission_is() {
    let plain = read(1000, letter::CYCLIC, 9400);
    let full = Submission { submitted: 0, letter: 200, indicator: indicator::TRUE, reread: 1, ..plain };
    for (place, read, fields) in [
        (3, plain, "place 3 submitted 60000 day 1000 type C value 9400"),
        (65_535, full, "place 65535 submitted 0 day 1000 type 200 value 9400 indicator true re-read yes"),
    ] {
        assert_eq!(Call::Trial { place, read }.to_string(), format!("trial {fields}"));
        assert_eq!(Call::Submit { place, read }.to_string(), format!("submit {fields}"));
    }
}

#[test]
fn a_call_names_its_place() {
    for place in [0, 3, 63, 64, 255, 256, 65_535] {
        assert_eq!(each_call(place).map(|call| call.place()), [place; 7]);
    }
}

/// Made as a value it answers what the function answers, and writes nothing.
#[test]
fn a_trial_is_made_as_it_is_called() {
    let mut register = with_area(3, &area(&[entry(STANDING, 100, 1000, b'I', 0, 0)]));
    let before = register.clone();
    for (value, answer) in [(1200, taken(0, 200)), (10_000, refusal(Number::Content))] {
        let read = read(280, letter::CYCLIC, value);
        assert_eq!(trial(&register, 3, read), answer);
        assert_eq!(guarded(&mut register, |r| Call::Trial { place: 3, read }.make(r)), Reply::Answer(answer));
        assert!(register == before, "{value}");
    }
}

// ---- Journals ----

#[test]
fn a_journal_is_read_entry_by_entry() {
    let register = with_area(
        63,
        &area_of(
            &meter(9, u32::MAX),
            &[
                entry(STANDING, 1000, 9200, b'I', 0, 0),
                entry(WITHDRAWN, 65_535, 999_999_999, b'S', 1, 1),
                entry(STANDING, 1180, 9400, b'C', 2, 1),
                entry(HELD, 1360, 0, b'F', 0, 0),
            ],
        ),
    );
    let read = |day, value, letter, indicator, flag| Read { day, value, letter, indicator, flag };
    let found: Vec<Entry> = entries(journal(&register, 63)).collect();
    assert_eq!(
        found,
        [
            Entry::Meter { dials: 9, capacity: u32::MAX },
            Entry::Standing(read(1000, 9200, letter::INITIAL, indicator::NOT_SET, 0)),
            Entry::Withdrawn(read(65_535, 999_999_999, letter::ESTIMATED_TRANSFER, indicator::FALSE, 1)),
            Entry::Standing(read(1180, 9400, letter::CYCLIC, indicator::TRUE, 1)),
            Entry::Held(read(1360, 0, letter::FINAL, indicator::NOT_SET, 0)),
        ]
    );
    let lines: Vec<String> = found.iter().map(Entry::to_string).collect();
    assert_eq!(lines[0], "meter, 9 dials, capacity 4294967295");
    assert_eq!(lines[2], "withdrawn, day 65535, value 999999999, estimated transfer, false, flag 1");
    let kinds: Vec<(u8, bool)> = found.iter().map(|entry| (entry.kind(), entry.read().is_some())).collect();
    assert_eq!(kinds, [(1, false), (2, true), (3, true), (2, true), (4, true)]);
}

#[test]
fn a_carry_is_read_after_the_meter() {
    let kept = entry(STANDING, 65_535, 9400, b'C', 2, 1);
    let register = with_area(0, &carried(carry(9999, 65_534, 0x0102), &[kept]));
    let found: Vec<Entry> = entries(journal(&register, 0)).collect();
    let read = Read { day: 65_535, value: 9400, letter: letter::CYCLIC, indicator: indicator::TRUE, flag: 1 };
    let carry = Entry::Carry { first: 9999, folded: 65_534, flagged: 0x0102 };
    assert_eq!(found, [Entry::Meter { dials: 4, capacity: 5000 }, carry, Entry::Standing(read)]);
    assert_eq!((carry.kind(), carry.word(), carry.read()), (5, "carry", None));
    assert_eq!(carry.to_string(), "carry, first value 9999, 65534 folded, 258 flagged");
}

/// With a carry and without one.
#[test]
fn a_pseudo_meter_is_read_where_the_meter_is() {
    let head = Entry::Pseudo { dials: 9, capacity: 0x89AB_CDEF };
    let plate = [7, 9, 0xEF, 0xCD, 0xAB, 0x89];
    let initial = entry(STANDING, 1000, 9200, b'I', 0, 0);
    let stands = Read { day: 1000, value: 9200, letter: letter::INITIAL, indicator: indicator::NOT_SET, flag: 0 };
    let carried = [&plate[..], &carry(7, 8, 1)].concat();
    let expected = [head, Entry::Carry { first: 7, folded: 8, flagged: 1 }, Entry::Standing(stands)];
    let found = |area: &[u8]| entries(journal(&with_area(9, area), 9)).collect::<Vec<Entry>>();
    assert_eq!(found(&area_of(&carried, &[initial])), expected);
    assert_eq!(found(&area_of(&plate, &[initial])), [head, Entry::Standing(stands)]);
    assert_eq!((head.kind(), head.word(), head.read()), (7, "pseudo meter", None));
    assert_eq!(head.to_string(), "pseudo meter, 9 dials, capacity 2309737967");
}

/// Any bytes are read without a stop; a refused report leaves nothing to read.
#[test]
fn any_bytes_are_read_as_far_as_they_are_entries() {
    assert_eq!(entries(&[]).count(), 0);
    assert_eq!(entries(&[0; 512]).count(), 0);
    assert_eq!(entries(&[1, 4, 0, 0, 0]).count(), 0);
    assert_eq!(entries(&[1; 512]).count(), 85);
    assert_eq!(entries(&[5; 512]).count(), 56);
    assert_eq!(entries(&[7; 512]).count(), 85);
    assert_eq!(entries(&[7; 5]).count(), 0);
    assert_eq!(entries(&[5; 8]).count(), 0);
    let whole = area(&[entry(STANDING, 1, 1, b'I', 0, 0), entry(9, 1, 1, b'I', 0, 0)]);
    assert_eq!(entries(&whole).count(), 2);
    assert_eq!(entries(journal(&with_area(0, &whole), 0)).count(), 0);
}
