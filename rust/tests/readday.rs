//! The compiled program `readday` on sheets: case S, the edges of a sheet, and every fault.

use necktureen::indicator::{NOT_SET, TRUE};
use necktureen::letter::{CYCLIC, FINAL, INITIAL, OPENING};
use necktureen::{Call, SheetWriter, Submission, SHEET_BYTES};
use std::io::{ErrorKind, Write};
use std::path::Path;
use std::process::{Child, Command, Stdio};

const FAULT: &str = "26 0 0\n";

/// The calls as a day sheet.
fn sheet(calls: &[Call]) -> Vec<u8> {
    let mut room = vec![0; SHEET_BYTES];
    let mut writer = SheetWriter::new(&mut room);
    for call in calls {
        writer.write(call).expect("a call that the sheet holds");
    }
    writer.sheet().to_vec()
}

/// A read of place 0.
fn submit(submitted: u16, day: u16, letter: u8, value: u32, indicator: u8, reread: u8) -> Call {
    Call::Submit { place: 0, read: Submission { submitted, day, value, letter, indicator, reread } }
}

const ENROL: Call = Call::Enrol { place: 0, dials: 4, capacity: 5000 };
const REPORT: Call = Call::Report { place: 0 };
const FOLD: Call = Call::Fold { place: 0 };
const ENROL_PSEUDO: Call = Call::EnrolPseudo { place: 0, dials: 4, capacity: 5000 };

fn case_s() -> Vec<u8> {
    sheet(&[
        ENROL,
        submit(1600, 1000, INITIAL, 9200, NOT_SET, 0),
        submit(1600, 1180, CYCLIC, 9400, NOT_SET, 0),
        submit(1600, 1360, CYCLIC, 9600, NOT_SET, 0),
        submit(1600, 1540, CYCLIC, 100, NOT_SET, 0),
        submit(1600, 1540, CYCLIC, 100, TRUE, 0),
        submit(1600, 1540, CYCLIC, 100, TRUE, 1),
        Call::Withdraw { place: 0, day: 1540, value: 100 },
        submit(1600, 1540, CYCLIC, 100, TRUE, 1),
        REPORT,
    ])
}

const CASE_S: &str = "0 0 0\n0 0 0\n0 0 200\n0 0 200\n18 0 0\n20 0 0\n0 1 500\n0 1 -500\n8 0 0\n0 3 0 400\n";

/// The program, waiting for a sheet. It is there once `rt run` or `rt ci` has passed.
fn start() -> Child {
    let program = Path::new(env!("CARGO_MANIFEST_DIR")).join("../crates/readday/out/readday");
    Command::new(&program)
        .stdin(Stdio::piped())
        .stdout(Stdio::piped())
        .stderr(Stdio::piped())
        .spawn()
        .unwrap_or_else(|e| panic!("{}: {e}", program.display()))
}

/// What the program prints once its input ends. It ends well and complains of nothing.
fn printed(child: Child) -> String {
    let out = child.wait_with_output().unwrap();
    assert!(out.status.success(), "{}", out.status);
    assert!(out.stderr.is_empty(), "{}", String::from_utf8_lossy(&out.stderr));
    String::from_utf8(out.stdout).unwrap()
}

/// What the program prints for a sheet. It may stop reading one that is too long.
fn play(sheet: &[u8]) -> String {
    let mut child = start();
    if let Err(e) = child.stdin.take().unwrap().write_all(sheet) {
        assert!(sheet.len() > SHEET_BYTES && e.kind() == ErrorKind::BrokenPipe, "{e}");
    }
    printed(child)
}

#[test]
fn case_s_prints_what_the_paper_has() {
    assert_eq!(play(&case_s()), CASE_S);
    assert_eq!(case_s(), include_bytes!("../../crates/readday/stdin"), "the sheet that `rt` runs the program on");
}

/// Case S has three reads standing at its end: too few. A fourth is sent and they are folded; the misread of before is
/// sent again and is withdrawn as before, since it is later than the oldest read that is kept.
#[test]
fn a_fold_is_a_line_as_any_other() {
    let fourth = submit(1800, 1720, CYCLIC, 9800, NOT_SET, 0);
    let again = submit(1800, 1540, CYCLIC, 100, TRUE, 0);
    let more = sheet(&[FOLD, fourth, FOLD, REPORT, FOLD, again, Call::Fold { place: 64 }]);
    let lines = "27 0 0\n0 0 200\n0 0 0\n0 4 0 600\n27 0 0\n8 0 0\n3 0 0\n";
    assert_eq!(play(&[case_s(), more].concat()), format!("{CASE_S}{lines}"));
}

/// A site without a dial: an initial read and a final one, and no other. It is enrolled once, by either enrolment.
#[test]
fn a_pseudo_meter_is_enrolled_by_kind_6() {
    let opening = submit(1600, 1000, OPENING, 9200, NOT_SET, 0);
    let initial = submit(1600, 1000, INITIAL, 9200, NOT_SET, 0);
    let cyclic = submit(1600, 1180, CYCLIC, 9400, NOT_SET, 0);
    let last = submit(1600, 1180, FINAL, 9400, NOT_SET, 0);
    let withdrawal = Call::Withdraw { place: 0, day: 1180, value: 9400 };
    let calls = [opening, initial, cyclic, last, FOLD, REPORT, withdrawal, last, ENROL, ENROL_PSEUDO, REPORT];
    let lines = "29 0 0\n0 0 0\n29 0 0\n0 0 200\n27 0 0\n0 2 0 200\n0 0 -200\n8 0 0\n24 0 0\n24 0 0\n0 1 0 0\n";
    let bad = [
        Call::EnrolPseudo { place: 64, dials: 2, capacity: 0 },
        Call::EnrolPseudo { place: 63, dials: 2, capacity: 1 },
    ];
    let sheet = [&[6, 0, 4, 0x88, 0x13, 0, 0][..], &sheet(&calls), &sheet(&bad)].concat();
    assert_eq!(play(&sheet), format!("0 0 0\n{lines}3 0 0\n25 0 0\n"));
}

/// A sheet that comes in pieces is gathered whole.
#[test]
fn a_sheet_may_come_byte_by_byte() {
    let mut child = start();
    let mut input = child.stdin.take().unwrap();
    for byte in case_s() {
        input.write_all(&[byte]).unwrap();
        std::thread::yield_now();
    }
    drop(input);
    assert_eq!(printed(child), CASE_S);
}

#[test]
fn an_empty_sheet_prints_nothing() {
    assert_eq!(play(&[]), "");
}

/// The lines of the calls before a cut body come first, whatever byte it is cut at.
#[test]
fn a_cut_body_is_a_fault() {
    let opening = submit(1600, 1000, INITIAL, 9200, NOT_SET, 0);
    for call in [ENROL, opening, Call::Withdraw { place: 0, day: 1540, value: 100 }, REPORT, FOLD, ENROL_PSEUDO] {
        let entry = sheet(&[call]);
        for length in 1..entry.len() {
            let cut = &entry[..length];
            assert_eq!(play(cut), FAULT, "{cut:?}");
            assert_eq!(play(&[&case_s(), cut].concat()), format!("{CASE_S}{FAULT}"), "{cut:?}");
        }
    }
}

/// Nothing after an unknown kind is played, a whole entry neither.
#[test]
fn an_unknown_kind_is_a_fault() {
    for kind in [0, 7, 8, 49, 128, 255] {
        assert_eq!(play(&[kind]), FAULT, "{kind}");
        assert_eq!(play(&[&case_s(), &[kind][..], &sheet(&[REPORT])].concat()), format!("{CASE_S}{FAULT}"), "{kind}");
    }
}

#[test]
fn the_longest_sheet_is_played_whole() {
    let sheet = sheet(&[REPORT; SHEET_BYTES / 2]);
    assert_eq!(sheet.len(), SHEET_BYTES);
    assert_eq!(play(&sheet), "3 0 0 0\n".repeat(SHEET_BYTES / 2));
}

/// A fault in the last byte of the longest sheet is that of a cut body, so the lines before it are printed.
#[test]
fn the_longest_sheet_may_end_in_a_fault() {
    let mut sheet = [sheet(&[REPORT; SHEET_BYTES / 2 - 4]), sheet(&[ENROL])].concat();
    sheet.push(4);
    assert_eq!(sheet.len(), SHEET_BYTES);
    assert_eq!(play(&sheet), format!("{}0 0 0\n{FAULT}", "3 0 0 0\n".repeat(SHEET_BYTES / 2 - 4)));
}

#[test]
fn a_longer_sheet_is_not_played() {
    for length in [SHEET_BYTES + 1, SHEET_BYTES + 2, 65_536, 1_000_000] {
        let mut sheet = sheet(&[REPORT]).repeat(length.div_ceil(2));
        sheet.truncate(length);
        assert_eq!(play(&sheet), FAULT, "{length}");
    }
}
