//! Day sheets: the program and the library's play beside the second writing, over random sheets and registers.

mod lists;
mod peer;

use lists::{hexadecimal, say, seed, shortened, Idle, Random};
use necktureen::{calls, play, Call, Reply, Submission, REGISTER_BYTES, SHEET_BYTES, TEXT_BYTES};
use std::io::Write;
use std::path::PathBuf;
use std::process::{Command, Stdio};

const SHEETS: u64 = 400;

// ---- Sheets ----

/// A call's bytes, if a sheet has an entry for it.
fn bytes(call: Call) -> Vec<u8> {
    call.sheet_entry().map_or(Vec::new(), |entry| entry.to_vec())
}

/// Calls that fit each other, as a sheet of about so many bytes.
fn played_sheet(random: &mut Random, length: usize) -> Vec<u8> {
    let mut register = vec![0; REGISTER_BYTES];
    let every_place: Vec<u16> = (0..=63).collect();
    let few: Vec<u16> = (0..2).map(|_| random.index(64) as u16).collect();
    let places = if random.once_in(2) { every_place } else { few };
    let (mut sheet, mut idle) = (Vec::new(), Idle::default());
    while sheet.len() < length {
        let entry = bytes(lists::call(random, &mut idle, &register, &places));
        peer::play(&entry, &mut register);
        sheet.extend(entry);
    }
    sheet
}

/// A sheet of exactly so many bytes, without a fault: reports, of two bytes, fill it up.
fn sheet_of(random: &mut Random, length: usize) -> Vec<u8> {
    let mut sheet = played_sheet(random, length - 40);
    if (length - sheet.len()) % 2 == 1 {
        sheet.extend(bytes(Call::Enrol { place: 0, dials: 4, capacity: 1 }));
    }
    while sheet.len() < length {
        sheet.extend(bytes(Call::Report { place: random.index(64) as u16 }));
    }
    sheet
}

fn any_sheet(random: &mut Random) -> Vec<u8> {
    let length = random.pick(&[20, 200, 1000, 5000]);
    let mut sheet = played_sheet(random, length);
    match random.index(8) {
        0 => sheet.truncate(random.index(sheet.len())),
        1 => {
            let at = random.index(sheet.len());
            sheet[at] = random.byte();
        }
        2 => sheet.push(random.pick(&[0, 5, 6, 7, 9, 255])),
        3 => sheet = (0..random.index(60)).map(|_| random.byte() % 8).collect(),
        4 => sheet.extend([0; 40]),
        _ => {}
    }
    sheet
}

/// Short ones, and those about the most that a sheet may have.
fn edge_sheets(random: &mut Random) -> Vec<Vec<u8>> {
    let mut sheets = vec![
        vec![],
        vec![0],
        vec![1],
        vec![5],
        vec![6],
        vec![7],
        vec![9],
        vec![4, 0],
        vec![5, 0],
        vec![6, 0, 4, 1, 0, 0],
        vec![6, 0, 4, 1, 0, 0, 0],
        vec![7, 0, 4, 1, 0, 0, 0],
        vec![0; SHEET_BYTES],
        vec![0; SHEET_BYTES + 1],
    ];
    sheets.extend([59_999, 60_000, 60_001, 60_002, 100_000].map(|length| sheet_of(random, length)));
    sheets
}

/// A sheet in parts: the bytes of each call, and of what is no call at its end.
fn parts(sheet: &[u8]) -> Vec<Vec<u8>> {
    let mut rest = calls(sheet);
    let mut parts: Vec<Vec<u8>> = rest.by_ref().map(bytes).collect();
    if !rest.rest().is_empty() {
        parts.push(rest.rest().to_vec());
    }
    parts
}

/// Cuts a sheet down to what still differs, and stops.
fn fail(sheet: &[u8], differs: impl Fn(&[u8]) -> bool) -> ! {
    let sheet = shortened(&parts(sheet), |parts| differs(&parts.concat())).concat();
    let mut rest = calls(&sheet);
    let lines: String = rest.by_ref().map(|call| format!("  {call}\n")).collect();
    let (seed, after, bytes) = (seed(), rest.rest().len(), hexadecimal(&sheet));
    panic!("a difference, seed {seed}\n{lines}  and {after} bytes that are no call\nas a day sheet: {bytes}");
}

/// The library reads a sheet's calls and writes them as the same bytes.
#[test]
fn a_sheet_read_is_written_as_it_was() {
    let mut random = Random::new(seed());
    for _ in 0..SHEETS {
        let sheet = any_sheet(&mut random);
        assert_eq!(parts(&sheet).concat(), sheet);
    }
}

/// Calls of every kind, and the line that each has when it is made by itself.
fn calls_with_lines() -> Vec<(Call, String)> {
    let read = |day, letter, value| Submission { submitted: 900, day, value, letter, indicator: 0, reread: 0 };
    let sent = |day, letter, value| Call::Submit { place: 9, read: read(day, letter, value) };
    let sent_to_pseudo = |day, letter, value| Call::Submit { place: 8, read: read(day, letter, value) };
    let calls = [
        Call::Fold { place: 9 },
        Call::Enrol { place: 9, dials: 5, capacity: 9000 },
        sent(100, b'I', 1000),
        sent(200, b'C', 1100),
        Call::Fold { place: 9 },
        sent(300, b'C', 1200),
        sent(400, b'C', 1300),
        Call::Fold { place: 9 },
        Call::Report { place: 9 },
        Call::Withdraw { place: 9, day: 400, value: 1300 },
        Call::Fold { place: 255 },
        Call::EnrolPseudo { place: 9, dials: 5, capacity: 9000 },
        Call::EnrolPseudo { place: 8, dials: 4, capacity: 9000 },
        sent_to_pseudo(100, b'O', 1000),
        sent_to_pseudo(100, b'I', 1000),
        sent_to_pseudo(200, b'F', 1100),
        Call::Report { place: 8 },
        Call::EnrolPseudo { place: 255, dials: 4, capacity: 9000 },
    ];
    let mut register = vec![0; REGISTER_BYTES];
    let line = |call: &Call| match call.make(&mut register) {
        Reply::Report(r) => format!("{} {} {} {}\n", r.number as u8, r.standing, r.flagged, r.total),
        Reply::Answer(a) => format!("{} {} {}\n", a.number as u8, a.flag, a.advance),
        other => panic!("no line for {other}"),
    };
    let lines: Vec<String> = calls.iter().map(line).collect();
    calls.into_iter().zip(lines).collect()
}

/// The lines of the whole calls come first, then the fault if the cut is within one.
#[test]
fn a_sheet_is_cut_at_every_byte() {
    let (mut sheet, mut lines) = (Vec::new(), String::new());
    for (call, line) in calls_with_lines() {
        let entry = bytes(call);
        for length in 0..entry.len() {
            let cut = [&sheet[..], &entry[..length]].concat();
            let fault = if length == 0 { "" } else { "26 0 0\n" };
            let (_, text, _) = play_library(&cut, &vec![0; REGISTER_BYTES], 1000);
            assert_eq!(String::from_utf8_lossy(&text), format!("{lines}{fault}"), "{call}, {length} bytes of it");
        }
        sheet.extend(entry);
        lines += &line;
    }
    let (length, text, _) = play_library(&sheet, &vec![0; REGISTER_BYTES], 1000);
    assert_eq!((length, String::from_utf8_lossy(&text).into_owned()), (lines.len(), lines));
}

/// A trial has no kind: of all that one byte holds, 1 to 6 alone are calls, whatever follows.
#[test]
fn no_kind_but_1_to_6_is_played() {
    let read = Submission { submitted: 900, day: 100, value: 1000, letter: b'I', indicator: 0, reread: 0 };
    let submission = bytes(Call::Submit { place: 9, read });
    let mut start = vec![0; REGISTER_BYTES];
    let _ = Call::Enrol { place: 9, dials: 4, capacity: 9000 }.make(&mut start);
    for kind in 0..=255 {
        let sheet = [&[kind], &submission[1..]].concat();
        let (_, text, register) = play_library(&sheet, &start, 1000);
        let is_call = (1..=6).contains(&kind);
        assert_eq!(text != b"26 0 0\n", is_call, "kind {kind}");
        assert_eq!(calls(&sheet).next().is_some(), is_call, "kind {kind}");
        assert!(is_call || register == start, "kind {kind}");
    }
}

// ---- The library's play ----

const GUARD: u8 = 0xA5;

/// The text and the register that the library's play leaves, with room for so much of the text.
fn play_library(sheet: &[u8], register: &[u8], room: usize) -> (usize, Vec<u8>, Vec<u8>) {
    let (mut register, mut text) = (register.to_vec(), vec![GUARD; room + 64]);
    let length = play(sheet, &mut register, &mut text[..room]);
    assert!(text[length.min(room)..].iter().all(|&byte| byte == GUARD), "written past the text or past its room");
    text.truncate(length.min(room));
    (length, text, register)
}

fn play_differs(sheet: &[u8], start: &[u8], room: usize) -> bool {
    let mut register = start.to_vec();
    let mut text = peer::play(sheet, &mut register);
    let length = text.len();
    text.truncate(room);
    play_library(sheet, start, room) != (length, text, register)
}

fn compare_play(sheet: &[u8], start: &[u8], room: usize) {
    if play_differs(sheet, start, room) {
        fail(sheet, |sheet| play_differs(sheet, start, room));
    }
}

/// On registers of every sort, misfit and damaged ones too, with room for the whole text and for less.
#[test]
fn play_writes_what_the_peer_does() {
    let mut random = Random::new(seed());
    let zeros = vec![0; REGISTER_BYTES];
    for sheet in edge_sheets(&mut random) {
        compare_play(&sheet, &zeros, TEXT_BYTES * sheet.len().min(SHEET_BYTES) + 7);
    }
    for _ in 0..SHEETS {
        let sheet = any_sheet(&mut random);
        let start = match random.index(4) {
            0 => lists::misfit_register(&mut random),
            1 => lists::any_register(&mut random),
            _ => zeros.clone(),
        };
        let whole = TEXT_BYTES * sheet.len();
        let less = random.index(whole + 1);
        let room = random.pick(&[whole, whole, 0, 1, 5, 6, 100, less]);
        compare_play(&sheet, &start, room);
    }
}

// ---- The program ----

fn program() -> PathBuf {
    PathBuf::from(env!("CARGO_MANIFEST_DIR")).join("../crates/readday/out/readday")
}

/// What the program prints for a sheet.
fn run_program(sheet: &[u8]) -> Vec<u8> {
    let mut child =
        Command::new(program()).stdin(Stdio::piped()).stdout(Stdio::piped()).spawn().expect("the program starts");
    let mut input = child.stdin.take().expect("its standard input");
    // From a thread of its own, so that neither side waits for the other; the program need not read an over-long
    // sheet to its end, so a refused write is no fault.
    let sheet = sheet.to_vec();
    let writer = std::thread::spawn(move || drop(input.write_all(&sheet)));
    let output = child.wait_with_output().expect("the program ends");
    writer.join().expect("the sheet is written");
    // The paper says what it prints, not its status; a signal has no status.
    assert!(output.status.code().is_some(), "the program ended with {}", output.status);
    output.stdout
}

fn program_differs(sheet: &[u8]) -> bool {
    run_program(sheet) != peer::run(sheet)
}

#[test]
fn the_program_prints_what_the_peer_does() {
    if !program().exists() {
        say("crates/readday/out/readday is not built: no sheet was given to it");
        return;
    }
    let mut random = Random::new(seed());
    let mut sheets = edge_sheets(&mut random);
    sheets.extend((0..SHEETS).map(|_| any_sheet(&mut random)));
    for sheet in &sheets {
        if program_differs(sheet) {
            fail(sheet, program_differs);
        }
    }
    say(&format!("{} sheets compared with the program, seed {}", sheets.len(), seed()));
}
