//! The day sheet.

use super::register::REGISTER_BYTES;
use super::{enrol, enrol_pseudo, fold, report, submit, withdraw};
use necktureen::{Report, Submission};
use std::fmt::Write;

const SHEET_BYTES: usize = 60_000;

/// What playing a sheet on a register prints. A fault ends it after the lines of the calls before; a zero byte is an
/// unknown kind, and an empty sheet prints nothing.
pub fn play(sheet: &[u8], register: &mut [u8]) -> Vec<u8> {
    if sheet.len() > SHEET_BYTES {
        return b"26 0 0\n".to_vec();
    }
    let mut lines = String::new();
    let mut rest = sheet;
    while let Some((&kind, after)) = rest.split_first() {
        let Some((body, unread)) = body_length(kind).and_then(|length| after.split_at_checked(length)) else {
            lines.push_str("26 0 0\n");
            break;
        };
        play_call(register, kind, body, &mut lines);
        rest = unread;
    }
    lines.into_bytes()
}

/// What the program prints: a sheet played on a register of zeros.
pub fn run(sheet: &[u8]) -> Vec<u8> {
    play(sheet, &mut vec![0; REGISTER_BYTES])
}

fn body_length(kind: u8) -> Option<usize> {
    match kind {
        1 | 6 => Some(6),
        2 => Some(12),
        3 => Some(7),
        4 | 5 => Some(1),
        _ => None,
    }
}

fn play_call(register: &mut [u8], kind: u8, body: &[u8], lines: &mut String) {
    let place = u16::from(body[0]);
    let answer = match kind {
        1 => enrol(register, place, body[1], four_bytes(body, 2)),
        2 => submit(register, place, submission(body)),
        3 => withdraw(register, place, two_bytes(body, 1), four_bytes(body, 3)),
        4 => return print_report(report(register, place), lines),
        5 => fold(register, place),
        _ => enrol_pseudo(register, place, body[1], four_bytes(body, 2)),
    };
    writeln!(lines, "{} {} {}", answer.number as u8, answer.flag, answer.advance).expect("a string takes every line");
}

fn print_report(report: Report, lines: &mut String) {
    let number = report.number as u8;
    writeln!(lines, "{number} {} {} {}", report.standing, report.flagged, report.total)
        .expect("a string takes every line");
}

fn submission(body: &[u8]) -> Submission {
    Submission {
        submitted: two_bytes(body, 1),
        day: two_bytes(body, 3),
        value: four_bytes(body, 5),
        letter: body[9],
        indicator: body[10],
        reread: body[11],
    }
}

fn two_bytes(bytes: &[u8], at: usize) -> u16 {
    u16::from_le_bytes([bytes[at], bytes[at + 1]])
}

fn four_bytes(bytes: &[u8], at: usize) -> u32 {
    u32::from_le_bytes([bytes[at], bytes[at + 1], bytes[at + 2], bytes[at + 3]])
}
