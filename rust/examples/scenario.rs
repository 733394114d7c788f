//! Plays a scenario: a text with one call a line. The README describes the language.
//!
//! Exit status: 0 if every line is good, 1 if one is not (then nothing was played), 2 if the text cannot be read.

#[path = "scenario/dates.rs"]
mod dates;
#[path = "scenario/lines.rs"]
mod lines;

use necktureen::{Call, Number, SheetWriter, REGISTER_BYTES, SHEET_BYTES};
use std::io::{Read, Write};
use std::process::ExitCode;

const USAGE: &str = "\
scenario [--sheet] [FILE]

Plays the calls of a text, one a line, on an empty register, and prints each line with its answer.
With --sheet it writes the calls as a day sheet for readday instead. Without FILE it reads standard input.

Lines, and what they may hold:";

const NOTES: &str = "\
A day is a date or a day number; day 1 is 2000-01-01. A type is a letter or its word. Indicator and re-read may be
left out. What follows a # is a comment. A trial is answered as the submission would be; it changes nothing, and no day
sheet holds one.";

/// A line of the text, and its call if it has one.
type Line<'a> = (&'a str, Option<Call>);

fn main() -> ExitCode {
    let mut arguments: Vec<String> = std::env::args().skip(1).collect();
    let as_sheet = arguments.first().is_some_and(|word| word == "--sheet");
    if as_sheet {
        arguments.remove(0);
    }
    let text = match &arguments[..] {
        [word] if word == "--help" => {
            println!("{}", usage());
            return ExitCode::SUCCESS;
        }
        [] => text_of("-"),
        [file] if file == "-" || !file.starts_with('-') => text_of(file),
        _ => Err(usage()),
    };
    let output = match text {
        Ok(text) => lines_of(&text).and_then(|lines| if as_sheet { sheet(&lines) } else { Ok(played(&lines)) }),
        Err(fault) => {
            eprintln!("{fault}");
            return ExitCode::from(2);
        }
    };
    match output {
        Ok(bytes) => {
            // Whoever reads it may stop early.
            let _ = std::io::stdout().write_all(&bytes);
            ExitCode::SUCCESS
        }
        Err(faults) => {
            eprintln!("{faults}");
            ExitCode::FAILURE
        }
    }
}

fn usage() -> String {
    let examples: String = lines::FORMS.iter().map(|form| format!("  {}\n", form.example)).collect();
    format!("{USAGE}\n{examples}{NOTES}")
}

fn text_of(file: &str) -> Result<String, String> {
    let mut text = String::new();
    let read = match file {
        "-" => std::io::stdin().read_to_string(&mut text).map(|_| text),
        file => std::fs::read_to_string(file),
    };
    read.map_err(|fault| format!("{file}: {fault}"))
}

/// Every line with its call, or what is wrong with each bad line.
fn lines_of(text: &str) -> Result<Vec<Line<'_>>, String> {
    let mut lines = Vec::new();
    let mut faults = Vec::new();
    for (before, line) in text.lines().enumerate() {
        match lines::call(line) {
            Ok(call) => lines.push((line, call)),
            Err(fault) => faults.push(format!("line {}: {fault}", before + 1)),
        }
    }
    if faults.is_empty() {
        Ok(lines)
    } else {
        Err(faults.join("\n"))
    }
}

/// Each line, and below each call its answer: number, word, and what it comes with or why it is refused.
fn played(lines: &[Line]) -> Vec<u8> {
    let mut register = vec![0; REGISTER_BYTES];
    let mut text = String::new();
    for (line, call) in lines {
        text += &format!("{line}\n");
        let Some(reply) = call.map(|call| call.make(&mut register)) else { continue };
        text += &match reply.number() {
            Number::Accepted => format!("    -> {reply}\n"),
            refusal => format!("    -> {reply}: {}\n", refusal.when()),
        };
    }
    text.into_bytes()
}

/// The calls as a day sheet.
fn sheet(lines: &[Line]) -> Result<Vec<u8>, String> {
    let mut room = vec![0; SHEET_BYTES];
    let mut writer = SheetWriter::new(&mut room);
    for (before, (_, call)) in lines.iter().enumerate() {
        if let Some(call) = call {
            writer.write(call).map_err(|fault| format!("line {}: {fault}", before + 1))?;
        }
    }
    Ok(writer.sheet().to_vec())
}
