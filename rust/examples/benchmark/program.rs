//! What the program costs, on a sheet without calls and on the longest one.

use crate::before;
use crate::cells::{decimal, grouped, or_dash};
use crate::processes::{run, EmptyProgram};
use crate::sheet::{long_sheet, make_calls};
use crate::timing::fast_tenth;
use crate::{counting, peer};
use necktureen::Call;
use std::hint::black_box;
use std::path::{Path, PathBuf};
use std::process::Command;
use std::time::Instant;

const ROUNDS: usize = 201;

fn readday() -> PathBuf {
    Path::new(env!("CARGO_MANIFEST_DIR")).join("../crates/readday/out/readday")
}

fn printed(program: &Path, sheet: &[u8]) -> Vec<u8> {
    run(&mut Command::new(program), sheet).expect("the program starts and ends").stdout
}

/// The figure, or a word on standard error about what is missing for it.
fn known<T>(figure: Result<T, String>) -> Option<T> {
    figure.map_err(|missing| eprintln!("not measured: {missing}")).ok()
}

// ---- The lines of the table ----

struct Line<'a> {
    what: &'static str,
    work: Box<dyn Fn() + 'a>,
    instructions: Option<u64>,
}

impl<'a> Line<'a> {
    fn of_program(what: &'static str, program: &'a Path, sheet: &'a [u8]) -> Line<'a> {
        let instructions = known(counting::of_program(program, sheet));
        Line { what, work: Box::new(|| drop(black_box(printed(program, sheet)))), instructions }
    }

    fn of_library(calls: &'a [Call]) -> Line<'a> {
        let what = "that sheet's calls through the library, without printing";
        Line { what, work: Box::new(|| make_calls(calls)), instructions: known(counting::of_library(&["sheet"])) }
    }

    fn of_peer(sheet: &'a [u8]) -> Line<'a> {
        let what = "that sheet played by the peer, in a process that runs already";
        Line { what, work: Box::new(|| drop(black_box(peer::run(black_box(sheet))))), instructions: None }
    }

    fn milliseconds(&self) -> f64 {
        let begin = Instant::now();
        (self.work)();
        begin.elapsed().as_secs_f64() * 1000.0
    }

    fn print(&self, milliseconds: f64) {
        let before = before::of_program(self.what);
        let before_milliseconds = or_dash(before.milliseconds, |figure| decimal(figure, 2));
        let [before, now] = [before.instructions, self.instructions].map(|figure| or_dash(figure, grouped));
        println!("| {} | {before_milliseconds} | {milliseconds:.2} | {before} | {now} |", self.what);
    }
}

/// The milliseconds of each line. Each round goes through all lines, as with the calls.
fn measure(lines: &[Line]) -> Vec<f64> {
    let rounds: Vec<Vec<f64>> = (0..ROUNDS).map(|_| lines.iter().map(Line::milliseconds).collect()).collect();
    (0..lines.len()).map(|line| fast_tenth(rounds.iter().map(|round| round[line]))).collect()
}

// ---- The table ----

pub fn print_table() -> Result<(), String> {
    let (readday, sheet) = (readday(), long_sheet());
    if !readday.exists() {
        return Err("readday is not built, so it was not timed: run `rt run` in crates/readday".into());
    }
    assert!(printed(&readday, &sheet) == peer::run(&sheet), "program and peer print different lines");
    let calls: Vec<Call> = necktureen::calls(&sheet).collect();
    let empty = known(EmptyProgram::compile());
    let empty = empty.as_ref().map(|empty| Line::of_program("a C program that does nothing", empty.path(), &[]));
    let mut lines = Vec::from_iter(empty);
    lines.push(Line::of_program("`readday` on an empty sheet", &readday, &[]));
    lines.push(Line::of_program("`readday` on the longest sheet", &readday, &sheet));
    lines.push(Line::of_library(&calls));
    lines.push(Line::of_peer(&sheet));
    println!("\nThe longest sheet, 60,000 bytes, has {} calls.\n", grouped(calls.len() as u64));
    println!("| what | before ms | ms | before instructions | instructions |\n|---|---:|---:|---:|---:|");
    let milliseconds = measure(&lines);
    lines.iter().zip(milliseconds).for_each(|(line, milliseconds)| line.print(milliseconds));
    Ok(())
}
