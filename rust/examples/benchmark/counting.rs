//! What a call runs: instructions, which are the same in every run but for a fold's, as valgrind's callgrind counts them.

use crate::before;
use crate::cases::rows;
use crate::cells::{decimal, grouped, or_dash};
use crate::last;
use crate::processes::succeed;
use crate::rows::Row;
use std::path::Path;
use std::process::Command;

/// The functions of the proved library, by their names at the boundary. Within them alone instructions are counted.
const LIBRARY_FUNCTIONS: &str = "--toggle-collect=necktureen_*";
/// The passes of the two runs whose difference is taken.
const FEW: u32 = 1;
const MANY: u32 = 3;

fn callgrind() -> Command {
    let mut command = Command::new("valgrind");
    command.args(["--tool=callgrind", "--callgrind-out-file=/dev/null"]);
    command
}

/// Instructions of a program from its start to its end.
pub fn of_program(program: &Path, input: &[u8]) -> Result<u64, String> {
    collected(callgrind().arg(program), input)
}

/// Instructions within the library while this program runs again with these arguments.
pub fn of_library(arguments: &[&str]) -> Result<u64, String> {
    let this = std::env::current_exe().map_err(|fault| format!("this program is not found: {fault}"))?;
    match collected(callgrind().arg(LIBRARY_FUNCTIONS).arg(this).args(arguments), &[])? {
        0 => Err("nothing was counted: the library's functions have lost their names".into()),
        instructions => Ok(instructions),
    }
}

fn collected(command: &mut Command, input: &[u8]) -> Result<u64, String> {
    let output =
        succeed(command, input).map_err(|fault| format!("instructions are counted by valgrind, and {fault}"))?;
    let said = String::from_utf8_lossy(&output.stderr);
    let figure = said.lines().find_map(|line| line.split_once("Collected : "));
    figure.and_then(|(_, figure)| figure.trim().parse().ok()).ok_or(format!("valgrind gives no count: {said}"))
}

/// A row with its instructions a call.
struct Counted {
    row: Row,
    before: Option<u64>,
    last: Option<u64>,
    now: u64,
}

impl Counted {
    /// What a run does once is in both runs, and not in their difference.
    fn of(index: usize, row: Row) -> Result<Counted, String> {
        let run = |passes: u32| of_library(&["row", &index.to_string(), &passes.to_string()]);
        let calls = u64::from((MANY - FEW) * row.calls());
        let now = (run(MANY)? - run(FEW)? + calls / 2) / calls;
        let before = before::of_call(&row).map(|before| before.instructions);
        Ok(Counted { before, last: last::of_call(&row), now, row })
    }

    /// The least journal on which the same call is answered the same, if it is less than this one. Journals with a carry
    /// are for themselves, and so are those of pseudo meters.
    fn least<'a>(&self, all: &'a [Counted]) -> Option<&'a Counted> {
        let case = |counted: &Counted| (counted.row.call, counted.row.expected, counted.row.head);
        let alike = |other: &&Counted| case(other) == case(self);
        let least = all.iter().filter(alike).min_by_key(|other| other.row.entries)?;
        (least.row.entries < self.row.entries).then_some(least)
    }

    /// How much a figure grows with each entry more.
    fn slope(&self, all: &[Counted], figure: impl Fn(&Counted) -> Option<u64>) -> Option<f64> {
        let least = self.least(all)?;
        let grown = figure(self)? as f64 - figure(least)? as f64;
        Some(grown / (self.row.entries - least.row.entries) as f64)
    }

    fn print(&self, all: &[Counted]) {
        let Row { call, case, entries, .. } = self.row;
        let [before, last, now] = [self.before, self.last, Some(self.now)].map(|figure| or_dash(figure, grouped));
        let ratio = or_dash(self.before, |before| decimal(self.now as f64 / before as f64, 2));
        let more_before = or_dash(self.slope(all, |counted| counted.before), |slope| decimal(slope, 1));
        let more_now = or_dash(self.slope(all, |counted| Some(counted.now)), |slope| decimal(slope, 1));
        println!("| {call} | {case} | {entries} | {before} | {last} | {now} | {ratio} | {more_before} | {more_now} |");
    }
}

pub fn print_calls() -> Result<(), String> {
    let rows = rows();
    rows.iter().for_each(Row::check);
    let counted = rows.into_iter().enumerate().map(|(index, row)| Counted::of(index, row));
    let counted = counted.collect::<Result<Vec<Counted>, String>>()?;
    print!("| call | case | entries | before | last | now | now/before ");
    println!("| each entry more, before | each entry more, now |");
    println!("|---|---|---:|---:|---:|---:|---:|---:|---:|");
    counted.iter().for_each(|one| one.print(&counted));
    Ok(())
}
