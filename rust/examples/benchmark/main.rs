//! What a call costs: the library beside the peer, a second writing of the same rules by hand in Rust, and beside the
//! library as it was before, in its first version and last.

mod before;
mod cases;
mod cells;
mod counting;
mod journals;
mod last;
#[path = "../../tests/peer/mod.rs"]
mod peer;
mod processes;
mod program;
mod rows;
mod sheet;
mod sides;
mod timing;

use sides::{Side, LIBRARY, PEER};
use std::process::ExitCode;

const USAGE: &str = "\
benchmark                         tables of times, of the calls and of the program
benchmark instructions            a table of the instructions of the calls, counted by valgrind

For a tool that counts instructions, the calls alone:
benchmark count library ENTRIES   64 accepted submissions on journals of so many entries (or count peer ENTRIES)
benchmark row INDEX PASSES        so many times the 64 calls of a row of the tables, the first of which is 0
benchmark sheet                   the calls of the longest sheet";

fn main() -> ExitCode {
    let arguments: Vec<String> = std::env::args().skip(1).collect();
    let words: Vec<&str> = arguments.iter().map(String::as_str).collect();
    match perform(&words) {
        Ok(()) => ExitCode::SUCCESS,
        Err(fault) => {
            eprintln!("{fault}");
            ExitCode::FAILURE
        }
    }
}

fn perform(words: &[&str]) -> Result<(), String> {
    match *words {
        [] => {
            timing::print_calls();
            program::print_table()
        }
        ["instructions"] => counting::print_calls(),
        ["count", side, entries] => {
            cases::submit_accepted(number(entries)?).run(side_of(side)?, 1);
            Ok(())
        }
        ["row", index, passes] => {
            let rows = cases::rows();
            rows.get(number(index)?).ok_or("no such row")?.run(LIBRARY, number(passes)? as u32);
            Ok(())
        }
        ["sheet"] => {
            sheet::make_calls(&necktureen::calls(&sheet::long_sheet()).collect::<Vec<_>>());
            Ok(())
        }
        _ => Err(USAGE.into()),
    }
}

fn number(word: &str) -> Result<usize, String> {
    word.parse().map_err(|_| format!("{word} is not a number\n\n{USAGE}"))
}

fn side_of(word: &str) -> Result<Side, String> {
    match word {
        "library" => Ok(LIBRARY),
        "peer" => Ok(PEER),
        _ => Err(format!("{word} is neither library nor peer\n\n{USAGE}")),
    }
}
