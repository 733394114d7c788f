//! The figures of version 0.1.0, to be shown beside those of now.
//!
//! Instructions were counted as they are now, on the same journals and the same sheet. Times are medians of a run of its
//! own, in which the peer took nearly twice as long as well: of some rows only, on journals and a sheet whose reads were all
//! cyclic but the first.

use crate::rows::Row;

/// A call's figures.
#[derive(Clone, Copy)]
pub struct CallFigures {
    pub instructions: u64,
    pub times: Option<Times>,
}

#[derive(Clone, Copy)]
pub struct Times {
    pub nanoseconds: f64,
    /// The library's time over the peer's.
    pub ratio: f64,
}

/// A program's figures.
#[derive(Clone, Copy)]
pub struct ProgramFigures {
    pub milliseconds: Option<f64>,
    pub instructions: Option<u64>,
}

/// Call, case, entries, instructions; nanoseconds and ratio.
type CallRow = (&'static str, &'static str, usize, u64, Option<(f64, f64)>);

const CALLS: &[CallRow] = &[
    ("report", "accepted", 0, 451, Some((61.0, 0.16))),
    ("report", "accepted", 3, 840, Some((100.6, 0.22))),
    ("report", "accepted", 25, 2780, Some((336.6, 0.32))),
    ("report", "accepted", 50, 5080, Some((622.8, 0.37))),
    ("report", "accepted, every second entry withdrawn", 50, 16_479, None),
    ("report", "refused, the last entry damaged (4)", 50, 3734, None),
    ("report", "accepted, place 0", 25, 2780, Some((336.2, 0.32))),
    ("report", "accepted, place 31", 25, 2780, Some((336.2, 0.32))),
    ("report", "accepted, place 63", 25, 2780, Some((340.4, 0.32))),
    ("submit", "accepted", 0, 633, Some((87.8, 0.22))),
    ("submit", "accepted", 3, 1161, Some((155.4, 0.30))),
    ("submit", "accepted", 25, 3101, Some((392.3, 0.36))),
    ("submit", "accepted", 49, 5320, Some((681.4, 0.40))),
    ("submit", "accepted, every second entry withdrawn", 49, 15_976, Some((2038.0, 0.57))),
    ("submit", "accepted, all entries but the first withdrawn", 49, 27_871, None),
    ("submit", "refused at once, misfit (2)", 3, 30, None),
    ("submit", "refused at once, misfit (2)", 25, 30, Some((11.5, 1.63))),
    ("submit", "refused at once, misfit (2)", 49, 30, None),
    ("submit", "refused at once, place 64 (3)", 3, 30, None),
    ("submit", "refused at once, place 64 (3)", 25, 30, Some((10.9, 1.56))),
    ("submit", "refused at once, place 64 (3)", 49, 30, None),
    ("submit", "refused last, capacity (21)", 3, 1142, Some((147.0, 0.29))),
    ("submit", "refused last, capacity (21)", 25, 3079, Some((385.6, 0.36))),
    ("submit", "refused last, capacity (21)", 49, 5298, Some((674.4, 0.40))),
    ("submit", "held, low (19)", 3, 1068, Some((138.5, 0.27))),
    ("submit", "held, low (19)", 25, 3008, Some((370.5, 0.34))),
    ("submit", "held, low (19)", 49, 5227, Some((658.8, 0.38))),
    ("submit", "held, high (20)", 3, 1124, Some((147.7, 0.29))),
    ("submit", "held, high (20)", 25, 3064, Some((383.4, 0.36))),
    ("submit", "held, high (20)", 49, 5283, Some((662.6, 0.39))),
    ("withdraw", "accepted", 1, 659, None),
    ("withdraw", "accepted", 25, 2844, Some((359.1, 0.49))),
    ("withdraw", "accepted", 50, 5144, Some((645.9, 0.62))),
    ("enrol", "accepted", 0, 96, None),
    ("journal", "handed back", 0, 429, None),
    ("journal", "handed back", 50, 5039, None),
];

/// What, milliseconds, instructions.
type ProgramRow = (&'static str, Option<f64>, Option<u64>);

const PROGRAMS: &[ProgramRow] = &[
    ("`readday` on an empty sheet", Some(1.90), Some(2_783_750)),
    ("`readday` on the longest sheet", Some(4.47), Some(31_143_938)),
    ("that sheet's calls through the library, without printing", None, Some(27_263_024)),
    ("that sheet played by the peer, in a process that runs already", Some(4.97), None),
];

pub fn of_call(row: &Row) -> Option<CallFigures> {
    let kept = CALLS.iter().find(|kept| (kept.0, kept.1, kept.2) == (row.call, row.case, row.entries))?;
    let times = kept.4.map(|(nanoseconds, ratio)| Times { nanoseconds, ratio });
    Some(CallFigures { instructions: kept.3, times })
}

pub fn of_program(what: &str) -> ProgramFigures {
    let kept = PROGRAMS.iter().find(|kept| kept.0 == what);
    ProgramFigures { milliseconds: kept.and_then(|kept| kept.1), instructions: kept.and_then(|kept| kept.2) }
}
