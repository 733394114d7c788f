//! The arguments of every function, in their order: C calls each function with arguments of which no two are equal, and
//! gets what was worked out by hand. Any two of one type, exchanged, are answered otherwise; so are exchanged names in the
//! declarations.

mod c;
mod common;
mod declarations;
mod text;

use common::{carry, entry, STANDING};
use declarations::{of_c, of_rust, type_and_name, Declarations};
use std::collections::BTreeSet;

/// A call in C, and what it answers, -1 for nothing, and writes. A place in lent bytes has a colon after it, and then the
/// bytes from the first to the last that differ.
struct Called {
    function: &'static str,
    arguments: Vec<&'static str>,
    outcome: String,
}

impl Called {
    fn new(function: &'static str, arguments: &'static str, outcome: impl Into<String>) -> Called {
        Called { function, arguments: arguments.split(", ").collect(), outcome: outcome.into() }
    }

    /// As C writes it, of a function that answers something or nothing.
    fn expression(&self, declared: &Declarations) -> String {
        let call = format!("necktureen_{}({})", self.function, self.arguments.join(", "));
        let is_void = self.declared(declared).last().is_some_and(|answer| answer == "void");
        if is_void {
            format!("({call}, -1)")
        } else {
            call
        }
    }

    fn declared<'a>(&self, declared: &'a Declarations) -> &'a [String] {
        &declared[&format!("necktureen_{}", self.function)]
    }

    /// The same call with two arguments of one type exchanged, for every two.
    fn exchanged(&self, declared: &Declarations) -> Vec<Called> {
        let types: Vec<&str> = self.declared(declared).iter().map(|argument| type_and_name(argument).0).collect();
        let pairs = (0..self.arguments.len()).flat_map(|b| (0..b).map(move |a| (a, b)));
        pairs
            .filter(|&(a, b)| types[a] == types[b])
            .map(|(a, b)| {
                let mut arguments = self.arguments.clone();
                arguments.swap(a, b);
                Called { function: self.function, arguments, outcome: self.outcome.clone() }
            })
            .collect()
    }
}

/// All that is lent, wide enough for each other's lengths. At place 7 three reads of case S stand, the second with another
/// indicator, and the fourth is held; at place 9 it stands too. The sheet withdraws it and asks for a report.
const LENT: &str = r#"
#include <stdio.h>
#include <string.h>
#include "necktureen.h"
struct lent {
    uint8_t sheet[40000], reg[40000], text[40000], flag[40000], month, day_of_month;
    uint8_t found, letter, indicator, compared;
    uint32_t value;
    uint16_t standing, flagged, year;
    int64_t advance, total;
    struct necktureen_tally tally;
};
static struct lent at, before;
static const uint8_t journal[] = {
    1, 4, 0x88, 0x13, 0, 0,
    2, 0xE8, 3, 0xF0, 0x23, 0, 0, 'I', 0, 0,
    2, 0x9C, 4, 0xB8, 0x24, 0, 0, 'C', 2, 0,
    2, 0x50, 5, 0x80, 0x25, 0, 0, 'C', 0, 0,
    4, 0x04, 6, 0x64, 0, 0, 0, 'C', 2, 1
};
static const uint8_t sheet[] = {3, 9, 0x04, 6, 0x64, 0, 0, 0, 4, 9};
static void lend(void) {
    memset(&at, 0, sizeof at);
    memcpy(at.sheet, sheet, sizeof sheet);
    memcpy(at.reg + 512 * 7, journal, sizeof journal);
    memcpy(at.reg + 512 * 9, journal, sizeof journal);
    at.reg[512 * 9 + 36] = 2;
    at.flag[0] = at.month = at.day_of_month = 99;
    at.found = at.letter = at.indicator = at.compared = 99;
    at.value = 99;
    at.standing = at.flagged = at.year = 99;
    at.advance = at.total = 99;
    at.tally.dials = 4;
    at.tally.standing = 5;
    at.tally.flagged = 1;
    at.tally.first = 9200;
    at.tally.last = 100;
    before = at;
}
static void say_bytes(const char *name, const uint8_t *now, const uint8_t *then) {
    int first = 0, end = 40000;
    while (first < end && now[first] == then[first])
        first++;
    while (first < end && now[end - 1] == then[end - 1])
        end--;
    if (first < end)
        printf(", %s %d:", name, first);
    for (; first < end; first++)
        printf(" %u", now[first]);
}
#define SAY(field) if (at.field != before.field) printf(", " #field " %ld", (long)at.field)
static void say(long answer) {
    printf("%ld", answer);
    say_bytes("sheet", at.sheet, before.sheet);
    say_bytes("reg", at.reg, before.reg);
    say_bytes("text", at.text, before.text);
    say_bytes("flag", at.flag, before.flag);
    SAY(advance);
    SAY(standing);
    SAY(flagged);
    SAY(total);
    SAY(found);
    SAY(value);
    SAY(letter);
    SAY(indicator);
    SAY(compared);
    SAY(tally.dials);
    SAY(tally.standing);
    SAY(tally.flagged);
    SAY(tally.first);
    SAY(tally.last);
    SAY(year);
    SAY(month);
    SAY(day_of_month);
    puts("");
}
"#;

/// What C prints of these calls, each on what is lent anew.
fn outcomes(name: &str, calls: &[Called], declared: &Declarations) -> Vec<String> {
    let says = calls.iter().map(|call| format!("    lend();\n    say((long){});\n", call.expression(declared)));
    let code = format!("{LENT}int main(void) {{\n{}    return 0;\n}}\n", says.collect::<String>());
    let lines: Vec<String> = c::printed(name, &code).lines().map(str::to_string).collect();
    assert_eq!(lines.len(), calls.len());
    lines
}

fn spaced(bytes: &[u8]) -> String {
    bytes.iter().map(|byte| format!(" {byte}")).collect()
}

/// Worked out by hand: the rollover of case S to 100 advances by 500, and 100 − 9200 + 10,000 is 900. Place p starts at
/// 512 × p, and its fourth read 36 bytes further on.
fn calls() -> Vec<Called> {
    let kept = [entry(STANDING, 1180, 9400, b'C', 2, 0), entry(STANDING, 1360, 9600, b'C', 0, 0)].concat();
    let folded = [&carry(9200, 1, 0)[..], &kept, &entry(STANDING, 1540, 100, b'C', 2, 1), &[0]].concat();
    vec![
        Called::new(
            "enrol",
            "at.reg, 32768, 11, 5, 70000, at.flag, &at.advance",
            "0, reg 5632: 1 5 112 17 1, flag 0: 0, advance 0",
        ),
        Called::new(
            "enrol_pseudo",
            "at.reg, 32768, 11, 5, 70000, at.flag, &at.advance",
            "0, reg 5632: 7 5 112 17 1, flag 0: 0, advance 0",
        ),
        Called::new(
            "submit",
            "at.reg, 32768, 7, 1600, 1540, 100, 'C', 2, 1, at.flag, &at.advance",
            "0, reg 3620: 2, flag 0: 1, advance 500",
        ),
        Called::new(
            "trial",
            "at.reg, 32768, 7, 1600, 1540, 100, 'C', 2, 1, at.flag, &at.advance",
            "0, flag 0: 1, advance 500",
        ),
        Called::new(
            "withdraw",
            "at.reg, 32768, 9, 1540, 100, at.flag, &at.advance",
            "0, reg 4644: 3, flag 0: 1, advance -500",
        ),
        Called::new(
            "fold",
            "at.reg, 32768, 9, at.flag, &at.advance",
            format!("0, reg 4614:{}, flag 0: 0, advance 0", spaced(&folded)),
        ),
        Called::new(
            "report",
            "at.reg, 32768, 9, &at.standing, &at.flagged, &at.total",
            "0, standing 4, flagged 1, total 900",
        ),
        Called::new("journal", "at.reg, 32768, 9", "46"),
        Called::new(
            "search",
            "at.reg, 32768, 9, 1180, &at.found, &at.value, &at.letter, &at.indicator, at.flag, &at.compared",
            "0, flag 0: 0, found 1, value 9400, letter 67, indicator 2, compared 3",
        ),
        Called::new(
            "play",
            "at.sheet, 10, at.reg, 32768, at.text, 12",
            format!("19, reg 4644: 3, text 0:{}", spaced(b"0 1 -500\n0 3")),
        ),
        Called::new(
            "tally_change",
            "&at.tally, 3, 5, 100, 0, 1, -500",
            "-1, tally.standing 4, tally.flagged 0, tally.last 9600",
        ),
        Called::new(
            "tally_report",
            "&at.tally, &at.standing, &at.flagged, &at.total",
            "0, standing 5, flagged 1, total 900",
        ),
        Called::new(
            "date_of",
            "65535, &at.year, &at.month, &at.day_of_month",
            "-1, year 2179, month 6, day_of_month 5",
        ),
        Called::new("day_of", "2179, 6, 5", "65535"),
    ]
}

fn header() -> Declarations {
    of_c(&text::text("c/necktureen.h"))
}

#[test]
fn every_function_is_called_from_c() {
    let (calls, declared) = (calls(), header());
    let called: BTreeSet<String> = calls.iter().map(|call| format!("necktureen_{}", call.function)).collect();
    let functions = declared.keys().filter(|name| name.starts_with("necktureen_"));
    assert_eq!(called, functions.cloned().collect());
    for call in &calls {
        let different: BTreeSet<&str> = call.arguments.iter().copied().collect();
        assert_eq!(different.len(), call.arguments.len(), "equal arguments of {}", call.function);
    }
    let outcomes = outcomes("called", &calls, &declared);
    let wrong = calls.iter().zip(&outcomes).filter(|(call, outcome)| call.outcome != **outcome);
    let wrong: Vec<String> = wrong.map(|(call, outcome)| format!("{}: {outcome}", call.function)).collect();
    assert!(wrong.is_empty(), "{}", wrong.join("\n"));
}

/// So no two arguments of one type are exchanged between C and the rules.
#[test]
fn exchanged_arguments_are_answered_otherwise() {
    let declared = header();
    let exchanged: Vec<Called> = calls().iter().flat_map(|call| call.exchanged(&declared)).collect();
    assert!(exchanged.len() >= 30, "{} exchanges", exchanged.len());
    let outcomes = outcomes("exchanged", &exchanged, &declared);
    let same = exchanged.iter().zip(&outcomes).filter(|(call, outcome)| call.outcome == **outcome);
    let same: Vec<String> = same.map(|(call, _)| call.expression(&declared)).collect();
    assert!(same.is_empty(), "{}", same.join("\n"));
}

// ---- The declarations ----

// Two functions and a struct, in each of the three languages.

const IN_C: &str = "
/* A pair, of two. */
struct necktureen_pair {
    uint32_t first; /* a, b; c */
    uint32_t last;
};
/* Puts a pair. */
uint8_t necktureen_put(const uint8_t *sheet, size_t sheet_length, uint8_t *reg, size_t length, uint16_t day,
                       const struct necktureen_pair *pair, int64_t *advance);
void necktureen_none(uint16_t day);
";

const IN_RUST: &str = "
/// A pair, of two.
pub struct Pair {
    /// The first: a, b.
    pub first: u32,
    pub last: u32,
}
    pub fn necktureen_put(
        sheet: *const u8,
        sheet_length: usize,
        register: *mut u8,
        length: usize,
        day: u16,
        pair: *const Pair,
        advance: *mut i64,
    ) -> u8;
    pub fn necktureen_none(day: u16);
";

const IN_RATTLE: &str = "
pub struct Pair {
    pub first: u32,
    pub last: u32,
}
pub(crate) struct Other;
// Puts a pair.
pub extern fn necktureen_put(sheet: &[u8], register: &mut [u8], day: u16, pair: &Pair, advance: &mut i64) -> u8
    ensures { λ r. ⌜ r ≡ put (now (pair .entry)) ⌝ }
{
    0
}
pub extern fn necktureen_none(day: u16)
{
}
";

#[test]
fn equal_declarations_are_read_as_equal() {
    let declared = of_c(IN_C);
    assert_eq!(declared["struct necktureen_pair"], ["uint32_t first", "uint32_t last"]);
    assert_eq!(declared["necktureen_none"], ["uint16_t day", "void"]);
    let put = ["const uint8_t *sheet", "size_t sheet_length", "uint8_t *reg", "size_t length", "uint16_t day"];
    let rest = ["const struct necktureen_pair *pair", "int64_t *advance", "uint8_t"];
    assert_eq!(declared["necktureen_put"], [&put[..], &rest].concat());
    assert_eq!(of_rust(IN_RUST), declared);
    assert_eq!(of_rust(IN_RATTLE), declared);
}

/// Two names exchanged, or two types.
#[test]
fn exchanged_names_are_seen() {
    let exchanged = |text: &str, a: &str, b: &str| text.replace(a, "?").replace(b, a).replace('?', b);
    for (a, b) in [("first", "last"), ("sheet_length", " length"), ("day", "advance"), ("sheet", "reg"), ("16", "8")] {
        assert_ne!(of_c(&exchanged(IN_C, a, b)), of_c(IN_C), "{a} and {b} in C");
        assert_ne!(of_rust(&exchanged(IN_RUST, a, b)), of_c(IN_C), "{a} and {b} in Rust");
    }
    for (a, b) in [("first", "last"), ("day", "advance"), ("sheet", "register"), ("&mut [", "&["), ("16", "8")] {
        assert_ne!(of_rust(&exchanged(IN_RATTLE, a, b)), of_c(IN_C), "{a} and {b} in Rattle");
    }
}
