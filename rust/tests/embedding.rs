//! What the README and the guide tell an engineer to do: their code is the files that are built here, their commands print
//! what they show, and header and crate declare the functions that the library has, with the same numbers, words and letters.

mod c;
mod common;
mod declarations;
mod readme;
mod text;

use c::{compiled, printed};
use common::each_call;
use necktureen::{indicator, letter, Number, Tally, AREA_BYTES, MISSING, REGISTER_BYTES, SHEET_BYTES, TEXT_BYTES};
use readme::{blocks, Block};
use std::collections::BTreeSet;
use std::mem::{align_of, offset_of, size_of};
use std::process::Command;
use text::{as_text, run, run_example, text};

// ---- The README and the guide ----

const PAGES: [&str; 2] = ["README.md", "docs/guide/search.md"];

#[test]
fn the_readme_shows_the_examples_as_they_are_built() {
    let mut files = vec![
        "c/example.c",
        "c/poll.c",
        "c/search.c",
        "c/trial.c",
        "rust/examples/embed.rs",
        "rust/examples/fold.rs",
        "rust/examples/keep.rs",
        "rust/examples/poll.rs",
        "rust/examples/search.rs",
        "rust/examples/trial.rs",
    ];
    for block in PAGES.iter().flat_map(|page| blocks(&text(page))) {
        if let Block::Fenced { word, text: code } = block {
            if word == "text" {
                continue;
            }
            let position = files.iter().position(|file| text(file) == code);
            files.remove(position.unwrap_or_else(|| panic!("no example is this {word}:\n{code}")));
        }
    }
    assert!(files.is_empty(), "no page shows {files:?}");
}

/// Those that prove, and the long comparison, are left to the gate.
fn is_slow(command: &str) -> bool {
    ["rt lib", "bash .ci/run", "NECKTUREEN_CALLS"].iter().any(|word| command.contains(word))
}

/// What `rt run` builds is there, so that the program is run and not built once more.
fn as_built(command: &str) -> String {
    command.replace("(cd crates/readday && rt run < stdin)", "crates/readday/out/readday < crates/readday/stdin")
}

/// Every other command of a page ends well, by the plainest shell, and prints what is shown after it.
#[test]
fn the_commands_of_the_readme_print_what_it_shows() {
    let blocks: Vec<Block> = PAGES.iter().flat_map(|page| blocks(&text(page))).collect();
    let shown = blocks.iter().filter(|block| matches!(block, Block::Fenced { word, .. } if word == "text")).count();
    let mut compared = 0;
    for (position, block) in blocks.iter().enumerate() {
        let Block::Commands(command) = block else { continue };
        if is_slow(command) {
            continue;
        }
        let output = run(Command::new("sh").args(["-c", &as_built(command)]), &[]);
        assert!(output.status.success(), "{command}\n{}", as_text(&output.stderr));
        if let Some(Block::Fenced { word, text }) = blocks.get(position + 1) {
            if word == "text" {
                assert_eq!(&as_text(&output.stdout), text, "{command}");
                compared += 1;
            }
        }
    }
    assert_eq!(compared, shown, "what is shown after no command");
}

/// Number by number, the README's table is the paper's.
#[test]
fn the_readme_has_the_table_of_numbers() {
    let readme = text("README.md");
    for number in Number::ALL {
        let row = format!("| {} | {} | {} |", *number as u8, number.word(), number.when());
        assert!(readme.contains(&row), "no row '{row}'");
    }
}

/// A register outlasts the program that wrote it.
#[test]
fn a_register_is_kept_in_a_file() {
    let file = std::env::temp_dir().join(format!("necktureen-register-{}", std::process::id()));
    let name = file.to_str().expect("a name");
    for answer in ["0 accepted, flag 0, advance 0\n", "24 enrolled\n"] {
        let output = run_example("keep", &[name], &[]);
        assert_eq!(as_text(&output.stdout), answer, "{}", as_text(&output.stderr));
        assert_eq!(std::fs::read(&file).expect("the register").len(), REGISTER_BYTES);
    }
    std::fs::remove_file(&file).expect("the register is removed");
}

// ---- The header ----

/// The names of the functions that the compiled library has.
fn symbols() -> BTreeSet<String> {
    let mut nm = Command::new("nm");
    nm.args(["--defined-only", "--extern-only", "--format=posix", "crates/necktureen/out/libnecktureen.a"]);
    let lines = as_text(&run(&mut nm, &[]).stdout);
    lines.lines().filter_map(|line| Some(line.split_once(" T ")?.0.to_string())).collect()
}

/// With the same arguments, answers and fields, by their types, their names and their order.
#[test]
fn header_crate_and_library_declare_the_same_functions() {
    let header = declarations::of_c(&text("c/necktureen.h"));
    let names = symbols().into_iter().chain(["struct necktureen_tally".to_string()]);
    assert_eq!(header.keys().cloned().collect::<BTreeSet<_>>(), names.collect());
    let rust = ["rust/src/boundary.rs", "rust/src/tally.rs"];
    let rattle = ["crates/necktureen/src/lib.rt", "crates/tally/src/tally.rt"];
    for files in [rust, rattle] {
        let declared = declarations::of_rust(&files.map(text).concat());
        for (name, in_c) in &header {
            assert_eq!(declared.get(name), Some(in_c), "{name} in {files:?}");
        }
        assert_eq!(declared.len(), header.len(), "{files:?}");
    }
}

#[test]
fn the_c_example_has_no_warning() {
    assert!(printed("example", &text("c/example.c")).ends_with("C 9401: 11 BF, flag 0, advance 0\n"));
}

/// The total of a meter whose dials turn, and of one read less, in C.
#[test]
fn the_c_polling_has_no_warning() {
    let lines = "0 accepted, 1 standing, 0 flagged, total 0\n0 accepted, 2 standing, 0 flagged, total 200\n\
        0 accepted, 3 standing, 0 flagged, total 400\n0 accepted, 4 standing, 1 flagged, total 700\n\
        0 accepted, 3 standing, 0 flagged, total 400\n";
    assert_eq!(printed("poll", &text("c/poll.c")), lines);
}

/// The same and more in Rust: after the enrolment, with a read in the withdrawn one's place, and after a fold.
#[test]
fn the_polling_example_prints_a_meters_totals() {
    let output = run_example("poll", &[], &[]);
    let lines = [(0, 0, 0), (1, 0, 0), (2, 0, 200), (3, 0, 400), (4, 1, 700), (3, 0, 400), (4, 1, 720), (4, 1, 720)];
    let lines = lines.map(|(standing, flagged, total)| {
        format!("0 accepted, {standing} standing, {flagged} flagged, total {total}\n")
    });
    assert_eq!(as_text(&output.stdout), lines.concat(), "{}", as_text(&output.stderr));
}

/// A misread is tried and not sent, the right read is tried and sent.
#[test]
fn the_trial_in_c_has_no_warning() {
    let lines = "sent 1200: 0 accepted, flag 0, advance 0\nsent 1400: 0 accepted, flag 0, advance 200\n\
        tried 6120: 20 high, flag 0, advance 0\ntried 1620: 0 accepted, flag 0, advance 220\n\
        sent 1620: 0 accepted, flag 0, advance 220\n";
    assert_eq!(printed("trial", &text("c/trial.c")), lines);
}

/// A back office asks for days on which a read stands and for others.
#[test]
fn the_search_in_c_has_no_warning() {
    let lines = "place 0, day 1361: 0 accepted, 1 compared\nplace 0, day 1360: 0 accepted, 1 compared, C 1620\n\
        place 0, day 1180: 0 accepted, 2 compared, C 1400\nplace 0, day 1179: 0 accepted, 3 compared\n\
        place 0, day 999: 0 accepted, 3 compared\nplace 1, day 1180: 3 no meter, 0 compared\n";
    assert_eq!(printed("search", &text("c/search.c")), lines);
}

/// A program that prints each of these C expressions.
fn printing(expressions: &[String]) -> String {
    let lines: String = expressions.iter().map(|e| format!("    printf(\"%lld\\n\", (long long)({e}));\n")).collect();
    format!("#include <stdio.h>\n#include \"necktureen.h\"\nint main(void) {{\n{lines}    return 0;\n}}\n")
}

/// The name of a C constant by its word.
fn constant(word: &str) -> String {
    format!("NECKTUREEN_{}", word.to_uppercase().replace([' ', '-'], "_"))
}

#[test]
fn the_header_names_every_number_letter_and_indicator() {
    let mut constants: Vec<(String, u64)> = vec![
        ("NECKTUREEN_REGISTER_BYTES".into(), REGISTER_BYTES as u64),
        ("NECKTUREEN_AREA_BYTES".into(), AREA_BYTES as u64),
        ("NECKTUREEN_SHEET_BYTES".into(), SHEET_BYTES as u64),
        ("NECKTUREEN_TEXT_BYTES".into(), TEXT_BYTES as u64),
        ("NECKTUREEN_MISSING_VALUE".into(), MISSING.into()),
    ];
    constants.extend(Number::ALL.iter().map(|number| (constant(number.word()), *number as u64)));
    constants.extend(letter::ALL.iter().chain(indicator::ALL).map(|(byte, word)| (constant(word), u64::from(*byte))));
    let names: Vec<String> = constants.iter().map(|row| row.0.clone()).collect();
    let values: String = constants.iter().map(|row| format!("{}\n", row.1)).collect();
    assert_eq!(printed("constants", &printing(&names)), values);
}

/// A call has the kind that a day sheet has for it, and a trial has none.
#[test]
fn the_header_names_every_call() {
    let entries = each_call(0).into_iter().filter_map(|call| Some((call, call.sheet_entry()?)));
    let kinds: Vec<(String, u8)> = entries
        .map(|(call, entry)| {
            let line = call.to_string();
            let word = line.split(' ').next().expect("its word");
            (constant(&format!("call {word}")), entry[0])
        })
        .collect();
    let names: Vec<String> = kinds.iter().map(|kind| kind.0.clone()).collect();
    let values: String = kinds.iter().map(|kind| format!("{}\n", kind.1)).collect();
    assert_eq!(printed("calls", &printing(&names)), values);
    let listed = text("c/necktureen.h").matches("    NECKTUREEN_CALL_").count();
    assert_eq!(listed, kinds.len());
}

/// Five numbers of four bytes, one after the other, in C as in Rust.
#[test]
fn a_tally_has_one_layout() {
    let fields = ["dials", "standing", "flagged", "first", "last"];
    let mut asked = vec!["sizeof(struct necktureen_tally)".to_string()];
    asked.extend(fields.map(|field| format!("offsetof(struct necktureen_tally, {field})")));
    asked.extend(fields.map(|field| format!("sizeof(((struct necktureen_tally *)0)->{field})")));
    assert_eq!(printed("layout", &printing(&asked)), "20\n0\n4\n8\n12\n16\n4\n4\n4\n4\n4\n");
    assert_eq!((size_of::<Tally>(), align_of::<Tally>()), (20, 4));
    let offsets = [
        offset_of!(Tally, dials),
        offset_of!(Tally, standing),
        offset_of!(Tally, flagged),
        offset_of!(Tally, first),
        offset_of!(Tally, last),
    ];
    assert_eq!(offsets, [0, 4, 8, 12, 16]);
}

#[test]
fn the_header_has_a_word_for_every_number() {
    let code =
        "#include <stdio.h>\n#include \"necktureen.h\"\nint main(void) {\n    for (unsigned n = 0; n < 300; n++) \
                puts(necktureen_word(n));\n    puts(necktureen_word(4294967295u));\n    return 0;\n}\n";
    let words: Vec<String> = printed("words", code).lines().map(str::to_string).collect();
    assert_eq!(words.len(), 301);
    for (number, word) in words.iter().enumerate() {
        let expected = Number::ALL.get(number).map_or("unknown", |number| number.word());
        assert_eq!(word, expected, "{number}");
    }
}

#[test]
fn header_and_crate_have_one_version() {
    let header = text("c/necktureen.h");
    let version = env!("CARGO_PKG_VERSION");
    assert!(header.contains(&format!("#define NECKTUREEN_VERSION \"{version}\"\n")));
    let parts = ["MAJOR", "MINOR", "PATCH"].map(|part| format!("NECKTUREEN_VERSION_{part}"));
    assert_eq!(printed("version", &printing(&parts)), version.replace('.', "\n") + "\n");
}

/// C gets a date where its pointers say, zeros for day 0 too, and nothing beside it.
#[test]
fn a_date_is_put_where_c_says() {
    let code = "#include <stdio.h>\n#include \"necktureen.h\"\nint main(void) {\n    \
        static const uint16_t asked[] = {0, 1, 60, 65535};\n    for (int i = 0; i < 4; i++) {\n        \
        uint16_t y[] = {9, 9, 9};\n        uint8_t m[] = {9, 9, 9}, d[] = {9, 9, 9};\n        \
        necktureen_date_of(asked[i], &y[1], &m[1], &d[1]);\n        \
        printf(\"%u %u %u, %u %u %u, %u %u %u: \", y[0], y[1], y[2], m[0], m[1], m[2], d[0], d[1], d[2]);\n        \
        printf(\"%u\\n\", necktureen_day_of(y[1], m[1], d[1]));\n    }\n    return 0;\n}\n";
    let lines = "9 0 9, 9 0 9, 9 0 9: 0\n9 2000 9, 9 1 9, 9 1 9: 1\n9 2000 9, 9 2 9, 9 29 9: 60\n\
        9 2179 9, 9 6 9, 9 5 9: 65535\n";
    assert_eq!(printed("dates", code), lines);
}

/// C gets number, flag and advance of a fold where its pointers say, accepted or refused, and nothing beside them.
#[test]
fn a_fold_is_answered_where_c_says() {
    let code = "#include <stdio.h>\n#include \"necktureen.h\"\nint main(void) {\n    \
        static uint8_t reg[NECKTUREEN_REGISTER_BYTES];\n    uint8_t flag;\n    int64_t advance;\n    \
        necktureen_enrol(reg, sizeof reg, 7, 4, 5000, &flag, &advance);\n    \
        for (uint16_t day = 1; day <= 4; day++)\n        \
        necktureen_submit(reg, sizeof reg, 7, day, day, day, day == 1 ? NECKTUREEN_INITIAL : NECKTUREEN_CYCLIC,\n        \
        NECKTUREEN_NOT_SET, 0, &flag, &advance);\n    for (int i = 0; i < 3; i++) {\n        \
        uint8_t f[] = {9, 9, 9};\n        int64_t a[] = {9, 9, 9};\n        \
        uint8_t number = necktureen_fold(reg, i == 2 ? 512 : sizeof reg, 7, &f[1], &a[1]);\n        \
        printf(\"%u %s, %u %u %u, %d %d %d, \", number, necktureen_word(number), f[0], f[1], f[2], (int)a[0], \
        (int)a[1], (int)a[2]);\n        \
        printf(\"%u\\n\", (unsigned)necktureen_journal(reg, sizeof reg, 7));\n    }\n    return 0;\n}\n";
    let lines = "0 accepted, 9 0 9, 9 0 9, 45\n27 no fold, 9 0 9, 9 0 9, 45\n2 misfit, 9 0 9, 9 0 9, 45\n";
    assert_eq!(printed("fold", code), lines);
}

/// The same of a trial, on a constant register: accepted, as a turn too, queried and refused. Two equal ones are answered
/// the same.
#[test]
fn a_trial_is_answered_where_c_says() {
    let code = r#"
#include <stdio.h>
#include "necktureen.h"
static const uint8_t reg[NECKTUREEN_REGISTER_BYTES] = {
    1, 4, 0x88, 0x13, 0, 0,
    2, 100, 0, 0xB8, 0x24, 0, 0, NECKTUREEN_INITIAL, 0, 0,
    2, 24, 1, 0x80, 0x25, 0, 0, NECKTUREEN_CYCLIC, 0, 0,
    2, 204, 1, 0x48, 0x26, 0, 0, NECKTUREEN_CYCLIC, 0, 0
};
static void say(size_t length, uint32_t value) {
    uint8_t f[] = {9, 9, 9};
    int64_t a[] = {9, 9, 9};
    uint8_t number = necktureen_trial(reg, length, 0, 640, 640, value, NECKTUREEN_CYCLIC, NECKTUREEN_NOT_SET, 0,
                                      &f[1], &a[1]);
    printf("%u %s, %u %u %u, %d %d %d, ", number, necktureen_word(number), f[0], f[1], f[2], (int)a[0], (int)a[1],
           (int)a[2]);
    printf("%u\n", (unsigned)necktureen_journal(reg, sizeof reg, 0));
}
int main(void) {
    say(sizeof reg, 9900);
    say(sizeof reg, 50);
    say(sizeof reg, 50);
    say(sizeof reg, 9810);
    say(sizeof reg, 5000);
    say(512, 50);
    return 0;
}
"#;
    let lines = "0 accepted, 9 0 9, 9 100 9, 36\n0 accepted, 9 1 9, 9 250 9, 36\n0 accepted, 9 1 9, 9 250 9, 36\n\
        19 low, 9 0 9, 9 0 9, 36\n18 EF, 9 0 9, 9 0 9, 36\n2 misfit, 9 0 9, 9 0 9, 36\n";
    assert_eq!(printed("tried", code), lines);
}

/// The same of a search, on a constant register: a read found, with every field, none found, and each refusal, with zeros.
#[test]
fn a_search_is_answered_where_c_says() {
    let code = r#"
#include <stdio.h>
#include "necktureen.h"
static const uint8_t reg[NECKTUREEN_REGISTER_BYTES] = {
    1, 4, 0x88, 0x13, 0, 0,
    2, 100, 0, 0xB8, 0x24, 0, 0, NECKTUREEN_INITIAL, 0, 0,
    2, 24, 1, 0x80, 0x25, 0, 0, NECKTUREEN_CYCLIC, 0, 0,
    2, 204, 1, 0x48, 0, 0, 0, NECKTUREEN_CUSTOMER, NECKTUREEN_TRUE, 1,
    [NECKTUREEN_AREA_BYTES] = 9
};
static void say(size_t length, uint16_t place, uint16_t day) {
    uint8_t b[] = {9, 9, 9, 9, 9, 9, 9, 9, 9, 9, 9};
    uint32_t v[] = {9, 9, 9};
    uint8_t number = necktureen_search(reg, length, place, day, &b[1], &v[1], &b[3], &b[5], &b[7], &b[9]);
    printf("%u,", number);
    for (int i = 0; i < 11; i++)
        printf(" %u", b[i]);
    printf(", %u %u %u\n", (unsigned)v[0], (unsigned)v[1], (unsigned)v[2]);
}
int main(void) {
    say(sizeof reg, 0, 460);
    say(sizeof reg, 0, 280);
    say(sizeof reg, 0, 99);
    say(512, 0, 460);
    say(sizeof reg, 2, 460);
    say(sizeof reg, 64, 460);
    say(sizeof reg, 1, 460);
    return 0;
}
"#;
    let line = |number, [found, letter, indicator, flag, compared]: [u8; 5], value| {
        format!("{number}, 9 {found} 9 {letter} 9 {indicator} 9 {flag} 9 {compared} 9, 9 {value} 9\n")
    };
    let lines = [
        line(0, [1, b'U', 2, 1, 1], 72),
        line(0, [1, b'C', 0, 0, 2], 9600),
        line(0, [0, 0, 0, 0, 3], 0),
        line(2, [0; 5], 0),
        line(3, [0; 5], 0),
        line(3, [0; 5], 0),
        line(4, [0; 5], 0),
    ];
    assert_eq!(printed("searched", code), lines.concat());
}

/// The same of the enrolment of a pseudo meter, which then refuses a cyclic read and takes an initial one.
#[test]
fn a_pseudo_meter_is_enrolled_where_c_says() {
    let code = "#include <stdio.h>\n#include \"necktureen.h\"\nstatic uint8_t reg[NECKTUREEN_REGISTER_BYTES];\n\
        static void say(uint8_t number, const uint8_t *f, const int64_t *a) {\n    \
        printf(\"%u %s, %u %u %u, %d %d %d, \", number, necktureen_word(number), f[0], f[1], f[2], (int)a[0], \
        (int)a[1], (int)a[2]);\n    \
        printf(\"%u %u\\n\", reg[512 * 7], (unsigned)necktureen_journal(reg, sizeof reg, 7));\n}\n\
        int main(void) {\n    static const uint8_t dials[] = {2, 3, 3};\n    \
        static const uint8_t letters[] = {NECKTUREEN_CYCLIC, NECKTUREEN_INITIAL};\n    \
        for (int i = 0; i < 3; i++) {\n        uint8_t f[] = {9, 9, 9};\n        int64_t a[] = {9, 9, 9};\n        \
        say(necktureen_enrol_pseudo(reg, sizeof reg, 7, dials[i], 5000, &f[1], &a[1]), f, a);\n    }\n    \
        for (int i = 0; i < 2; i++) {\n        uint8_t f[] = {9, 9, 9};\n        int64_t a[] = {9, 9, 9};\n        \
        say(necktureen_submit(reg, sizeof reg, 7, 1, 1, 1, letters[i], NECKTUREEN_NOT_SET, 0, &f[1], &a[1]), f, a);\n    \
        }\n    return 0;\n}\n";
    let lines = "25 plate, 9 0 9, 9 0 9, 0 0\n0 accepted, 9 0 9, 9 0 9, 7 6\n24 enrolled, 9 0 9, 9 0 9, 7 6\n\
        29 other type, 9 0 9, 9 0 9, 7 6\n0 accepted, 9 0 9, 9 0 9, 7 16\n";
    assert_eq!(printed("pseudo", code), lines);
}

/// A tally is changed and reported through its pointer, and nothing beside it: an enrolment, a read, a rollover, its
/// withdrawal, and then a tally that is broken.
#[test]
fn a_tally_is_changed_and_reported_where_c_says() {
    let code = r#"
#include <stdio.h>
#include "necktureen.h"
static struct necktureen_tally t[] = {{9, 9, 9, 9, 9}, {0, 0, 0, 0, 0}, {9, 9, 9, 9, 9}};
static void say(void) {
    uint16_t s[] = {9, 9, 9}, f[] = {9, 9, 9};
    int64_t total[] = {9, 9, 9};
    uint8_t number = necktureen_tally_report(&t[1], &s[1], &f[1], &total[1]);
    for (int i = 0; i < 3; i++)
        printf("%u %u %u %u %u, ", (unsigned)t[i].dials, (unsigned)t[i].standing, (unsigned)t[i].flagged,
               (unsigned)t[i].first, (unsigned)t[i].last);
    printf("%u, %u %u %u, %u %u %u, ", number, s[0], s[1], s[2], f[0], f[1], f[2]);
    printf("%d %d %d\n", (int)total[0], (int)total[1], (int)total[2]);
}
int main(void) {
    say();
    necktureen_tally_change(&t[1], NECKTUREEN_CALL_ENROL, 4, 0, 0, 0, 0);
    say();
    necktureen_tally_change(&t[1], NECKTUREEN_CALL_SUBMIT, 0, 9800, 0, 0, 0);
    say();
    necktureen_tally_change(&t[1], NECKTUREEN_CALL_SUBMIT, 0, 100, 0, 1, 300);
    say();
    necktureen_tally_change(&t[1], NECKTUREEN_CALL_WITHDRAW, 0, 100, 0, 1, -300);
    say();
    t[1].dials = 10;
    say();
    return 0;
}
"#;
    let line = |tally: &str, [number, standing, flagged, total]: [i64; 4]| {
        format!("9 9 9 9 9, {tally}, 9 9 9 9 9, {number}, 9 {standing} 9, 9 {flagged} 9, 9 {total} 9\n")
    };
    let lines = [
        line("0 0 0 0 0", [3, 0, 0, 0]),
        line("4 0 0 0 0", [0, 0, 0, 0]),
        line("4 1 0 9800 9800", [0, 1, 0, 0]),
        line("4 2 1 9800 100", [0, 2, 1, 300]),
        line("4 1 0 9800 9800", [0, 1, 0, 0]),
        line("10 1 0 9800 9800", [4, 0, 0, 0]),
    ];
    assert_eq!(printed("tally", code), lines.concat());
}

/// C may pass any kind. One that no call has changes neither a tally of zeros nor a sound or a broken one, and nor does
/// that of a report or a fold; each of the others changes some of them.
#[test]
fn a_kind_that_no_call_has_changes_no_tally() {
    let code = r#"
#include <stdio.h>
#include <string.h>
#include "necktureen.h"
static const struct necktureen_tally before[] = {
    {0, 0, 0, 0, 0}, {4, 0, 0, 0, 0}, {4, 2, 1, 9800, 100}, {4, 0, 0, 1, 0}
};
int main(void) {
    for (unsigned kind = 0; kind < 256; kind++)
        for (int i = 0; i < 4; i++) {
            struct necktureen_tally t = before[i];
            necktureen_tally_change(&t, (uint8_t)kind, 5, 200, 0, 1, -300);
            if (memcmp(&t, &before[i], sizeof t) != 0)
                printf("kind %u: %d\n", kind, i);
        }
    return 0;
}
"#;
    assert_eq!(printed("kinds", code), "kind 1: 0\nkind 2: 1\nkind 2: 2\nkind 3: 2\nkind 6: 0\n");
}

/// An int that C would cut to a place is an error with -Wconversion; a constant that fits is none.
#[test]
fn an_argument_that_is_too_wide_does_not_compile() {
    let program = |place: &str| {
        format!(
            "#include \"necktureen.h\"\nint main(int count, char **words) {{\n    static uint8_t reg[NECKTUREEN_REGISTER_BYTES];\n    \
             (void)words;\n    return (int)necktureen_journal(reg, sizeof reg, {place}) + (count > 99);\n}}\n"
        )
    };
    let fits = compiled("fits", &program("63")).expect("it compiles");
    std::fs::remove_file(fits).expect("the program is removed");
    for place in ["65537", "count", "-1"] {
        assert_eq!(compiled("wide", &program(place)), None, "{place}");
    }
}
