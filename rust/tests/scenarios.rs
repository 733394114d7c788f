//! Scenarios in text: those that are kept, with their answers; what is wrong with a bad line; and the language.

mod lists;
mod text;

use lists::{Idle, Random};
use necktureen::{letter, Call, Number, Submission, MISSING, REGISTER_BYTES};
use std::process::Command;
use text::{as_text, calls, dates::day_number, lines, repository, run, run_example, scenario};

fn play(text: &str) -> (Option<i32>, String, String) {
    let output = run_example("scenario", &[], text.as_bytes());
    (output.status.code(), as_text(&output.stdout), as_text(&output.stderr))
}

#[test]
fn the_kept_scenarios_get_their_answers() {
    let folder = repository().join("rust/scenarios");
    let mut names: Vec<String> = std::fs::read_dir(folder)
        .expect("the folder of scenarios")
        .map(|file| file.expect("a file").file_name().into_string().expect("a name"))
        .collect();
    names.retain(|name| name.ends_with(".txt"));
    assert!(names.len() >= 3, "{names:?}");
    for name in names {
        let output = run_example("scenario", &[&format!("rust/scenarios/{name}")], &[]);
        assert_eq!(as_text(&output.stderr), "", "{name}");
        assert_eq!(as_text(&output.stdout), scenario(&name.replace(".txt", ".answers")), "{name}");
        assert!(output.status.success(), "{name}");
    }
}

/// What the program `readday` prints for a scenario written as a day sheet.
fn printed(name: &str) -> String {
    let sheet = run_example("scenario", &["--sheet", &format!("rust/scenarios/{name}")], &[]);
    assert!(sheet.status.success(), "{}", as_text(&sheet.stderr));
    as_text(&run(&mut Command::new(repository().join("crates/readday/out/readday")), &sheet.stdout).stdout)
}

#[test]
fn case_s_is_the_sheet_that_the_program_is_run_on() {
    let sheet = run_example("scenario", &["--sheet", "rust/scenarios/case-s.txt"], &[]).stdout;
    assert_eq!(sheet, include_bytes!("../../crates/readday/stdin"));
    assert_eq!(printed("case-s.txt"), include_str!("../../crates/readday/stdout"));
}

/// A misread of April, withdrawn in May, comes back from an idle terminal in June; in December the year's advance is
/// the dial's.
#[test]
fn the_year_of_the_demands() {
    let lines = "0 0 0\n0 0 0\n0 0 20\n0 0 20\n0 0 35\n0 0 -35\n8 0 0\n0 0 20\n8 0 0\n0 0 160\n0 5 0 220\n";
    assert_eq!(printed("year.txt"), lines);
}

/// A read that would be held, its re-read, the right read and a withdrawn one are tried: each is answered as it would be
/// if it were sent, and the register is left as it was.
#[test]
fn the_trials_are_answered_as_submissions_and_change_nothing() {
    let mut register = vec![0; REGISTER_BYTES];
    let mut tried = Vec::new();
    for call in calls(&scenario("trial.txt")) {
        let mut copy = register.clone();
        let reply = call.make(&mut register);
        if let Call::Trial { place, read } = call {
            assert_eq!(register, copy, "{call}");
            assert_eq!(reply, Call::Submit { place, read }.make(&mut copy), "{call}");
            tried.push(reply.number());
        }
    }
    assert_eq!(tried, [Number::High, Number::NoOriginal, Number::Accepted, Number::Withdrawn]);
}

// ---- Bad lines ----

/// Each bad line, and what is said of it.
const FAULTS: &[(&str, &str)] = &[
    (
        "enroll place 0",
        "'enroll' is not a call; a line begins with one of: \
         enrol, enrol-pseudo, submit, trial, withdraw, report, fold",
    ),
    ("report", "report lacks 'place'; a whole line is: report place 0"),
    ("fold", "fold lacks 'place'; a whole line is: fold place 0"),
    (
        "enrol-pseudo place 0 dials 4",
        "enrol-pseudo lacks 'capacity'; a whole line is: enrol-pseudo place 0 dials 4 capacity 5000",
    ),
    ("enrol-pseudo place 0 type I", "'type' is not a field of enrol-pseudo; it has: place, dials, capacity"),
    ("enrol-pseudo place 0 dials 256 capacity 1", "dials is a whole number from 0 to 255, not '256'"),
    ("fold place 0 day 1", "'day' is not a field of fold; it has: place"),
    (
        "trial place 0 day 1 type C value 1",
        "trial lacks 'submitted'; a whole line is: \
         trial place 0 submitted 2000-06-15 day 2000-06-01 type C value 1060 indicator true re-read yes",
    ),
    (
        "trial place 0 dials 4",
        "'dials' is not a field of trial; it has: place, submitted, day, type, value, indicator, re-read",
    ),
    ("trial place 0 submitted 1 submitted 1", "submitted is given twice"),
    ("trial place 0 submitted 2001-02-29 day 1 type C value 1", "submitted: 2001-02-29 is not in the calendar"),
    (
        "trial place 0 submitted 1 day 1 type C value 1 re-read true",
        "re-read is yes, no or a whole number from 0 to 255, not 'true'",
    ),
    ("report place", "place has no value after it"),
    ("report place 0 place 1", "place is given twice"),
    ("report place 0 day 1", "'day' is not a field of report; it has: place"),
    ("report place 65536", "place is a whole number from 0 to 65535, not '65536'"),
    ("report place -1", "place is a whole number from 0 to 65535, not '-1'"),
    ("report place +1", "place is a whole number from 0 to 65535, not '+1'"),
    ("enrol place 0 dials 256 capacity 1", "dials is a whole number from 0 to 255, not '256'"),
    ("enrol place 0 dials 4 capacity 4294967296", "capacity is a whole number from 0 to 4294967295, not '4294967296'"),
    ("withdraw place 0 day 2001-02-29 value 1", "day: 2001-02-29 is not in the calendar"),
    ("withdraw place 0 day 2100-02-29 value 1", "day: 2100-02-29 is not in the calendar"),
    ("withdraw place 0 day 2000-13-01 value 1", "day: 2000-13-01 is not in the calendar"),
    ("withdraw place 0 day 1900-02-29 value 1", "day: 1900-02-29 is not in the calendar"),
    ("withdraw place 0 day 1904-02-29 value 1", "day: 1904-02-29 is before the first day, 2000-01-01"),
    ("withdraw place 0 day 1999-02-29 value 1", "day: 1999-02-29 is not in the calendar"),
    ("withdraw place 0 day 2184-02-29 value 1", "day: 2184-02-29 is after the last day, 2179-06-05"),
    ("withdraw place 0 day 2179-13-01 value 1", "day: 2179-13-01 is not in the calendar"),
    ("withdraw place 0 day 1999-12-31 value 1", "day: 1999-12-31 is before the first day, 2000-01-01"),
    ("withdraw place 0 day 2179-06-06 value 1", "day: 2179-06-06 is after the last day, 2179-06-05"),
    ("withdraw place 0 day 1-2-2000 value 1", "day: '1-2-2000' is not a date such as 2000-06-15"),
    (
        "withdraw place 0 day May value 1",
        "day is a date such as 2000-06-15 or a whole number from 0 to 65535, not 'May'",
    ),
    ("withdraw place 0 day 1 value 1,000", "value is missing or a whole number from 0 to 4294967295, not '1,000'"),
    (
        "submit place 0 submitted 1 day 1 type cycle value 1",
        "type is a letter such as C, its word such as cyclic, or a whole number from 0 to 255, not 'cycle'",
    ),
    (
        "submit place 0 submitted 1 day 1 type C value 1 indicator maybe",
        "indicator is true, false, not-set or a whole number from 0 to 255, not 'maybe'",
    ),
    (
        "submit place 0 submitted 1 day 1 type C value 1 re-read true",
        "re-read is yes, no or a whole number from 0 to 255, not 'true'",
    ),
];

#[test]
fn what_is_wrong_with_a_line_is_said() {
    for (line, fault) in FAULTS {
        assert_eq!(lines::call(line), Err(fault.to_string()), "{line}");
    }
}

/// Every bad line is named by its number, and nothing is played.
#[test]
fn bad_lines_are_named_and_nothing_is_played() {
    let text = "enrol place 0 dials 4 capacity 5000\n\n# A comment.\nreport place x\nreport place 0\nreprot place 0\n";
    let (status, output, faults) = play(text);
    assert_eq!(status, Some(1));
    assert_eq!(output, "");
    let lines: Vec<&str> = faults.lines().collect();
    assert_eq!(lines.len(), 2, "{faults}");
    assert_eq!(lines[0], "line 4: place is a whole number from 0 to 65535, not 'x'");
    assert!(lines[1].starts_with("line 6: 'reprot' is not a call;"), "{faults}");
}

#[test]
fn a_sheet_says_which_call_it_cannot_hold() {
    let wide = run_example("scenario", &["--sheet"], b"report place 255\nreport place 256\n");
    assert_eq!(
        (wide.status.code(), as_text(&wide.stderr)),
        (Some(1), "line 2: a day sheet holds places up to 255, and no trials\n".into())
    );
    let long = run_example("scenario", &["--sheet"], "report place 0\n".repeat(30_001).as_bytes());
    assert_eq!((long.status.code(), as_text(&long.stderr)), (Some(1), "line 30001: the day sheet is full\n".into()));
}

/// Its first trial is named, and nothing is written of the calls before it.
#[test]
fn a_scenario_with_a_trial_is_no_sheet() {
    let tried = run_example("scenario", &["--sheet", "rust/scenarios/trial.txt"], &[]);
    assert_eq!(
        (tried.status.code(), as_text(&tried.stderr)),
        (Some(1), "line 11: a day sheet holds places up to 255, and no trials\n".into())
    );
    assert_eq!(tried.stdout, []);
}

#[test]
fn a_file_that_is_not_there_and_unknown_words_have_their_own_status() {
    let missing = run_example("scenario", &["rust/scenarios/none.txt"], &[]);
    assert_eq!(missing.status.code(), Some(2));
    assert!(as_text(&missing.stderr).starts_with("rust/scenarios/none.txt: "));
    for words in [&["--sheets"][..], &["a", "b"]] {
        let output = run_example("scenario", words, &[]);
        assert_eq!(output.status.code(), Some(2), "{words:?}");
        assert!(as_text(&output.stderr).starts_with("scenario [--sheet] [FILE]"), "{words:?}");
    }
}

/// Help has a line of each call, as one may write it.
#[test]
fn help_shows_a_line_of_each_call() {
    let help = run_example("scenario", &["--help"], &[]);
    assert_eq!(help.status.code(), Some(0));
    let said = as_text(&help.stdout);
    assert!(said.starts_with("scenario [--sheet] [FILE]"));
    for form in lines::FORMS {
        assert!(said.lines().any(|line| line.trim_start() == form.example), "{}", form.example);
        assert_eq!(calls(form.example).len(), 1, "{}", form.example);
    }
    assert!(said.contains("  trial place 0 submitted"), "{said}");
}

// ---- The language ----

/// Every call, printed as a line, is read as the same call. Every read that is sent may be tried as well.
#[test]
fn a_call_is_read_as_it_is_printed() {
    let mut random = Random::new(1);
    let (mut register, mut idle) = (vec![0; REGISTER_BYTES], Idle::default());
    for _ in 0..100_000 {
        let call = lists::call(&mut random, &mut idle, &register, &[0, 63, 64, 65_535]);
        let _ = call.make(&mut register);
        assert_eq!(lines::call(&call.to_string()), Ok(Some(call)));
        if let Call::Submit { place, read } = call {
            let trial = Call::Trial { place, read };
            assert_eq!(lines::call(&trial.to_string()), Ok(Some(trial)));
        }
    }
}

#[test]
fn words_and_dates_mean_letters_and_days() {
    let read = Submission { submitted: 65_535, day: 61, value: MISSING, letter: letter::AMR, indicator: 1, reread: 0 };
    let line =
        "submit submitted 2179-06-05 type AMR day 2000-03-01 place 7 value missing indicator false re-read no # late";
    assert_eq!(calls(line), [Call::Submit { place: 7, read }]);
    assert_eq!(calls(&line.replace("submit ", "trial ")), [Call::Trial { place: 7, read }]);
    for (letter, word) in letter::ALL {
        let line = format!("submit place 0 submitted 1 day 1 type {} value 1", word.replace(' ', "-"));
        assert!(matches!(calls(&line)[..], [Call::Submit { read, .. }] if read.letter == *letter), "{line}");
    }
}

/// The day numbers that document 02 names, and every day of 180 years in order.
#[test]
fn dates_have_their_day_numbers() {
    for (date, day) in [("2000-01-01", 1), ("2001-01-01", 367), ("2100-01-01", 36_526), ("2101-01-01", 36_891)] {
        assert_eq!(day_number(date), Ok(day));
    }
    let dates =
        (2000..2180).flat_map(|year| (1..=12).flat_map(move |month| (1..=31).map(move |day| (year, month, day))));
    let days: Vec<u16> = dates.filter_map(|(y, m, d)| day_number(&format!("{y}-{m:02}-{d:02}")).ok()).collect();
    assert_eq!(days, (1..=65_535).collect::<Vec<u16>>());
}
