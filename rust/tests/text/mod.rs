//! Scenarios, read by the example's own code, and the example as a program.
#![allow(dead_code)]

#[path = "../../examples/scenario/dates.rs"]
pub mod dates;
#[path = "../../examples/scenario/lines.rs"]
pub mod lines;

use necktureen::Call;
use std::io::Write;
use std::path::{Path, PathBuf};
use std::process::{Command, Output, Stdio};

pub fn repository() -> PathBuf {
    Path::new(env!("CARGO_MANIFEST_DIR")).join("..")
}

/// The text of a file of the repository.
pub fn text(path: &str) -> String {
    std::fs::read_to_string(repository().join(path)).unwrap_or_else(|e| panic!("{path}: {e}"))
}

/// A text of the folder of scenarios.
pub fn scenario(name: &str) -> String {
    text(&format!("rust/scenarios/{name}"))
}

/// The calls of a scenario.
pub fn calls(scenario: &str) -> Vec<Call> {
    scenario.lines().filter_map(|line| lines::call(line).expect("a good line")).collect()
}

/// Runs a command with this input, and answers what it printed and its exit status.
pub fn run(command: &mut Command, input: &[u8]) -> Output {
    let mut child = command
        .current_dir(repository())
        .stdin(Stdio::piped())
        .stdout(Stdio::piped())
        .stderr(Stdio::piped())
        .spawn()
        .unwrap_or_else(|e| panic!("{command:?}: {e}"));
    let mut standard_input = child.stdin.take().expect("its standard input");
    standard_input.write_all(input).expect("the input is written");
    drop(standard_input);
    child.wait_with_output().expect("the command ends")
}

/// Runs an example of this crate, built as cargo has it.
pub fn run_example(name: &str, arguments: &[&str], input: &[u8]) -> Output {
    let mut cargo = Command::new(env!("CARGO"));
    cargo.args([
        "run",
        "--quiet",
        "--release",
        "--offline",
        "--manifest-path",
        "rust/Cargo.toml",
        "--example",
        name,
        "--",
    ]);
    run(cargo.args(arguments), input)
}

pub fn as_text(bytes: &[u8]) -> String {
    String::from_utf8(bytes.to_vec()).expect("text")
}
