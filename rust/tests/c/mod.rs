//! C programs, compiled with the header and the library and run.
#![allow(dead_code)]

use crate::text::{as_text, run};
use std::path::PathBuf;
use std::process::Command;

/// Compiles a C program as the README says, with every warning an error; `None` if it does not compile.
pub fn compiled(name: &str, code: &str) -> Option<PathBuf> {
    let program = std::env::temp_dir().join(format!("necktureen-{name}-{}", std::process::id()));
    let flags = ["-std=c99", "-Wall", "-Wextra", "-Wpedantic", "-Wconversion", "-Werror", "-O2", "-Ic", "-x", "c", "-"];
    let mut gcc = Command::new("gcc");
    gcc.args(flags).args(["-x", "none", "crates/necktureen/out/libnecktureen.a", "-o"]).arg(&program);
    run(&mut gcc, code.as_bytes()).status.success().then_some(program)
}

/// What a C program prints.
pub fn printed(name: &str, code: &str) -> String {
    let program = compiled(name, code).expect("it compiles");
    let output = run(&mut Command::new(&program), &[]);
    std::fs::remove_file(&program).expect("the program is removed");
    assert!(output.status.success(), "{}", output.status);
    as_text(&output.stdout)
}
