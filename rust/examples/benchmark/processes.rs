//! Programs run as processes of their own.

use std::io::{self, Write};
use std::path::{Path, PathBuf};
use std::process::{Command, Output, Stdio};

/// Runs a command to its end with this input. Of the environment it gets the path alone: what a program's start costs
/// depends on the variables that it finds.
pub fn run(command: &mut Command, input: &[u8]) -> io::Result<Output> {
    command.env_clear().envs(std::env::var_os("PATH").map(|path| ("PATH", path)));
    let mut child = command.stdin(Stdio::piped()).stdout(Stdio::piped()).stderr(Stdio::piped()).spawn()?;
    let stdin = child.stdin.take();
    std::thread::scope(|scope| {
        // The thread owns the input, so that it is closed when all of it is written.
        scope.spawn(move || stdin.map(|mut stdin| stdin.write_all(input)));
        child.wait_with_output()
    })
}

/// The same, with the reason in words where it does not start or fails.
pub fn succeed(command: &mut Command, input: &[u8]) -> Result<Output, String> {
    let name = command.get_program().to_string_lossy().into_owned();
    match run(command, input) {
        Ok(output) if output.status.success() => Ok(output),
        Ok(output) => Err(format!("{name} failed, {}: {}", output.status, String::from_utf8_lossy(&output.stderr))),
        Err(fault) if fault.kind() == io::ErrorKind::NotFound => Err(format!("{name} is not installed")),
        Err(fault) => Err(format!("{name} does not start: {fault}")),
    }
}

/// A C program that does nothing, as gcc makes it; its file goes when this does.
pub struct EmptyProgram(PathBuf);

impl EmptyProgram {
    pub fn compile() -> Result<EmptyProgram, String> {
        let file = EmptyProgram(std::env::temp_dir().join(format!("necktureen-empty-{}", std::process::id())));
        let mut gcc = Command::new("gcc");
        succeed(gcc.args(["-O2", "-x", "c", "-", "-o"]).arg(file.path()), b"int main(void){return 0;}")?;
        Ok(file)
    }

    pub fn path(&self) -> &Path {
        &self.0
    }
}

impl Drop for EmptyProgram {
    fn drop(&mut self) {
        // Nothing is lost if it is not there.
        let _ = std::fs::remove_file(&self.0);
    }
}
