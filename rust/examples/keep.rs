use necktureen::{enrol, REGISTER_BYTES};
use std::fs::{self, File};
use std::io::{self, ErrorKind, Write};
use std::path::Path;

/// The register that a file keeps; all zero where there is no file yet.
fn load(file: &Path) -> io::Result<Vec<u8>> {
    match fs::read(file) {
        Err(fault) if fault.kind() == ErrorKind::NotFound => Ok(vec![0; REGISTER_BYTES]),
        register => register,
    }
}

/// Writes a copy beside the file, then puts it in the file's place: a power cut leaves the old register or the new one.
fn keep(file: &Path, register: &[u8]) -> io::Result<()> {
    let copy = file.with_extension("new");
    let mut written = File::create(&copy)?;
    written.write_all(register)?;
    written.sync_all()?;
    fs::rename(&copy, file)?;
    let folder = file.canonicalize()?.with_file_name("");
    File::open(folder)?.sync_all()
}

fn main() -> io::Result<()> {
    let name = std::env::args().nth(1).unwrap_or("register".into());
    let file = Path::new(&name);
    let mut register = load(file)?;
    let answer = enrol(&mut register, 0, 4, 5000);
    keep(file, &register)?;
    println!("{answer}");
    Ok(())
}
