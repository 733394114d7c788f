// Links the proved library that `rt lib` writes in crates/necktureen, or says what is missing.
use std::path::Path;
use std::process::exit;

fn main() {
    let folder = Path::new(env!("CARGO_MANIFEST_DIR")).join("../crates/necktureen/out");
    let library = folder.join("libnecktureen.a");
    println!("cargo:rerun-if-changed={}", library.display());
    if !library.exists() {
        stop(&format!("{} is not there: run `rt lib` in crates/necktureen first", library.display()));
    }
    let processor = std::env::var("CARGO_CFG_TARGET_ARCH").unwrap_or_default();
    if processor != "x86_64" {
        stop(&format!("the proved library is code for x86-64, and this build is for {processor}"));
    }
    println!("cargo:rustc-link-search=native={}", folder.display());
    println!("cargo:rustc-link-lib=static=necktureen");
}

fn stop(why: &str) -> ! {
    eprintln!("necktureen: {why}");
    exit(1);
}
