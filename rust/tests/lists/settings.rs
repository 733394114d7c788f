//! How much is compared, which, and how it is said.

use std::io::Write;

/// The seed, `NECKTUREEN_SEED`.
pub fn seed() -> u64 {
    setting("NECKTUREEN_SEED", 1)
}

/// A setting from the environment.
pub fn setting(name: &str, otherwise: u64) -> u64 {
    match std::env::var(name) {
        Ok(text) => text.parse().unwrap_or_else(|_| panic!("{name} must be a number, not {text:?}")),
        Err(_) => otherwise,
    }
}

/// Shown whether or not the test passes.
pub fn say(text: &str) {
    // In one piece, so that the lines of other tests do not fall into it.
    let _ = std::io::stderr().write_all(format!("{text}\n").as_bytes());
}
