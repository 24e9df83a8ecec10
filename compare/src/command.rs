//! What the commands that compare share.

use std::error::Error;
use std::process::ExitCode;

pub type Outcome = Result<ExitCode, Box<dyn Error>>;

/// The exit status of a command: 2 if it could not compare, and the reason on standard error.
pub fn status(outcome: Outcome) -> ExitCode {
    outcome.unwrap_or_else(|error| {
        eprintln!("compare: {error}");
        ExitCode::from(2)
    })
}

/// Runs `probe`.
pub const PROBE: &str = concat!(env!("CARGO_MANIFEST_DIR"), "/probe");

/// Takes an option and its word out of the words.
pub fn option(words: &mut Vec<String>, name: &str) -> Option<String> {
    let place = words.iter().position(|word| word == name)?;
    if place + 1 == words.len() {
        return None;
    }
    words.remove(place);
    Some(words.remove(place))
}
