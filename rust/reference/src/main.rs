//! The command line of the second program.

#![deny(missing_docs)]
#![forbid(unsafe_code)]

use driftpocket_reference::outcome::{LONGEST_TEXT, outcome};
use std::io::{self, Read, Write};
use std::process::ExitCode;

/// What is written when the arguments are not understood.
const USAGE: &str = "\
usage: reference outcome < SHEET
runs the sheet and writes what came of it.";

fn main() -> ExitCode {
    let words: Vec<_> = std::env::args_os().skip(1).collect();
    if words != ["outcome"] {
        eprintln!("{USAGE}");
        return ExitCode::from(2);
    }
    match answer() {
        Ok(()) => ExitCode::SUCCESS,
        Err(error) => {
            eprintln!("reference: {error}");
            ExitCode::FAILURE
        }
    }
}

/// Reads standard input, one byte past the longest text at most, and writes the
/// outcome.
fn answer() -> io::Result<()> {
    let mut text = Vec::new();
    let most = LONGEST_TEXT as u64 + 1;
    io::stdin().lock().take(most).read_to_end(&mut text)?;
    io::stdout().lock().write_all(outcome(&text).as_bytes())
}
