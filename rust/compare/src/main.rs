//! The command line of the comparison.

#![deny(missing_docs)]
#![forbid(unsafe_code)]

use driftpocket_compare::rounds;
use std::process::ExitCode;

/// What is written when the arguments are not understood.
const USAGE: &str = "\
usage: compare SEED COUNT [FIRST]
compares COUNT random runs of a seed, from the run with the number FIRST on,
and prints how often each answer came from each code; all are decimal.";

fn main() -> ExitCode {
    let numbers: Option<Vec<u64>> = std::env::args()
        .skip(1)
        .map(|word| word.parse().ok())
        .collect();
    let (seed, count, first) = match numbers.as_deref() {
        Some(&[seed, count]) => (seed, count, 0),
        Some(&[seed, count, first]) => (seed, count, first),
        _ => {
            eprintln!("{USAGE}");
            return ExitCode::from(2);
        }
    };
    let numbers = first..first.saturating_add(count);
    match rounds::compare(driftpocket::run_raw, seed, numbers) {
        Ok(tally) => report(&tally),
        Err(text) => {
            println!("{text}");
            ExitCode::FAILURE
        }
    }
}

/// Prints what was counted. It is a failure if something never came up.
fn report(tally: &rounds::Tally) -> ExitCode {
    print!("{}", tally.table);
    println!(
        "\n{} runs alike, {} of them with four completed instructions or more, {} completed in all",
        tally.runs, tally.deep, tally.completed
    );
    let complaints = tally.complaints();
    for complaint in &complaints {
        println!("{complaint}");
    }
    if complaints.is_empty() {
        ExitCode::SUCCESS
    } else {
        ExitCode::FAILURE
    }
}
