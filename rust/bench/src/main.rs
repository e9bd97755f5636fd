//! Times the proved replay and the plain one on the same runs and prints a small table; also an
//! earlier build of the proved library, where `build.rs` was given one. Before each run state and
//! bytes are put back, outside of the time taken. No time is asserted. Copies of one replay, built
//! in two crates, have differed by a tenth and more, so a ratio that near to 1 tells nothing. One
//! library, linked at four places modulo 64, took a third longer at the worst than at the best.

#![deny(missing_docs)]
#![forbid(unsafe_code)]

use std::hint::black_box;
use std::process::ExitCode;
use std::time::{Duration, Instant};

use driftpocket_bench::runs::{INSTRUCTIONS, Run, Spread, make};
use driftpocket_bench::{Replay, TIMED, outcome};

const MEASUREMENTS: usize = 9;
const RUNS: u64 = 16;
const SHORTEST: Duration = Duration::from_millis(20);
const OPT_LEVEL: &str = env!("BENCH_OPT_LEVEL");

const INPUTS: [(&str, u64, Spread); 4] = [
    ("64-bit, random addresses", 2, Spread::Random),
    ("64-bit, repeated addresses", 2, Spread::Repeated),
    ("32-bit, random addresses", 1, Spread::Random),
    ("32-bit, repeated addresses", 1, Spread::Repeated),
];

/// All replays must complete every run, with the same report, state and bytes.
fn check(name: &str, runs: &[Run]) -> Result<(), String> {
    for (number, run) in runs.iter().enumerate() {
        let outcomes = TIMED
            .map(|(_, replay)| outcome(replay, &run.state, &run.pages, &run.bytes, &run.words));
        if let Some(odd) = outcomes.iter().position(|other| *other != outcomes[0]) {
            let ((first, _), (other, _)) = (TIMED[0], TIMED[odd]);
            return Err(format!(
                "{name}: {first} and {other} differ on run {number}"
            ));
        }
        let report = outcomes[0].report;
        if report != [INSTRUCTIONS as u64, 0, 0, 0, 0] {
            return Err(format!("{name}: run {number} ends early: {report:?}"));
        }
    }
    Ok(())
}

/// Nanoseconds per instruction, over as many rounds of all runs as take the shortest time.
fn measure(replay: Replay, runs: &[Run]) -> f64 {
    let mut bytes = runs[0].bytes.clone();
    let mut report = [0; 5];
    let mut spent = Duration::ZERO;
    let mut instructions = 0;
    while spent < SHORTEST {
        for run in runs {
            let mut state = run.state;
            bytes.copy_from_slice(&run.bytes);
            let start = Instant::now();
            let answer = replay(&mut state, &run.pages, &mut bytes, &run.words, &mut report);
            spent += start.elapsed();
            black_box((answer, state, &mut bytes));
            instructions += INSTRUCTIONS;
        }
    }
    spent.as_nanos() as f64 / instructions as f64
}

/// The medians of all replays, measured in turn. Each turn starts with another one, so that none
/// always has the same place.
fn medians(runs: &[Run]) -> [f64; TIMED.len()] {
    let mut times = TIMED.map(|_| Vec::with_capacity(MEASUREMENTS));
    for turn in 0..MEASUREMENTS {
        for place in 0..TIMED.len() {
            let which = (turn + place) % TIMED.len();
            times[which].push(measure(TIMED[which].1, runs));
        }
    }
    times.map(|mut row| {
        row.sort_by(f64::total_cmp);
        row[MEASUREMENTS / 2]
    })
}

fn print_heading() {
    let [(proved, _), (plain, _), earlier @ ..] = TIMED;
    println!(
        "The plain replay was built by cargo at level {OPT_LEVEL}, the proved one by `./build`."
    );
    println!("{RUNS} runs of {INSTRUCTIONS} instructions on 16 pages for each input; both replays");
    println!("complete all of them with the same report, state and bytes.");
    println!(
        "Nanoseconds per instruction, medians of {MEASUREMENTS}; state and bytes are put back"
    );
    println!("before each run, outside of the times.");
    if let Some((before, _)) = earlier.first() {
        println!(
            "An earlier library ({before}) completes the runs alike, measured in turn with both;"
        );
        println!(
            "{before}/{proved} is how many times as fast the {proved} replay is now. The functions"
        );
        println!("of both libraries start at multiples of 64.");
    }
    print!(
        "\n{:<28}{proved:>9}{plain:>9}{:>14}",
        "input", "proved/plain"
    );
    if let Some((before, _)) = earlier.first() {
        print!("{before:>9}{:>15}", "before/proved");
    }
    println!();
}

fn print_row(name: &str, times: [f64; TIMED.len()]) {
    let [proved, plain, earlier @ ..] = times;
    print!(
        "{name:<28}{proved:>9.1}{plain:>9.1}{:>14.2}",
        proved / plain
    );
    if let Some(before) = earlier.first() {
        print!("{before:>9.1}{:>15.2}", before / proved);
    }
    println!();
}

fn bench() -> Result<(), String> {
    if OPT_LEVEL == "0" || cfg!(debug_assertions) {
        return Err("not built optimised; use cargo run --release".to_string());
    }
    let inputs = INPUTS.map(|(name, mode, spread)| {
        let runs: Vec<Run> = (0..RUNS).map(|seed| make(mode, spread, seed)).collect();
        (name, runs)
    });
    for (name, runs) in &inputs {
        check(name, runs)?;
    }
    print_heading();
    for (name, runs) in &inputs {
        print_row(name, medians(runs));
    }
    Ok(())
}

fn main() -> ExitCode {
    match bench() {
        Ok(()) => ExitCode::SUCCESS,
        Err(message) => {
            eprintln!("driftpocket-bench: {message}");
            ExitCode::FAILURE
        }
    }
}
