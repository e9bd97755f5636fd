//! Random runs: the library and the second program agree in all of them, and
//! all that the rules allow comes up.

use driftpocket_compare::rounds::{Tally, compare};

/// The seeds, and how many runs of each.
const SEEDS: [u64; 5] = [1, 2, 3, 20_261, u64::MAX];
const RUNS: u64 = 60_000;

#[test]
fn the_library_and_the_second_program_agree() {
    let mut all = Tally::default();
    for seed in SEEDS {
        let tally = compare(driftpocket::run_raw, seed, 0..RUNS);
        all.add(&tally.unwrap_or_else(|text| panic!("{text}")));
    }
    assert_eq!(all.runs, 5 * RUNS);
    assert_eq!(all.complaints(), [""; 0]);
    assert!(all.deep > all.runs / 2, "only {} runs go deep", all.deep);
}
