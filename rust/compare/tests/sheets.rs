//! Run sheets: the library and the second program agree in every read and every
//! write, and all that the rules allow comes up.

use driftpocket_compare::sheets::rows::Row;
use driftpocket_compare::sheets::{LIBRARY, edits, refusals, rounds, rows, texts};

/// What came of it, or the difference.
fn agreed<T>(result: Result<T, String>) -> T {
    result.unwrap_or_else(|text| panic!("{text}"))
}

/// Checks rows, of which there must be so many at least.
fn check(rows: &[Row], least: usize) {
    agreed(rows::check_all(LIBRARY, rows));
    assert!(rows.len() >= least, "only {} rows", rows.len());
}

#[test]
fn rows_about_texts() {
    check(&rows::rows(), 317);
}

#[test]
fn rows_about_refusals_rooms_and_writes() {
    check(&refusals::rows(), 1914);
}

#[test]
fn every_small_edit_of_a_small_sheet() {
    let tally = agreed(edits::compare(LIBRARY));
    // Two sheets of 529 and 210 bytes, of 9 and 2 lines.
    assert_eq!(tally.reads.values().sum::<u64>(), 379_802);
    assert_eq!(tally.numbers()[0], [0, 2, 5, 9]);
    assert!(tally.reads[&0] > 5000);
}

#[test]
fn random_runs_there_and_back() {
    let tally = agreed(rounds::compare(LIBRARY, 1, 0..4000));
    let [reads, writes] = tally.numbers();
    assert_eq!(reads, [0, 1, 2, 3, 5, 7, 8, 9]);
    assert_eq!(writes, [0, 1, 2, 3, 4, 5, 7, 8]);
}

#[test]
fn random_texts() {
    let tally = agreed(texts::compare(LIBRARY, 1, 0..120_000));
    for number in [0, 1, 2, 3, 5, 8, 9] {
        let count = tally.reads.get(&number).copied().unwrap_or(0);
        assert!(count >= 200, "only {count} reads gave {number}");
    }
}
