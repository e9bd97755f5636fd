//! Cases whose outcome is written out by hand: by hand, by the second program
//! and by the library it is the same.

use driftpocket_compare::operations::{call, incssp, ret, rstorssp, saveprevssp, wrss, wruss};
use driftpocket_compare::rows::{Row, check_all};
use driftpocket_compare::{edges, refusals};

/// Checks rows, of which there must be so many at least.
fn check(rows: &[Row], least: usize) {
    if let Err(text) = check_all(driftpocket::run_raw, rows) {
        panic!("{text}");
    }
    assert!(rows.len() >= least, "only {} rows", rows.len());
}

#[test]
fn edges_of_lists_lengths_and_reports() {
    check(&edges::rows(), 34);
}

#[test]
fn the_operations() {
    check(&incssp::rows(), 6);
    check(&rstorssp::rows(), 30);
    check(&saveprevssp::rows(), 25);
    check(&wrss::rows(), 2);
    check(&wruss::rows(), 326);
    check(&call::rows(), 885);
    check(&ret::rows(), 195);
}

#[test]
fn refusals_and_their_order() {
    check(&refusals::rows(), 2553);
}
