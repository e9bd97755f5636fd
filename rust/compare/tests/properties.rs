//! Demand 3 and the ledger, asked of the library alone.

use driftpocket_compare::properties::Kind;
use driftpocket_compare::rounds::{self, Kinds};

/// How many pairs or runs are tried.
const TRIES: u64 = 40_000;

/// Every kind of pair must come up often.
fn assert_mixed(kinds: &Result<Kinds, String>) {
    let kinds = kinds.as_ref().unwrap_or_else(|text| panic!("{text}"));
    for kind in [Kind::Alike, Kind::AsFar, Kind::Further] {
        let times = kinds.get(&kind).copied().unwrap_or(0);
        assert!(times > TRIES / 50, "{kind:?} came up {times} times");
    }
}

#[test]
fn more_memory_alters_no_answer_but_a_page_fault() {
    assert_mixed(&rounds::more_memory(driftpocket::run_raw, 11, 0..TRIES));
}

#[test]
fn more_rights_alter_no_answer_but_that_of_a_write_not_permitted() {
    assert_mixed(&rounds::more_rights(driftpocket::run_raw, 12, 0..TRIES));
}

#[test]
fn the_ledger_balances_and_a_run_is_its_single_steps() {
    let completed = rounds::ledger(driftpocket::run_raw, 13, 0..TRIES);
    let completed = completed.unwrap_or_else(|text| panic!("{text}"));
    assert!(completed > 3 * TRIES, "only {completed} were completed");
}
