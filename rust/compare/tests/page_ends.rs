//! Loads and stores around the end of a page: by hand, by the second program
//! and by the library it is the same.

use driftpocket_compare::answer::{PF, SS};
use driftpocket_compare::page_ends::layout::{HOLES, MIDDLES, TOPS};
use driftpocket_compare::page_ends::{self, places, walks};
use driftpocket_compare::rows::{Row, check_each};
use driftpocket_compare::table::{Cell, Class, Column, Source, Table};

/// Checks rows, of which there must be so many at least.
fn check(rows: impl IntoIterator<Item = Row>, least: usize) {
    match check_each(driftpocket::run_raw, rows.into_iter()) {
        Ok(count) => assert!(count >= least, "only {count} rows"),
        Err(text) => panic!("{text}"),
    }
}

#[test]
fn around_an_end_like_any_other() {
    check(MIDDLES.iter().flat_map(page_ends::around), 133_304);
}

#[test]
fn around_the_ends_of_32_and_of_64_bits() {
    check(TOPS.iter().flat_map(page_ends::around), 197_032);
}

#[test]
fn around_the_hole() {
    check(HOLES.iter().flat_map(page_ends::around), 74_304);
}

#[test]
fn at_every_two_places_of_a_list() {
    check(MIDDLES.iter().flat_map(places::rows), 13_712);
}

#[test]
fn in_runs_of_several_instructions() {
    check(walks::rows(), 816);
}

/// Whether these rows should come to a cell: completed, a page fault, or an
/// ordinary stack at the end of memory, at the two levels that they have.
fn is_meant(cell: &Cell) -> bool {
    let column = |column: Column| column.mode > 0 && column.enabled && [0, 3].contains(&column.cpl);
    let classes = [Class::Completed, Class::Faulted(PF), Class::Faulted(SS)];
    let code = matches!(cell.source, Source::Code(_));
    cell.column.is_some_and(column) && code && classes.contains(&cell.class)
}

#[test]
fn every_operation_completes_and_faults() {
    let mut table = Table::default();
    for row in page_ends::rows() {
        table.count(&row.case, &row.wanted);
    }
    let meant: Vec<Cell> = Cell::open().filter(is_meant).collect();
    assert!(meant.len() > 40, "only {} cells", meant.len());
    for cell in meant {
        assert!(table.hits(&cell) > 10, "{cell}: {}", table.hits(&cell));
    }
}
