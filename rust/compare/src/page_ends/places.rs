//! Every two places in a list of 16 pages, for the two pages beside an end.

use super::layout::{Edge, ORDINARY, SAFE_ORDINARY, SAFE_SHADOW};
use super::{Trial, trials};
use crate::rows::Row;
use driftpocket_reference::pages::{MOST_PAGES, PAGE_BYTES};

/// The first of the pages that fill the list up.
const FILLING: u64 = 0x0040_0000;

/// A list of 16 pages with two of them at these places. Those that fill it up
/// are of the same kind.
fn full_list(edge: &Edge, kind: u64, shadow: u64, low: usize, high: usize) -> Vec<u64> {
    let safe = [SAFE_SHADOW + shadow, SAFE_ORDINARY + ORDINARY];
    let filling = (0..).map(|number| FILLING + number * PAGE_BYTES + kind);
    let mut others = safe.into_iter().chain(filling);
    let mut list = Vec::new();
    for place in 0..MOST_PAGES {
        let entry = match place {
            _ if place == low => Some(edge.low + kind),
            _ if place == high => Some(edge.high + kind),
            _ => others.next(),
        };
        list.extend(entry);
    }
    list
}

/// Every pair of places.
fn pairs() -> impl Iterator<Item = (usize, usize)> {
    let with_all = |low| (0..MOST_PAGES).map(move |high| (low, high));
    let all = (0..MOST_PAGES).flat_map(with_all);
    all.filter(|(low, high)| low != high)
}

/// The trials for a pair of places. If one place follows the other, they are
/// all that come to an access there; otherwise those that lie on both pages.
fn trials_for(edge: &Edge, cpl: u64, low: usize, high: usize) -> Vec<Trial> {
    let end = edge.high;
    let follows = (low + 1) % MOST_PAGES == high;
    let counts = |trial: &Trial| {
        let crosses = trial.touches.iter().any(|touch| touch.crosses(edge.mode));
        !trial.is_settled() && (follows || crosses)
    };
    [end - 8, end - 4, end - 3, end]
        .into_iter()
        .flat_map(|at| trials::at(edge.mode, cpl, at))
        .filter(counts)
        .collect()
}

/// Accesses at an end, on all pairs of places. The levels take turns.
pub fn rows(edge: &'static Edge) -> impl Iterator<Item = Row> {
    pairs().flat_map(move |(low, high)| {
        let cpl = if (low + high / 2) % 2 == 0 { 3 } else { 0 };
        let shadow = trials::shadow_kind(cpl);
        trials_for(edge, cpl, low, high)
            .into_iter()
            .map(move |trial| trial.row(&full_list(edge, trial.kind, shadow, low, high)))
    })
}
