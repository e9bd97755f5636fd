//! The pages on both sides of an end, of every kind or none, and several orders
//! of the list.

use crate::case::{Case, FOUR_GIB, PAGE, REPORT_WORDS};
use driftpocket_reference::address::{ABOVE_HOLE, HOLE, LAST_PAGE};
use driftpocket_reference::pages::{MOST_PAGES, PAGE_BYTES};
use std::sync::LazyLock;

/// The kind of ordinary pages.
pub const ORDINARY: u64 = 3;

/// A page for shadow accesses that are not to be made at the end.
pub const SAFE_SHADOW: u64 = 0x0020_0000;

/// The same for ordinary ones.
pub const SAFE_ORDINARY: u64 = 0x0050_0000;

/// How far from an end accesses begin, on either side.
const NEAR: u64 = 16;

/// Two pages with an end between them.
#[derive(Clone, Copy, Debug)]
pub struct Edge {
    /// The mode that it is for.
    pub mode: u64,
    /// The page below the end.
    pub low: u64,
    /// The page above the end.
    pub high: u64,
    /// The address of the end; the hole has two ends.
    pub ends: &'static [u64],
    /// A page that is close to neither, but has 32 bits in common with one of
    /// them, or is reached by a sum that wraps where it must not.
    pub decoy: u64,
}

/// An end like any other, for mode 1 and for mode 2.
pub static MIDDLES: [Edge; 2] = [
    Edge {
        mode: 1,
        low: 0x7654_2000,
        high: 0x7654_3000,
        ends: &[0x7654_3000],
        decoy: FOUR_GIB + 0x7654_3000,
    },
    Edge {
        mode: 2,
        low: 0x0000_1234_5678_9000,
        high: 0x0000_1234_5678_a000,
        ends: &[0x0000_1234_5678_a000],
        decoy: 0x5678_9000,
    },
];

/// The end of 32 bits for either mode, and the end of 64 bits.
pub static TOPS: [Edge; 3] = [
    Edge {
        mode: 1,
        low: FOUR_GIB - PAGE_BYTES,
        high: 0,
        ends: &[0],
        decoy: FOUR_GIB,
    },
    Edge {
        mode: 2,
        low: FOUR_GIB - PAGE_BYTES,
        high: FOUR_GIB,
        ends: &[FOUR_GIB],
        decoy: 0,
    },
    Edge {
        mode: 2,
        low: LAST_PAGE,
        high: 0,
        ends: &[0],
        decoy: FOUR_GIB - PAGE_BYTES,
    },
];

/// The two ends of the hole. No page can be listed inside.
pub static HOLES: [Edge; 1] = [Edge {
    mode: 2,
    low: HOLE - PAGE_BYTES,
    high: ABOVE_HOLE,
    ends: &[HOLE, ABOVE_HOLE],
    decoy: FOUR_GIB - PAGE_BYTES,
}];

/// All of them.
pub fn edges() -> impl Iterator<Item = &'static Edge> {
    HOLES.iter().chain(&TOPS).chain(&MIDDLES)
}

/// A number as an address of a mode.
pub fn cut(mode: u64, number: u64) -> u64 {
    if mode == 1 { number % FOUR_GIB } else { number }
}

/// The low bytes of a number as they lie in memory, each with its address.
pub fn lying(mode: u64, first: u64, size: u64, number: u64) -> impl Iterator<Item = (u64, u8)> {
    let addresses = (0..size).map(move |step| cut(mode, first.wrapping_add(step)));
    addresses.zip(number.to_le_bytes())
}

/// The first address of the page of a byte.
pub fn page_of(address: u64) -> u64 {
    address - address % PAGE_BYTES
}

impl Edge {
    /// The addresses close to its ends, one after the other.
    pub fn addresses(&self) -> impl Iterator<Item = u64> + use<> {
        let Edge { mode, ends, .. } = *self;
        ends.iter().flat_map(move |end| {
            let first = end.wrapping_sub(NEAR);
            (0..=2 * NEAR).map(move |step| cut(mode, first.wrapping_add(step)))
        })
    }

    /// The lists for accesses that reach a kind at the end and another one on
    /// the safe page for shadow stacks. Each of the two pages is of the right
    /// kind, of either wrong one, or not listed.
    pub fn lists(&self, kind: u64, shadow: u64) -> Vec<Vec<u64>> {
        let rest = self.rest(kind, shadow);
        let mut lists = Vec::new();
        for low in listings(self.low, kind) {
            for high in listings(self.high, kind) {
                lists.extend(orders(low, high, rest));
            }
        }
        lists
    }

    /// A few of these: both pages good, in every order, and neither listed.
    pub fn few_lists(&self, kind: u64, shadow: u64) -> Vec<Vec<u64>> {
        let rest = self.rest(kind, shadow);
        let good = orders(Some(self.low + kind), Some(self.high + kind), rest);
        [good, orders(None, None, rest)].concat()
    }

    /// The other pages. The decoy is of the right kind, so that nothing but its
    /// address speaks against it.
    fn rest(&self, kind: u64, shadow: u64) -> [u64; 3] {
        let safe = SAFE_SHADOW + shadow;
        [self.decoy + kind, safe, SAFE_ORDINARY + ORDINARY]
    }
}

/// A page as it can be listed: with the right kind, with a wrong one, not.
fn listings(page: u64, kind: u64) -> [Option<u64>; 4] {
    let wrong = |by| (kind - 1 + by) % 3 + 1;
    [
        Some(page + kind),
        Some(page + wrong(1)),
        Some(page + wrong(2)),
        None,
    ]
}

/// The orders for two pages and three others: the high page right after the low
/// one, right before it, far after, far before. A page that is alone stands
/// first or last. Without both there are the others or none at all.
fn orders(low: Option<u64>, high: Option<u64>, rest: [u64; 3]) -> Vec<Vec<u64>> {
    let [decoy, shadow, ordinary] = rest;
    match (low, high) {
        (Some(low), Some(high)) => vec![
            vec![low, high, decoy, shadow, ordinary],
            vec![high, low, decoy, shadow, ordinary],
            vec![low, decoy, shadow, ordinary, high],
            vec![high, ordinary, shadow, decoy, low],
        ],
        (Some(one), None) | (None, Some(one)) => vec![
            vec![one, decoy, shadow, ordinary],
            vec![ordinary, shadow, decoy, one],
        ],
        (None, None) => vec![rest.to_vec(), Vec::new()],
    }
}

/// The bytes of as many pages as a list can have. Any 64 in a row on a page are
/// different from one another, and so are the 16 at one offset on all pages.
static BYTES: LazyLock<Vec<u8>> = LazyLock::new(|| {
    let byte = |place: usize| {
        let (page, offset) = (place / PAGE, place % PAGE);
        (page * 0x5b + offset * 0x35 + offset / 0x100 * 0x1d) as u8
    };
    (0..MOST_PAGES * PAGE).map(byte).collect()
});

/// A case on these pages, its bytes as told above.
pub fn patterned(state: &[u64], pages: Vec<u64>, words: Vec<u64>) -> Case {
    Case {
        state: state.to_vec(),
        bytes: BYTES[..pages.len() * PAGE].to_vec(),
        pages,
        words,
        room: REPORT_WORDS + 1,
    }
}

#[cfg(test)]
mod tests {
    use super::*;

    #[test]
    fn bytes_tell_places_and_pages_apart() {
        for window in BYTES.chunks(PAGE).flat_map(|page| page.windows(64)) {
            let (first, others) = window.split_first().expect("64 bytes");
            assert!(!others.contains(first));
        }
        for offset in 0..PAGE {
            let mut column: Vec<u8> = BYTES.iter().skip(offset).step_by(PAGE).copied().collect();
            column.sort_unstable();
            column.dedup();
            assert_eq!(column.len(), MOST_PAGES);
        }
    }

    #[test]
    fn every_list_is_there_once() {
        for edge in edges() {
            for kind in 1..=3 {
                let mut lists = edge.lists(kind, 1);
                // Nine pairs in four orders, six single pages in two, and two
                // lists without them.
                assert_eq!(lists.len(), 9 * 4 + 6 * 2 + 2);
                assert!(
                    edge.few_lists(kind, 1)
                        .iter()
                        .all(|few| lists.contains(few))
                );
                lists.sort_unstable();
                lists.dedup();
                assert_eq!(lists.len(), 50);
            }
        }
    }

    #[test]
    fn addresses_run_over_the_end() {
        let all = edges().map(|edge| edge.addresses().collect());
        let all: Vec<Vec<u64>> = all.collect();
        assert_eq!(all[0][15..17], [HOLE - 1, HOLE]);
        assert_eq!(all[0][48..50], [ABOVE_HOLE - 1, ABOVE_HOLE]);
        assert_eq!(all[1][15..17], [FOUR_GIB - 1, 0]);
        assert_eq!(all[2][15..17], [FOUR_GIB - 1, FOUR_GIB]);
        assert_eq!(all[3][15..17], [u64::MAX, 0]);
        assert_eq!([all[4][0], all[4][32]], [0x7654_2ff0, 0x7654_3010]);
        let lengths: Vec<usize> = all.iter().map(Vec::len).collect();
        assert_eq!(lengths, [66, 33, 33, 33, 33, 33]);
    }
}
