//! Page lists: what sends one back, and where an address lies.

use crate::address::is_canonical;
use std::collections::BTreeMap;

/// How many bytes a page has.
pub const PAGE_BYTES: u64 = 4096;

/// How many entries a page list may have.
pub const MOST_PAGES: usize = 16;

/// What a page is for.
#[derive(Clone, Copy, Debug, PartialEq, Eq)]
pub enum Kind {
    /// Number 1: shadow stack of user code.
    UserShadow,
    /// Number 2: shadow stack of supervisor code.
    SupervisorShadow,
    /// Number 3: ordinary memory.
    Ordinary,
}

impl Kind {
    /// The kind that has this number.
    pub fn from_number(number: u64) -> Option<Kind> {
        match number {
            1 => Some(Kind::UserShadow),
            2 => Some(Kind::SupervisorShadow),
            3 => Some(Kind::Ordinary),
            _ => None,
        }
    }

    /// The number of this kind.
    pub fn number(self) -> u64 {
        match self {
            Kind::UserShadow => 1,
            Kind::SupervisorShadow => 2,
            Kind::Ordinary => 3,
        }
    }
}

/// Why a page list is sent back.
#[derive(Clone, Copy, Debug, PartialEq, Eq)]
pub enum Refusal {
    /// Number 1: too many entries, or not one page of bytes for each entry.
    Count,
    /// Number 2: an entry of a kind that does not exist.
    Kind,
    /// Number 3: a page that does not lie in a canonical range.
    Canonical,
    /// Number 4: a page that is listed more than once.
    Repeated,
}

impl Refusal {
    /// The number of this refusal.
    pub fn number(self) -> u64 {
        match self {
            Refusal::Count => 1,
            Refusal::Kind => 2,
            Refusal::Canonical => 3,
            Refusal::Repeated => 4,
        }
    }
}

/// Where an address was found.
#[derive(Clone, Copy, Debug, PartialEq, Eq)]
pub struct Spot {
    /// The kind of the page it lies on.
    pub kind: Kind,
    /// The number of its byte among the lent bytes, from 0.
    pub place: u64,
}

/// A good page list, as a map that is asked by address.
///
/// The key is a page's first address, the value what is found there: the kind
/// of the page and the place of its first byte. The order of the list survives
/// only in those places.
#[derive(Clone, Debug, PartialEq, Eq)]
pub struct Atlas {
    pages: BTreeMap<u64, Spot>,
}

impl Atlas {
    /// Reads a page list that comes with so many lent bytes.
    pub fn build(entries: &[u64], lent_bytes: u64) -> Result<Atlas, Refusal> {
        check_counts(entries.len(), lent_bytes)?;
        let kinds = read_kinds(entries)?;
        let starts = read_starts(entries)?;
        let pages: BTreeMap<u64, Spot> = starts
            .into_iter()
            .zip(kinds)
            .zip((0..).step_by(PAGE_BYTES as usize))
            .map(|((start, kind), place)| (start, Spot { kind, place }))
            .collect();
        if pages.len() < entries.len() {
            return Err(Refusal::Repeated);
        }
        Ok(Atlas { pages })
    }

    /// Finds the byte that has this address, if its page is listed.
    ///
    /// Only the nearest page that starts at or below the address can hold it.
    pub fn find(&self, address: u64) -> Option<Spot> {
        let (start, first) = self.pages.range(..=address).next_back()?;
        let into_page = address - start;
        (into_page < PAGE_BYTES).then(|| Spot {
            kind: first.kind,
            place: first.place + into_page,
        })
    }
}

/// Refusal 1.
fn check_counts(entries: usize, lent_bytes: u64) -> Result<(), Refusal> {
    let asked = entries as u128 * u128::from(PAGE_BYTES);
    if entries > MOST_PAGES || u128::from(lent_bytes) != asked {
        return Err(Refusal::Count);
    }
    Ok(())
}

/// The kinds of all entries, or refusal 2.
fn read_kinds(entries: &[u64]) -> Result<Vec<Kind>, Refusal> {
    entries
        .iter()
        .map(|entry| Kind::from_number(entry % PAGE_BYTES).ok_or(Refusal::Kind))
        .collect()
}

/// The page addresses of all entries, or refusal 3.
fn read_starts(entries: &[u64]) -> Result<Vec<u64>, Refusal> {
    entries
        .iter()
        .map(|entry| entry - entry % PAGE_BYTES)
        .map(|start| is_canonical(start).then_some(start))
        .collect::<Option<_>>()
        .ok_or(Refusal::Canonical)
}

#[cfg(test)]
mod tests {
    use super::*;

    /// The answer to a list that brings the right number of bytes.
    fn refusal(entries: &[u64]) -> Option<u64> {
        refusal_with(entries, entries.len() as u64 * 4096)
    }

    fn refusal_with(entries: &[u64], lent_bytes: u64) -> Option<u64> {
        Atlas::build(entries, lent_bytes).err().map(Refusal::number)
    }

    /// So many different pages of kind 1, from 1000 up.
    fn row(count: u64) -> Vec<u64> {
        (1..=count).map(|page| page * 0x1000 + 1).collect()
    }

    #[test]
    fn counts_of_entries_and_bytes() {
        assert_eq!(refusal(&[]), None);
        assert_eq!(refusal(&row(1)), None);
        assert_eq!(refusal(&row(16)), None);
        assert_eq!(refusal(&row(17)), Some(1));
        assert_eq!(refusal(&row(18)), Some(1));
        assert_eq!(refusal_with(&[], 1), Some(1));
        assert_eq!(refusal_with(&row(1), 0), Some(1));
        assert_eq!(refusal_with(&row(1), 4095), Some(1));
        assert_eq!(refusal_with(&row(1), 4097), Some(1));
        assert_eq!(refusal_with(&row(17), 16 * 4096), Some(1));
        assert_eq!(refusal_with(&row(16), u64::MAX), Some(1));
    }

    #[test]
    fn kinds_are_one_two_and_three() {
        for kind in 0..4096 {
            let wanted = if (1..=3).contains(&kind) {
                None
            } else {
                Some(2)
            };
            assert_eq!(refusal(&[0x1000 + kind]), wanted, "kind {kind}");
        }
        for number in 1..=3 {
            assert_eq!(Kind::from_number(number).map(Kind::number), Some(number));
        }
    }

    #[test]
    fn pages_beside_the_hole() {
        assert_eq!(refusal(&[0x0000_7fff_ffff_f001]), None);
        assert_eq!(refusal(&[0x0000_8000_0000_0001]), Some(3));
        assert_eq!(refusal(&[0xffff_7fff_ffff_f001]), Some(3));
        assert_eq!(refusal(&[0xffff_8000_0000_0001]), None);
        assert_eq!(refusal(&[0xffff_ffff_ffff_f003, 2]), None);
    }

    #[test]
    fn a_page_is_listed_once() {
        assert_eq!(refusal(&[0x1001, 0x1001]), Some(4));
        assert_eq!(refusal(&[0x1001, 0x1002]), Some(4));
        assert_eq!(refusal(&[0x1001, 0x2001, 0x3001, 0x1003]), Some(4));
        assert_eq!(refusal(&[0x3001, 0x1001, 0x1001, 0x2001]), Some(4));
    }

    #[test]
    fn the_lowest_number_wins() {
        let hole = 0x0000_8000_0000_0000;
        // A bad kind after a page in the hole, and both after a page listed twice.
        assert_eq!(refusal(&[hole + 1, 0x1000]), Some(2));
        assert_eq!(refusal(&[0x1001, 0x1001, hole + 1]), Some(3));
        assert_eq!(refusal(&[0x1001, 0x1001, hole + 1, 0x2004]), Some(2));
        assert_eq!(refusal_with(&[0x1001, 0x1001, hole], 1), Some(1));
    }

    #[test]
    fn finding_follows_the_order_of_the_lent_pages() {
        let atlas = Atlas::build(&[0x2001, 0x1003], 8192).unwrap();
        let spot = |kind, place| Some(Spot { kind, place });
        assert_eq!(atlas.find(0xfff), None);
        assert_eq!(atlas.find(0x1000), spot(Kind::Ordinary, 4096));
        assert_eq!(atlas.find(0x1fff), spot(Kind::Ordinary, 8191));
        assert_eq!(atlas.find(0x2000), spot(Kind::UserShadow, 0));
        assert_eq!(atlas.find(0x2fff), spot(Kind::UserShadow, 4095));
        assert_eq!(atlas.find(0x3000), None);
        assert_eq!(atlas.find(u64::MAX), None);
    }

    #[test]
    fn finding_at_both_ends() {
        let atlas = Atlas::build(&[0xffff_ffff_ffff_f002, 1], 8192).unwrap();
        assert_eq!(atlas.find(0).unwrap().place, 4096);
        assert_eq!(atlas.find(u64::MAX).unwrap().place, 4095);
        assert_eq!(atlas.find(0x1000), None);
        assert_eq!(atlas.find(0xffff_ffff_ffff_efff), None);
        let nothing = Atlas::build(&[], 0).unwrap();
        assert_eq!(nothing.find(0), None);
    }
}
