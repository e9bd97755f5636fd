//! Ways to spoil an input so that it is refused before any step.

use crate::case::{Case, FOUR_GIB, PAGE, field};
use driftpocket_reference::address::{ABOVE_HOLE, HOLE};
use driftpocket_reference::dice::Dice;
use driftpocket_reference::pages::{MOST_PAGES, PAGE_BYTES};
use driftpocket_reference::runs::{MOST_INSTRUCTIONS, WORDS};
use std::collections::BTreeSet;

/// A way to spoil an input.
#[derive(Clone, Copy, Debug)]
pub struct Spoiler {
    /// The refusal that an input earns by it, if it earns no other one.
    pub refusal: u64,
    /// What is wrong then.
    pub name: &'static str,
    /// Does it.
    pub spoil: fn(&mut Case),
}

/// A spoiler in one line.
const fn by(refusal: u64, name: &'static str, spoil: fn(&mut Case)) -> Spoiler {
    Spoiler {
        refusal,
        name,
        spoil,
    }
}

/// Ways to spoil page list or bytes.
pub const OF_PAGES: &[Spoiler] = &[
    by(1, "17 entries", |case| add_up_to(case, MOST_PAGES + 1)),
    by(1, "18 entries", |case| add_up_to(case, MOST_PAGES + 2)),
    by(1, "300 entries", |case| case.pages.resize(300, 0x1001)),
    by(1, "one byte more", |case| case.bytes.push(0)),
    by(1, "one byte fewer", |case| {
        if case.bytes.pop().is_none() {
            case.bytes.push(0);
        }
    }),
    by(1, "a page of bytes more", |case| {
        case.bytes.resize(case.bytes.len() + PAGE, 0);
    }),
    by(2, "kind 0", |case| add_fresh(case, 0)),
    by(2, "kind 4", |case| add_fresh(case, 4)),
    by(2, "kind fff", |case| add_fresh(case, 0xfff)),
    by(2, "kind 801", |case| add_fresh(case, 0x801)),
    by(3, "first page of the hole", |case| {
        case.add_page(HOLE + 1, 0)
    }),
    by(3, "last page of the hole", |case| {
        case.add_page(ABOVE_HOLE - PAGE_BYTES + 2, 0);
    }),
    by(3, "only bit 63", |case| case.add_page((1 << 63) + 3, 0)),
    by(4, "a page twice", |case| add_again(case, |kind| kind)),
    by(4, "a page with two kinds", |case| {
        add_again(case, |kind| kind % 3 + 1)
    }),
];

/// Ways to spoil the state.
pub const OF_STATE: &[Spoiler] = &[
    by(5, "no field", |case| case.state.clear()),
    by(5, "nine fields", |case| case.state.resize(9, 0)),
    by(5, "eleven fields", |case| case.state.resize(11, 0)),
    by(5, "mode 3", |case| set(case, field::MODE, 3)),
    by(5, "mode 2^64 - 1", |case| set(case, field::MODE, u64::MAX)),
    by(5, "CPL 4", |case| set(case, field::CPL, 4)),
    by(5, "CPL 2^32 + 3", |case| {
        set(case, field::CPL, FOUR_GIB + 3)
    }),
    by(5, "CR4.CET 2", |case| set(case, field::CET, 2)),
    by(5, "SSP odd", |case| set_bits(case, field::SSP, 1)),
    by(5, "SSP no multiple of 4", |case| {
        set_bits(case, field::SSP, 2)
    }),
    by(5, "IP 2^32", |case| widen(case, field::IP)),
    by(5, "SP 2^32", |case| widen(case, field::SP)),
    by(5, "SSP 2^32", |case| widen(case, field::SSP)),
    by(5, "code limit 2^32", |case| {
        set(case, field::LIMIT, FOUR_GIB)
    }),
    by(5, "code limit 2^64 - 1", |case| {
        set(case, field::LIMIT, u64::MAX)
    }),
];

/// Ways to spoil the list of instructions.
pub const OF_WORDS: &[Spoiler] = &[
    by(7, "one word more", |case| pad(case, 1)),
    by(7, "two words more", |case| pad(case, 2)),
    by(7, "three words more", |case| pad(case, 3)),
    by(7, "1,025 instructions", |case| {
        case.words.resize((MOST_INSTRUCTIONS + 1) * WORDS, 1);
    }),
    by(7, "2,048 instructions", |case| {
        case.words.resize(2 * MOST_INSTRUCTIONS * WORDS, 0);
    }),
];

/// All of them.
pub fn all() -> impl Iterator<Item = Spoiler> + Clone {
    [OF_PAGES, OF_STATE, OF_WORDS].concat().into_iter()
}

/// Spoils a case in one or two ways. Each refusal that there is a way to is as
/// likely as the others.
pub fn spoil(dice: &mut Dice, case: &mut Case, ways: &[Spoiler]) {
    let refusals: BTreeSet<u64> = ways.iter().map(|way| way.refusal).collect();
    let refusals = Vec::from_iter(refusals);
    for _ in 0..dice.between(1, 2) {
        let refusal = dice.one_of(&refusals);
        let right = |way: &&Spoiler| way.refusal == refusal;
        let ways: Vec<&Spoiler> = ways.iter().filter(right).collect();
        (dice.one_of(&ways).spoil)(case);
    }
}

/// Sets a field, if there is one.
fn set(case: &mut Case, field: usize, value: u64) {
    if let Some(old) = case.state.get_mut(field) {
        *old = value;
    }
}

/// Sets bits of a field, if there is one.
fn set_bits(case: &mut Case, field: usize, bits: u64) {
    if let Some(old) = case.state.get_mut(field) {
        *old |= bits;
    }
}

/// Gives a pointer more than 32 bits, in a mode where that is too many.
fn widen(case: &mut Case, field: usize) {
    set(case, field, FOUR_GIB);
    if let Some(mode) = case.state.first_mut() {
        *mode = (*mode).min(1);
    }
}

/// Adds words, so that instructions are no longer whole.
fn pad(case: &mut Case, words: usize) {
    let whole = case.words.len() / WORDS * WORDS;
    case.words.resize(whole + words, 1);
}

/// A page address that no other page of the list has.
fn fresh(case: &Case) -> u64 {
    let pages = 0x1_0000..;
    pages
        .map(|page| page * PAGE_BYTES)
        .find(|&address| case.place(address).is_none())
        .expect("a list has fewer pages than there are")
}

/// Adds a page of some kind.
fn add_fresh(case: &mut Case, kind: u64) {
    case.add_page(fresh(case) + kind, 0);
}

/// Adds good pages until there are so many.
fn add_up_to(case: &mut Case, count: usize) {
    while case.pages.len() < count {
        add_fresh(case, 1);
    }
}

/// Adds the first page once more, with a kind that follows from its own.
fn add_again(case: &mut Case, kind: fn(u64) -> u64) {
    if case.pages.is_empty() {
        add_fresh(case, 1);
    }
    let first = case.pages[0];
    let old_kind = first % PAGE_BYTES;
    case.add_page(first - old_kind + kind(old_kind), 0);
}
