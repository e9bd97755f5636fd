//! Random runs for sheets. What their instructions would do does not matter
//! here; how their pages lie and which bytes are zero does.

use crate::case::{Case, FOUR_GIB, PAGE};
use crate::damage::{self, spoil};
use crate::sheets::WRITE_REPORT;
use driftpocket_reference::address::{ABOVE_HOLE, HOLE, LAST_PAGE, is_canonical};
use driftpocket_reference::dice::Dice;
use driftpocket_reference::pages::{MOST_PAGES, PAGE_BYTES};
use driftpocket_reference::runs::{MOST_INSTRUCTIONS, WORDS};

/// Page addresses where something begins or ends.
const HOMES: [u64; 8] = [
    0,
    0x1000,
    0x5000,
    FOUR_GIB - PAGE_BYTES,
    HOLE - PAGE_BYTES,
    ABOVE_HOLE,
    LAST_PAGE - PAGE_BYTES,
    LAST_PAGE,
];

/// How large a run may be.
#[derive(Clone, Copy, Debug, PartialEq, Eq)]
pub enum Size {
    /// A few lines.
    Few,
    /// Anything that is allowed.
    Any,
}

/// Any run, refused or not.
pub fn any_case(dice: &mut Dice, size: Size) -> Case {
    let mut case = good_case(dice, size);
    if dice.once_in(4) {
        let ways: Vec<_> = damage::all()
            .filter(|way| size == Size::Any || !way.name.contains("instructions"))
            .collect();
        spoil(dice, &mut case, &ways);
    }
    case
}

/// A run that is not refused, its pages in no particular order.
pub fn good_case(dice: &mut Dice, size: Size) -> Case {
    let mut case = Case {
        state: choose_state(dice),
        pages: choose_pages(dice, size),
        bytes: Vec::new(),
        words: choose_words(dice, size),
        room: WRITE_REPORT + dice.index(3),
    };
    for _ in &case.pages {
        case.bytes.extend(choose_bytes(dice, size));
    }
    case
}

/// Ten fields in their ranges.
fn choose_state(dice: &mut Dice) -> Vec<u64> {
    let mode = dice.below(3);
    let most = if mode == 2 { u64::MAX } else { FOUR_GIB - 1 };
    let mut pointer = || {
        let any = dice.any() & most;
        dice.one_of(&[0, 0x1ff0, any, most])
    };
    let [ip, sp, ssp] = [pointer(), pointer(), pointer() & !3];
    let [user, supervisor, flags] = [number(dice), number(dice), number(dice)];
    let limit = number(dice) % FOUR_GIB;
    let (cpl, cet) = (dice.below(4), dice.below(2));
    vec![mode, cpl, cet, user, supervisor, ip, sp, ssp, flags, limit]
}

/// A number, often one with few digits that are not 0.
fn number(dice: &mut Dice) -> u64 {
    let any = dice.any();
    dice.one_of(&[
        any,
        any,
        0,
        1,
        u64::MAX,
        any % 16,
        any << 60,
        1 << (any % 64),
    ])
}

/// Different pages of good kinds.
fn choose_pages(dice: &mut Dice, size: Size) -> Vec<u64> {
    let count = match (size, dice.below(100)) {
        (_, 0..15) => 0,
        (Size::Few, _) | (_, 15..80) => dice.between(1, 4),
        (_, 80..95) => dice.between(5, MOST_PAGES as u64 - 1),
        _ => MOST_PAGES as u64,
    };
    let mut pages: Vec<u64> = Vec::new();
    while pages.len() < count as usize {
        let any = dice.any() & !0xfff;
        let beside = pages.last().map_or(0, |entry| entry & !0xfff);
        let home = dice.one_of(&HOMES);
        let next = beside.wrapping_add(PAGE_BYTES);
        let page = dice.one_of(&[home, home, any % HOLE, any | ABOVE_HOLE, next]);
        let listed = pages.iter().any(|entry| entry & !0xfff == page);
        if is_canonical(page) && !listed {
            pages.push(page + dice.between(1, 3));
        }
    }
    pages
}

/// The bytes of a page: none that is not 0, all of them, or a few.
fn choose_bytes(dice: &mut Dice, size: Size) -> Vec<u8> {
    let mut bytes = vec![0; PAGE];
    match (size, dice.below(32)) {
        (Size::Any, 0) => bytes.fill(0xff),
        (Size::Any, 1) => bytes.fill_with(|| dice.any() as u8),
        (_, 0..8) => {}
        _ => {
            for _ in 0..dice.between(1, 5) {
                let any = dice.index(PAGE);
                let place = dice.one_of(&[0, 7, 8, any, any, PAGE - 8, PAGE - 1]);
                bytes[place] = dice.between(1, 255) as u8;
            }
        }
    }
    bytes
}

/// The words of instructions, mostly of a few.
fn choose_words(dice: &mut Dice, size: Size) -> Vec<u64> {
    let count = match (size, dice.below(100)) {
        (_, 0..15) => 0,
        (Size::Few, _) | (_, 15..90) => dice.between(1, 5),
        (_, 90..94) => dice.between(6, 60),
        _ => MOST_INSTRUCTIONS as u64 - dice.one_of(&[0, 0, 0, 1]),
    };
    (0..count as usize * WORDS).map(|_| number(dice)).collect()
}
