//! WRSS. The rows here are about mode 0 alone; who may write is seen in the worked
//! case P9 and in random runs, which bytes at the ends of pages.

use super::{WIDE, real_mode};
use crate::answer::{Answer, UD};
use crate::case::field;
use crate::page_ends::trials::{LENGTH, Spot, shadow_kind};
use crate::page_ends::{Deed, Trial};
use crate::rows::Row;
use crate::world::World;
use driftpocket_reference::dice::Dice;
use driftpocket_reference::pages::PAGE_BYTES;

/// All rows.
pub fn rows() -> Vec<Row> {
    in_real_mode()
}

/// Mode 0: #UD whatever the operands.
fn in_real_mode() -> Vec<Row> {
    [5, 6]
        .map(|code| real_mode(code, WIDE, WIDE, Answer::fault(UD)))
        .into()
}

/// An address and a value, with so many bytes.
pub(crate) fn operands(dice: &mut Dice, world: &World, state: &[u64], size: u64) -> (u64, u64) {
    let ssp = state[field::SSP];
    match dice.below(12) {
        0 | 1 if size == 8 => (ssp, world.previous_token(dice)),
        2..=5 if size == 8 => {
            let at = world.near_shadow(dice, 8);
            (at, world.restore_token(dice, at))
        }
        6 => {
            let off = dice.between(1, size - 1);
            (world.near_shadow(dice, size).wrapping_add(off), dice.any())
        }
        7 => {
            let inside = size * dice.below(PAGE_BYTES / size);
            let page = dice.one_of(&world.ordinary);
            (page.wrapping_add(inside), dice.any())
        }
        8 => (ssp.wrapping_add(8), 0),
        _ => (world.near_shadow(dice, size), dice.any()),
    }
}

impl Spot {
    /// WRSS at the spot.
    pub(crate) fn writes(self) -> Vec<Trial> {
        let write = |&size: &u64| {
            let words = [4 + size / 4, LENGTH, self.at, self.value()];
            self.trial(&format!("WRSS of {size}"), words)
                .needs_multiple(self.at, size)
                .touches(
                    shadow_kind(self.cpl),
                    self.at,
                    size,
                    Deed::Store(self.value()),
                )
        };
        self.sizes().iter().map(write).collect()
    }
}
