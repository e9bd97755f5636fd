//! INCSSP: SSP at the end of mode 1.

use super::{WIDE, real_mode};
use crate::answer::{Answer, GP, UD};
use crate::case::{FOUR_GIB, field};
use crate::page_ends::layout::cut;
use crate::page_ends::trials::{LENGTH, Spot, shadow_kind};
use crate::page_ends::{Deed, Trial};
use crate::rows::{Row, plain};
use crate::table::{Law, Source, law};
use driftpocket_reference::dice::Dice;
use driftpocket_reference::pages::PAGE_BYTES;

/// All rows.
pub fn rows() -> Vec<Row> {
    [in_real_mode(), narrow_pointers()].concat()
}

/// Mode 0: #UD whatever the operands.
fn in_real_mode() -> Vec<Row> {
    [1, 2]
        .map(|code| real_mode(code, 0, WIDE, Answer::fault(UD)))
        .into()
}

/// Mode 1 with SSP 2^32 - 4 and 2^32.
fn narrow_pointers() -> Vec<Row> {
    let top = |count| {
        plain(&[[1, 4, 0, count]])
            .with(field::MODE, 1)
            .on(&[0xffff_f001, 0x5003])
            .with(field::SSP, FOUR_GIB - 4)
    };
    let above = top(1).with(field::SSP, FOUR_GIB);
    let wide = above.clone().with(field::MODE, 2);
    vec![
        Row::completes("mode 1, SSP 2^32 - 4, one dropped", top(1)).field(field::SSP, 0),
        Row::ends(
            "mode 1, SSP 2^32 - 4, two dropped",
            top(2),
            Answer::page_fault(0),
        ),
        Row::ends("mode 1, SSP 2^32", above, Answer::refusal(5)),
        Row::ends("mode 2, SSP 2^32", wide, Answer::page_fault(FOUR_GIB)),
    ]
}

/// Answers that it does not give.
pub(crate) const LAWS: &[Law] = &[law(
    "INCSSP gives #GP only for addresses that mode 1 lacks",
    |cell| cell.mode() == Some(1) && cell.source == Source::Code(1) && cell.vector() == Some(GP),
)];

/// A count register for INCSSP with elements of a size.
pub(crate) fn count(dice: &mut Dice, state: &[u64], size: u64) -> u64 {
    let to_page_end = (PAGE_BYTES - state[field::SSP] % PAGE_BYTES) / size;
    let range = match dice.below(8) {
        0 => 0,
        1 => to_page_end,
        2 => to_page_end + 1,
        3 => 255,
        4 => dice.below(256),
        _ => dice.below(6),
    };
    let high = dice.any() & !0xff;
    (range % 256) + dice.one_of(&[0, 0, 0, 0x100, high])
}

impl Spot {
    /// INCSSP: the last element at the spot, and the first some way below; with
    /// no element to drop, the one that is looked at all the same.
    pub(crate) fn increments(self) -> Vec<Trial> {
        let mut trials = Vec::new();
        for &size in self.sizes() {
            for range in [0, 1, 2, 255] {
                let name = format!("INCSSP of {range} times {size}");
                let load = Deed::Load(None);
                let ssp = self.down(size * u64::saturating_sub(range, 1));
                let mut trial = self
                    .trial(&name, [size / 4, LENGTH, 0, 0x300 + range])
                    .with(field::SSP, ssp)
                    .touches(shadow_kind(self.cpl), ssp, size, load);
                if range > 0 {
                    trial = trial.touches(shadow_kind(self.cpl), self.at, size, load);
                }
                let end = cut(self.mode, ssp.wrapping_add(size * range));
                trials.push(trial.sets(field::SSP, end));
            }
        }
        trials
    }
}
