//! RSTORSSP: tokens that are just right and just wrong, at the ends of memory
//! too.

use super::{ENDS, NARROW_END, WIDE, WIDE_END, real_mode};
use crate::answer::{Answer, UD};
use crate::case::{Case, FOUR_GIB, field};
use crate::page_ends::layout::cut;
use crate::page_ends::trials::{FLAGS, LENGTH, Spot, shadow_kind};
use crate::page_ends::{Deed, Trial};
use crate::rows::{Row, plain};
use crate::world::World;
use driftpocket_reference::dice::Dice;

/// The flags that it clears, besides the carry flag.
const CLEARED: u64 = 0x8d4;

/// All rows.
pub fn rows() -> Vec<Row> {
    [in_real_mode(), restored(), not_restored(), flags()].concat()
}

/// Mode 0: #UD whatever the operand.
fn in_real_mode() -> Vec<Row> {
    vec![real_mode(3, WIDE, 0, Answer::fault(UD))]
}

/// RSTORSSP from 1ff0, with a token there.
fn restore(mode: u64, at: u64, token: u64) -> Case {
    plain(&[[3, 4, at, 0]])
        .on(&[&ENDS[..], &[0x2001]].concat())
        .with(field::MODE, mode)
        .holding::<8>(at, token)
}

/// Mode, address and token where RSTORSSP completes; the last number is CF.
const GOOD: [(u64, u64, u64, u64); 8] = [
    (2, 0x2ff0, 0x2ff9, 0),
    (2, 0x2ff0, 0x2ffd, 1),
    (2, WIDE_END, 1, 0),
    (2, WIDE_END, 5, 1),
    (2, NARROW_END, FOUR_GIB + 1, 0),
    (1, 0x2ff0, 0x2ff8, 0),
    (1, 0x2ff0, 0x2ffc, 1),
    (1, 0, 0xc, 1),
];

fn restored() -> Vec<Row> {
    let rows = GOOD.map(|(mode, at, token, carry)| {
        let name = format!("restore {token:x} at {at:x} in mode {mode}");
        Row::completes(name, restore(mode, at, token))
            .field(field::SSP, at)
            .field(field::FLAGS, carry)
            .bytes::<8>(at, 0x1ff2 + mode / 2)
    });
    rows.to_vec()
}

/// Mode, address and token where RSTORSSP gives #CP.
const BAD: [(u64, u64, u64); 19] = [
    // Marks of the other mode, or of a pointer that was left.
    (2, 0x2ff0, 0x2ff8),
    (2, 0x2ff0, 0x2ffa),
    (2, 0x2ff0, 0x2ffb),
    (1, 0x2ff0, 0x2ff9),
    (1, 0x2ff0, 0x2ffa),
    (1, 0x2ff0, 0x2ffb),
    // Another place.
    (2, 0x2ff0, 0x3001),
    (2, 0x2ff0, 0x2ff5),
    (1, 0x2ff0, 0x3000),
    (1, 0x2ff0, 0x2ff4),
    (2, 0x2ff0, 0),
    (2, WIDE_END, WIDE_END + 1),
    (2, 0x2ff0, (1 << 63) + 0x2ff9),
    // More than 32 bits.
    (1, 0x2ff0, FOUR_GIB + 0x2ff8),
    (1, 0x2ff0, (1 << 63) + 0x2ff8),
    (1, NARROW_END, FOUR_GIB),
    // The difference has 64 bits in mode 1 too.
    (1, NARROW_END, 0),
    (1, NARROW_END, 4),
    (1, NARROW_END, NARROW_END),
];

fn not_restored() -> Vec<Row> {
    let rows = BAD.map(|(mode, at, token)| {
        let name = format!("bad token {token:x} at {at:x} in mode {mode}");
        Row::ends(name, restore(mode, at, token), Answer::BAD_TOKEN)
    });
    rows.to_vec()
}

/// Six flags change and all others stay.
fn flags() -> Vec<Row> {
    let case = |token| restore(2, 0x2ff0, token).with(field::FLAGS, u64::MAX);
    let row = |token, flags| {
        Row::completes(format!("flags, token {token:x}"), case(token))
            .field(field::SSP, 0x2ff0)
            .field(field::FLAGS, flags)
            .bytes::<8>(0x2ff0, 0x1ff3)
    };
    // 1 + 4 + 10 + 40 + 80 + 800 = 8d5.
    vec![
        row(0x2ff9, u64::MAX - 0x8d5),
        row(0x2ffd, u64::MAX - 0x8d5 + 1),
    ]
}

/// An address for RSTORSSP.
pub(crate) fn restore_address(dice: &mut Dice, world: &World, state: &[u64]) -> u64 {
    match dice.below(16) {
        0 => state[field::SSP],
        1 => dice.one_of(&world.tokens) ^ dice.one_of(&[4, 1]),
        2 => world.near_shadow(dice, 8),
        3 => dice
            .one_of(&world.ordinary)
            .wrapping_add(8 * dice.below(512)),
        _ => dice.one_of(&world.tokens),
    }
}

/// A trial of RSTORSSP whose token is bad: it is loaded, and nothing stored.
fn spoiled(mut trial: Trial) -> Trial {
    trial.touches.truncate(1);
    trial.late = Answer::BAD_TOKEN;
    trial
}

impl Spot {
    /// RSTORSSP, its token at the spot: with and without a gap, or spoiled in
    /// one byte. What it stores has different bytes.
    pub(crate) fn restores(self) -> Vec<Trial> {
        let good = |gap: u64| self.at.wrapping_add(8 + gap + self.mark());
        let restore = |gap: u64| {
            let trial = self
                .restore(good(gap))
                .sets(field::SSP, self.at)
                .sets(field::FLAGS, (FLAGS & !CLEARED) + gap / 4);
            // In mode 1 the last 8 bytes of memory can hold no good token.
            if cut(self.mode, good(gap)) != good(gap) {
                return spoiled(trial);
            }
            trial
        };
        let spoil = |byte: u64| spoiled(self.restore(good(0) ^ (0x80 << (8 * byte))));
        let mut trials = vec![restore(0), restore(4)];
        if self.at.is_multiple_of(8) {
            trials.extend((0..8).map(spoil));
        }
        trials
    }

    /// RSTORSSP of this token.
    fn restore(self, token: u64) -> Trial {
        let kind = shadow_kind(self.cpl);
        let ssp = self.value() - 1;
        self.trial("RSTORSSP", [3, LENGTH, self.at, 0])
            .with(field::SSP, ssp)
            .needs_multiple(self.at, 8)
            .touches(kind, self.at, 8, Deed::Load(Some(token)))
            .touches(kind, self.at, 8, Deed::Store(ssp + self.mark() + 2))
    }
}
