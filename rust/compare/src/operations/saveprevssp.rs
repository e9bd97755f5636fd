//! SAVEPREVSSP: tokens and gaps that it takes, and those that it does not.

use super::{ENDS, NARROW_END, WIDE_END, real_mode};
use crate::answer::{Answer, GP, UD};
use crate::case::{Case, FOUR_GIB, field};
use crate::page_ends::layout::{SAFE_SHADOW, cut};
use crate::page_ends::trials::{FLAGS, LENGTH, Spot, shadow_kind};
use crate::page_ends::{Deed, Trial};
use crate::rows::{Row, plain};

/// All rows.
pub fn rows() -> Vec<Row> {
    [in_real_mode(), carry(), saved(), not_saved()].concat()
}

/// Mode 0: #UD.
fn in_real_mode() -> Vec<Row> {
    vec![real_mode(4, 0, 0, Answer::fault(UD))]
}

/// With the carry flag set the token is popped before the flag counts.
fn carry() -> Vec<Row> {
    let case = |mode, ssp| {
        plain(&[[4, 4, 0, 0]])
            .with(field::MODE, mode)
            .with(field::FLAGS, 1)
            .with(field::SSP, ssp)
    };
    let token = |mode, ssp, gap| {
        let there = case(mode, ssp).holding::<8>(ssp, 0x1ff2 + mode / 2);
        there.holding::<4>(ssp + 8, gap)
    };
    let at_end = |token| case(1, 0x2ff8).holding::<8>(0x2ff8, token);
    vec![
        Row::ends("no token", case(2, 0x3000), Answer::page_fault(0x3000)),
        Row::ends("mode 2", token(2, 0x2fe0, 0), Answer::fault(GP)),
        Row::ends("gap not zero", token(1, 0x2fe0, 1 << 31), Answer::fault(GP)),
        Row::ends("no gap", at_end(0x1ff2), Answer::page_fault(0x3000)),
        Row::ends(
            "no gap, no mark",
            at_end(0x1ff0),
            Answer::page_fault(0x3000),
        ),
        Row::completes("gap", token(1, 0x2fe0, 0))
            .field(field::SSP, 0x2fec)
            .bytes::<8>(0x1fe8, 0x1ff0),
    ]
}

/// SAVEPREVSSP from 1ff0, with a token there.
fn save(mode: u64, token: u64) -> Case {
    plain(&[[4, 4, 0, 0]])
        .on(&ENDS)
        .with(field::MODE, mode)
        .holding::<8>(0x1ff0, token)
}

/// Pointers at the very start of memory: the token lies at its end.
fn saved() -> Vec<Row> {
    let mut rows = Vec::new();
    for (mode, end) in [(1, NARROW_END), (2, WIDE_END)] {
        let mark = mode - 1;
        let row = |old| {
            let name = format!("save {old:x} in mode {mode}");
            Row::completes(name, save(mode, old + 2 + mark)).field(field::SSP, 0x1ff8)
        };
        rows.push(row(0).bytes::<8>(end, mark));
        rows.push(row(4).bytes::<4>(0, 0).bytes::<8>(end, 4 + mark));
        rows.push(row(8).bytes::<8>(0, 8 + mark));
        rows.push(
            row(end + 4)
                .bytes::<4>(end, 0)
                .bytes::<8>(end - 8, end + 4 + mark),
        );
    }
    rows
}

/// Tokens that SAVEPREVSSP does not take, and places that it can't write.
fn not_saved() -> Vec<Row> {
    let ends = |mode, token, answer| {
        let name = format!("save from token {token:x} in mode {mode}");
        Row::ends(name, save(mode, token), answer)
    };
    let hole = 0x0000_8000_0000_0000;
    vec![
        ends(2, 0x1ff1, Answer::fault(GP)),
        ends(1, 0x1ff0, Answer::fault(GP)),
        ends(1, FOUR_GIB + 0x1ff2, Answer::fault(GP)),
        ends(1, (1 << 63) + 0x1ff2, Answer::fault(GP)),
        ends(
            2,
            FOUR_GIB * 2 + 0x1003,
            Answer::page_fault(FOUR_GIB * 2 + 0xffc),
        ),
        ends(2, hole + 7, Answer::fault(GP)),
        ends(2, hole + 3, Answer::page_fault(hole - 4)),
        ends(1, 0x3002, Answer::page_fault(0x2ffc)),
        // Room for the zeros but not for the token below them.
        ends(1, 0xffff_f006, Answer::page_fault(0xffff_eff8)),
        ends(
            2,
            0xffff_ffff_ffff_f007,
            Answer::page_fault(0xffff_ffff_ffff_eff8),
        ),
    ]
}

impl Spot {
    /// The token that SAVEPREVSSP pops for an old pointer.
    fn previous(self, old: u64) -> u64 {
        old + 2 + self.mark()
    }

    /// The two stores of SAVEPREVSSP below an old pointer.
    fn leaves(self, trial: Trial, old: u64) -> Trial {
        let kind = shadow_kind(self.cpl);
        let below = |top: u64, by| cut(self.mode, top.wrapping_sub(by));
        trial
            .touches(kind, below(old, 4), 4, Deed::Store(0))
            .touches(
                kind,
                below(old - old % 8, 8),
                8,
                Deed::Store(old + self.mark()),
            )
    }

    /// SAVEPREVSSP, its token at the spot. In mode 1 none of the upper bytes may
    /// hold anything.
    pub(crate) fn pops_of_tokens(self) -> Vec<Trial> {
        let pop = |token| {
            self.trial("SAVEPREVSSP, token", [4, LENGTH, 0, 0])
                .with(field::SSP, self.at)
                .needs_multiple(self.at, 8)
                .touches(shadow_kind(self.cpl), self.at, 8, Deed::Load(Some(token)))
                .sets(field::SSP, self.up(8))
        };
        let save = |old| self.leaves(pop(self.previous(old)), old);
        let olds = [SAFE_SHADOW + 0x408, SAFE_SHADOW + 0x40c];
        let mut trials: Vec<Trial> = olds.map(save).into();
        if self.mode == 1 && self.at.is_multiple_of(8) {
            let spoil = |byte: u64| Trial {
                late: Answer::fault(GP),
                ..pop(self.previous(olds[0]) | 1 << (8 * byte))
            };
            trials.extend((4..8).map(spoil));
        }
        trials
    }

    /// SAVEPREVSSP with the carry flag, the gap at the spot and the token below
    /// it; the gap is 0 or has one byte that is not. Mode 2 knows no gap and
    /// faults once the token is popped.
    pub(crate) fn pops_of_gaps(self) -> Vec<Trial> {
        let (ssp, old) = (self.down(8), SAFE_SHADOW + 0x40c);
        let kind = shadow_kind(self.cpl);
        let mut popped = self
            .trial("SAVEPREVSSP, gap", [4, LENGTH, 0, 0])
            .with(field::SSP, ssp)
            .with(field::FLAGS, FLAGS + 1)
            .needs_multiple(ssp, 8)
            .touches(kind, ssp, 8, Deed::Load(Some(self.previous(old))));
        if self.mode == 2 {
            popped.late = Answer::fault(GP);
            return vec![popped];
        }
        let with_gap = |gap| {
            popped
                .clone()
                .touches(kind, self.at, 4, Deed::Load(Some(gap)))
        };
        let bad_gap = |byte: u64| Trial {
            late: Answer::fault(GP),
            ..with_gap(0x80 << (8 * byte))
        };
        let good = with_gap(0).sets(field::SSP, self.up(4));
        let mut trials = vec![self.leaves(good, old)];
        trials.extend((0..4).map(bad_gap));
        trials
    }

    /// SAVEPREVSSP, the old pointer at the spot and both stores below it; in
    /// mode 1 also with a gap. Old pointers are multiples of 4.
    pub(crate) fn saves(self) -> Vec<Trial> {
        if !self.at.is_multiple_of(4) {
            return Vec::new();
        }
        let kind = shadow_kind(self.cpl);
        let trial = self.trial("SAVEPREVSSP, old pointer", [4, LENGTH, 0, 0]);
        let ssp = trial.state[field::SSP];
        let token = Deed::Load(Some(self.previous(self.at)));
        let popped = trial.touches(kind, ssp, 8, token);
        let plain = popped.clone().sets(field::SSP, ssp + 8);
        let mut trials = vec![self.leaves(plain, self.at)];
        if self.mode == 1 {
            let with_gap = popped
                .with(field::FLAGS, FLAGS + 1)
                .touches(kind, ssp + 8, 4, Deed::Load(Some(0)))
                .sets(field::SSP, ssp + 12);
            trials.push(self.leaves(with_gap, self.at));
        }
        trials
    }
}
