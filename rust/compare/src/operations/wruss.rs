//! WRUSS: who may, what is asked and in which order, and which pages it reaches.

use super::{WIDE, real_mode};
use crate::answer::{Answer, GP, PF, UD};
use crate::case::{Case, FOUR_GIB, field};
use crate::page_ends::trials::{LENGTH, Spot};
use crate::page_ends::{Deed, Trial};
use crate::rows::{Row, plain};
use crate::table::{Class, Law, law};
use crate::world::World;
use driftpocket_reference::dice::Dice;

/// A value whose bytes are all different, and its low half.
const VALUE: u64 = 0x8877_6655_4433_2211;
const LOW: u64 = 0x4433_2211;

/// The first address that is not canonical, and the first above those.
const HOLE: u64 = 0x0000_8000_0000_0000;
const ABOVE_HOLE: u64 = 0xffff_8000_0000_0000;

/// Mode, code and size of every form that a mode knows.
const FORMS: [(u64, u64, u64); 3] = [(1, 11, 4), (2, 11, 4), (2, 12, 8)];

/// One write at CPL 0, both registers clear, with a page of each kind.
fn write(mode: u64, code: u64, at: u64) -> Case {
    let value = if mode == 1 { LOW } else { VALUE };
    plain(&[[code, 5, at, value]])
        .on(&[0x1001, 0x2002, 0x5003])
        .with(field::MODE, mode)
        .with(field::CPL, 0)
        .with(field::USER, 0)
        .with(field::SUPERVISOR, 0)
        .with(field::SSP, 0x2ff0)
}

/// A write that completes.
fn written(name: impl Into<String>, case: Case, at: u64, size: u64) -> Row {
    let row = Row::completes(name, case);
    match size {
        4 => row.bytes::<4>(at, LOW),
        _ => row.bytes::<8>(at, VALUE),
    }
}

/// All rows.
pub fn rows() -> Vec<Row> {
    [
        in_real_mode(),
        registers(),
        cet_off(),
        levels(),
        pages(),
        alignment(),
        ends(),
        forms(),
        beside_wrss(),
    ]
    .concat()
}

/// Mode 0: #UD whatever the operands.
fn in_real_mode() -> Vec<Row> {
    [11, 12]
        .map(|code| real_mode(code, WIDE, WIDE, Answer::fault(UD)))
        .into()
}

/// Neither SH_STK_EN nor WR_SHSTK_EN of either register counts.
fn registers() -> Vec<Row> {
    let mut rows = Vec::new();
    for (mode, code, size) in FORMS {
        for (user, supervisor) in (0..16).map(|both| (both % 4, both / 4)) {
            let name = format!("mode {mode}, code {code}, U_CET {user}, S_CET {supervisor}");
            let case = write(mode, code, 0x1008)
                .with(field::USER, user)
                .with(field::SUPERVISOR, supervisor)
                .with(field::FLAGS, u64::MAX);
            rows.push(written(name, case, 0x1008, size));
        }
    }
    rows
}

/// Without CR4.CET it is #UD, whatever the level, the address or its page; so
/// it is in mode 0, with or without.
fn cet_off() -> Vec<Row> {
    let mut rows = Vec::new();
    for cpl in 0..4 {
        for at in [0x1008, 0x1001, 0x9000] {
            for (mode, code, _) in FORMS {
                let name = format!("mode {mode}, code {code}, CPL {cpl}, CET 0, {at:x}");
                let case = write(mode, code, at)
                    .with(field::CPL, cpl)
                    .with(field::USER, 3)
                    .with(field::SUPERVISOR, 3)
                    .with(field::CET, 0);
                rows.push(Row::ends(name, case, Answer::fault(UD)));
            }
            for (cet, code) in [(0, 11), (1, 11), (0, 12), (1, 12)] {
                let name = format!("mode 0, code {code}, CPL {cpl}, CET {cet}, {at:x}");
                let case = write(0, code, at)
                    .with(field::CPL, cpl)
                    .with(field::CET, cet);
                rows.push(Row::ends(name, case, Answer::fault(UD)));
            }
        }
    }
    rows
}

/// Above CPL 0 it is #GP(0), before anything is asked of the address.
fn levels() -> Vec<Row> {
    let mut rows = Vec::new();
    for (mode, code, _) in FORMS {
        for cpl in 1..4 {
            for at in [0x1008, 0x1001, 0x2008, 0x9000] {
                for own in [0, 3] {
                    let name = format!("mode {mode}, code {code}, CPL {cpl}, own {own}, {at:x}");
                    let case = write(mode, code, at)
                        .with(field::CPL, cpl)
                        .with(field::USER, own)
                        .with(field::SUPERVISOR, own);
                    rows.push(Row::ends(name, case, Answer::fault(GP)));
                }
            }
        }
    }
    rows
}

/// It reaches user shadow pages and no others.
fn pages() -> Vec<Row> {
    let mut rows = Vec::new();
    for (mode, code, size) in FORMS {
        for at in [0x2000, 0x2ff8, 0x5000, 0x9000, 0xff8] {
            for supervisor in [0, 3] {
                let name = format!("mode {mode}, code {code}, S_CET {supervisor}, no page {at:x}");
                let case = write(mode, code, at).with(field::SUPERVISOR, supervisor);
                rows.push(Row::ends(name, case, Answer::page_fault(at)));
            }
        }
        for at in [0x1000, 0x2000 - size] {
            let name = format!("mode {mode}, code {code}, at an end, {at:x}");
            rows.push(written(name, write(mode, code, at), at, size));
        }
    }
    rows
}

/// Every place in a row of 16, and a bad one on no page.
fn alignment() -> Vec<Row> {
    let mut rows = Vec::new();
    for (mode, code, size) in FORMS {
        for low in 0..16 {
            let at = 0x1800 + low;
            let name = format!("mode {mode}, code {code}, place {at:x}");
            let case = write(mode, code, at);
            rows.push(match low % size {
                0 => written(name, case, at, size),
                _ => Row::ends(name, case, Answer::fault(GP)),
            });
        }
        let name = format!("mode {mode}, code {code}, misaligned on no page");
        rows.push(Row::ends(
            name,
            write(mode, code, 0x9002),
            Answer::fault(GP),
        ));
    }
    rows
}

/// Beside the hole and at the ends of memory.
fn ends() -> Vec<Row> {
    let mut rows = Vec::new();
    for (_, code, size) in &FORMS[1..] {
        let (code, size) = (*code, *size);
        let edge = [HOLE - 0x1000 + 1, ABOVE_HOLE + 1, 0xffff_ffff_ffff_f001];
        let name = |at: u64| format!("mode 2, code {code}, edge {at:x}");
        for at in [HOLE - size, ABOVE_HOLE, u64::MAX - size + 1] {
            let case = write(2, code, at).on(&edge);
            rows.push(written(name(at), case, at, size));
        }
        for at in [HOLE, ABOVE_HOLE - size, 1 << 63] {
            for (what, pages) in [("pages", &edge[..]), ("no pages", &[])] {
                let case = write(2, code, at).on(pages);
                let name = format!("{}, {what}", name(at));
                rows.push(Row::ends(name, case, Answer::fault(GP)));
            }
        }
    }
    let top = write(1, 11, FOUR_GIB - 4).on(&[0xffff_f001]);
    rows.push(written("mode 1, the very end", top, FOUR_GIB - 4, 4));
    rows
}

/// Forms that mode 1 refuses, before CR4.CET and the level are asked.
fn forms() -> Vec<Row> {
    let mut rows = Vec::new();
    for words in [
        [12, 5, 0x1008, 1],
        [11, 5, FOUR_GIB + 0x1008, 1],
        [11, 5, 0x1008, FOUR_GIB],
    ] {
        let case = |cpl, cet| {
            let mut case = write(1, 11, 0).with(field::CPL, cpl).with(field::CET, cet);
            case.words = words.to_vec();
            case
        };
        for (cpl, cet) in [(0, 1), (3, 1), (0, 0), (3, 0)] {
            let name = format!("mode 1, {words:x?}, CPL {cpl}, CET {cet}");
            rows.push(Row::ends(name, case(cpl, cet), Answer::refusal(6)));
        }
    }
    rows
}

/// WRSS and WRUSS one after the other: each reaches its own page.
fn beside_wrss() -> Vec<Row> {
    let case = |all: &[[u64; 4]]| {
        let mut case = write(2, 12, 0).with(field::SUPERVISOR, 3);
        case.words = all.concat();
        case
    };
    let both = [[6, 5, 0x2008, VALUE], [12, 5, 0x1008, VALUE]];
    let crossed = [both[0], both[1], [6, 5, 0x1008, 0]];
    let name = "WRSSQ and WRUSSQ";
    let wrote = |row: Row| row.bytes::<8>(0x2008, VALUE).bytes::<8>(0x1008, VALUE);
    vec![
        wrote(Row::completes(name, case(&both))),
        wrote(Row::stops(
            "WRSSQ on the page of WRUSSQ",
            case(&crossed),
            2,
            Answer::page_fault(0x1008),
        )),
    ]
}

/// Answers that it does not give.
pub(crate) const LAWS: &[Law] = &[
    law("enabled means that CR4.CET is 1, as WRUSS asks", |cell| {
        cell.is_enabled()
            && cell.mode() > Some(0)
            && cell.is_user_write()
            && cell.vector() == Some(UD)
    }),
    law("above CPL 0 WRUSS gives #GP if not #UD", |cell| {
        let above = cell.column.is_some_and(|column| column.cpl > 0);
        let further = matches!(cell.class, Class::Completed | Class::Faulted(PF));
        above && cell.is_user_write() && further
    }),
];

/// An address and a value, with so many bytes.
pub(crate) fn operands(dice: &mut Dice, world: &World, size: u64) -> (u64, u64) {
    let at = match dice.below(12) {
        0 | 1 => {
            let off = dice.between(1, size - 1);
            world.near(dice, &world.user, size).wrapping_add(off)
        }
        2 => world.near_shadow(dice, size),
        3 => world.near(dice, &world.ordinary, size),
        _ => world.near(dice, &world.user, size),
    };
    (at, dice.any())
}

impl Spot {
    /// WRUSS at the spot. It is for CPL 0 alone and reaches pages of user code.
    pub(crate) fn user_writes(self) -> Vec<Trial> {
        let write = |&size: &u64| {
            let words = [10 + size / 4, LENGTH, self.at, self.value()];
            let mut trial = self
                .trial(&format!("WRUSS of {size}"), words)
                .needs_multiple(self.at, size)
                .touches(1, self.at, size, Deed::Store(self.value()));
            trial.kind = 1;
            if self.cpl > 0 {
                trial.early = Some(Answer::fault(GP));
            }
            trial
        };
        self.sizes().iter().map(write).collect()
    }
}
