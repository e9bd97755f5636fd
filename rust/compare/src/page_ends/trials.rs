//! The operations, each with one of its accesses at a given address and all
//! others on safe pages. What an operation does is told in its own file; here is
//! what all of them start from.

use super::layout::{ORDINARY, SAFE_ORDINARY, SAFE_SHADOW, cut};
use super::{Deed, Touch, Trial};
use crate::answer::{Answer, GP};
use crate::case::{FOUR_GIB, field};

/// Numbers whose bytes are all different: one of mode 1, one of mode 2.
pub(crate) const NARROW: u64 = 0x4433_2211;
const WIDE: u64 = 0x8877_6655_4433_2211;

/// The length of every instruction here.
pub(crate) const LENGTH: u64 = 5;

/// All flags but the carry flag are set.
pub(crate) const FLAGS: u64 = !1;

/// The kind of the shadow stacks of a privilege level.
pub fn shadow_kind(cpl: u64) -> u64 {
    if cpl == 3 { 1 } else { 2 }
}

/// All trials of a mode and a level with an access that begins at an address.
pub fn at(mode: u64, cpl: u64, at: u64) -> Vec<Trial> {
    let spot = Spot { mode, cpl, at };
    [
        spot.increments(),
        spot.restores(),
        spot.pops_of_tokens(),
        spot.pops_of_gaps(),
        spot.saves(),
        spot.writes(),
        spot.user_writes(),
        spot.calls(),
        spot.calls_of_next(),
        spot.returns(),
    ]
    .concat()
}

/// Where an access begins, and in which mode and at which level.
#[derive(Clone, Copy)]
pub(crate) struct Spot {
    /// The mode, 1 or 2.
    pub(crate) mode: u64,
    /// The privilege level.
    pub(crate) cpl: u64,
    /// The address.
    pub(crate) at: u64,
}

impl Trial {
    /// The same with another field before it.
    pub(crate) fn with(mut self, field: usize, value: u64) -> Trial {
        self.state[field] = value;
        self
    }

    /// Then it makes an access.
    pub(crate) fn touches(mut self, kind: u64, first: u64, size: u64, deed: Deed) -> Trial {
        self.touches.push(Touch {
            kind,
            first,
            size,
            deed,
        });
        self
    }

    /// It sets a field if it completes.
    pub(crate) fn sets(mut self, field: usize, value: u64) -> Trial {
        self.fields.push((field, value));
        self
    }

    /// It faults early unless an address is a multiple of a size.
    pub(crate) fn needs_multiple(mut self, address: u64, size: u64) -> Trial {
        if !address.is_multiple_of(size) {
            self.early = Some(Answer::fault(GP));
        }
        self
    }
}

impl Spot {
    /// The bytes of a return address.
    pub(crate) fn size(self) -> u64 {
        4 * self.mode
    }

    /// The mark of 64-bit mode in tokens.
    pub(crate) fn mark(self) -> u64 {
        self.mode / 2
    }

    /// The sizes that shadow stacks have elements of.
    pub(crate) fn sizes(self) -> &'static [u64] {
        if self.mode == 1 { &[4] } else { &[4, 8] }
    }

    /// A number of this mode whose bytes are all different.
    pub(crate) fn value(self) -> u64 {
        if self.mode == 1 { NARROW } else { WIDE }
    }

    /// An address of this mode, so far up from the spot.
    pub(crate) fn up(self, by: u64) -> u64 {
        cut(self.mode, self.at.wrapping_add(by))
    }

    /// An address of this mode, so far down from the spot.
    pub(crate) fn down(self, by: u64) -> u64 {
        cut(self.mode, self.at.wrapping_sub(by))
    }

    /// Where a return address ends that begins at an address.
    pub(crate) fn after(self, first: u64) -> u64 {
        cut(self.mode, first.wrapping_add(self.size()))
    }

    /// A trial without any access yet. Next has bytes that are all different.
    pub(crate) fn trial(self, what: &str, words: [u64; 4]) -> Trial {
        let Spot { mode, cpl, at } = self;
        let ip = self.value() - LENGTH;
        let (sp, ssp) = (SAFE_ORDINARY + 0x808, SAFE_SHADOW + 0x808);
        Trial {
            name: format!("mode {mode}, CPL {cpl}, {what} at {at:x}"),
            state: vec![mode, cpl, 1, 3, 3, ip, sp, ssp, FLAGS, FOUR_GIB - 1],
            words,
            kind: shadow_kind(cpl),
            early: None,
            touches: Vec::new(),
            late: Answer::COMPLETED,
            fields: Vec::new(),
        }
    }

    /// A call or return that does the same on both stacks, the ordinary one
    /// first.
    pub(crate) fn frames(self, words: [u64; 4], sp: u64, ssp: u64, deed: Deed) -> Trial {
        self.trial(&format!("{words:x?} with {sp:x} and {ssp:x}"), words)
            .touches(ORDINARY, sp, self.size(), deed)
            .touches(shadow_kind(self.cpl), ssp, self.size(), deed)
    }

    /// A call or return with its bytes on the ordinary stack at the spot, the
    /// same where the shadow stack is not enabled, and one with those on the
    /// shadow stack there.
    pub(crate) fn on_either_stack(self, made: impl Fn(u64, u64) -> Trial) -> [Trial; 3] {
        let ordinary = Trial {
            kind: ORDINARY,
            ..made(self.at, SAFE_SHADOW + 0x808)
        };
        let mut alone = ordinary.clone().with(field::CET, 0);
        alone.name += ", not enabled,";
        alone.touches.truncate(1);
        alone.fields.retain(|(field, _)| *field != field::SSP);
        [ordinary, alone, made(SAFE_ORDINARY + 0x808, self.at)]
    }
}
