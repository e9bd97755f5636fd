//! Near CALL: the address of the next instruction goes on both stacks.

use super::machine::Machine;
use crate::fault::{Fault, Part};
use crate::memory::Size;

/// Where a call goes.
#[derive(Clone, Copy, Debug, PartialEq, Eq)]
pub(super) enum Target {
    /// So far from the next instruction, up or down.
    Relative(i128),
    /// To this address.
    Absolute(u64),
}

impl Target {
    /// A displacement: a word of 32 bits in two's complement.
    pub(super) fn relative(word: u64) -> Option<Target> {
        let narrow = u32::try_from(word).ok()?;
        Some(Target::Relative(i128::from(narrow.cast_signed())))
    }

    /// Whether a call there leaves a frame on the shadow stack. A relative call
    /// of the next line is how code asks for its own address: that is taken off
    /// the ordinary stack, and no return ever comes for it. What counts is how
    /// the call is written, not where it goes.
    fn leaves_a_frame(self) -> bool {
        self != Target::Relative(0)
    }
}

impl Machine<'_> {
    /// Near CALL, with IP at the next instruction. Without a frame to leave, the
    /// shadow stack is not even looked at, and SSP may point anywhere.
    pub(super) fn call(&mut self, target: Target) -> Result<(), Fault> {
        let next = self.state.ip;
        let address = match target {
            Target::Absolute(address) => address,
            Target::Relative(by) => self.state.mode.width().reduce(i128::from(next) + by),
        };
        self.check_target(address)?;
        let size = self.return_size();
        self.push_ordinary(size, next)?;
        if self.state.is_enabled() && target.leaves_a_frame() {
            self.push_shadow(size, next)?;
        }
        self.state.ip = address;
        Ok(())
    }

    /// Moves SP down and stores there.
    fn push_ordinary(&mut self, size: Size, value: u64) -> Result<(), Fault> {
        let exact = i128::from(self.state.sp) - size.bytes();
        let first = self.state.mode.width().reduce(exact);
        let outside = [Fault::PushNotCanonical, Fault::PushPastEnd];
        let access = self.ordinary(size, first, outside)?;
        self.store(Part::OrdinaryPush, &access, value)?;
        self.state.sp = first;
        Ok(())
    }

    /// Moves SSP down and stores there.
    fn push_shadow(&mut self, size: Size, value: u64) -> Result<(), Fault> {
        self.state.ssp = self.along(size, -1);
        self.store_shadow(Part::ShadowPush, size, self.state.ssp, value)
    }
}
