//! Near RET: back to where the ordinary stack says, if the shadow stack says
//! the same.

use super::machine::Machine;
use crate::fault::{Fault, Part};
use crate::memory::Size;

/// The first count of bytes that is too large for RET: counts have 16 bits.
pub(super) const COUNTS: u64 = 1 << 16;

impl Machine<'_> {
    /// Near RET. The target is popped off the ordinary stack, then compared,
    /// then checked. The bytes that the count drops are not looked at.
    pub(super) fn ret(&mut self, count: u64) -> Result<(), Fault> {
        let size = self.return_size();
        let target = self.pop_ordinary(size)?;
        if self.state.is_enabled() && self.pop_shadow(Part::ShadowPop, size)? != target {
            return Err(Fault::ReturnsDiffer);
        }
        self.check_target(target)?;
        self.state.sp = self.state.mode.width().plus(self.state.sp, count);
        self.state.ip = target;
        Ok(())
    }

    /// Loads at SP and moves it up.
    fn pop_ordinary(&mut self, size: Size) -> Result<u64, Fault> {
        let outside = [Fault::PopNotCanonical, Fault::PopPastEnd];
        let access = self.ordinary(size, self.state.sp, outside)?;
        let value = self.load(Part::OrdinaryPop, &access)?;
        let exact = i128::from(self.state.sp) + size.bytes();
        self.state.sp = self.state.mode.width().reduce(exact);
        Ok(value)
    }
}
