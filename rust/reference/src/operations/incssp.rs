//! INCSSP: elements are dropped off the shadow stack.

use super::machine::Machine;
use crate::fault::{Fault, Part};
use crate::memory::Size;

impl Machine<'_> {
    /// INCSSP. Only the low 8 bits of the count are used, and the first element
    /// is loaded even if none is dropped.
    pub(super) fn incssp(&mut self, size: Size, count: u64) -> Result<(), Fault> {
        self.need_shadow_stacks()?;
        let range = i128::from(count % 256);
        self.load_shadow(Part::FirstElement, size, self.state.ssp)?;
        if range > 0 {
            let last = self.along(size, range - 1);
            self.load_shadow(Part::LastElement, size, last)?;
        }
        self.state.ssp = self.along(size, range);
        Ok(())
    }
}
