//! WRSS: a plain write to a shadow stack.

use super::machine::{Machine, need_multiple};
use crate::fault::{Fault, Part};
use crate::memory::Size;

impl Machine<'_> {
    /// WRSS.
    pub(super) fn wrss(&mut self, size: Size, at: u64, value: u64) -> Result<(), Fault> {
        self.need_shadow_stacks()?;
        if !self.state.controls().shadow_writes() {
            return Err(Fault::WritesNotPermitted);
        }
        need_multiple(at, size)?;
        self.store_shadow(Part::Value, size, at, value)
    }
}
