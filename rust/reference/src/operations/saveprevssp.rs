//! SAVEPREVSSP: a token is left on the shadow stack before this one.

use super::machine::{Machine, need_multiple};
use crate::fault::{Fault, Part};
use crate::memory::Size;

impl Machine<'_> {
    /// SAVEPREVSSP. The token is popped before the carry flag is asked.
    pub(super) fn saveprevssp(&mut self) -> Result<(), Fault> {
        self.need_shadow_stacks()?;
        need_multiple(self.state.ssp, Size::Eight)?;
        let mode = self.state.mode;
        let token = self.pop_shadow(Part::Token, Size::Eight)?;
        if self.state.carry() {
            self.drop_gap()?;
        }
        if token / 2 % 2 == 0 {
            return Err(Fault::PreviousMark);
        }
        if !mode.width().holds(token) {
            return Err(Fault::PreviousHigh);
        }
        let old = token - token % 4;
        let zeros = mode.width().minus(old, 4);
        self.store_shadow(Part::Zeros, Size::Four, zeros, 0)?;
        let place = mode.width().minus(old - old % 8, 8);
        self.store_shadow(Part::NewToken, Size::Eight, place, old + mode.mark())
    }

    /// Pops the gap of four zero bytes that the carry flag promises.
    fn drop_gap(&mut self) -> Result<(), Fault> {
        if self.state.mode.is_long() {
            return Err(Fault::GapInLongMode);
        }
        match self.pop_shadow(Part::Gap, Size::Four)? {
            0 => Ok(()),
            _ => Err(Fault::GapNotZero),
        }
    }
}
