//! RSTORSSP: over to the shadow stack whose token is at an address.

use super::machine::{Machine, need_multiple};
use crate::address::Width;
use crate::fault::{Fault, Part};
use crate::memory::Size;

impl Machine<'_> {
    /// RSTORSSP.
    pub(super) fn rstorssp(&mut self, at: u64) -> Result<(), Fault> {
        self.need_shadow_stacks()?;
        need_multiple(at, Size::Eight)?;
        let token = self.load_shadow(Part::Token, Size::Eight, at)?;
        self.check_token(token, at)?;
        let previous = self.state.ssp + self.state.mode.mark() + 2;
        self.store_shadow(Part::NewToken, Size::Eight, at, previous)?;
        self.state.ssp = at;
        self.state.set_restored_flags(token / 4 % 2 == 1);
        Ok(())
    }

    /// What a token that was found at an address must fulfil.
    fn check_token(&self, token: u64, at: u64) -> Result<(), Fault> {
        let mode = self.state.mode;
        if token % 4 != mode.mark() {
            return Err(Fault::RestoreMark);
        }
        if !mode.width().holds(token) {
            return Err(Fault::RestoreHigh);
        }
        // The address in the token, with or without a gap of four bytes below
        // it, is where the token ends. This sum has 64 bits in every mode.
        let below = Width::Eight.minus(token - token % 2, 8);
        if below - below % 8 != at {
            return Err(Fault::RestorePlace);
        }
        Ok(())
    }
}
