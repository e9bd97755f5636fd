//! WRUSS: the most privileged code writes to a shadow stack of user code.

use super::machine::{Machine, need_multiple};
use crate::fault::{Fault, Part};
use crate::memory::{Access, Size};
use crate::pages::Kind;
use crate::processor::Mode;

impl Machine<'_> {
    /// WRUSS. Of the control registers it asks nothing: neither that shadow
    /// stacks are on nor that plain writes are permitted.
    pub(super) fn wruss(&mut self, size: Size, at: u64, value: u64) -> Result<(), Fault> {
        if self.state.mode == Mode::Real {
            return Err(Fault::RealMode);
        }
        if !self.state.cet {
            return Err(Fault::CetIsOff);
        }
        if self.state.cpl > 0 {
            return Err(Fault::LevelAboveZero);
        }
        need_multiple(at, size)?;
        let access = Access {
            kind: Kind::UserShadow,
            ..self.shadow(size, at)
        };
        self.store(Part::UserValue, &access, value)
    }
}
