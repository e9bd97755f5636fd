//! What the operations share: the checks and accesses that more than one of them
//! makes, on a state and a memory in the midst of an operation.

use crate::address::is_canonical;
use crate::fault::{Fault, Part};
use crate::memory::{Access, Size};
use crate::pages::Kind;
use crate::processor::{Mode, State};
use crate::transaction::Transaction;

/// A state and a memory in the midst of an operation. If it faults, both are
/// dropped.
pub(super) struct Machine<'memory> {
    pub(super) state: State,
    pub(super) memory: Transaction<'memory>,
}

impl Machine<'_> {
    /// The first check of the operations that need shadow stacks.
    pub(super) fn need_shadow_stacks(&self) -> Result<(), Fault> {
        if self.state.mode == Mode::Real {
            return Err(Fault::RealMode);
        }
        if !self.state.is_enabled() {
            return Err(Fault::NotEnabled);
        }
        Ok(())
    }

    /// SSP moved up by so many elements of a size.
    pub(super) fn along(&self, size: Size, elements: i128) -> u64 {
        let exact = i128::from(self.state.ssp) + size.bytes() * elements;
        self.state.mode.width().reduce(exact)
    }

    /// An access to the shadow stacks of the privilege level.
    pub(super) fn shadow(&self, size: Size, first: u64) -> Access {
        Access {
            kind: self.state.shadow_kind(),
            width: self.state.mode.width(),
            canonical: self.state.mode.is_long(),
            size,
            first,
        }
    }

    /// Loads from a shadow stack.
    pub(super) fn load_shadow(&self, part: Part, size: Size, first: u64) -> Result<u64, Fault> {
        self.load(part, &self.shadow(size, first))
    }

    /// Stores to a shadow stack.
    pub(super) fn store_shadow(
        &mut self,
        part: Part,
        size: Size,
        first: u64,
        value: u64,
    ) -> Result<(), Fault> {
        self.store(part, &self.shadow(size, first), value)
    }

    /// Loads at SSP and moves it up.
    pub(super) fn pop_shadow(&mut self, part: Part, size: Size) -> Result<u64, Fault> {
        let value = self.load_shadow(part, size, self.state.ssp)?;
        self.state.ssp = self.along(size, 1);
        Ok(value)
    }

    /// An access to the ordinary stack, or one of two faults if it has bytes
    /// where no ordinary stack can be: the first if they are not canonical in
    /// 64-bit mode, the second if they run past the end of memory elsewhere.
    pub(super) fn ordinary(
        &self,
        size: Size,
        first: u64,
        outside: [Fault; 2],
    ) -> Result<Access, Fault> {
        let [not_canonical, past_end] = outside;
        let mode = self.state.mode;
        let access = Access {
            kind: Kind::Ordinary,
            width: mode.width(),
            canonical: false,
            size,
            first,
        };
        if mode.is_long() {
            if !access.addresses().into_iter().all(is_canonical) {
                return Err(not_canonical);
            }
        } else if i128::from(first) + size.bytes() > mode.width().modulus() {
            return Err(past_end);
        }
        Ok(access)
    }

    /// Loads, by name.
    pub(super) fn load(&self, part: Part, access: &Access) -> Result<u64, Fault> {
        let loaded = self.memory.load(access);
        loaded.map_err(|obstacle| Fault::of_access(part, obstacle))
    }

    /// Stores, by name.
    pub(super) fn store(&mut self, part: Part, access: &Access, value: u64) -> Result<(), Fault> {
        let stored = self.memory.store(access, value);
        stored.map_err(|obstacle| Fault::of_access(part, obstacle))
    }

    /// The size of a return address, on either stack.
    pub(super) fn return_size(&self) -> Size {
        if self.state.mode.is_long() {
            Size::Eight
        } else {
            Size::Four
        }
    }

    /// Whether code may lie at the target of a call or return.
    pub(super) fn check_target(&self, target: u64) -> Result<(), Fault> {
        if self.state.mode.is_long() {
            if !is_canonical(target) {
                return Err(Fault::TargetNotCanonical);
            }
        } else if target > self.state.code_limit {
            return Err(Fault::TargetAboveLimit);
        }
        Ok(())
    }
}

/// Makes sure that an address is a multiple of a size.
pub(super) fn need_multiple(address: u64, size: Size) -> Result<(), Fault> {
    if i128::from(address) % size.bytes() != 0 {
        return Err(Fault::Misaligned);
    }
    Ok(())
}
