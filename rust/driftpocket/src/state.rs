//! The state of the processor: ten numbers, any of them.

/// How many fields a state has.
pub const STATE_WORDS: usize = 10;

/// The carry flag among the bits of RFLAGS.
const CARRY: u64 = 1;

/// Bit 0 of U_CET and S_CET: shadow stacks are switched on.
const SH_STK_EN: u64 = 1;

/// The state of the processor.
///
/// Every number can be written down here. One that is out of its range is
/// answered by the library with refusal 5.
#[derive(Clone, Copy, Debug, Default, PartialEq, Eq)]
pub struct State {
    /// 0 for real or virtual-8086 mode, 1 for 32-bit protected or
    /// compatibility mode, 2 for 64-bit mode.
    pub mode: u64,
    /// The privilege level, 0 to 3; 3 is user code.
    pub cpl: u64,
    /// CR4.CET, 0 or 1.
    pub cet: u64,
    /// U_CET, any number: bit 0 is SH_STK_EN, bit 1 WR_SHSTK_EN, for CPL 3.
    pub ucet: u64,
    /// S_CET, any number: the same bits for CPL 0 to 2.
    pub scet: u64,
    /// The instruction pointer, below 2^32 unless the mode is 2.
    pub ip: u64,
    /// The stack pointer, below 2^32 unless the mode is 2.
    pub sp: u64,
    /// The shadow stack pointer, a multiple of 4, below 2^32 unless the mode
    /// is 2.
    pub ssp: u64,
    /// RFLAGS, any number.
    pub flags: u64,
    /// The code limit, below 2^32.
    pub limit: u64,
}

/// Where addresses and pointer sums start again at 0.
#[derive(Clone, Copy, Debug, PartialEq, Eq)]
pub enum Width {
    /// At 2^32: every mode but 2.
    Bits32,
    /// At 2^64: mode 2.
    Bits64,
}

impl Width {
    /// A number, reduced to this width.
    pub fn wrap(self, number: u64) -> u64 {
        match self {
            Width::Bits32 => number % (1 << 32),
            Width::Bits64 => number,
        }
    }
}

impl State {
    /// The ten fields, in the order that the library takes them.
    pub fn to_words(&self) -> [u64; STATE_WORDS] {
        [
            self.mode, self.cpl, self.cet, self.ucet, self.scet, self.ip, self.sp, self.ssp,
            self.flags, self.limit,
        ]
    }

    /// A state from the ten fields in that order.
    pub fn from_words(words: [u64; STATE_WORDS]) -> State {
        let [mode, cpl, cet, ucet, scet, ip, sp, ssp, flags, limit] = words;
        State {
            mode,
            cpl,
            cet,
            ucet,
            scet,
            ip,
            sp,
            ssp,
            flags,
            limit,
        }
    }

    /// Whether this is 64-bit mode.
    pub fn is_long(&self) -> bool {
        self.mode == 2
    }

    /// Whether shadow stacks are enabled: CR4.CET is 1 and SH_STK_EN is set in
    /// the register of this CPL.
    pub fn is_enabled(&self) -> bool {
        let register = if self.cpl == 3 { self.ucet } else { self.scet };
        self.cet == 1 && register & SH_STK_EN != 0
    }

    /// The carry flag.
    pub fn carry(&self) -> bool {
        self.flags & CARRY != 0
    }

    /// Where addresses start again at 0.
    pub fn width(&self) -> Width {
        if self.is_long() {
            Width::Bits64
        } else {
            Width::Bits32
        }
    }

    /// The address after an instruction of this length.
    pub fn next(&self, length: u64) -> u64 {
        self.width().wrap(self.ip.wrapping_add(length))
    }
}

#[cfg(test)]
mod tests {
    use super::*;

    #[test]
    fn words_are_in_the_order_of_the_rules() {
        let state = State {
            mode: 2,
            cpl: 3,
            cet: 1,
            ucet: 4,
            scet: 5,
            ip: 6,
            sp: 7,
            ssp: 8,
            flags: 9,
            limit: 10,
        };
        let words = [2, 3, 1, 4, 5, 6, 7, 8, 9, 10];
        assert_eq!(state.to_words(), words);
        assert_eq!(State::from_words(words), state);
        assert_eq!(State::default().to_words(), [0; STATE_WORDS]);
    }

    #[test]
    fn enabled_asks_the_register_of_the_level() {
        let user = State {
            cpl: 3,
            cet: 1,
            ucet: 1,
            ..State::default()
        };
        assert!(user.is_enabled());
        assert!(!State { cet: 0, ..user }.is_enabled());
        assert!(!State { cpl: 2, ..user }.is_enabled());
        assert!(!State { ucet: 2, ..user }.is_enabled());
        let supervisor = State {
            cpl: 0,
            ucet: 0,
            scet: 3,
            ..user
        };
        assert!(supervisor.is_enabled());
    }

    #[test]
    fn next_wraps_with_the_mode() {
        let at = |mode, ip| State {
            mode,
            ip,
            ..State::default()
        };
        assert_eq!(at(2, u64::MAX).next(2), 1);
        assert_eq!(at(2, 0xffff_ffff).next(2), 0x1_0000_0001);
        assert_eq!(at(1, 0xffff_ffff).next(2), 1);
        assert_eq!(at(0, 0xffff_ffff).next(1), 0);
    }
}
