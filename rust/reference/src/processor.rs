//! The state of the processor: ten fields, their ranges, what follows from
//! them.

use crate::address::Width;
use crate::pages::Kind;

/// How many fields a state has.
pub const FIELDS: usize = 10;

/// The carry flag among the bits of RFLAGS.
const CARRY: u64 = 1;

/// The numbers of the other RFLAGS bits that a restored pointer clears:
/// parity, adjust, zero, sign and overflow.
const CLEARED: [u32; 5] = [2, 4, 6, 7, 11];

/// What the processor runs as.
#[derive(Clone, Copy, Debug, PartialEq, Eq)]
pub enum Mode {
    /// Number 0: real mode, or a virtual 8086.
    Real,
    /// Number 1: 32-bit protected mode, or compatibility mode.
    Protected,
    /// Number 2: 64-bit mode.
    Long,
}

impl Mode {
    /// The mode that has this number.
    pub fn from_number(number: u64) -> Option<Mode> {
        match number {
            0 => Some(Mode::Real),
            1 => Some(Mode::Protected),
            2 => Some(Mode::Long),
            _ => None,
        }
    }

    /// The number of this mode.
    pub fn number(self) -> u64 {
        match self {
            Mode::Real => 0,
            Mode::Protected => 1,
            Mode::Long => 2,
        }
    }

    /// Where addresses and sums of pointers start again at 0.
    pub fn width(self) -> Width {
        match self {
            Mode::Real | Mode::Protected => Width::Four,
            Mode::Long => Width::Eight,
        }
    }

    /// Whether this is 64-bit mode.
    pub fn is_long(self) -> bool {
        self == Mode::Long
    }

    /// The mark that tokens carry in their lowest bit: 1 in 64-bit mode.
    pub fn mark(self) -> u64 {
        u64::from(self.is_long())
    }
}

/// One of the registers U_CET and S_CET. Only its two lowest bits matter here.
#[derive(Clone, Copy, Debug, PartialEq, Eq)]
pub struct Controls(pub u64);

impl Controls {
    /// Bit 0: shadow stacks are switched on.
    pub fn shadow_stacks(self) -> bool {
        self.0 % 2 == 1
    }

    /// Bit 1: plain writes to shadow stacks are permitted.
    pub fn shadow_writes(self) -> bool {
        self.0 / 2 % 2 == 1
    }
}

/// A state whose fields are all in their ranges.
#[derive(Clone, Copy, Debug, PartialEq, Eq)]
pub struct State {
    /// What the processor runs as.
    pub(crate) mode: Mode,
    /// The privilege level, 0 to 3; 3 is user code.
    pub(crate) cpl: u64,
    /// CR4.CET.
    pub(crate) cet: bool,
    /// U_CET.
    pub(crate) user: Controls,
    /// S_CET.
    pub(crate) supervisor: Controls,
    /// The instruction pointer.
    pub(crate) ip: u64,
    /// The ordinary stack pointer.
    pub(crate) sp: u64,
    /// The shadow stack pointer, a multiple of 4.
    pub(crate) ssp: u64,
    /// RFLAGS.
    pub(crate) flags: u64,
    /// The highest address that code may have outside 64-bit mode.
    pub(crate) code_limit: u64,
}

impl State {
    /// Reads the ten fields in their order: mode, CPL, CR4.CET, U_CET, S_CET,
    /// IP, SP, SSP, RFLAGS, code limit. Nothing comes back if one of them is
    /// out of its range, which is refusal 5.
    pub fn read(fields: [u64; FIELDS]) -> Option<State> {
        let [
            mode,
            cpl,
            cet,
            user,
            supervisor,
            ip,
            sp,
            ssp,
            flags,
            code_limit,
        ] = fields;
        let mode = Mode::from_number(mode)?;
        let cet = match cet {
            0 => false,
            1 => true,
            _ => return None,
        };
        let pointers_fit = [ip, sp, ssp].iter().all(|&one| mode.width().holds(one));
        let limit_fits = Width::Four.holds(code_limit);
        if cpl > 3 || !pointers_fit || ssp % 4 != 0 || !limit_fits {
            return None;
        }
        Some(State {
            mode,
            cpl,
            cet,
            user: Controls(user),
            supervisor: Controls(supervisor),
            ip,
            sp,
            ssp,
            flags,
            code_limit,
        })
    }

    /// The ten fields as numbers, in their order.
    pub fn fields(&self) -> [u64; FIELDS] {
        [
            self.mode.number(),
            self.cpl,
            u64::from(self.cet),
            self.user.0,
            self.supervisor.0,
            self.ip,
            self.sp,
            self.ssp,
            self.flags,
            self.code_limit,
        ]
    }

    /// Whether user code runs.
    fn is_user(&self) -> bool {
        self.cpl == 3
    }

    /// The control register of the privilege level.
    pub fn controls(&self) -> Controls {
        if self.is_user() {
            self.user
        } else {
            self.supervisor
        }
    }

    /// The kind of page that shadow accesses reach.
    pub fn shadow_kind(&self) -> Kind {
        if self.is_user() {
            Kind::UserShadow
        } else {
            Kind::SupervisorShadow
        }
    }

    /// Whether shadow stacks are enabled.
    pub fn is_enabled(&self) -> bool {
        self.cet && self.controls().shadow_stacks()
    }

    /// Where the instruction after this one lies, if this one has so many
    /// bytes.
    pub fn next(&self, length: u64) -> u64 {
        self.mode.width().plus(self.ip, length)
    }

    /// The carry flag.
    pub fn carry(&self) -> bool {
        self.flags & CARRY != 0
    }

    /// Sets the carry flag as told and clears the five others that a restored
    /// pointer clears.
    pub(crate) fn set_restored_flags(&mut self, carry: bool) {
        let cleared: u64 = CLEARED.iter().map(|bit| 1 << bit).sum();
        self.flags &= !(cleared + CARRY);
        self.flags += u64::from(carry);
    }
}

#[cfg(test)]
mod tests {
    use super::*;

    /// A state that is good in every mode.
    const GOOD: [u64; FIELDS] = [2, 3, 1, 1, 0, 0x40_0000, 0x5010, 0x1ff0, 0x202, 0xffff];

    /// Whether the good state stays good with one field changed.
    fn is_good_with(mode: u64, field: usize, value: u64) -> bool {
        let mut fields = GOOD;
        fields[0] = mode;
        fields[field] = value;
        let state = State::read(fields);
        assert!(state.is_none_or(|state| state.fields() == fields));
        state.is_some()
    }

    /// The good state with some fields changed.
    fn state(changes: &[(usize, u64)]) -> State {
        let mut fields = GOOD;
        for &(field, value) in changes {
            fields[field] = value;
        }
        State::read(fields).unwrap()
    }

    #[test]
    fn the_ranges_that_do_not_depend_on_the_mode() {
        for mode in 0..3 {
            assert!(is_good_with(mode, 1, 0));
            assert!(is_good_with(mode, 1, 3));
            assert!(!is_good_with(mode, 1, 4));
            assert!(!is_good_with(mode, 1, u64::MAX));
            assert!(is_good_with(mode, 2, 0));
            assert!(!is_good_with(mode, 2, 2));
            assert!(is_good_with(mode, 3, u64::MAX));
            assert!(is_good_with(mode, 4, u64::MAX));
            assert!(is_good_with(mode, 8, u64::MAX));
            assert!(is_good_with(mode, 9, 0));
            assert!(is_good_with(mode, 9, 0xffff_ffff));
            assert!(!is_good_with(mode, 9, 0x1_0000_0000));
            for low in [1, 2, 3] {
                assert!(!is_good_with(mode, 7, 0x1ff0 + low));
            }
        }
        for mode in [3, 4, 1 << 32, u64::MAX] {
            assert!(!is_good_with(mode, 0, mode));
        }
    }

    #[test]
    fn pointers_have_32_bits_outside_mode_2() {
        for field in [5, 6, 7] {
            for mode in [0, 1] {
                assert!(is_good_with(mode, field, 0xffff_fffc));
                assert!(!is_good_with(mode, field, 0x1_0000_0000));
            }
            assert!(is_good_with(2, field, 0x1_0000_0000));
            assert!(is_good_with(2, field, 0x8000_0000_0000_0000));
            assert!(is_good_with(2, field, u64::MAX - 3));
        }
        assert!(is_good_with(2, 5, u64::MAX));
        assert!(is_good_with(2, 6, u64::MAX));
        assert!(!is_good_with(2, 7, u64::MAX));
    }

    #[test]
    fn enabled_asks_the_register_of_the_level() {
        for cpl in 0..4 {
            for user in 0..4 {
                for supervisor in 0..4 {
                    let own = if cpl == 3 { user } else { supervisor };
                    let on = state(&[(1, cpl), (3, user), (4, supervisor)]);
                    assert_eq!(on.is_enabled(), own == 1 || own == 3);
                    assert_eq!(on.controls().shadow_writes(), own == 2 || own == 3);
                    let off = state(&[(1, cpl), (2, 0), (3, user), (4, supervisor)]);
                    assert!(!off.is_enabled());
                }
            }
        }
        let others_set = state(&[(3, !3)]);
        assert!(!others_set.is_enabled());
        assert!(!others_set.controls().shadow_writes());
    }

    #[test]
    fn kinds_and_marks() {
        assert_eq!(state(&[(1, 3)]).shadow_kind(), Kind::UserShadow);
        for cpl in 0..3 {
            assert_eq!(state(&[(1, cpl)]).shadow_kind(), Kind::SupervisorShadow);
        }
        assert_eq!(
            [0, 1, 2].map(|mode| state(&[(0, mode)]).mode.mark()),
            [0, 0, 1]
        );
    }

    #[test]
    fn next_starts_again_with_the_mode() {
        assert_eq!(state(&[]).next(15), 0x40_000f);
        assert_eq!(state(&[(5, u64::MAX)]).next(1), 0);
        assert_eq!(state(&[(5, 0xffff_ffff)]).next(2), 0x1_0000_0001);
        for mode in [0, 1] {
            assert_eq!(state(&[(0, mode), (5, 0xffff_ffff)]).next(2), 1);
        }
    }

    #[test]
    fn restoring_touches_six_flags() {
        let mut all = state(&[(8, u64::MAX)]);
        assert!(all.carry());
        all.set_restored_flags(true);
        // Bits 11, 7, 6, 4 and 2 are gone: 800 + 80 + 40 + 10 + 4 = 8d4.
        assert_eq!(all.flags, 0xffff_ffff_ffff_f72b);
        assert!(all.carry());
        all.set_restored_flags(false);
        assert_eq!(all.flags, 0xffff_ffff_ffff_f72a);
        assert!(!all.carry());
        let mut none = state(&[(8, 0)]);
        none.set_restored_flags(false);
        assert_eq!(none.flags, 0);
        none.set_restored_flags(true);
        assert_eq!(none.flags, 1);
    }
}
