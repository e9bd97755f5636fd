//! Faults: why an operation can't be done, and what is reported of it.
//!
//! Inside this program a fault keeps its reason, which says more than the
//! vector that is reported, so that tests can tell reasons apart.

use crate::memory::Obstacle;

/// The vector of a fault.
#[derive(Clone, Copy, Debug, PartialEq, Eq, PartialOrd, Ord)]
pub enum Vector {
    /// #UD, 6.
    InvalidOpcode,
    /// #SS, 12.
    Stack,
    /// #GP, 13.
    Protection,
    /// #PF, 14.
    Page,
    /// #CP, 21.
    ControlProtection,
}

impl Vector {
    /// The number of this vector.
    pub fn number(self) -> u64 {
        match self {
            Vector::InvalidOpcode => 6,
            Vector::Stack => 12,
            Vector::Protection => 13,
            Vector::Page => 14,
            Vector::ControlProtection => 21,
        }
    }
}

/// The accesses that operations make, each with a name of its own.
#[derive(Clone, Copy, Debug, PartialEq, Eq, PartialOrd, Ord)]
pub enum Part {
    /// The load at SSP that an increment always makes.
    FirstElement,
    /// The load of the last element that an increment drops.
    LastElement,
    /// The load of a token.
    Token,
    /// The load of the four bytes above a token.
    Gap,
    /// The store of four zero bytes on the previous shadow stack.
    Zeros,
    /// The store of a token.
    NewToken,
    /// The store of a value from a register.
    Value,
    /// The push on the ordinary stack.
    OrdinaryPush,
    /// The push on the shadow stack.
    ShadowPush,
    /// The pop of a return address off the ordinary stack.
    OrdinaryPop,
    /// The pop of a return address off the shadow stack.
    ShadowPop,
    /// The store of a value to a shadow stack of user code.
    UserValue,
}

/// Why an operation can't be done.
#[derive(Clone, Copy, Debug, PartialEq, Eq, PartialOrd, Ord)]
pub enum Fault {
    /// The operation does not exist in real or virtual-8086 mode.
    RealMode,
    /// Shadow stacks are not enabled.
    NotEnabled,
    /// Plain writes to shadow stacks are not permitted.
    WritesNotPermitted,
    /// CR4.CET is 0, which is all that a write for user code asks for first.
    CetIsOff,
    /// Code of this level may not write for user code.
    LevelAboveZero,
    /// An address is not a multiple of what it must be one of.
    Misaligned,
    /// A shadow access has a byte that is not canonical.
    ShadowNotCanonical(Part),
    /// The token to restore has wrong bits at its low end.
    RestoreMark,
    /// The token to restore has more than 32 bits outside 64-bit mode.
    RestoreHigh,
    /// The token to restore belongs to another place.
    RestorePlace,
    /// The carry flag promises a gap, but 64-bit mode knows none.
    GapInLongMode,
    /// The gap above the token is not zero.
    GapNotZero,
    /// The token is not one of a previous pointer.
    PreviousMark,
    /// The token of the previous pointer has more than 32 bits outside 64-bit
    /// mode.
    PreviousHigh,
    /// The target of a call or return is not canonical.
    TargetNotCanonical,
    /// The target of a call or return lies above the code limit.
    TargetAboveLimit,
    /// The ordinary push has a byte that is not canonical.
    PushNotCanonical,
    /// The ordinary push does not end at or below 2^32.
    PushPastEnd,
    /// The ordinary pop has a byte that is not canonical.
    PopNotCanonical,
    /// The ordinary pop does not end at or below 2^32.
    PopPastEnd,
    /// The two stacks hold different return addresses.
    ReturnsDiffer,
    /// An access has no right page at this address.
    Page(Part, u64),
}

impl Fault {
    /// The fault of an access that met an obstacle.
    pub fn of_access(part: Part, obstacle: Obstacle) -> Fault {
        match obstacle {
            Obstacle::NotCanonical => Fault::ShadowNotCanonical(part),
            Obstacle::NoPage(address) | Obstacle::WrongKind(address) => Fault::Page(part, address),
        }
    }

    /// The vector that is reported.
    pub fn vector(&self) -> Vector {
        match self {
            Fault::RealMode | Fault::NotEnabled | Fault::WritesNotPermitted | Fault::CetIsOff => {
                Vector::InvalidOpcode
            }
            Fault::RestoreMark
            | Fault::RestoreHigh
            | Fault::RestorePlace
            | Fault::ReturnsDiffer => Vector::ControlProtection,
            Fault::PushNotCanonical
            | Fault::PushPastEnd
            | Fault::PopNotCanonical
            | Fault::PopPastEnd => Vector::Stack,
            Fault::Page(..) => Vector::Page,
            Fault::LevelAboveZero
            | Fault::Misaligned
            | Fault::ShadowNotCanonical(_)
            | Fault::GapInLongMode
            | Fault::GapNotZero
            | Fault::PreviousMark
            | Fault::PreviousHigh
            | Fault::TargetNotCanonical
            | Fault::TargetAboveLimit => Vector::Protection,
        }
    }

    /// The error code that is reported.
    pub fn error_code(&self) -> u64 {
        match self {
            Fault::ReturnsDiffer => 1,
            Fault::RestoreMark | Fault::RestoreHigh | Fault::RestorePlace => 4,
            _ => 0,
        }
    }

    /// The address that is reported.
    pub fn address(&self) -> u64 {
        match self {
            Fault::Page(_, address) => *address,
            _ => 0,
        }
    }
}

#[cfg(test)]
mod tests {
    use super::*;

    #[test]
    fn the_faults_that_no_sheet_has() {
        for (fault, vector, error_code) in [
            (Fault::NotEnabled, 6, 0),
            (Fault::PushNotCanonical, 12, 0),
            (Fault::PushPastEnd, 12, 0),
            (Fault::PreviousHigh, 13, 0),
            (Fault::RestoreHigh, 21, 4),
            (Fault::RestorePlace, 21, 4),
        ] {
            assert_eq!(fault.vector().number(), vector, "{fault:?}");
            assert_eq!(fault.error_code(), error_code, "{fault:?}");
            assert_eq!(fault.address(), 0, "{fault:?}");
        }
    }

    #[test]
    fn an_access_keeps_the_name_of_its_part() {
        for (obstacle, wanted) in [
            (Obstacle::NotCanonical, Fault::ShadowNotCanonical(Part::Gap)),
            (Obstacle::NoPage(8), Fault::Page(Part::Gap, 8)),
            (Obstacle::WrongKind(8), Fault::Page(Part::Gap, 8)),
        ] {
            assert_eq!(Fault::of_access(Part::Gap, obstacle), wanted);
        }
    }
}
