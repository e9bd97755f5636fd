//! The ways in which a run can end, as numbers.

use driftpocket_reference::runs::Ending;

/// The vector of #UD.
pub const UD: u64 = 6;
/// The vector of #SS.
pub const SS: u64 = 12;
/// The vector of #GP.
pub const GP: u64 = 13;
/// The vector of #PF.
pub const PF: u64 = 14;
/// The vector of #CP.
pub const CP: u64 = 21;

/// What the interface returns where the room for the report is too short and
/// nothing else is wrong.
pub const SHORT_REPORT: u64 = 8;

/// What the interface adds to a vector.
pub const FAULT: u64 = 256;

/// The answer of a run.
#[derive(Clone, Copy, Debug, PartialEq, Eq)]
pub struct Answer {
    /// The number of the refusal, or 0.
    pub refusal: u64,
    /// The vector of the fault, or 0.
    pub vector: u64,
    /// Its error code, or 0.
    pub error_code: u64,
    /// Its address, or 0.
    pub address: u64,
}

impl Answer {
    /// Every instruction was completed.
    pub const COMPLETED: Answer = Answer::fault(0);

    /// The control protection fault of RSTORSSP.
    pub const BAD_TOKEN: Answer = Answer {
        error_code: 4,
        ..Answer::fault(CP)
    };

    /// The control protection fault of RET.
    pub const BAD_RETURN: Answer = Answer {
        error_code: 1,
        ..Answer::fault(CP)
    };

    /// A fault without error code and address.
    pub const fn fault(vector: u64) -> Answer {
        Answer {
            refusal: 0,
            vector,
            error_code: 0,
            address: 0,
        }
    }

    /// A page fault.
    pub const fn page_fault(address: u64) -> Answer {
        Answer {
            address,
            ..Answer::fault(PF)
        }
    }

    /// A refusal.
    pub const fn refusal(number: u64) -> Answer {
        Answer {
            refusal: number,
            ..Answer::COMPLETED
        }
    }

    /// What the second program says.
    pub fn of(ending: &Ending) -> Answer {
        Answer {
            refusal: ending.refusal(),
            vector: ending.vector(),
            error_code: ending.error_code(),
            address: ending.address(),
        }
    }

    /// What the interface returns with this answer.
    pub fn returned(&self) -> u64 {
        match (self.refusal, self.vector) {
            (0, 0) => 0,
            (0, vector) => FAULT + vector,
            (refusal, _) => refusal,
        }
    }

    /// What the interface returns where the report is too short: a refusal that
    /// comes before any step, or else that there is no room.
    pub fn unreported(&self) -> u64 {
        match self.refusal {
            early @ (1..=5 | 7) => early,
            _ => SHORT_REPORT,
        }
    }

    /// The five words of the report with this answer.
    pub fn report(&self, count: u64) -> [u64; 5] {
        [
            count,
            self.refusal,
            self.vector,
            self.error_code,
            self.address,
        ]
    }
}
