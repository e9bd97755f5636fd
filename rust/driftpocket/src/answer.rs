//! Answers: completed, a refusal or a fault, in numbers and in words.

use std::fmt;

/// How many words a report has.
pub const REPORT_WORDS: usize = 5;

/// What the library adds to a vector when it answers with a fault.
const FAULT: u64 = 256;

/// The error code of RET's #CP.
const NEAR_RET: u64 = 1;

/// The error code of RSTORSSP's #CP.
const RSTORSSP: u64 = 4;

/// Why the input, or an instruction, was sent back.
#[derive(Clone, Copy, Debug, PartialEq, Eq)]
pub enum Refusal {
    /// 1: more than 16 pages, or not 4,096 bytes for each.
    PageCount = 1,
    /// 2: a page of a kind that does not exist.
    PageKind = 2,
    /// 3: a page address that is not canonical.
    PageAddress = 3,
    /// 4: a page that is listed twice.
    PageRepeated = 4,
    /// 5: a field of the state that is out of its range.
    State = 5,
    /// 6: an instruction that breaks its form, or that its mode does not allow.
    Form = 6,
    /// 7: a word count that is no multiple of 4, or more than 1,024
    /// instructions.
    Words = 7,
    /// 8: too little room for the result.
    Room = 8,
    /// 9: a text that is no run sheet.
    Sheet = 9,
}

impl Refusal {
    /// All refusals, in the order of their numbers.
    pub const ALL: [Refusal; 9] = [
        Refusal::PageCount,
        Refusal::PageKind,
        Refusal::PageAddress,
        Refusal::PageRepeated,
        Refusal::State,
        Refusal::Form,
        Refusal::Words,
        Refusal::Room,
        Refusal::Sheet,
    ];

    /// The number of this refusal.
    pub fn number(self) -> u64 {
        self as u64
    }

    /// The refusal of this number.
    pub fn from_number(number: u64) -> Option<Refusal> {
        Refusal::ALL.into_iter().find(|one| one.number() == number)
    }

    /// What is wrong, in words.
    pub fn description(self) -> &'static str {
        match self {
            Refusal::PageCount => "there are more than 16 pages, or not 4,096 bytes for each",
            Refusal::PageKind => "a page's kind is none of 1, 2, 3",
            Refusal::PageAddress => "a page's address is not canonical",
            Refusal::PageRepeated => "a page is listed twice",
            Refusal::State => "a field of the state is out of its range",
            Refusal::Form => "the instruction breaks its form",
            Refusal::Words => {
                "the words are no multiple of 4, or there are more than 1,024 instructions"
            }
            Refusal::Room => "there is too little room for the result",
            Refusal::Sheet => "the text is no run sheet",
        }
    }
}

impl fmt::Display for Refusal {
    fn fmt(&self, out: &mut fmt::Formatter<'_>) -> fmt::Result {
        write!(out, "refusal {}: {}", self.number(), self.description())
    }
}

/// The vector of a fault.
#[derive(Clone, Copy, Debug, PartialEq, Eq)]
pub enum Vector {
    /// 6, #UD: invalid opcode.
    InvalidOpcode = 6,
    /// 12, #SS: stack fault.
    Stack = 12,
    /// 13, #GP: general protection.
    Protection = 13,
    /// 14, #PF: page fault.
    Page = 14,
    /// 21, #CP: control protection.
    ControlProtection = 21,
}

impl Vector {
    /// All vectors, in the order of their numbers.
    pub const ALL: [Vector; 5] = [
        Vector::InvalidOpcode,
        Vector::Stack,
        Vector::Protection,
        Vector::Page,
        Vector::ControlProtection,
    ];

    /// The number of this vector.
    pub fn number(self) -> u64 {
        self as u64
    }

    /// The vector of this number.
    pub fn from_number(number: u64) -> Option<Vector> {
        Vector::ALL.into_iter().find(|one| one.number() == number)
    }

    /// Its short name, as `#PF`.
    pub fn name(self) -> &'static str {
        match self {
            Vector::InvalidOpcode => "#UD",
            Vector::Stack => "#SS",
            Vector::Protection => "#GP",
            Vector::Page => "#PF",
            Vector::ControlProtection => "#CP",
        }
    }

    /// What it means, in words.
    pub fn description(self) -> &'static str {
        match self {
            Vector::InvalidOpcode => "invalid opcode",
            Vector::Stack => "stack fault",
            Vector::Protection => "general protection",
            Vector::Page => "page fault",
            Vector::ControlProtection => "control protection",
        }
    }
}

impl fmt::Display for Vector {
    fn fmt(&self, out: &mut fmt::Formatter<'_>) -> fmt::Result {
        out.write_str(self.name())
    }
}

/// A fault of an instruction.
#[derive(Clone, Copy, Debug, PartialEq, Eq)]
pub struct Fault {
    /// Its vector.
    pub vector: Vector,
    /// 1 for RET's #CP, 4 for RSTORSSP's, otherwise 0.
    pub error_code: u64,
    /// For #PF the address of the first byte that could not be reached,
    /// otherwise 0.
    pub address: u64,
}

impl fmt::Display for Fault {
    fn fmt(&self, out: &mut fmt::Formatter<'_>) -> fmt::Result {
        let (name, code, address) = (self.vector.name(), self.error_code, self.address);
        match (self.vector, code) {
            (Vector::InvalidOpcode, _) => out.write_str(name),
            (Vector::Stack | Vector::Protection, 0) => write!(out, "{name}(0)"),
            (Vector::Stack | Vector::Protection, _) => write!(out, "{name}({code:#x})"),
            (Vector::Page, 0) => write!(out, "{name} at {address:#x}"),
            (Vector::Page, _) => write!(out, "{name} at {address:#x}, error code {code:#x}"),
            (Vector::ControlProtection, NEAR_RET) => {
                write!(out, "{name}(NEAR-RET), error code {code}")
            }
            (Vector::ControlProtection, RSTORSSP) => {
                write!(out, "{name}(RSTORSSP), error code {code}")
            }
            (Vector::ControlProtection, _) => write!(out, "{name}, error code {code}"),
        }
    }
}

/// How a run ended.
#[derive(Clone, Copy, Debug, PartialEq, Eq)]
pub enum Answer {
    /// Every instruction completed.
    Completed,
    /// The input, or an instruction, was sent back.
    Refused(Refusal),
    /// An instruction faulted.
    Faulted(Fault),
    /// A number that this crate does not know. It was linked with a library of
    /// another version.
    Unknown(u64),
}

impl Answer {
    /// Whether every instruction completed.
    pub fn is_completed(&self) -> bool {
        matches!(self, Answer::Completed)
    }

    /// The number that the library answers with: 0, the refusal, or 256 plus
    /// the vector of the fault.
    pub fn number(&self) -> u64 {
        match self {
            Answer::Completed => 0,
            Answer::Refused(refusal) => refusal.number(),
            Answer::Faulted(fault) => FAULT + fault.vector.number(),
            Answer::Unknown(number) => *number,
        }
    }

    /// The answer of the library, which must say the same in its report.
    fn read(number: u64, report: [u64; REPORT_WORDS]) -> Answer {
        let [_, refusal, vector, error_code, address] = report;
        let known = match (number, refusal, vector) {
            (0, 0, 0) => Some(Answer::Completed),
            (_, _, 0) if number == refusal => Refusal::from_number(number).map(Answer::Refused),
            (_, 0, _) if number.checked_sub(FAULT) == Some(vector) => Vector::from_number(vector)
                .map(|vector| {
                    Answer::Faulted(Fault {
                        vector,
                        error_code,
                        address,
                    })
                }),
            _ => None,
        };
        known.unwrap_or(Answer::Unknown(number))
    }
}

impl fmt::Display for Answer {
    fn fmt(&self, out: &mut fmt::Formatter<'_>) -> fmt::Result {
        match self {
            Answer::Completed => out.write_str("completed"),
            Answer::Refused(refusal) => refusal.fmt(out),
            Answer::Faulted(fault) => fault.fmt(out),
            Answer::Unknown(number) => write!(out, "unknown answer {number}"),
        }
    }
}

/// What a run came to.
#[derive(Clone, Copy, Debug, PartialEq, Eq)]
pub struct Outcome {
    /// How many instructions completed.
    pub count: usize,
    /// How the run ended.
    pub answer: Answer,
}

impl Outcome {
    /// The outcome from the library's answer and its report.
    pub(crate) fn read(number: u64, report: [u64; REPORT_WORDS]) -> Outcome {
        Outcome {
            count: usize::try_from(report[0]).unwrap_or(usize::MAX),
            answer: Answer::read(number, report),
        }
    }
}

impl fmt::Display for Outcome {
    fn fmt(&self, out: &mut fmt::Formatter<'_>) -> fmt::Result {
        match self.answer {
            Answer::Completed => write!(out, "{} completed", self.count),
            answer => write!(out, "{} completed, then {answer}", self.count),
        }
    }
}

#[cfg(test)]
mod tests {
    use super::*;

    /// A fault.
    fn fault(vector: Vector, error_code: u64, address: u64) -> Fault {
        Fault {
            vector,
            error_code,
            address,
        }
    }

    #[test]
    fn numbers() {
        let numbers = Refusal::ALL.map(Refusal::number);
        assert_eq!(numbers, [1, 2, 3, 4, 5, 6, 7, 8, 9]);
        assert_eq!(Vector::ALL.map(Vector::number), [6, 12, 13, 14, 21]);
        for number in 0..300 {
            let refusal = Refusal::from_number(number);
            assert_eq!(refusal.is_some(), (1..=9).contains(&number));
            assert!(refusal.is_none_or(|one| one.number() == number));
            let vector = Vector::from_number(number);
            assert!(vector.is_none_or(|one| one.number() == number));
        }
    }

    #[test]
    fn texts_of_faults() {
        let cases = [
            (fault(Vector::InvalidOpcode, 0, 0), "#UD"),
            (fault(Vector::Stack, 0, 0), "#SS(0)"),
            (fault(Vector::Protection, 0, 0), "#GP(0)"),
            (fault(Vector::Page, 0, 0x3000), "#PF at 0x3000"),
            (
                fault(Vector::ControlProtection, 1, 0),
                "#CP(NEAR-RET), error code 1",
            ),
            (
                fault(Vector::ControlProtection, 4, 0),
                "#CP(RSTORSSP), error code 4",
            ),
            (fault(Vector::ControlProtection, 2, 0), "#CP, error code 2"),
        ];
        for (fault, text) in cases {
            assert_eq!(fault.to_string(), text);
            assert_eq!(Answer::Faulted(fault).to_string(), text);
        }
    }

    #[test]
    fn texts_of_refusals_and_outcomes() {
        assert_eq!(
            Refusal::Form.to_string(),
            "refusal 6: the instruction breaks its form"
        );
        let outcome = |count, answer| Outcome { count, answer }.to_string();
        assert_eq!(outcome(2, Answer::Completed), "2 completed");
        assert_eq!(
            outcome(1, Answer::Faulted(fault(Vector::Protection, 0, 0))),
            "1 completed, then #GP(0)"
        );
        assert_eq!(
            outcome(0, Answer::Refused(Refusal::PageRepeated)),
            "0 completed, then refusal 4: a page is listed twice"
        );
        assert_eq!(
            outcome(0, Answer::Unknown(99)),
            "0 completed, then unknown answer 99"
        );
    }

    #[test]
    fn reports_are_read() {
        let read = |number, report| Outcome::read(number, report).answer;
        assert_eq!(Outcome::read(0, [7, 0, 0, 0, 0]).count, 7);
        assert_eq!(read(0, [7, 0, 0, 0, 0]), Answer::Completed);
        for refusal in Refusal::ALL {
            let number = refusal.number();
            let answer = read(number, [0, number, 0, 0, 0]);
            assert_eq!(answer, Answer::Refused(refusal));
            assert_eq!(answer.number(), number);
        }
        for vector in Vector::ALL {
            let number = vector.number();
            let answer = read(256 + number, [3, 0, number, 4, 5]);
            assert_eq!(answer, Answer::Faulted(fault(vector, 4, 5)));
            assert_eq!(answer.number(), 256 + number);
        }
    }

    #[test]
    fn what_does_not_fit_together_is_unknown() {
        let cases = [
            (0, [0, 1, 0, 0, 0]),
            (1, [0, 0, 0, 0, 0]),
            (1, [0, 2, 0, 0, 0]),
            (10, [0, 10, 0, 0, 0]),
            (256, [0, 0, 0, 0, 0]),
            (256 + 14, [0, 0, 13, 0, 0]),
            (256 + 7, [0, 0, 7, 0, 0]),
            (u64::MAX, [0; 5]),
        ];
        for (number, report) in cases {
            let answer = Outcome::read(number, report).answer;
            assert_eq!(answer, Answer::Unknown(number));
        }
    }
}
