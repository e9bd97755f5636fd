//! Instructions: four words each, any of them.

use std::fmt;

/// How many words an instruction has.
pub const INSTRUCTION_WORDS: usize = 4;

/// How many instructions a run has at most. More are refusal 7.
pub const MOST_INSTRUCTIONS: usize = 1024;

/// An instruction.
///
/// Every number can be written down here. One that breaks the form of its code
/// is answered by the library with refusal 6.
#[derive(Clone, Copy, Debug, Default, PartialEq, Eq)]
pub struct Instruction {
    /// What it does: 1 to 12.
    pub code: u64,
    /// How many bytes it has: 1 to 15.
    pub length: u64,
    /// The first operand, or 0.
    pub a: u64,
    /// The second operand, or 0.
    pub b: u64,
}

/// The codes of the rules.
pub(crate) mod code {
    pub const INCSSPD: u64 = 1;
    pub const INCSSPQ: u64 = 2;
    pub const RSTORSSP: u64 = 3;
    pub const SAVEPREVSSP: u64 = 4;
    pub const WRSSD: u64 = 5;
    pub const WRSSQ: u64 = 6;
    pub const CALL_RELATIVE: u64 = 7;
    pub const CALL_ABSOLUTE: u64 = 8;
    pub const RET: u64 = 9;
    pub const RET_COUNT: u64 = 10;
    pub const WRUSSD: u64 = 11;
    pub const WRUSSQ: u64 = 12;
}

impl Instruction {
    /// INCSSPD: drops elements of 4 bytes. The low 8 bits of the count are
    /// used.
    pub fn incsspd(length: u64, count: u64) -> Instruction {
        Instruction::new(code::INCSSPD, length, 0, count)
    }

    /// INCSSPQ: drops elements of 8 bytes. The low 8 bits of the count are
    /// used.
    pub fn incsspq(length: u64, count: u64) -> Instruction {
        Instruction::new(code::INCSSPQ, length, 0, count)
    }

    /// RSTORSSP: goes to the shadow stack whose token is at this address.
    pub fn rstorssp(length: u64, address: u64) -> Instruction {
        Instruction::new(code::RSTORSSP, length, address, 0)
    }

    /// SAVEPREVSSP: leaves a token on the previous shadow stack.
    pub fn saveprevssp(length: u64) -> Instruction {
        Instruction::new(code::SAVEPREVSSP, length, 0, 0)
    }

    /// WRSSD: writes the low 4 bytes of a value to a shadow stack.
    pub fn wrssd(length: u64, address: u64, value: u64) -> Instruction {
        Instruction::new(code::WRSSD, length, address, value)
    }

    /// WRSSQ: writes the 8 bytes of a value to a shadow stack.
    pub fn wrssq(length: u64, address: u64, value: u64) -> Instruction {
        Instruction::new(code::WRSSQ, length, address, value)
    }

    /// CALL, so far from the next instruction, up or down. A call by 0
    /// makes no shadow frame.
    pub fn call_relative(length: u64, displacement: i32) -> Instruction {
        let word = u64::from(displacement.cast_unsigned());
        Instruction::new(code::CALL_RELATIVE, length, word, 0)
    }

    /// CALL to this address. It makes a shadow frame where one is enabled, also if
    /// the address is that of the next instruction.
    pub fn call_absolute(length: u64, target: u64) -> Instruction {
        Instruction::new(code::CALL_ABSOLUTE, length, target, 0)
    }

    /// RET to the address on top of the stack.
    pub fn ret(length: u64) -> Instruction {
        Instruction::new(code::RET, length, 0, 0)
    }

    /// RET that moves the stack pointer up by so many bytes besides the return
    /// address.
    pub fn ret_count(length: u64, bytes: u16) -> Instruction {
        Instruction::new(code::RET_COUNT, length, u64::from(bytes), 0)
    }

    /// WRUSSD: writes the low 4 bytes of a value to a shadow stack of user
    /// code, from CPL 0.
    pub fn wrussd(length: u64, address: u64, value: u64) -> Instruction {
        Instruction::new(code::WRUSSD, length, address, value)
    }

    /// WRUSSQ: writes the 8 bytes of a value to a shadow stack of user code,
    /// from CPL 0.
    pub fn wrussq(length: u64, address: u64, value: u64) -> Instruction {
        Instruction::new(code::WRUSSQ, length, address, value)
    }

    /// An instruction of these words.
    fn new(code: u64, length: u64, a: u64, b: u64) -> Instruction {
        Instruction { code, length, a, b }
    }

    /// The four words, in the order that the library takes them.
    pub fn to_words(&self) -> [u64; INSTRUCTION_WORDS] {
        [self.code, self.length, self.a, self.b]
    }

    /// An instruction from the four words in that order.
    pub fn from_words(words: [u64; INSTRUCTION_WORDS]) -> Instruction {
        let [code, length, a, b] = words;
        Instruction::new(code, length, a, b)
    }

    /// The name of the operation, or `unknown` if there is none of this code.
    pub fn mnemonic(&self) -> &'static str {
        match self.code {
            code::INCSSPD => "INCSSPD",
            code::INCSSPQ => "INCSSPQ",
            code::RSTORSSP => "RSTORSSP",
            code::SAVEPREVSSP => "SAVEPREVSSP",
            code::WRSSD => "WRSSD",
            code::WRSSQ => "WRSSQ",
            code::CALL_RELATIVE | code::CALL_ABSOLUTE => "CALL",
            code::RET | code::RET_COUNT => "RET",
            code::WRUSSD => "WRUSSD",
            code::WRUSSQ => "WRUSSQ",
            _ => "unknown",
        }
    }

    /// Whether this is a call that leaves a frame on the shadow stack where one is
    /// enabled: every call but a relative one with displacement 0.
    pub fn leaves_frame(&self) -> bool {
        match self.code {
            code::CALL_RELATIVE => self.a != 0,
            code::CALL_ABSOLUTE => true,
            _ => false,
        }
    }

    /// The displacement of a relative call, if A can hold one.
    fn displacement(&self) -> Option<i64> {
        let word = u32::try_from(self.a).ok()?;
        Some(i64::from(word.cast_signed()))
    }

    /// The operands in words, if the unused ones are 0.
    fn operands(&self) -> Option<String> {
        match (self.code, self.a, self.b) {
            (code::INCSSPD | code::INCSSPQ, 0, count) => Some(format!("count {count:#x}")),
            (code::RSTORSSP, address, 0) => Some(format!("{address:#x}")),
            (code::SAVEPREVSSP | code::RET, 0, 0) => Some(String::new()),
            (code::WRSSD | code::WRSSQ | code::WRUSSD | code::WRUSSQ, address, value) => {
                Some(format!("{value:#x} to {address:#x}"))
            }
            (code::CALL_RELATIVE, _, 0) => self.displacement().map(|by| {
                let sign = if by < 0 { '-' } else { '+' };
                format!("relative {sign}{:#x}", by.unsigned_abs())
            }),
            (code::CALL_ABSOLUTE, target, 0) => Some(format!("absolute {target:#x}")),
            (code::RET_COUNT, count @ 0..=0xffff, 0) => Some(format!("count {count:#x}")),
            _ => None,
        }
    }
}

/// The words of a list, one instruction after the other.
pub(crate) fn words_of(instructions: &[Instruction]) -> Vec<u64> {
    let words = instructions.iter().flat_map(Instruction::to_words);
    words.collect()
}

/// The name with the operands. An instruction whose operands have no meaning is
/// shown by its words.
impl fmt::Display for Instruction {
    fn fmt(&self, out: &mut fmt::Formatter<'_>) -> fmt::Result {
        let name = self.mnemonic();
        match self.operands() {
            Some(operands) if operands.is_empty() => out.write_str(name),
            Some(operands) => write!(out, "{name} {operands}"),
            None => {
                let Instruction { code, a, b, .. } = self;
                write!(out, "{name} (code {code}, A {a:#x}, B {b:#x})")
            }
        }
    }
}

#[cfg(test)]
mod tests {
    use super::*;

    #[test]
    fn words_of_each_operation() {
        let cases = [
            (Instruction::incsspd(4, 9), [1, 4, 0, 9]),
            (Instruction::incsspq(5, 0x103), [2, 5, 0, 0x103]),
            (Instruction::rstorssp(5, 0x2ff0), [3, 5, 0x2ff0, 0]),
            (Instruction::saveprevssp(4), [4, 4, 0, 0]),
            (Instruction::wrssd(6, 0x2ff4, 7), [5, 6, 0x2ff4, 7]),
            (Instruction::wrssq(7, 0x2ff8, 8), [6, 7, 0x2ff8, 8]),
            (Instruction::call_relative(5, 0x10), [7, 5, 0x10, 0]),
            (Instruction::call_relative(5, -1), [7, 5, 0xffff_ffff, 0]),
            (Instruction::call_relative(5, i32::MIN), [7, 5, 1 << 31, 0]),
            (Instruction::call_absolute(2, 0x1234), [8, 2, 0x1234, 0]),
            (Instruction::ret(1), [9, 1, 0, 0]),
            (Instruction::ret_count(3, 0), [10, 3, 0, 0]),
            (Instruction::ret_count(3, u16::MAX), [10, 3, 0xffff, 0]),
            (Instruction::wrussd(6, 0x2ff4, 7), [11, 6, 0x2ff4, 7]),
            (Instruction::wrussq(7, 0x2ff8, 8), [12, 7, 0x2ff8, 8]),
        ];
        for (instruction, words) in cases {
            assert_eq!(instruction.to_words(), words);
            assert_eq!(Instruction::from_words(words), instruction);
        }
    }

    #[test]
    fn texts() {
        let cases = [
            (Instruction::incsspd(4, 9), "INCSSPD count 0x9"),
            (Instruction::incsspq(5, 0x103), "INCSSPQ count 0x103"),
            (Instruction::rstorssp(5, 0x2ff0), "RSTORSSP 0x2ff0"),
            (Instruction::saveprevssp(4), "SAVEPREVSSP"),
            (Instruction::wrssd(6, 0x2ff4, 7), "WRSSD 0x7 to 0x2ff4"),
            (Instruction::wrssq(6, 0x2ff8, 7), "WRSSQ 0x7 to 0x2ff8"),
            (Instruction::call_relative(5, 0), "CALL relative +0x0"),
            (Instruction::call_relative(5, 16), "CALL relative +0x10"),
            (Instruction::call_relative(5, -16), "CALL relative -0x10"),
            (
                Instruction::call_relative(5, i32::MIN),
                "CALL relative -0x80000000",
            ),
            (
                Instruction::call_absolute(2, 0x1234),
                "CALL absolute 0x1234",
            ),
            (Instruction::ret(1), "RET"),
            (Instruction::ret_count(3, 0x10), "RET count 0x10"),
            (Instruction::ret_count(3, u16::MAX), "RET count 0xffff"),
            (Instruction::wrussd(6, 0x2ff4, 7), "WRUSSD 0x7 to 0x2ff4"),
            (Instruction::wrussq(7, 0x2ff8, 7), "WRUSSQ 0x7 to 0x2ff8"),
        ];
        for (instruction, text) in cases {
            assert_eq!(instruction.to_string(), text);
        }
    }

    #[test]
    fn texts_of_words_without_a_meaning() {
        let cases = [
            (
                Instruction::from_words([4, 4, 1, 0]),
                "SAVEPREVSSP (code 4, A 0x1, B 0x0)",
            ),
            (
                Instruction::from_words([7, 5, 1 << 32, 0]),
                "CALL (code 7, A 0x100000000, B 0x0)",
            ),
            (
                Instruction::from_words([9, 1, 8, 0]),
                "RET (code 9, A 0x8, B 0x0)",
            ),
            (
                Instruction::from_words([10, 3, 1 << 16, 0]),
                "RET (code 10, A 0x10000, B 0x0)",
            ),
            (
                Instruction::from_words([13, 4, 0, 2]),
                "unknown (code 13, A 0x0, B 0x2)",
            ),
        ];
        for (instruction, text) in cases {
            assert_eq!(instruction.to_string(), text);
        }
    }
}
