//! What an instruction breaks that the library refuses by number 6, for a
//! person.
//!
//! This judges nothing. The refusal is the library's.

use crate::lines::KINDS;
use crate::reason::Reason;
use driftpocket::Instruction;

/// What is wrong with an instruction in this mode, by the fields of its line.
pub fn reason(instruction: &Instruction, mode: u64) -> Option<Reason> {
    let Instruction { code, length, a, b } = *instruction;
    let unused = "0, since this code does not use it";
    let narrow = "below 2^32, since the mode is 1";
    let wide = |operand: u64| operand >> 32 != 0;
    let tests = [
        (0, !(1..=12).contains(&code), "1 to 12"),
        (
            0,
            mode == 0 && matches!(code, 7..=10),
            "no call and no return, since the mode is 0",
        ),
        (
            0,
            mode == 1 && matches!(code, 2 | 6 | 12),
            "not 2, 6 or 12, since the mode is 1",
        ),
        (1, !(1..=15).contains(&length), "1 to 15"),
        (2, matches!(code, 1 | 2 | 4 | 9) && a != 0, unused),
        (3, matches!(code, 3 | 4 | 7..=10) && b != 0, unused),
        (2, code == 7 && wide(a), "a displacement below 2^32"),
        (2, code == 10 && a >> 16 != 0, "a byte count below 2^16"),
        (2, mode == 1 && wide(a), narrow),
        (3, mode == 1 && wide(b), narrow),
    ];
    let (place, _, expected) = tests.into_iter().find(|(_, wrong, _)| *wrong)?;
    let [.., kind] = &KINDS;
    let value = instruction.to_words()[place];
    let found = format!("{} {value:#x}", kind.field(place));
    Some(Reason::new(found, expected))
}

#[cfg(test)]
mod tests {
    use super::*;
    use driftpocket::{Answer, PageList, Refusal, State, run};

    /// Whether the library refuses an instruction by number 6.
    fn is_refused(instruction: &Instruction, mode: u64) -> bool {
        let mut state = State {
            mode,
            ..State::default()
        };
        let list = std::slice::from_ref(instruction);
        let outcome = run(&mut state, &mut PageList::new(), list);
        outcome.answer == Answer::Refused(Refusal::Form)
    }

    #[test]
    fn there_is_a_reason_exactly_where_the_library_refuses() {
        let operands = [0, 1, 0xffff, 0x1_0000, 0xffff_ffff, 1 << 32, u64::MAX];
        let lengths = [0, 1, 15, 16, u64::MAX];
        let mut refused = 0;
        for case in 0..3 * 15 * 5 * 7 * 7_usize {
            let (mode, rest) = ((case % 3) as u64, case / 3);
            let (code, rest) = ((rest % 15) as u64, rest / 15);
            let (length, rest) = (lengths[rest % 5], rest / 5);
            let (a, b) = (operands[rest % 7], operands[rest / 7]);
            let instruction = Instruction::from_words([code, length, a, b]);
            let is_refused = is_refused(&instruction, mode);
            let reason = reason(&instruction, mode);
            assert_eq!(reason.is_some(), is_refused, "{instruction:?}, mode {mode}");
            refused += usize::from(is_refused);
        }
        assert!(refused > 1000, "{refused}");
    }

    #[test]
    fn in_words() {
        let said = |words, mode| {
            let reason = reason(&Instruction::from_words(words), mode).unwrap();
            format!("{}; {}", reason.found, reason.expected)
        };
        assert_eq!(said([13, 1, 0, 0], 2), "field 2 (code) 0xd; 1 to 12");
        assert_eq!(said([4, 16, 0, 0], 2), "field 3 (length) 0x10; 1 to 15");
        assert_eq!(
            said([3, 5, 8, 7], 2),
            "field 5 (B) 0x7; 0, since this code does not use it"
        );
        assert_eq!(
            said([5, 5, 1 << 32, 0], 1),
            "field 4 (A) 0x100000000; below 2^32, since the mode is 1"
        );
    }

    #[test]
    fn returns_and_user_writes_in_words() {
        let said = |words, mode| {
            let reason = reason(&Instruction::from_words(words), mode).unwrap();
            format!("{}; {}", reason.found, reason.expected)
        };
        assert_eq!(
            said([10, 3, 1 << 16, 0], 2),
            "field 4 (A) 0x10000; a byte count below 2^16"
        );
        assert_eq!(
            said([9, 1, 8, 0], 2),
            "field 4 (A) 0x8; 0, since this code does not use it"
        );
        assert_eq!(
            said([9, 1, 0, 0], 0),
            "field 2 (code) 0x9; no call and no return, since the mode is 0"
        );
        assert_eq!(
            said([12, 7, 0x2ff8, 0], 1),
            "field 2 (code) 0xc; not 2, 6 or 12, since the mode is 1"
        );
    }
}
