//! What a RET or a WRUSS did, or why it faulted, in words for a person, and why a
//! CALL left no frame.
//!
//! This judges nothing. Whether an instruction completed is the library's word.

use crate::steps::Step;
use crate::why;
use driftpocket::{Answer, PageList};

/// The account of a step, from the pages before it. There is none of other
/// operations, and none of what was sent back.
pub fn of(step: &Step, pages: &PageList) -> Vec<String> {
    match (step.instruction.mnemonic(), step.answer) {
        ("CALL", Answer::Completed) if step.before.is_enabled() => no_frame(step),
        ("RET", Answer::Completed) => vec![compared(step), moved(step)],
        ("WRUSSD" | "WRUSSQ", Answer::Completed) => {
            let cpl = step.before.cpl;
            vec![format!("stored as user code would, from CPL {cpl}")]
        }
        (_, Answer::Faulted(fault)) => {
            let reason = why::reason(&step.instruction, &step.before, pages);
            // A reason for another fault would explain nothing.
            let fitting = reason.filter(|reason| reason.fault == fault);
            let line = fitting.map(|reason| format!("why: {}", reason.words));
            line.into_iter().collect()
        }
        _ => Vec::new(),
    }
}

/// That a CALL left no frame where others do, if so.
fn no_frame(step: &Step) -> Vec<String> {
    match step.instruction.leaves_frame() {
        true => Vec::new(),
        false => vec!["no shadow frame: a call with displacement 0 makes none".to_string()],
    }
}

/// What a RET held its return address to.
fn compared(step: &Step) -> String {
    match step.accesses.as_slice() {
        [ordinary, _] => format!("compared: both return addresses are {:#x}", ordinary.value),
        _ => "not compared: shadow stacks are not enabled".to_string(),
    }
}

/// How far a RET moved the two pointers.
fn moved(step: &Step) -> String {
    let width = step.before.width();
    let up = |old: u64, new: u64| width.wrap(new.wrapping_sub(old));
    let stack = up(step.before.sp, step.after.sp);
    let shadow = match up(step.before.ssp, step.after.ssp) {
        0 => "SSP stays".to_string(),
        bytes => format!("SSP by {bytes}"),
    };
    let released = match step.instruction.a {
        0 => String::new(),
        count => format!(" ({count} of them by the count)"),
    };
    format!("popped: SP moves up by {stack} bytes{released}, {shadow}")
}

#[cfg(test)]
mod tests {
    use super::*;
    use crate::input::Run;
    use crate::steps;
    use driftpocket::{Fault, Instruction, Kind, Size, State, Vector};

    /// A run of one instruction, a return address being on both stacks.
    fn run(instruction: Instruction) -> Run {
        let mut pages = PageList::new();
        pages.push(0x1000, Kind::UserShadow).unwrap();
        pages.push(0x5000, Kind::Ordinary).unwrap();
        pages.write(0x1fe8, Size::Eight, 0x40_0005).unwrap();
        pages.write(0x5008, Size::Eight, 0x40_0005).unwrap();
        Run {
            title: String::new(),
            state: State {
                mode: 2,
                cpl: 3,
                cet: 1,
                ucet: 1,
                sp: 0x5008,
                ssp: 0x1fe8,
                limit: 0xffff_ffff,
                ..State::default()
            },
            pages,
            instructions: vec![instruction],
            lines_before: None,
        }
    }

    /// The account of its only step.
    fn account(run: &Run) -> Vec<String> {
        let replay = steps::replay(run);
        assert!(replay.is_sound(), "{:?}", replay.doubts);
        replay.steps[0].account.clone()
    }

    #[test]
    fn returns() {
        let mut one = run(Instruction::ret(1));
        let same = "compared: both return addresses are 0x400005";
        assert_eq!(
            account(&one),
            [same, "popped: SP moves up by 8 bytes, SSP by 8"]
        );
        one.state.mode = 1;
        assert_eq!(
            account(&one),
            [same, "popped: SP moves up by 4 bytes, SSP by 4"]
        );
        one.state.ucet = 2;
        assert_eq!(
            account(&one),
            [
                "not compared: shadow stacks are not enabled",
                "popped: SP moves up by 4 bytes, SSP stays"
            ]
        );
        let counted = account(&run(Instruction::ret_count(3, 16)));
        assert_eq!(
            counted[1],
            "popped: SP moves up by 24 bytes (16 of them by the count), SSP by 8"
        );
    }

    #[test]
    fn calls_of_the_next_line() {
        let mut one = run(Instruction::call_relative(5, 0));
        let wanted = "no shadow frame: a call with displacement 0 makes none";
        assert_eq!(account(&one), [wanted]);
        one.state.ssp = 1 << 47;
        assert_eq!(account(&one), [wanted]);
        one.state.ucet = 0;
        assert!(account(&one).is_empty());
        assert!(account(&run(Instruction::call_absolute(5, 5))).is_empty());
    }

    #[test]
    fn a_return_that_does_not_match() {
        let mut one = run(Instruction::ret(1));
        one.pages.write(0x5008, Size::Eight, 0x41_4141).unwrap();
        assert_eq!(
            account(&one),
            [
                "why: the return addresses differ, 0x414141 at ordinary 0x5008 and 0x400005 at shadow 0x1fe8"
            ]
        );
    }

    #[test]
    fn writes_to_the_stacks_of_user_code() {
        let mut one = run(Instruction::wrussq(7, 0x1fe8, 7));
        assert_eq!(account(&one), ["why: CPL is 3, and must be 0"]);
        one.state.cpl = 0;
        assert_eq!(account(&one), ["stored as user code would, from CPL 0"]);
    }

    /// Makes sure that the fault of the only step of a run is explained, and
    /// that another with this vector, this error code or this address is not.
    fn only_its_own(run: &Run, vector: Vector, error_code: u64, address: u64) {
        let mut step = steps::replay(run).steps.remove(0);
        assert_eq!(of(&step, &run.pages).len(), 1, "{}", step.answer);
        let Answer::Faulted(own) = step.answer else {
            panic!("{}", step.answer);
        };
        let others = [
            Fault { vector, ..own },
            Fault { error_code, ..own },
            Fault { address, ..own },
        ];
        for other in others {
            assert_ne!(other, own);
            step.answer = Answer::Faulted(other);
            assert!(of(&step, &run.pages).is_empty(), "{other}");
        }
    }

    #[test]
    fn another_fault_is_not_explained() {
        let mut one = run(Instruction::ret(1));
        one.pages.write(0x5008, Size::Eight, 0x41_4141).unwrap();
        only_its_own(&one, Vector::Protection, 4, 0x5008);
        one.state.sp = 0x6000;
        only_its_own(&one, Vector::Stack, 1, 0x6001);
        let write = run(Instruction::wrussq(7, 0x1fe8, 7));
        only_its_own(&write, Vector::InvalidOpcode, 1, 0x1fe8);
    }

    #[test]
    fn others_have_no_account() {
        for instruction in [
            Instruction::call_relative(5, 0x10),
            Instruction::wrssq(7, 0x1fe8, 7),
            Instruction::from_words([9, 0, 0, 0]),
        ] {
            assert!(account(&run(instruction)).is_empty(), "{instruction}");
        }
    }
}
