//! What is listed of an instruction accounts for every byte that the library
//! changed, and lists no store where it changed none, on runs that look random.

mod common;

use common::{pages, user};
use driftpocket::trace::{self, Access, Action, Stack};
use driftpocket::{Answer, Instruction, Kind, PageList, Size, State, Vector, run};

/// Numbers that look random.
struct Dice(u64);

impl Dice {
    /// A number below a bound.
    fn below(&mut self, bound: u64) -> u64 {
        self.0 ^= self.0 << 13;
        self.0 ^= self.0 >> 7;
        self.0 ^= self.0 << 17;
        self.0 % bound
    }

    /// One of these.
    fn pick<T: Copy>(&mut self, choices: &[T]) -> T {
        choices[self.below(choices.len() as u64) as usize]
    }

    /// An address near the ends of pages, and most often a multiple of 4.
    fn address(&mut self) -> u64 {
        let near = self.pick(&[0x1000, 0x2000, 0x2000, 0x3000, 0, 1 << 32, 0x5010]);
        let step = self.pick(&[4, 8, 8, 8, 1]);
        let off = step * self.below(8);
        let address: u64 = if self.below(3) == 0 {
            near + off
        } else {
            u64::wrapping_sub(near, off)
        };
        address % (1 << 33)
    }

    /// An instruction, well formed as a rule.
    fn instruction(&mut self, narrow: bool) -> Instruction {
        let length = 1 + self.below(15);
        let address = self.address();
        let value = self.below(u64::from(u32::MAX));
        match self.below(if narrow { 12 } else { 15 }) {
            0 => Instruction::incsspd(length, self.below(4)),
            1 => Instruction::saveprevssp(length),
            2 | 3 => Instruction::rstorssp(length, address & !7),
            4 => Instruction::wrssd(length, address, value),
            5 => {
                let by = value as i32 % 0x1000;
                Instruction::call_relative(length, self.pick(&[by, by, 0]))
            }
            6 => Instruction::call_absolute(length, value),
            7 | 8 => Instruction::ret(length),
            9 | 10 => Instruction::ret_count(length, self.pick(&[0, 8, 0x1000, u16::MAX])),
            11 => Instruction::wrussd(length, address, value),
            12 => Instruction::incsspq(length, self.below(4)),
            13 => Instruction::wrssq(length, address, value << 20),
            _ => Instruction::wrussq(length, address, value << 20),
        }
    }

    /// A state of any mode with shadow stacks enabled most of the time.
    fn state(&mut self) -> State {
        let mode = 1 + self.below(2);
        State {
            mode,
            cpl: self.pick(&[3, 3, 3, 0]),
            ucet: self.pick(&[3, 3, 3, 2]),
            scet: self.pick(&[3, 2]),
            sp: 0x5000 + self.below(0x1008),
            flags: self.below(2),
            ..user(self.address() & !3 & 0xffff_ffff)
        }
    }

    /// Pages with tokens on them, good ones and others.
    fn pages(&mut self, mode: u64) -> PageList {
        let mut all = pages(&[
            (0x2000, Kind::UserShadow),
            (0x5000, Kind::Ordinary),
            (0x1000, Kind::UserShadow),
            (0xffff_f000, Kind::UserShadow),
            (0, Kind::UserShadow),
            (1 << 32, Kind::UserShadow),
            (0x3000, Kind::SupervisorShadow),
        ]);
        for _ in 0..60 {
            let place = self.address() & !7;
            let mark = self.pick(&[mode - 1, mode + 1]);
            let token = (place + 8 + 4 * self.below(2)) | mark;
            let _ = all.write(place, Size::Eight, token);
        }
        all
    }
}

/// One instruction that was tried.
struct Tried {
    instruction: Instruction,
    /// The answer to it.
    answer: Answer,
    /// What is listed of it.
    accesses: Vec<Access>,
}

/// Tries many instructions. Each list must account for the bytes after it.
fn try_many(mut look: impl FnMut(&Tried)) {
    let mut dice = Dice(0x9e37_79b9_7f4a_7c15);
    for _ in 0..3000 {
        let mut state = dice.state();
        let mut pages = dice.pages(state.mode);
        for _ in 0..8 {
            let instruction = dice.instruction(state.mode == 1);
            let (opening, before) = (state, pages.clone());
            let answer = run(&mut state, &mut pages, &[instruction]).answer;
            let accesses = trace::of(&instruction, &opening, &before).unwrap();
            assert!(
                trace::accounts_for(&before, &pages, &accesses),
                "{instruction} from {opening:?}: {accesses:?}"
            );
            look(&Tried {
                instruction,
                answer,
                accesses,
            });
        }
    }
}

#[test]
fn every_completed_instruction_is_accounted_for() {
    let mut completed = [0; 13];
    let mut called = 0;
    try_many(|tried| {
        if tried.answer.is_completed() {
            completed[tried.instruction.code as usize] += 1;
            called += u64::from(is_compared(&tried.accesses));
        }
    });
    for (code, count) in completed.iter().enumerate().skip(1) {
        assert!(*count > 20, "code {code} completed {count} times");
    }
    assert!(called > 100, "{called} returns to where a call came from");
}

#[test]
fn an_instruction_that_faults_shows_no_store() {
    let mut faulted = [0; 13];
    let mut loads = [0; 13];
    try_many(|tried| {
        let Answer::Faulted(fault) = tried.answer else {
            return;
        };
        let code = tried.instruction.code as usize;
        let is_load = |access: &Access| access.action == Action::Load;
        assert!(tried.accesses.iter().all(is_load), "{}", tried.instruction);
        let wanted = match (fault.vector, code) {
            (Vector::ControlProtection, 3) => 1,
            (Vector::ControlProtection, _) => 2,
            _ => 0,
        };
        assert_eq!(tried.accesses.len(), wanted, "{}", tried.instruction);
        faulted[code] += 1;
        loads[code] += wanted;
    });
    for (code, count) in faulted.iter().enumerate().skip(1) {
        assert!(*count > 20, "code {code} faulted {count} times");
    }
    assert!([3, 9, 10].iter().all(|&code| loads[code] > 20), "{loads:?}");
}

/// Whether these are the loads of a RET that was compared, and went to where
/// something stood.
fn is_compared(accesses: &[Access]) -> bool {
    match accesses {
        [ordinary, shadow] => {
            ordinary.stack == Stack::Ordinary
                && ordinary.action == Action::Load
                && ordinary.value != 0
                && ordinary.value == shadow.value
        }
        _ => false,
    }
}
