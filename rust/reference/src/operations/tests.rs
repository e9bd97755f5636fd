//! Single steps that no stored sheet takes: every form of an instruction, the
//! order of checks, and the ends of memory. What the sheets say is not said
//! again here.

mod calls;
mod switches;
mod writes;

use super::*;
use crate::address::{ABOVE_HOLE, HOLE};
use crate::fault::Part;
use crate::processor::FIELDS;

const MODE: usize = 0;
const CPL: usize = 1;
const CET: usize = 2;
const U_CET: usize = 3;
const S_CET: usize = 4;
const IP: usize = 5;
const SP: usize = 6;
const SSP: usize = 7;
const FLAGS: usize = 8;
const LIMIT: usize = 9;

const INCSSPD: u64 = 1;
const INCSSPQ: u64 = 2;
const RSTORSSP: u64 = 3;
const SAVEPREVSSP: u64 = 4;
const WRSSD: u64 = 5;
const WRSSQ: u64 = 6;
const CALL: u64 = 7;
const CALL_TO: u64 = 8;
const RET: u64 = 9;
const RET_COUNT: u64 = 10;
const WRUSSD: u64 = 11;
const WRUSSQ: u64 = 12;

/// The entry of the last page of all, without its kind.
const TOP: u64 = 0xffff_ffff_ffff_f000;

/// The entry of the last page below 2^32, without its kind.
const NARROW_TOP: u64 = 0xffff_f000;

/// The pages beside the canonical hole, without their kind.
const BESIDE_HOLE: [u64; 2] = [HOLE - 0x1000, ABOVE_HOLE];

/// A processor on lent pages.
struct Bench {
    fields: [u64; FIELDS],
    pages: Vec<u64>,
    bytes: Vec<u8>,
}

impl Bench {
    /// Mode 2, CPL 3, shadow stacks enabled at every level, on pages of zeros.
    fn on(pages: &[u64]) -> Bench {
        Bench {
            fields: [2, 3, 1, 1, 1, 0x40_0000, 0x5010, 0x1ff0, 0, 0xffff_ffff],
            pages: pages.to_vec(),
            bytes: vec![0; pages.len() * 4096],
        }
    }

    /// On the pages of the worked cases.
    fn worked() -> Bench {
        Bench::on(&[0x1001, 0x2001, 0x5003])
    }

    /// On a page of each kind.
    fn of_each_kind() -> Bench {
        Bench::on(&[0x1001, 0x2002, 0x5003])
    }

    /// Sets one field.
    fn with(mut self, field: usize, value: u64) -> Bench {
        self.fields[field] = value;
        self
    }

    /// Where the byte at an address lies among the lent ones.
    fn place(&self, address: u64) -> usize {
        let of_page = |entry: &u64| entry >> 12 == address >> 12;
        let page = self.pages.iter().position(of_page).expect("a listed page");
        page * 4096 + address as usize % 4096
    }

    /// Sets eight bytes.
    fn word(mut self, address: u64, value: u64) -> Bench {
        for (step, byte) in (0..).zip(value.to_le_bytes()) {
            let place = self.place(address.wrapping_add(step));
            self.bytes[place] = byte;
        }
        self
    }

    /// Reads eight bytes.
    fn word_at(&self, address: u64) -> u64 {
        let byte = |step: usize| self.bytes[self.place(address.wrapping_add(step as u64))];
        u64::from_le_bytes(std::array::from_fn(byte))
    }

    /// Takes a step of five bytes and keeps what follows from it.
    fn step(&mut self, code: u64, a: u64, b: u64) -> Outcome {
        let state = State::read(self.fields).expect("the state is in its ranges");
        let mut memory = Memory::new(&self.pages, self.bytes.clone()).expect("a good list");
        let outcome = step(&state, [code, 5, a, b], &mut memory);
        let bytes = memory.into_bytes();
        match outcome {
            Outcome::Completed(after) => self.fields = after.fields(),
            _ => assert_eq!(self.bytes, bytes, "a step that failed changed a byte"),
        }
        self.bytes = bytes;
        outcome
    }

    /// Takes a step that must complete and leave a good state.
    fn completes(&mut self, code: u64, a: u64, b: u64) -> &mut Bench {
        let outcome = self.step(code, a, b);
        assert!(matches!(outcome, Outcome::Completed(_)), "{outcome:x?}");
        assert!(State::read(self.fields).is_some(), "{:x?}", self.fields);
        self
    }

    /// Takes a step that must fault, and says how.
    fn fault(&mut self, code: u64, a: u64, b: u64) -> Fault {
        match self.step(code, a, b) {
            Outcome::Faulted(fault) => fault,
            other => panic!("{other:x?}"),
        }
    }
}

/// The size of a return address in a mode.
fn size(mode: u64) -> u64 {
    4 * mode
}

#[test]
fn forms_of_instructions() {
    let refused = |mode, words| Instruction::read(words, mode).is_none();
    for mode in [Mode::Real, Mode::Protected, Mode::Long] {
        let narrow = mode == Mode::Protected;
        for code in [0, 13, 1 << 32 | 1, u64::MAX] {
            assert!(refused(mode, [code, 1, 0, 0]));
        }
        for code in 1..=12 {
            let known = match code {
                2 | 6 | 12 => !narrow,
                7..=10 => mode != Mode::Real,
                _ => true,
            };
            for (length, good) in [(0, false), (1, true), (15, true), (16, false)] {
                assert_eq!(refused(mode, [code, length, 0, 0]), !known || !good);
            }
            // The largest A and the largest B.
            let wide = if narrow { 0xffff_ffff } else { u64::MAX };
            let most_a = match code {
                1 | 2 | 4 | 9 => 0,
                7 => 0xffff_ffff,
                10 => 0xffff,
                _ => wide,
            };
            let most_b = match code {
                3 | 4 | 7..=10 => 0,
                _ => wide,
            };
            for word in [1, 0xffff, 0x1_0000, 0xffff_ffff, 1 << 32, u64::MAX] {
                assert_eq!(refused(mode, [code, 1, word, 0]), !known || word > most_a);
                assert_eq!(refused(mode, [code, 1, 0, word]), !known || word > most_b);
            }
        }
    }
}

#[test]
fn real_mode_knows_no_shadow_stacks() {
    let mut bench = Bench::worked().with(MODE, 0).with(U_CET, 3);
    for (code, a, b) in [
        (INCSSPD, 0, 1),
        (INCSSPQ, 0, 1 << 32),
        (RSTORSSP, 1, 0),
        (SAVEPREVSSP, 0, 0),
        (WRSSD, 1 << 32, 1),
        (WRSSQ, 1, 1 << 32),
        (WRUSSD, 1, 1),
        (WRUSSQ, 1 << 32, 1 << 32),
    ] {
        assert_eq!(bench.fault(code, a, b), Fault::RealMode);
    }
}

#[test]
fn not_enabled_goes_before_all_else() {
    for (cpl, cet, user, supervisor) in [(3, 0, 3, 3), (3, 1, 2, 3), (0, 1, 3, 2), (2, 1, 3, 0)] {
        let mut bench = Bench::worked()
            .with(CPL, cpl)
            .with(CET, cet)
            .with(U_CET, user)
            .with(S_CET, supervisor)
            .with(SSP, 4);
        for code in [INCSSPD, INCSSPQ, RSTORSSP, SAVEPREVSSP, WRSSD, WRSSQ] {
            let a = u64::from([RSTORSSP, WRSSD, WRSSQ].contains(&code));
            assert_eq!(bench.fault(code, a, 0), Fault::NotEnabled);
        }
    }
}

#[test]
fn levels_reach_their_kind_of_page() {
    for cpl in 0..4 {
        let own = if cpl == 3 { 0x1100 } else { 0x2100 };
        for ssp in [0x1100, 0x2100, 0x5100] {
            let mut bench = Bench::of_each_kind().with(CPL, cpl).with(SSP, ssp);
            if ssp == own {
                bench.completes(INCSSPD, 0, 1);
            } else {
                let fault = Fault::Page(Part::FirstElement, ssp);
                assert_eq!(bench.fault(INCSSPD, 0, 1), fault);
            }
        }
    }
}
