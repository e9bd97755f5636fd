//! What a run is given, and what is seen of it afterwards.

use crate::answer::Answer;
use driftpocket_reference::dice::Dice;
use driftpocket_reference::pages::PAGE_BYTES;
use driftpocket_reference::runs::{self, Input};

/// The function under test: state, pages, bytes, words and report in, state,
/// bytes and report out, and the number that comes back.
pub type Part = fn(&mut [u64], &[u64], &mut [u8], &[u64], &mut [u64]) -> u64;

/// The words that a report has.
pub const REPORT_WORDS: usize = 5;

/// How many bytes a page has, as a length.
pub const PAGE: usize = PAGE_BYTES as usize;

/// The first number that has more than 32 bits.
pub const FOUR_GIB: u64 = 1 << 32;

/// The places of the fields in a state.
pub mod field {
    /// Mode.
    pub const MODE: usize = 0;
    /// CPL.
    pub const CPL: usize = 1;
    /// CR4.CET.
    pub const CET: usize = 2;
    /// U_CET.
    pub const USER: usize = 3;
    /// S_CET.
    pub const SUPERVISOR: usize = 4;
    /// IP.
    pub const IP: usize = 5;
    /// SP.
    pub const SP: usize = 6;
    /// SSP.
    pub const SSP: usize = 7;
    /// RFLAGS.
    pub const FLAGS: usize = 8;
    /// Code limit.
    pub const LIMIT: usize = 9;
}

/// The register that rules shadow stacks at the CPL of a state: U_CET at CPL 3,
/// S_CET below. A state that has no ten fields has none.
pub fn own_controls(state: &[u64]) -> Option<u64> {
    let state: &[u64; 10] = state.try_into().ok()?;
    Some(match state[field::CPL] {
        3 => state[field::USER],
        _ => state[field::SUPERVISOR],
    })
}

/// Whether shadow stacks are enabled in a state.
pub fn is_enabled(state: &[u64]) -> bool {
    own_controls(state).is_some_and(|own| state[field::CET] == 1 && own % 2 == 1)
}

/// All that a run is given.
#[derive(Clone, Debug, PartialEq, Eq)]
pub struct Case {
    /// The fields of the state.
    pub state: Vec<u64>,
    /// The page list.
    pub pages: Vec<u64>,
    /// The lent bytes.
    pub bytes: Vec<u8>,
    /// The words of the instructions.
    pub words: Vec<u64>,
    /// How many words there is room for in the report.
    pub room: usize,
}

impl Case {
    /// Where the byte of an address lies among the lent bytes.
    pub fn place(&self, address: u64) -> Option<usize> {
        let start = address - address % PAGE_BYTES;
        let page = self
            .pages
            .iter()
            .position(|entry| entry - entry % PAGE_BYTES == start)?;
        Some(page * PAGE + (address - start) as usize)
    }

    /// Adds a page whose bytes are all the same.
    pub fn add_page(&mut self, entry: u64, byte: u8) {
        self.pages.push(entry);
        self.bytes.resize(self.bytes.len() + PAGE, byte);
    }

    /// The same case on some of its pages, in this order.
    pub fn on_pages(&self, order: &[usize]) -> Case {
        let bytes = order.iter().map(|page| &self.bytes[page * PAGE..][..PAGE]);
        Case {
            state: self.state.clone(),
            pages: order.iter().map(|&page| self.pages[page]).collect(),
            bytes: bytes.collect::<Vec<&[u8]>>().concat(),
            words: self.words.clone(),
            room: self.room,
        }
    }

    /// The same case with its pages in another order.
    pub fn shuffled(&self, dice: &mut Dice) -> Case {
        let mut order: Vec<usize> = (0..self.pages.len()).collect();
        dice.shuffle(&mut order);
        self.on_pages(&order)
    }

    /// The same case with only the first instructions.
    pub fn first(&self, instructions: u64) -> Case {
        let words = instructions as usize * runs::WORDS;
        Case {
            words: self.words[..words].to_vec(),
            ..self.clone()
        }
    }

    /// The words of an instruction, counted from 0.
    pub fn instruction(&self, number: u64) -> Option<&[u64]> {
        let number = usize::try_from(number).ok()?;
        self.words.chunks(runs::WORDS).nth(number)
    }

    /// The code of an instruction, counted from 0.
    pub fn code(&self, instruction: u64) -> Option<u64> {
        self.instruction(instruction)?.first().copied()
    }

    /// What is given, without the bytes, and only one of the instructions.
    pub fn describe(&self, instruction: u64) -> String {
        let words = self.instruction(instruction).unwrap_or_default();
        format!(
            "state {:x?}, pages {:x?}, {} words, instruction {instruction} is {words:x?}; ",
            self.state,
            self.pages,
            self.words.len()
        )
    }

    /// The same for the second program.
    pub fn input(&self) -> Input<'_> {
        Input {
            state: &self.state,
            pages: &self.pages,
            bytes: &self.bytes,
            words: &self.words,
        }
    }

    /// The report as it is handed in: numbers that no run would give.
    pub fn blank_report(&self) -> Vec<u64> {
        (0..self.room as u64)
            .map(|word| 0xdead_0000_0000_0000 + word)
            .collect()
    }
}

/// All that can be seen after a run.
#[derive(Clone, Debug, PartialEq, Eq)]
pub struct Seen {
    /// The number that came back.
    pub returned: u64,
    /// All words of the report, those past the fifth too.
    pub report: Vec<u64>,
    /// The fields of the state.
    pub state: Vec<u64>,
    /// All lent bytes.
    pub bytes: Vec<u8>,
}

impl Seen {
    /// What is seen if nothing happens but that this number comes back.
    pub fn untouched(case: &Case, returned: u64) -> Seen {
        Seen {
            returned,
            report: case.blank_report(),
            state: case.state.clone(),
            bytes: case.bytes.clone(),
        }
    }

    /// What is seen after so many completed instructions and this answer.
    pub fn answered(case: &Case, count: u64, answer: &Answer) -> Seen {
        let mut seen = Seen::untouched(case, answer.returned());
        seen.report[..REPORT_WORDS].copy_from_slice(&answer.report(count));
        seen
    }

    /// How many instructions were completed, if there was room to say so.
    pub fn count(&self) -> u64 {
        self.report.first().copied().unwrap_or(0)
    }

    /// The answer in the report, if there was room for one.
    pub fn answer(&self) -> Option<Answer> {
        let &[_, refusal, vector, error_code, address] = self.report.first_chunk()?;
        Some(Answer {
            refusal,
            vector,
            error_code,
            address,
        })
    }
}

/// Lets the part under test run a case.
pub fn observe(part: Part, case: &Case) -> Seen {
    let mut seen = Seen::untouched(case, 0);
    seen.returned = part(
        &mut seen.state,
        &case.pages,
        &mut seen.bytes,
        &case.words,
        &mut seen.report,
    );
    seen
}

/// What the second program says must be seen.
pub fn foretell(case: &Case) -> Seen {
    foretell_from(case, &runs::run(&case.input()))
}

/// The same from a report of the second program.
pub fn foretell_from(case: &Case, run: &runs::Report) -> Seen {
    let answer = Answer::of(&run.ending);
    if case.room < REPORT_WORDS {
        return Seen::untouched(case, answer.unreported());
    }
    let mut report = case.blank_report();
    report[..REPORT_WORDS].copy_from_slice(&answer.report(run.count));
    Seen {
        returned: answer.returned(),
        report,
        state: run.moment.state.clone(),
        bytes: run.moment.bytes.clone(),
    }
}
