//! Whole runs: any state, page list, bytes and instruction words in, one
//! report out.
//!
//! What sends an input back as a whole is looked for first. After that the
//! instructions are carried out one by one, each on what the last one left,
//! until the list ends or one of them does not complete.

use crate::fault::Fault;
use crate::memory::Memory;
use crate::operations::{self, Outcome};
use crate::processor::State;
use crate::transaction::{Search, by_the_rules};

/// How many words an instruction has.
pub const WORDS: usize = 4;

/// How many instructions a run may have.
pub const MOST_INSTRUCTIONS: usize = 1024;

/// All that a run is given, well formed or not.
#[derive(Clone, Copy, Debug)]
pub struct Input<'lent> {
    /// The fields of the state.
    pub state: &'lent [u64],
    /// The page list.
    pub pages: &'lent [u64],
    /// The lent bytes.
    pub bytes: &'lent [u8],
    /// The words of the instructions.
    pub words: &'lent [u64],
}

/// Why a run came to its end.
#[derive(Clone, Copy, Debug, PartialEq, Eq)]
pub enum Ending {
    /// Every instruction was completed.
    Completed,
    /// The refusal that has this number.
    Refused(u64),
    /// A fault, with its reason.
    Faulted(Fault),
}

/// What came of a run.
#[derive(Clone, Debug, PartialEq, Eq)]
pub struct Report {
    /// How many instructions were completed.
    pub count: u64,
    /// Why there were no more.
    pub ending: Ending,
    /// State and bytes after the last completed instruction.
    pub moment: Moment,
}

/// State and bytes between two instructions.
#[derive(Clone, Debug, PartialEq, Eq)]
pub struct Moment {
    /// The fields of the state, as many as were given.
    pub state: Vec<u64>,
    /// All lent bytes.
    pub bytes: Vec<u8>,
}

impl Ending {
    /// The number of the refusal, or 0.
    pub fn refusal(&self) -> u64 {
        match self {
            Ending::Refused(number) => *number,
            _ => 0,
        }
    }

    /// The number of the vector, or 0.
    pub fn vector(&self) -> u64 {
        self.of_fault(|fault| fault.vector().number())
    }

    /// The error code of the fault, or 0.
    pub fn error_code(&self) -> u64 {
        self.of_fault(Fault::error_code)
    }

    /// The address of the fault, or 0.
    pub fn address(&self) -> u64 {
        self.of_fault(Fault::address)
    }

    /// A number of the fault, or 0 where there is none.
    fn of_fault(&self, number: impl FnOnce(&Fault) -> u64) -> u64 {
        match self {
            Ending::Faulted(fault) => number(fault),
            _ => 0,
        }
    }
}

/// Carries out a whole run.
pub fn run(input: &Input) -> Report {
    run_with(input, &by_the_rules)
}

/// The same with a search for the bytes of every access, which is another one
/// in programs that are wrong on purpose.
pub fn run_with(input: &Input, search: &Search) -> Report {
    let mut stage = match Stage::admit(input) {
        Ok(stage) => stage,
        Err(number) => {
            return Report {
                count: 0,
                ending: Ending::Refused(number),
                moment: input.opening(),
            };
        }
    };
    let (count, ending) = stage.play(instructions(input.words), search);
    Report {
        count,
        ending,
        moment: stage.close(),
    }
}

impl Input<'_> {
    /// State and bytes as they were handed in.
    fn opening(&self) -> Moment {
        Moment {
            state: self.state.to_vec(),
            bytes: self.bytes.to_vec(),
        }
    }
}

/// A good state on good pages.
struct Stage {
    state: State,
    memory: Memory,
}

impl Stage {
    /// Sets the stage, or gives the number of the first refusal that sends the
    /// input back: those of the page list, then 5, then 7.
    fn admit(input: &Input) -> Result<Stage, u64> {
        let memory =
            Memory::new(input.pages, input.bytes.to_vec()).map_err(|refusal| refusal.number())?;
        let state = admit_state(input.state, input.words.len())?;
        Ok(Stage { state, memory })
    }

    /// Carries out instructions up to the first that does not complete.
    fn play(
        &mut self,
        instructions: impl Iterator<Item = [u64; WORDS]>,
        search: &Search,
    ) -> (u64, Ending) {
        let mut count = 0;
        for words in instructions {
            match operations::step_with(&self.state, words, &mut self.memory, search) {
                Outcome::Completed(state) => self.state = state,
                Outcome::Refused => return (count, Ending::Refused(6)),
                Outcome::Faulted(fault) => return (count, Ending::Faulted(fault)),
            }
            count += 1;
        }
        (count, Ending::Completed)
    }

    /// State and bytes as they stand now.
    fn close(self) -> Moment {
        Moment {
            state: self.state.fields().to_vec(),
            bytes: self.memory.into_bytes(),
        }
    }
}

/// The state of a run that has so many words of instructions, unless refusal 5
/// or 7 sends it back.
pub(crate) fn admit_state(fields: &[u64], words: usize) -> Result<State, u64> {
    let state = fields.try_into().ok().and_then(State::read).ok_or(5_u64)?;
    if !words.is_multiple_of(WORDS) || words > MOST_INSTRUCTIONS * WORDS {
        return Err(7);
    }
    Ok(state)
}

/// The instructions that so many words make, four words each.
fn instructions(words: &[u64]) -> impl Iterator<Item = [u64; WORDS]> {
    words.as_chunks().0.iter().copied()
}

#[cfg(test)]
mod tests;
