//! The operations, each as a single step from one state to the next.
//!
//! Here an instruction is read, refused if it breaks its form, and handed to the
//! operation that it asks for. Each operation has a file of its own and works on
//! a `Machine`, whose state and stores take effect only when the operation has
//! come to its end.

mod call;
mod incssp;
mod machine;
mod ret;
mod rstorssp;
mod saveprevssp;
mod wrss;
mod wruss;

use crate::address::Width;
use crate::fault::Fault;
use crate::memory::{Memory, Size};
use crate::processor::{Mode, State};
use crate::transaction::{Search, Transaction, by_the_rules};
use call::Target;
use machine::Machine;

/// What a step ended with.
#[derive(Clone, Copy, Debug, PartialEq, Eq)]
pub enum Outcome {
    /// The operation is done, and this state follows.
    Completed(State),
    /// The instruction breaks its form, which is refusal 6.
    Refused,
    /// The operation can't be done.
    Faulted(Fault),
}

/// An instruction that was read for some mode.
#[derive(Clone, Copy, Debug, PartialEq, Eq)]
struct Instruction {
    length: u64,
    operation: Operation,
}

/// What an instruction asks for.
#[derive(Clone, Copy, Debug, PartialEq, Eq)]
enum Operation {
    /// INCSSP: elements of this size, and the count register.
    Incssp(Size, u64),
    /// RSTORSSP: the address of a token.
    Rstorssp(u64),
    /// SAVEPREVSSP.
    Saveprevssp,
    /// WRSS: this size, the address and the value.
    Wrss(Size, u64, u64),
    /// CALL.
    Call(Target),
    /// RET: how many bytes are dropped besides.
    Ret(u64),
    /// WRUSS: this size, the address and the value.
    Wruss(Size, u64, u64),
}

impl Instruction {
    /// Reads code, length, A and B in a mode. Nothing comes back if they break
    /// their form, which is refusal 6.
    fn read(words: [u64; 4], mode: Mode) -> Option<Instruction> {
        let [code, length, a, b] = words;
        let fits = |word| mode != Mode::Protected || Width::Four.holds(word);
        if !(1..=15).contains(&length) || !fits(a) || !fits(b) {
            return None;
        }
        let operation = Operation::read(code, a, b)?;
        operation
            .exists_in(mode)
            .then_some(Instruction { length, operation })
    }
}

impl Operation {
    /// Reads code, A and B, of which those without a use must be 0.
    fn read(code: u64, a: u64, b: u64) -> Option<Operation> {
        let operation = match (code, a, b) {
            (1, 0, count) => Operation::Incssp(Size::Four, count),
            (2, 0, count) => Operation::Incssp(Size::Eight, count),
            (3, at, 0) => Operation::Rstorssp(at),
            (4, 0, 0) => Operation::Saveprevssp,
            (5, at, value) => Operation::Wrss(Size::Four, at, value),
            (6, at, value) => Operation::Wrss(Size::Eight, at, value),
            (7, displacement, 0) => Operation::Call(Target::relative(displacement)?),
            (8, target, 0) => Operation::Call(Target::Absolute(target)),
            (9, 0, 0) => Operation::Ret(0),
            (10, count, 0) if count < ret::COUNTS => Operation::Ret(count),
            (11, at, value) => Operation::Wruss(Size::Four, at, value),
            (12, at, value) => Operation::Wruss(Size::Eight, at, value),
            _ => return None,
        };
        Some(operation)
    }

    /// Whether a mode has the operation. Mode 1 lacks what has eight bytes, and
    /// mode 0 calls and returns; what else mode 0 does not know is a fault there.
    fn exists_in(self, mode: Mode) -> bool {
        match self {
            Operation::Incssp(Size::Eight, _)
            | Operation::Wrss(Size::Eight, ..)
            | Operation::Wruss(Size::Eight, ..) => mode != Mode::Protected,
            Operation::Call(_) | Operation::Ret(_) => mode != Mode::Real,
            _ => true,
        }
    }

    /// Does it.
    fn carry_out(self, machine: &mut Machine) -> Result<(), Fault> {
        match self {
            Operation::Incssp(size, count) => machine.incssp(size, count),
            Operation::Rstorssp(at) => machine.rstorssp(at),
            Operation::Saveprevssp => machine.saveprevssp(),
            Operation::Wrss(size, at, value) => machine.wrss(size, at, value),
            Operation::Call(target) => machine.call(target),
            Operation::Ret(count) => machine.ret(count),
            Operation::Wruss(size, at, value) => machine.wruss(size, at, value),
        }
    }
}

/// Carries out one instruction, given as code, length, A and B.
///
/// The memory changes only if the instruction completes.
pub fn step(state: &State, words: [u64; 4], memory: &mut Memory) -> Outcome {
    step_with(state, words, memory, &by_the_rules)
}

/// The same with a search for the bytes of every access.
pub(crate) fn step_with(
    state: &State,
    words: [u64; 4],
    memory: &mut Memory,
    search: &Search,
) -> Outcome {
    let Some(instruction) = Instruction::read(words, state.mode) else {
        return Outcome::Refused;
    };
    let mut machine = Machine {
        state: *state,
        memory: Transaction::begin(memory, search),
    };
    // IP goes on to the next instruction at once, and a call finds it there.
    machine.state.ip = state.next(instruction.length);
    match instruction.operation.carry_out(&mut machine) {
        Ok(()) => {
            machine.memory.commit();
            Outcome::Completed(machine.state)
        }
        Err(fault) => Outcome::Faulted(fault),
    }
}

#[cfg(test)]
mod tests;
