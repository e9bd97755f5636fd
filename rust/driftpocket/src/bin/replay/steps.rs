//! Replaying a run by single steps, held to the run as a whole.

use crate::account;
use crate::input::Run;
use driftpocket::trace::{self, Access};
use driftpocket::{Answer, Instruction, Outcome, PageList, Refusal, State};
use std::fmt;

/// What runs instructions: the library, or in tests something else.
type Runner = fn(&mut State, &mut PageList, &[Instruction]) -> Outcome;

/// One instruction that was tried.
#[derive(Clone, Debug, PartialEq, Eq)]
pub struct Step {
    /// Its number in the run, from 1.
    pub number: usize,
    /// The instruction.
    pub instruction: Instruction,
    /// The state before it.
    pub before: State,
    /// The state after it.
    pub after: State,
    /// What it loaded and stored.
    pub accesses: Vec<Access>,
    /// How it ended.
    pub answer: Answer,
    /// What is to be said of it besides.
    pub account: Vec<String>,
}

/// A run that was replayed.
#[derive(Clone, Debug, PartialEq, Eq)]
pub struct Replay {
    /// The instructions that were tried.
    pub steps: Vec<Step>,
    /// What the steps came to.
    pub outcome: Outcome,
    /// The state after them.
    pub state: State,
    /// What is not as it should be.
    pub doubts: Vec<Doubt>,
}

impl Replay {
    /// Whether nothing is wrong with it.
    pub fn is_sound(&self) -> bool {
        self.doubts.is_empty() && !matches!(self.outcome.answer, Answer::Unknown(_))
    }
}

/// Something that does not fit together.
#[derive(Clone, Copy, Debug, PartialEq, Eq)]
pub enum Doubt {
    /// The step with this number reported another count than its answer.
    Count(usize),
    /// The step with this number stopped, and yet something changed.
    Changed(usize),
    /// The loads and stores of this step do not lead to the bytes after it.
    Accesses(usize),
    /// The whole run came to this, and the steps did not.
    Outcome(Outcome),
    /// The whole run left another state.
    State,
    /// The whole run left other bytes.
    Bytes,
}

impl fmt::Display for Doubt {
    fn fmt(&self, out: &mut fmt::Formatter<'_>) -> fmt::Result {
        match self {
            Doubt::Count(number) => write!(out, "instruction {number} reports a wrong count"),
            Doubt::Changed(number) => {
                write!(out, "instruction {number} stopped but changed something")
            }
            Doubt::Accesses(number) => write!(
                out,
                "the loads and stores of instruction {number} do not account for its bytes"
            ),
            Doubt::Outcome(outcome) => write!(out, "the whole run came to: {outcome}"),
            Doubt::State => out.write_str("the whole run left another state"),
            Doubt::Bytes => out.write_str("the whole run left other bytes"),
        }
    }
}

/// Replays a run with the library.
pub fn replay(run: &Run) -> Replay {
    replay_by(driftpocket::run, run)
}

/// Replays a run: first as a whole, then by steps.
fn replay_by(runner: Runner, run: &Run) -> Replay {
    let (mut state, mut pages) = (run.state, run.pages.clone());
    let whole = runner(&mut state, &mut pages, &run.instructions);
    let mut walk = Walk {
        runner,
        state: run.state,
        pages: run.pages.clone(),
        steps: Vec::new(),
        doubts: Vec::new(),
    };
    // A list that is too long is sent back as a list. No single step is.
    let outcome = match whole.answer {
        Answer::Refused(Refusal::Words) => whole,
        _ => walk.along(&run.instructions),
    };
    let compared = [
        (outcome == whole, Doubt::Outcome(whole)),
        (walk.state == state, Doubt::State),
        (walk.pages == pages, Doubt::Bytes),
    ];
    let differing = compared.into_iter().filter(|(alike, _)| !alike);
    walk.doubts.extend(differing.map(|(_, doubt)| doubt));
    Replay {
        steps: walk.steps,
        outcome,
        state: walk.state,
        doubts: walk.doubts,
    }
}

/// A run in the midst of its steps.
struct Walk {
    runner: Runner,
    state: State,
    pages: PageList,
    steps: Vec<Step>,
    doubts: Vec<Doubt>,
}

impl Walk {
    /// Takes one step after the other, up to the first that does not complete.
    /// A run of nothing before them finds what is wrong with the input itself.
    fn along(&mut self, instructions: &[Instruction]) -> Outcome {
        let opening = (self.runner)(&mut self.state, &mut self.pages, &[]);
        if !opening.answer.is_completed() {
            return opening;
        }
        for (count, instruction) in instructions.iter().enumerate() {
            let answer = self.step(count + 1, instruction);
            if !answer.is_completed() {
                return Outcome { count, answer };
            }
        }
        Outcome {
            count: instructions.len(),
            answer: Answer::Completed,
        }
    }

    /// Takes one step.
    fn step(&mut self, number: usize, instruction: &Instruction) -> Answer {
        let (before, pages) = (self.state, self.pages.clone());
        let one = std::slice::from_ref(instruction);
        let outcome = (self.runner)(&mut self.state, &mut self.pages, one);
        let completed = outcome.answer.is_completed();
        if outcome.count != usize::from(completed) {
            self.doubts.push(Doubt::Count(number));
        }
        let accesses = trace::of(instruction, &before, &pages);
        if !completed && (self.state != before || self.pages != pages) {
            self.doubts.push(Doubt::Changed(number));
        } else if !is_accounted(&accesses, &pages, &self.pages) {
            self.doubts.push(Doubt::Accesses(number));
        }
        let mut step = Step {
            number,
            instruction: *instruction,
            before,
            after: self.state,
            accesses: accesses.unwrap_or_default(),
            answer: outcome.answer,
            account: Vec::new(),
        };
        step.account = account::of(&step, &pages);
        self.steps.push(step);
        outcome.answer
    }
}

/// Whether there is a list of accesses, and it leads from the pages before to
/// those after.
fn is_accounted(accesses: &Option<Vec<Access>>, before: &PageList, after: &PageList) -> bool {
    accesses
        .as_ref()
        .is_some_and(|list| trace::accounts_for(before, after, list))
}

#[cfg(test)]
mod tests {
    use super::*;
    use driftpocket::Size;
    use std::fs;

    /// A runner that does as the library and then something more.
    fn and_then(
        state: &mut State,
        pages: &mut PageList,
        list: &[Instruction],
        more: impl FnOnce(&mut State, &mut PageList, &mut Outcome),
    ) -> Outcome {
        let mut outcome = driftpocket::run(state, pages, list);
        more(state, pages, &mut outcome);
        outcome
    }

    /// Spoils the byte at 5000 in runs of more than one instruction.
    fn spoils_bytes(state: &mut State, pages: &mut PageList, list: &[Instruction]) -> Outcome {
        and_then(state, pages, list, |_, pages, _| {
            if list.len() > 1 {
                pages.write(0x5000, Size::Four, 7).unwrap();
            }
        })
    }

    /// Moves SP in single steps, completed or not.
    fn spoils_state(state: &mut State, pages: &mut PageList, list: &[Instruction]) -> Outcome {
        and_then(state, pages, list, |state, _, _| {
            state.sp += u64::from(list.len() == 1);
        })
    }

    /// Stores at 5000 in single steps, completed or not.
    fn stores_more(state: &mut State, pages: &mut PageList, list: &[Instruction]) -> Outcome {
        and_then(state, pages, list, |_, pages, _| {
            if list.len() == 1 {
                pages.write(0x5000, Size::Four, 7).unwrap();
            }
        })
    }

    /// Counts one too many.
    fn counts_more(state: &mut State, pages: &mut PageList, list: &[Instruction]) -> Outcome {
        and_then(state, pages, list, |_, _, outcome| outcome.count += 1)
    }

    #[test]
    fn the_worked_cases_are_sound() {
        let folder = concat!(env!("CARGO_MANIFEST_DIR"), "/../../sheets/worked");
        let paths = fs::read_dir(folder)
            .unwrap()
            .map(|file| file.unwrap().path());
        let sheets = paths.filter(|path| path.extension().is_some_and(|end| end == "sheet"));
        let mut count = 0;
        for sheet in sheets {
            let name = sheet.file_stem().unwrap().to_str().unwrap();
            let run = Run::stored(&format!("worked/{name}"));
            let replay = replay(&run);
            assert!(replay.is_sound(), "{} {:?}", run.title, replay.doubts);
            let tried = replay.outcome.count + usize::from(!replay.outcome.answer.is_completed());
            assert_eq!(replay.steps.len(), tried);
            count += 1;
        }
        assert!(count > 50, "only {count} sheets");
    }

    #[test]
    fn a_whole_run_that_differs_is_found() {
        let switch = Run::stored("worked/p05");
        let replay = replay_by(spoils_bytes, &switch);
        assert_eq!(replay.doubts, [Doubt::Bytes]);
        assert!(!replay.is_sound());
        let replay = replay_by(spoils_state, &switch);
        assert_eq!(replay.doubts, [Doubt::State]);
    }

    #[test]
    fn a_step_that_does_too_much_is_found() {
        let replay = replay_by(stores_more, &Run::stored("worked/p05"));
        // The second step stores once more what is there already.
        assert_eq!(replay.doubts, [Doubt::Accesses(1), Doubt::Bytes]);
        let sixth = replay_by(spoils_state, &Run::stored("worked/p06"));
        assert_eq!(sixth.doubts, [Doubt::Changed(4), Doubt::State]);
    }

    #[test]
    fn a_wrong_count_is_found() {
        let replay = replay_by(counts_more, &Run::stored("worked/p01"));
        let whole = Outcome {
            count: 2,
            answer: Answer::Completed,
        };
        assert_eq!(replay.doubts, [Doubt::Count(1), Doubt::Outcome(whole)]);
    }

    #[test]
    fn input_that_is_sent_back_takes_no_step() {
        let mut run = Run::stored("worked/p05");
        run.state.cpl = 4;
        let five = replay(&run);
        assert_eq!(five.outcome.answer, Answer::Refused(Refusal::State));
        assert!(five.steps.is_empty() && five.is_sound());
        let mut run = Run::stored("worked/p01");
        run.instructions = vec![Instruction::incsspq(5, 0); 1025];
        let seven = replay(&run);
        assert_eq!(seven.outcome.answer, Answer::Refused(Refusal::Words));
        assert!(seven.steps.is_empty() && seven.is_sound());
        run.instructions.clear();
        let nothing = replay(&run);
        assert_eq!(nothing.outcome.answer, Answer::Completed);
        assert!(nothing.steps.is_empty() && nothing.is_sound());
    }

    #[test]
    fn an_instruction_that_is_sent_back_is_a_step() {
        let mut run = Run::stored("worked/p01");
        run.instructions[0].length = 16;
        let six = replay(&run);
        assert_eq!(six.steps.len(), 1);
        assert_eq!(six.steps[0].answer, Answer::Refused(Refusal::Form));
        assert!(six.is_sound());
    }

    #[test]
    fn texts() {
        assert_eq!(
            Doubt::Accesses(3).to_string(),
            "the loads and stores of instruction 3 do not account for its bytes"
        );
        let outcome = Outcome {
            count: 2,
            answer: Answer::Completed,
        };
        assert_eq!(
            Doubt::Outcome(outcome).to_string(),
            "the whole run came to: 2 completed"
        );
    }
}
