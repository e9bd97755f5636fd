//! The replay of Intel shadow-stack (CET) operations, for safe Rust.
//!
//! The work is done by proved libraries that this crate links. They take any
//! state, any pages, any instructions and any text, refuse what is malformed by
//! a fixed number, and always come to an end. So does this crate: nothing that
//! is handed in makes it panic, and nothing has to be tested beforehand. The
//! rules that the libraries follow are in `docs/RULES.md`.
//!
//! * [`run`] runs a list of instructions on a [`State`] and a [`PageList`].
//! * [`sheet`] reads and writes run sheets: state, pages and instructions as a
//!   text whose numbers a spreadsheet takes for text.
//! * [`run_raw`], [`sheet_read_raw`] and [`sheet_write_raw`] are the libraries'
//!   functions as they are, on plain numbers.
//! * [`trace`] says what an instruction loaded and stored, to be shown to a
//!   person.
//!
//! # A switch of shadow stacks
//!
//! User code in 64-bit mode switches to the shadow stack that has its token at
//! 2FF0, and leaves a token on the one it came from.
//!
//! ```
//! use driftpocket::{Answer, Instruction, Kind, PageError, PageList, Size, State, run};
//!
//! # fn main() -> Result<(), PageError> {
//! let mut pages = PageList::new();
//! pages.push(0x1000, Kind::UserShadow)?;
//! pages.push(0x2000, Kind::UserShadow)?;
//! pages.write(0x2ff0, Size::Eight, 0x2ff9)?;
//!
//! let mut state = State {
//!     mode: 2,
//!     cpl: 3,
//!     cet: 1,
//!     ucet: 1,
//!     ip: 0x40_0000,
//!     ssp: 0x1ff0,
//!     ..State::default()
//! };
//!
//! let list = [Instruction::rstorssp(5, 0x2ff0), Instruction::saveprevssp(4)];
//! let outcome = run(&mut state, &mut pages, &list);
//!
//! assert_eq!(outcome.count, 2);
//! assert_eq!(outcome.answer, Answer::Completed);
//! assert_eq!(state.ssp, 0x2ff8);
//! assert_eq!(state.ip, 0x40_0009);
//! assert_eq!(pages.read(0x2ff0, Size::Eight), Some(0x1ff3));
//! assert_eq!(pages.read(0x1fe8, Size::Eight), Some(0x1ff1));
//!
//! // The stack ends at 3000. Another element is not there to be dropped.
//! let outcome = run(&mut state, &mut pages, &[Instruction::incsspq(5, 2)]);
//! assert_eq!(outcome.to_string(), "0 completed, then #PF at 0x3000");
//! assert_eq!(state.ssp, 0x2ff8);
//! # Ok(())
//! # }
//! ```
//!
//! # A return address that was overwritten
//!
//! A call puts its return address on both stacks, and a return compares them. Only
//! a relative call of the next instruction leaves the shadow stack alone.
//!
//! ```
//! use driftpocket::{Instruction, Kind, PageError, PageList, Size, State, run};
//!
//! # fn main() -> Result<(), PageError> {
//! let mut pages = PageList::new();
//! pages.push(0x1000, Kind::UserShadow)?;
//! pages.push(0x5000, Kind::Ordinary)?;
//!
//! let mut state = State {
//!     mode: 2,
//!     cpl: 3,
//!     cet: 1,
//!     ucet: 1,
//!     ip: 0x40_0000,
//!     sp: 0x5010,
//!     ssp: 0x1ff0,
//!     ..State::default()
//! };
//!
//! let list = [Instruction::call_relative(5, 0x10), Instruction::ret(1)];
//! let outcome = run(&mut state, &mut pages, &list);
//! assert_eq!(outcome.to_string(), "2 completed");
//! assert_eq!((state.ip, state.sp, state.ssp), (0x40_0005, 0x5010, 0x1ff0));
//!
//! // Once more, and now something writes over the ordinary stack in between.
//! run(&mut state, &mut pages, &list[..1]);
//! pages.write(0x5008, Size::Eight, 0x41_4141)?;
//! let outcome = run(&mut state, &mut pages, &list[1..]);
//! assert_eq!(outcome.to_string(), "0 completed, then #CP(NEAR-RET), error code 1");
//! # Ok(())
//! # }
//! ```

#![deny(missing_docs)]
#![deny(unsafe_code)]

mod answer;
mod ffi;
mod instruction;
mod pages;
pub mod sheet;
mod state;
pub mod trace;

pub use answer::{Answer, Fault, Outcome, REPORT_WORDS, Refusal, Vector};
pub use ffi::{run_raw, sheet_read_raw, sheet_write_raw};
pub use instruction::{INSTRUCTION_WORDS, Instruction, MOST_INSTRUCTIONS};
pub use pages::{Kind, MOST_PAGES, PAGE_BYTES, PageError, PageList, Size};
pub use sheet::{Sheet, SheetError};
pub use state::{STATE_WORDS, State, Width};

/// Runs the instructions one after the other, up to the first that is refused
/// or faults, or to the end of the list.
///
/// State and pages are then as the last completed instruction left them. One
/// that is refused or faults changes neither.
pub fn run(state: &mut State, pages: &mut PageList, instructions: &[Instruction]) -> Outcome {
    let mut fields = state.to_words();
    let words = instruction::words_of(instructions);
    let mut report = [0; REPORT_WORDS];
    let (entries, bytes) = pages.parts_mut();
    let number = run_raw(&mut fields, entries, bytes, &words, &mut report);
    *state = State::from_words(fields);
    Outcome::read(number, report)
}
