//! Run sheets: a state, pages and instructions as text.
//!
//! A sheet is lines of a word and numbers, parted by single tabs. Every number
//! is `x` and 16 lower-case hexadecimal digits, so that a spreadsheet takes it
//! for text and leaves it alone. `docs/RULES.md` has the format. A text is a
//! sheet to the byte or none at all, and equal runs have equal sheets.
//!
//! # A sheet, run and written again
//!
//! ```
//! use driftpocket::{Sheet, run};
//!
//! # fn main() -> Result<(), Box<dyn std::error::Error>> {
//! let text = "\
//! sheet\tx0000000000000001
//! state\tx0000000000000002\tx0000000000000003\tx0000000000000001\
//! \tx0000000000000001\tx0000000000000000\tx0000000000400000\
//! \tx0000000000005010\tx0000000000001ff0\tx0000000000000000\
//! \tx00000000ffffffff
//! page\tx0000000000002001
//! word\tx0000000000002ff0\tx0000000000002ff9
//! do\tx0000000000000003\tx0000000000000005\tx0000000000002ff0\tx0000000000000000
//! ";
//! let mut sheet = Sheet::read(text.as_bytes())?;
//! let outcome = run(&mut sheet.state, &mut sheet.pages, &sheet.instructions);
//! assert!(outcome.answer.is_completed());
//!
//! // What is left: another pointer, another token, and nothing more to do.
//! sheet.instructions.clear();
//! let left = sheet.write().map_err(|refusal| refusal.to_string())?;
//! let left = String::from_utf8(left)?;
//! assert!(left.ends_with("word\tx0000000000002ff0\tx0000000000001ff3\n"));
//!
//! // A number that a spreadsheet has spoilt is not taken for another one.
//! let spoilt = text.replace("x0000000000400000", "7E12");
//! let refused = Sheet::read(spoilt.as_bytes()).unwrap_err();
//! assert_eq!(refused.line, Some(2));
//! assert_eq!(refused.to_string(), "refusal 9, line 2: the text is no run sheet");
//! # Ok(())
//! # }
//! ```

use crate::answer::Refusal;
use crate::ffi::{sheet_read_raw, sheet_write_raw};
use crate::instruction::{INSTRUCTION_WORDS, Instruction, MOST_INSTRUCTIONS, words_of};
use crate::pages::{MOST_PAGES, PAGE_BYTES, PageList};
use crate::state::{STATE_WORDS, State};
use std::error::Error;
use std::fmt;

/// How many words the report of a read has.
pub const READ_REPORT_WORDS: usize = 5;

/// How many words the report of a write has.
pub const WRITE_REPORT_WORDS: usize = 2;

/// How many bytes a tab and a number take.
const NUMBER_BYTES: usize = 18;

/// How many bytes the text of a run has at most that is not refused: all pages,
/// no number on them zero, and all instructions.
pub const MOST_TEXT: usize = line_bytes("sheet", 1)
    + line_bytes("state", STATE_WORDS)
    + MOST_PAGES * line_bytes("page", 1)
    + MOST_PAGES * (PAGE_BYTES / 8) * line_bytes("word", 2)
    + MOST_INSTRUCTIONS * line_bytes("do", INSTRUCTION_WORDS);

/// How many bytes a line of a sheet has.
const fn line_bytes(word: &str, numbers: usize) -> usize {
    word.len() + numbers * NUMBER_BYTES + 1
}

/// What a sheet holds: where a run starts, and what it does.
#[derive(Clone, Debug, Default, PartialEq, Eq)]
pub struct Sheet {
    /// The state at the start.
    pub state: State,
    /// The pages at the start. A sheet that was read has them in ascending
    /// order; one that is written may have them in any.
    pub pages: PageList,
    /// The instructions, in their order.
    pub instructions: Vec<Instruction>,
}

impl Sheet {
    /// Reads a text.
    ///
    /// Only a sheet, to the byte, is read. What it holds has passed every test
    /// that comes before the first step of a run, so that of the refusals only
    /// 6 is left.
    pub fn read(text: &[u8]) -> Result<Sheet, SheetError> {
        // What needs more room than the limits allow has refusal 1 or 7 instead.
        let mut state = [0; STATE_WORDS];
        let mut pages = vec![0; MOST_PAGES];
        let mut bytes = vec![0; MOST_PAGES * PAGE_BYTES];
        let mut words = vec![0; MOST_INSTRUCTIONS * INSTRUCTION_WORDS];
        let mut report = [0; READ_REPORT_WORDS];
        let number = sheet_read_raw(
            text,
            &mut state,
            &mut pages,
            &mut bytes,
            &mut words,
            &mut report,
        );
        let [_, line, page_count, byte_count, word_count] = report;
        if number != 0 {
            return Err(SheetError::of(number, line));
        }
        pages.truncate(length(page_count));
        bytes.truncate(length(byte_count));
        words.truncate(length(word_count));
        let (instructions, _) = words.as_chunks();
        Ok(Sheet {
            state: State::from_words(state),
            pages: PageList::from_parts(pages, bytes),
            instructions: instructions
                .iter()
                .map(|&words| Instruction::from_words(words))
                .collect(),
        })
    }

    /// The one text of this run, or why it has none: refusals 1 to 5 and 7.
    pub fn write(&self) -> Result<Vec<u8>, Refusal> {
        let mut text = vec![0; MOST_TEXT];
        let mut report = [0; WRITE_REPORT_WORDS];
        let number = sheet_write_raw(
            &self.state.to_words(),
            self.pages.entries(),
            self.pages.bytes(),
            &words_of(&self.instructions),
            &mut text,
            &mut report,
        );
        if number != 0 {
            return Err(refusal_of(number));
        }
        text.truncate(length(report[1]));
        text.shrink_to_fit();
        Ok(text)
    }
}

/// A length that the library reported.
fn length(number: u64) -> usize {
    usize::try_from(number).unwrap_or(usize::MAX)
}

/// The refusal of this number. One that this crate does not know comes from a
/// library of another version: its result is not to be had, as with too little
/// room.
fn refusal_of(number: u64) -> Refusal {
    Refusal::from_number(number).unwrap_or(Refusal::Room)
}

/// Why a text was not read.
#[derive(Clone, Copy, Debug, PartialEq, Eq)]
pub struct SheetError {
    /// 9 if the text is no sheet; otherwise what is wrong with the run that it
    /// holds.
    pub refusal: Refusal,
    /// For refusal 9 the first line, counting from 1, that can neither begin
    /// nor continue a sheet. A line that is missing is the one after the last.
    pub line: Option<u64>,
}

impl SheetError {
    /// The error from the library's answer and the line in its report.
    fn of(number: u64, line: u64) -> SheetError {
        let refusal = refusal_of(number);
        SheetError {
            refusal,
            line: (refusal == Refusal::Sheet).then_some(line),
        }
    }
}

impl fmt::Display for SheetError {
    fn fmt(&self, out: &mut fmt::Formatter<'_>) -> fmt::Result {
        let refusal = self.refusal;
        match self.line {
            Some(line) => {
                let (number, text) = (refusal.number(), refusal.description());
                write!(out, "refusal {number}, line {line}: {text}")
            }
            None => refusal.fmt(out),
        }
    }
}

impl Error for SheetError {}

#[cfg(test)]
mod tests {
    use super::*;

    #[test]
    fn the_longest_text() {
        assert_eq!(MOST_TEXT, 413_250);
    }

    #[test]
    fn errors() {
        let line = SheetError::of(9, 4);
        assert_eq!(line.refusal, Refusal::Sheet);
        assert_eq!(
            line.to_string(),
            "refusal 9, line 4: the text is no run sheet"
        );
        let five = SheetError::of(5, 0);
        assert_eq!(five.line, None);
        assert_eq!(
            five.to_string(),
            "refusal 5: a field of the state is out of its range"
        );
        assert_eq!(SheetError::of(77, 3).refusal, Refusal::Room);
    }
}
