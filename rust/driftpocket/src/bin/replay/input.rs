//! Runs to be replayed, and texts with the places that they come from.

use crate::lines::lines;
use driftpocket::sheet::MOST_TEXT;
use driftpocket::{Instruction, PageList, Sheet, State};
use std::fmt;
use std::fs::File;
use std::io::{self, Read};
use std::path::PathBuf;

/// How many bytes of a text are read at most, so that every reading ends. No
/// sheet that can be run is nearly as long.
const MOST_BYTES: u64 = 1 << 24;

/// A run: what it is called, where it starts, and what it does.
#[derive(Clone, Debug)]
pub struct Run {
    /// What a person reads above it.
    pub title: String,
    /// The state at its start.
    pub state: State,
    /// The pages at its start.
    pub pages: PageList,
    /// The instructions, in their order.
    pub instructions: Vec<Instruction>,
    /// How many lines of its text come before the instructions, if it has one.
    pub lines_before: Option<usize>,
}

impl Run {
    /// The run of a sheet, with its text and where that came from.
    pub fn of_sheet(source: &Source, text: &[u8], sheet: Sheet) -> Run {
        let pages = sheet.pages.entries().len();
        let instructions = sheet.instructions.len();
        Run {
            title: format!("{source} (pages: {pages}, instructions: {instructions})"),
            state: sheet.state,
            pages: sheet.pages,
            instructions: sheet.instructions,
            lines_before: lines(text).count().checked_sub(instructions),
        }
    }

    /// The line that the instruction with this number, from 1, stands in.
    pub fn line(&self, number: usize) -> Option<usize> {
        self.lines_before.map(|before| before + number)
    }
}

#[cfg(test)]
impl Run {
    /// The run of a stored sheet, by its folder and name: `worked/p04`.
    pub fn stored(name: &str) -> Run {
        let sheets = PathBuf::from(env!("CARGO_MANIFEST_DIR")).join("../../sheets");
        let source = Source::File(sheets.join(format!("{name}.sheet")));
        let text = source.text().unwrap();
        let sheet = Sheet::read(&text).unwrap();
        Run {
            title: name.to_string(),
            ..Run::of_sheet(&source, &text, sheet)
        }
    }
}

/// Where a text comes from.
#[derive(Clone, Debug, PartialEq, Eq)]
pub enum Source {
    /// A file.
    File(PathBuf),
    /// Standard input.
    Input,
}

impl Source {
    /// The whole text, or why it cannot be had.
    pub fn text(&self) -> Result<Vec<u8>, String> {
        let read = match self {
            Source::File(path) => File::open(path).and_then(all),
            Source::Input => all(io::stdin().lock()),
        };
        let text = read.map_err(|error| format!("{self}: cannot be read: {error}"))?;
        if text.len() as u64 > MOST_BYTES {
            return Err(format!(
                "{self}: not read, for it has more than {MOST_BYTES} bytes; \
                 a sheet that can be run has at most {MOST_TEXT}"
            ));
        }
        Ok(text)
    }
}

/// All bytes, up to one more than may be.
fn all(reader: impl Read) -> io::Result<Vec<u8>> {
    let mut text = Vec::new();
    reader.take(MOST_BYTES + 1).read_to_end(&mut text)?;
    Ok(text)
}

impl fmt::Display for Source {
    fn fmt(&self, out: &mut fmt::Formatter<'_>) -> fmt::Result {
        match self {
            Source::File(path) => path.display().fmt(out),
            Source::Input => out.write_str("standard input"),
        }
    }
}

#[cfg(test)]
mod tests {
    use super::*;

    #[test]
    fn a_text_without_end_is_not_read() {
        let endless = io::repeat(b'x');
        assert_eq!(all(endless).unwrap().len() as u64, MOST_BYTES + 1);
    }

    #[test]
    fn titles() {
        let source = Source::File("a/b.sheet".into());
        let sheet = Sheet {
            instructions: vec![Instruction::saveprevssp(4); 2],
            ..Sheet::default()
        };
        let text = sheet.write().unwrap();
        let run = Run::of_sheet(&source, &text, sheet);
        assert_eq!(run.title, "a/b.sheet (pages: 0, instructions: 2)");
        assert_eq!(run.line(1), Some(3));
        assert_eq!(Source::Input.to_string(), "standard input");
    }
}
