//! The stored sheets of the repository, each with the outcome that is stored
//! beside it. The worked cases of the rules are among them.

use crate::case::{Case, Part, REPORT_WORDS, observe};
use crate::sheets::{FIELDS, Parts, Question, READ_REPORT, Rooms, WRITE_REPORT, lines};
use driftpocket_reference::outcome::LONGEST_TEXT;
use driftpocket_reference::pages::{MOST_PAGES, PAGE_BYTES};
use driftpocket_reference::runs::{MOST_INSTRUCTIONS, WORDS};
use std::fs;
use std::io;
use std::path::{Path, PathBuf};

/// The folder that they are in, or in a folder of.
const FOLDER: &str = concat!(env!("CARGO_MANIFEST_DIR"), "/../../sheets");

/// Room for every run that is not refused.
const ROOMS: Rooms = Rooms {
    state: FIELDS,
    pages: MOST_PAGES,
    bytes: MOST_PAGES * PAGE_BYTES as usize,
    words: MOST_INSTRUCTIONS * WORDS,
    report: READ_REPORT,
};

/// A stored text with its outcome.
#[derive(Clone, Debug, PartialEq, Eq)]
pub struct Stored {
    /// Its folder, if it has one of its own, and its name: `worked/p04`.
    pub name: String,
    /// The text, a sheet or none.
    pub text: Vec<u8>,
    /// What must come of it.
    pub outcome: Vec<u8>,
}

/// All of them, by their names.
pub fn all() -> io::Result<Vec<Stored>> {
    let mut paths = Vec::new();
    for path in entries(Path::new(FOLDER))? {
        match path.is_dir() {
            true => paths.extend(entries(&path)?),
            false => paths.push(path),
        }
    }
    paths.sort();
    let texts = paths.iter().filter(|path| is_text(path));
    texts.map(|path| read(path)).collect()
}

/// What is in a folder.
fn entries(folder: &Path) -> io::Result<Vec<PathBuf>> {
    let entries = fs::read_dir(folder)?;
    entries.map(|entry| Ok(entry?.path())).collect()
}

/// Whether a file is a stored text.
fn is_text(path: &Path) -> bool {
    let ending = path.extension();
    ending.is_some_and(|ending| ending == "sheet" || ending == "txt")
}

/// Reads one of them.
fn read(path: &Path) -> io::Result<Stored> {
    let inside = path.strip_prefix(FOLDER).unwrap_or(path);
    Ok(Stored {
        name: inside.with_extension("").display().to_string(),
        text: fs::read(path)?,
        outcome: fs::read(path.with_extension("outcome"))?,
    })
}

/// The outcome of a text by a reader, a part that runs and a writer.
pub fn outcome(parts: Parts, part: Part, text: &[u8]) -> Vec<u8> {
    let line = |word, numbers: &[u64]| lines::text(&[lines::line(word, numbers)]);
    if text.len() > LONGEST_TEXT {
        return line("refused", &[8, 0]);
    }
    let (text, rooms) = (text.to_vec(), ROOMS);
    let read = Question::Read { text, rooms }.ask(parts);
    let Some(mut case) = read.run() else {
        return line("refused", &read.report[..2]);
    };
    case.room = REPORT_WORDS;
    let seen = observe(part, &case);
    let completed = WORDS * seen.count() as usize;
    let left = Case {
        words: case.words.split_off(completed.min(case.words.len())),
        pages: case.pages,
        state: seen.state,
        bytes: seen.bytes,
        room: WRITE_REPORT,
    };
    let (case, room) = (left, LONGEST_TEXT);
    let left = Question::Write { case, room }.ask(parts);
    let sheet = left.text().unwrap_or_default();
    [&line("answer", &seen.report), sheet].concat()
}

/// The first whose outcome by a reader, a part and a writer is not the stored
/// one.
pub fn first_wrong<'all>(
    parts: Parts,
    part: Part,
    mut all: impl Iterator<Item = &'all Stored>,
) -> Option<&'all str> {
    let wrong = all.find(|one| outcome(parts, part, &one.text) != one.outcome);
    wrong.map(|one| one.name.as_str())
}
