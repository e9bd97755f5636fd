//! Run sheets: a reader and a writer compared with those of the second program.
//!
//! Both are handed in together, so that wrong ones can stand in their places.
//! Whatever is compared, it is all that can be seen: the number that came back, and
//! every word and byte of every lent buffer, past the results too.
//!
//! * [`lines`]: sheets as lines, made without looking for refusals.
//! * [`rows`]: what the text of a sheet may be, written out by hand.
//! * [`refusals`]: refused runs, rooms and writes, written out by hand.
//! * [`edits`]: every small edit of a small sheet.
//! * [`drawn`]: random runs.
//! * [`rounds`]: these written, read back and written again, in all rooms.
//! * [`texts`]: random texts of nearly right lines.

use crate::case::Case;
use driftpocket_reference::sheet;
use std::collections::BTreeMap;
use std::fmt::{LowerHex, Write};

pub mod drawn;
pub mod edits;
pub mod lines;
pub mod refusals;
pub mod rounds;
pub mod rows;
pub mod texts;

/// A reader: text in; state, pages, bytes, words and report out.
pub type Reader = fn(&[u8], &mut [u64], &mut [u64], &mut [u8], &mut [u64], &mut [u64]) -> u64;

/// A writer: state, pages, bytes and words in; text and report out.
pub type Writer = fn(&[u64], &[u64], &[u8], &[u64], &mut [u8], &mut [u64]) -> u64;

/// A reader and a writer.
#[derive(Clone, Copy)]
pub struct Parts {
    /// The reader.
    pub read: Reader,
    /// The writer.
    pub write: Writer,
}

/// Those of the library.
pub const LIBRARY: Parts = Parts {
    read: driftpocket::sheet_read_raw,
    write: driftpocket::sheet_write_raw,
};

/// Those of the second program.
pub const SECOND: Parts = Parts {
    read: sheet::read_sheet,
    write: sheet::write_sheet,
};

/// The words of a read's report: refusal, line, and the numbers of pages, bytes
/// and words.
pub const READ_REPORT: usize = 5;

/// The words of a write's report: refusal, and length of the text.
pub const WRITE_REPORT: usize = 2;

/// The fields of a state.
pub const FIELDS: usize = 10;

/// The most places of a buffer that are listed if they differ.
const MOST_PLACES: usize = 8;

/// The most bytes of a text that are shown.
const MOST_TEXT: usize = 2000;

/// The lengths of the buffers that a read is lent.
#[derive(Clone, Copy, Debug, PartialEq, Eq)]
pub struct Rooms {
    /// Words of the state.
    pub state: usize,
    /// Page entries.
    pub pages: usize,
    /// Bytes.
    pub bytes: usize,
    /// Words of instructions.
    pub words: usize,
    /// Words of the report.
    pub report: usize,
}

impl Rooms {
    /// No room but for the report.
    pub const NONE: Rooms = Rooms {
        state: 0,
        pages: 0,
        bytes: 0,
        words: 0,
        report: READ_REPORT,
    };

    /// Just the room that a run needs.
    pub fn of(case: &Case) -> Rooms {
        Rooms {
            state: FIELDS,
            pages: case.pages.len(),
            bytes: case.bytes.len(),
            words: case.words.len(),
            report: READ_REPORT,
        }
    }
}

/// Something to be read or written.
#[derive(Clone, Debug)]
pub enum Question {
    /// A text to be read.
    Read {
        /// The text.
        text: Vec<u8>,
        /// The lent buffers.
        rooms: Rooms,
    },
    /// A run to be written. It says itself how long the report is.
    Write {
        /// The run.
        case: Case,
        /// How many bytes there are for the text.
        room: usize,
    },
}

/// All that can be seen after a read or a write.
#[derive(Clone, Debug, PartialEq, Eq)]
pub struct Sighting {
    /// The number that came back.
    pub returned: u64,
    /// The report.
    pub report: Vec<u64>,
    /// The state of a read.
    pub state: Vec<u64>,
    /// The page list of a read.
    pub pages: Vec<u64>,
    /// The words of a read.
    pub words: Vec<u64>,
    /// The bytes of a read, or the text of a write.
    pub bytes: Vec<u8>,
}

impl Sighting {
    /// The run that was read, if one was, to be written with a full report.
    pub fn run(&self) -> Option<Case> {
        let &[0, _, pages, bytes, words] = self.report.first_chunk()? else {
            return None;
        };
        Some(Case {
            state: self.state[..FIELDS].to_vec(),
            pages: self.pages[..pages as usize].to_vec(),
            bytes: self.bytes[..bytes as usize].to_vec(),
            words: self.words[..words as usize].to_vec(),
            room: WRITE_REPORT,
        })
    }

    /// The text that was written, if one was.
    pub fn text(&self) -> Option<&[u8]> {
        let &[0, length] = self.report.first_chunk()? else {
            return None;
        };
        self.bytes.get(..length as usize)
    }
}

impl Question {
    /// What is seen if nothing happens at all: numbers that no part would give.
    pub fn untouched(&self) -> Sighting {
        let marks = |count| (0..count as u64).map(|place| 0xdead_0000_0000_0000 + place);
        let (rooms, bytes, report) = match self {
            Question::Read { rooms, .. } => (*rooms, rooms.bytes, rooms.report),
            Question::Write { case, room } => (Rooms::NONE, *room, case.room),
        };
        Sighting {
            returned: 0,
            report: marks(report).collect(),
            state: marks(rooms.state).collect(),
            pages: marks(rooms.pages).collect(),
            words: marks(rooms.words).collect(),
            bytes: vec![0xa5; bytes],
        }
    }

    /// What is seen if only the report is written, of which the first word comes
    /// back.
    pub fn reported(&self, report: &[u64]) -> Sighting {
        let mut seen = self.untouched();
        seen.returned = report[0];
        seen.report[..report.len()].copy_from_slice(report);
        seen
    }

    /// Lets a part do it.
    pub fn ask(&self, parts: Parts) -> Sighting {
        let mut seen = self.untouched();
        seen.returned = match self {
            Question::Read { text, .. } => (parts.read)(
                text,
                &mut seen.state,
                &mut seen.pages,
                &mut seen.bytes,
                &mut seen.words,
                &mut seen.report,
            ),
            Question::Write { case, .. } => (parts.write)(
                &case.state,
                &case.pages,
                &case.bytes,
                &case.words,
                &mut seen.bytes,
                &mut seen.report,
            ),
        };
        seen
    }

    /// Lets the part under test and the second program do it. What both saw
    /// comes back, or what differs.
    pub fn compare(&self, parts: Parts) -> Result<Sighting, String> {
        let seen = self.ask(parts);
        match explain(("second program", &self.ask(SECOND)), ("under test", &seen)) {
            None => Ok(seen),
            Some(text) => Err(format!("{}{text}", self.describe())),
        }
    }

    /// What is asked, in one line.
    fn describe(&self) -> String {
        match self {
            Question::Read { text, rooms } => {
                let shown = &text[..text.len().min(MOST_TEXT)];
                format!("read \"{}\", {rooms:?}: ", shown.escape_ascii())
            }
            Question::Write { case, room } => {
                format!("write {}room for {room} bytes: ", case.describe(0))
            }
        }
    }
}

/// Compares a read. What was read is written again, and must give the text.
pub fn compare_back(parts: Parts, text: &[u8], rooms: Rooms) -> Result<Sighting, String> {
    let question = Question::Read {
        text: text.to_vec(),
        rooms,
    };
    let seen = question.compare(parts)?;
    if let Some(case) = seen.run() {
        let room = text.len() + 3;
        let written = Question::Write { case, room }.compare(parts)?;
        if written.text() != Some(text) {
            let given = question.describe();
            return Err(format!("{given}what was read is written otherwise\n"));
        }
    }
    Ok(seen)
}

/// A sighting with the name of the one who saw it.
pub type Named<'seen> = (&'seen str, &'seen Sighting);

/// What differs between two sightings, or nothing.
pub fn explain(left: Named, right: Named) -> Option<String> {
    if left.1 == right.1 {
        return None;
    }
    let mut text = format!("what differs ({} | {}):\n", left.0, right.0);
    let (left, right) = (left.1, right.1);
    let returned = ([left.returned], [right.returned]);
    list(&mut text, "returned", &returned.0, &returned.1);
    list(&mut text, "report", &left.report, &right.report);
    list(&mut text, "state", &left.state, &right.state);
    list(&mut text, "pages", &left.pages, &right.pages);
    list(&mut text, "words", &left.words, &right.words);
    list(&mut text, "bytes", &left.bytes, &right.bytes);
    Some(text)
}

/// A line for each of the first places of a buffer that differ.
fn list<T: Copy + PartialEq + LowerHex>(text: &mut String, name: &str, left: &[T], right: &[T]) {
    let pairs = left.iter().zip(right).enumerate();
    let differing = pairs.filter(|(_, (left, right))| left != right);
    for (place, (left, right)) in differing.take(MOST_PLACES) {
        writeln!(text, "  {name}, place {place}: {left:x} | {right:x}")
            .expect("a string takes all");
    }
}

/// How often which number came back.
#[derive(Clone, Debug, Default, PartialEq, Eq)]
pub struct Tally {
    /// From reads.
    pub reads: BTreeMap<u64, u64>,
    /// From writes.
    pub writes: BTreeMap<u64, u64>,
}

impl Tally {
    /// Counts a read.
    pub fn read(&mut self, seen: &Sighting) {
        *self.reads.entry(seen.returned).or_default() += 1;
    }

    /// Counts a write.
    pub fn write(&mut self, seen: &Sighting) {
        *self.writes.entry(seen.returned).or_default() += 1;
    }

    /// The numbers that came back from reads, and those from writes.
    pub fn numbers(&self) -> [Vec<u64>; 2] {
        [&self.reads, &self.writes].map(|counts| counts.keys().copied().collect())
    }
}
