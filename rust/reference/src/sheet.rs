//! Run sheets: a run as lines of text.
//!
//! Between text and buffers stands a `Sheet`, which is made of ordered maps: it
//! has no room for an order of pages or for bytes that are zero, so what means
//! the same is the same. A reader splits the text, understands each line by
//! itself, and asks of each two neighbours whether one may follow the other.

pub(crate) mod line;

use crate::pages::{Atlas, PAGE_BYTES};
use crate::processor::FIELDS;
use crate::runs::{WORDS, admit_state};
use line::Line;
use std::collections::BTreeMap;

/// The only version of sheets that there is.
const VERSION: u64 = 1;

/// The refusal of a result that is longer than its buffer.
pub(crate) const NO_ROOM: u64 = 8;

/// The refusal of a text that is no sheet.
pub(crate) const NO_SHEET: u64 = 9;

/// The words that the report of a read has.
const READ_REPORT: usize = 5;

/// The words that the report of a write has.
const WRITE_REPORT: usize = 2;

/// The bytes of a number in memory.
const EIGHT: usize = 8;

/// What a run means, whatever the order of its pages.
#[derive(Clone, Debug, PartialEq, Eq)]
pub(crate) struct Sheet {
    /// The fields of the state.
    pub(crate) state: [u64; FIELDS],
    /// The entries of the page list by page address.
    pages: BTreeMap<u64, u64>,
    /// The aligned numbers on these pages that are not 0, by address.
    contents: BTreeMap<u64, u64>,
    /// The instructions.
    pub(crate) list: Vec<[u64; WORDS]>,
}

/// Reads a sheet into lent buffers.
///
/// The report gets the refusal or 0, the number of the line that makes the text
/// no sheet or 0, and the numbers of page entries, bytes and words of the result:
/// also if it is longer than a buffer, but 0 after any other refusal. A refusal
/// touches the report only, and a report of fewer than five words is not touched
/// either: it is too short, refusal 8, if nothing else is wrong. Past a result
/// every buffer stays as it is.
pub fn read_sheet(
    text: &[u8],
    state: &mut [u64],
    pages: &mut [u64],
    bytes: &mut [u8],
    words: &mut [u64],
    report: &mut [u64],
) -> u64 {
    let sheet = match Sheet::read(text) {
        Ok(sheet) => sheet,
        Err(line) => return say(report, [NO_SHEET, line, 0, 0, 0]),
    };
    if let Err(refusal) = sheet.admit() {
        return say(report, [refusal, 0, 0, 0, 0]);
    }
    let (listed, held, listing) = (sheet.entries(), sheet.bytes(), sheet.list.as_flattened());
    let counts = [listed.len(), held.len(), listing.len()];
    let fits = report.len() >= READ_REPORT
        && state.len() >= FIELDS
        && pages.len() >= listed.len()
        && bytes.len() >= held.len()
        && words.len() >= listing.len();
    if fits {
        lay(state, &sheet.state);
        lay(pages, &listed);
        lay(bytes, &held);
        lay(words, listing);
    }
    let refusal = if fits { 0 } else { NO_ROOM };
    let [listed, held, listing] = counts.map(|count| count as u64);
    say(report, [refusal, 0, listed, held, listing])
}

/// Writes a run as a sheet into a lent buffer.
///
/// The report gets the refusal or 0, and the length of the text: also if it is
/// longer than the buffer, but 0 after any other refusal. A refusal touches the
/// report only, and a report of fewer than two words is not touched either: it is
/// too short, refusal 8, if nothing else is wrong. Past the text the buffer stays
/// as it is.
pub fn write_sheet(
    state: &[u64],
    pages: &[u64],
    bytes: &[u8],
    words: &[u64],
    text: &mut [u8],
    report: &mut [u64],
) -> u64 {
    let printed = match Sheet::gather(state, pages, bytes, words) {
        Ok(sheet) => sheet.print(),
        Err(refusal) => return say(report, [refusal, 0]),
    };
    let length = printed.len() as u64;
    if report.len() < WRITE_REPORT || text.len() < printed.len() {
        return say(report, [NO_ROOM, length]);
    }
    lay(text, printed.as_bytes());
    say(report, [0, length])
}

/// Writes a report if there is room for it. Its first word is also what comes
/// back.
fn say<const COUNT: usize>(report: &mut [u64], words: [u64; COUNT]) -> u64 {
    if let Some(report) = report.first_chunk_mut() {
        *report = words;
    }
    words[0]
}

/// Lays a result at the beginning of a buffer that has room for it.
fn lay<T: Copy>(buffer: &mut [T], result: &[T]) {
    buffer[..result.len()].copy_from_slice(result);
}

impl Sheet {
    /// Understands a text, or gives the number of the first line that is wrong
    /// or missing.
    pub(crate) fn read(text: &[u8]) -> Result<Sheet, u64> {
        let mut sheet = Sheet {
            state: [0; FIELDS],
            pages: BTreeMap::new(),
            contents: BTreeMap::new(),
            list: Vec::new(),
        };
        let mut last = None;
        let mut number = 1;
        for piece in text.split_inclusive(|&byte| byte == b'\n') {
            let line = Line::read(piece).ok_or(number)?;
            if !sheet.goes_on(last.as_ref(), &line) {
                return Err(number);
            }
            sheet.add(&line);
            last = Some(line);
            number += 1;
        }
        match last {
            None | Some(Line::Sheet(_)) => Err(number),
            Some(_) => Ok(sheet),
        }
    }

    /// Whether a line may stand after another one, or as the first.
    fn goes_on(&self, last: Option<&Line>, line: &Line) -> bool {
        use Line::{Do, Page, Sheet, State, Word};
        let Some(last) = last else {
            return *line == Sheet(VERSION);
        };
        match (last, line) {
            (Sheet(_), State(_)) | (State(_), Page(_)) => true,
            (Page(before), Page(entry)) => start(*before) < start(*entry),
            (State(_) | Page(_), Word { address, value }) => self.has_place(*address, *value),
            (Word { address: low, .. }, Word { address, value }) => {
                low < address && self.has_place(*address, *value)
            }
            (State(_) | Page(_) | Word { .. } | Do(_), Do(_)) => true,
            _ => false,
        }
    }

    /// Whether a number can be among the contents of the pages so far.
    fn has_place(&self, address: u64, value: u64) -> bool {
        let aligned = address.is_multiple_of(EIGHT as u64);
        value != 0 && aligned && self.pages.contains_key(&start(address))
    }

    /// Notes what a line says.
    fn add(&mut self, line: &Line) {
        match *line {
            Line::Sheet(_) => {}
            Line::State(fields) => self.state = fields,
            Line::Page(entry) => {
                self.pages.insert(start(entry), entry);
            }
            Line::Word { address, value } => {
                self.contents.insert(address, value);
            }
            Line::Do(words) => self.list.push(words),
        }
    }

    /// The refusals of a run that comes with a page of bytes for each entry.
    pub(crate) fn admit(&self) -> Result<(), u64> {
        let lent_bytes = self.pages.len() as u64 * PAGE_BYTES;
        let words = self.list.as_flattened().len();
        admit(&self.state, &self.entries(), lent_bytes, words)
    }

    /// The page list, by address.
    pub(crate) fn entries(&self) -> Vec<u64> {
        self.pages.values().copied().collect()
    }

    /// The bytes of all pages in that order.
    pub(crate) fn bytes(&self) -> Vec<u8> {
        let places = self.pages.keys().flat_map(|&start| places(start));
        places
            .flat_map(|place| self.contents.get(&place).unwrap_or(&0).to_le_bytes())
            .collect()
    }

    /// Takes a run from buffers, unless it is refused.
    pub(crate) fn gather(
        state: &[u64],
        pages: &[u64],
        bytes: &[u8],
        words: &[u64],
    ) -> Result<Sheet, u64> {
        admit(state, pages, bytes.len() as u64, words.len())?;
        let starts = pages.iter().map(|&entry| start(entry));
        let numbers = bytes.as_chunks::<EIGHT>().0.iter();
        let contents = starts.clone().flat_map(places).zip(numbers);
        Ok(Sheet {
            state: state.try_into().expect("refusal 5 is about this too"),
            pages: starts.zip(pages.iter().copied()).collect(),
            contents: contents
                .map(|(place, &bytes)| (place, u64::from_le_bytes(bytes)))
                .filter(|&(_, number)| number != 0)
                .collect(),
            list: words.as_chunks().0.to_vec(),
        })
    }

    /// The text.
    pub(crate) fn print(&self) -> String {
        let words = self.contents.iter();
        [Line::Sheet(VERSION), Line::State(self.state)]
            .into_iter()
            .chain(self.pages.values().copied().map(Line::Page))
            .chain(words.map(|(&address, &value)| Line::Word { address, value }))
            .chain(self.list.iter().copied().map(Line::Do))
            .map(|line| line.to_string())
            .collect()
    }
}

/// The number of the first refusal that sends a run back before any step.
fn admit(state: &[u64], pages: &[u64], lent_bytes: u64, words: usize) -> Result<(), u64> {
    Atlas::build(pages, lent_bytes).map_err(|refusal| refusal.number())?;
    admit_state(state, words)?;
    Ok(())
}

/// The address of the page that an address lies on, or that an entry names.
fn start(number: u64) -> u64 {
    number - number % PAGE_BYTES
}

/// The addresses of the aligned numbers of a page.
fn places(start: u64) -> impl Iterator<Item = u64> {
    (0..PAGE_BYTES)
        .step_by(EIGHT)
        .map(move |into_page| start + into_page)
}

#[cfg(test)]
mod tests;
