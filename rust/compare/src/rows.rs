//! Cases with what must come of them, written out by hand from the rules.
//!
//! A row begins as a case that is expected to complete, with IP after the last
//! instruction and all else as it was. What the rules say beyond that is told
//! to it step by step.

use crate::answer::Answer;
use crate::case::{Case, PAGE, Part, REPORT_WORDS, Seen, field, foretell, observe};
use crate::difference::explain;
use driftpocket_reference::runs::WORDS;
use std::borrow::Borrow;

/// What every lent byte of a plain case holds.
const BACKGROUND: u8 = 0xcc;

/// The room that a plain case has in its report: two words too much.
const ROOM: usize = REPORT_WORDS + 2;

/// A case with what must come of it.
#[derive(Clone, Debug)]
pub struct Row {
    /// What the case is about.
    pub name: String,
    /// The case.
    pub case: Case,
    /// What must be seen.
    pub wanted: Seen,
}

/// The case that most rows start from: 64-bit mode, user code with shadow
/// stacks, two pages for these and an ordinary one.
pub fn plain(instructions: &[[u64; WORDS]]) -> Case {
    Case {
        state: vec![2, 3, 1, 1, 0, 0x40_0000, 0x5010, 0x1ff0, 0, 0xffff_ffff],
        pages: vec![0x1001, 0x2001, 0x5003],
        bytes: vec![BACKGROUND; 3 * PAGE],
        words: instructions.concat(),
        room: ROOM,
    }
}

impl Case {
    /// The same case with another field of its state.
    pub fn with(mut self, field: usize, value: u64) -> Case {
        self.state[field] = value;
        self
    }

    /// The same case with other bytes, the low ones of a number.
    pub fn holding<const SIZE: usize>(mut self, address: u64, value: u64) -> Case {
        let place = self.place(address).expect("the page is listed");
        put::<SIZE>(&mut self.bytes, place, value);
        self
    }

    /// The same case on other pages, without anything on them.
    pub fn on(mut self, pages: &[u64]) -> Case {
        self.pages = pages.to_vec();
        self.bytes = vec![BACKGROUND; pages.len() * PAGE];
        self
    }
}

/// Puts the low bytes of a number, the lowest first.
fn put<const SIZE: usize>(bytes: &mut [u8], place: usize, value: u64) {
    bytes[place..][..SIZE].copy_from_slice(&value.to_le_bytes()[..SIZE]);
}

impl Row {
    /// A case that completes. IP grows by all lengths.
    pub fn completes(name: impl Into<String>, case: Case) -> Row {
        let count = case.words.len() / WORDS;
        Row::stops(name, case, count as u64, Answer::COMPLETED)
    }

    /// A case that ends after so many completed instructions. IP grows by the
    /// lengths of these.
    pub fn stops(name: impl Into<String>, case: Case, count: u64, answer: Answer) -> Row {
        let mut wanted = Seen::answered(&case, count, &answer);
        let lengths = case.words.iter().skip(1).step_by(WORDS);
        if let Some(ip) = wanted.state.get_mut(field::IP) {
            let grown: u64 = lengths.take(count as usize).sum();
            *ip = ip.wrapping_add(grown);
        }
        Row {
            name: name.into(),
            case,
            wanted,
        }
    }

    /// A case that ends at its first instruction or before it.
    pub fn ends(name: impl Into<String>, case: Case, answer: Answer) -> Row {
        Row::stops(name, case, 0, answer)
    }

    /// A case with too little room for its report. Only this number comes back.
    pub fn too_short(name: impl Into<String>, case: Case, returned: u64) -> Row {
        let wanted = Seen::untouched(&case, returned);
        Row {
            name: name.into(),
            case,
            wanted,
        }
    }

    /// A field must have this value at the end.
    pub fn field(mut self, field: usize, value: u64) -> Row {
        self.wanted.state[field] = value;
        self
    }

    /// These bytes must hold the low ones of a number at the end.
    pub fn bytes<const SIZE: usize>(mut self, address: u64, value: u64) -> Row {
        let place = self.case.place(address).expect("the page is listed");
        put::<SIZE>(&mut self.wanted.bytes, place, value);
        self
    }

    /// Compares all three: what the rules say, what the second program says,
    /// what the part under test does.
    pub fn check(&self, part: Part) -> Result<(), String> {
        let wanted = ("by hand", &self.wanted);
        let foretold = explain(wanted, ("second program", &foretell(&self.case)));
        let observed = explain(wanted, ("under test", &observe(part, &self.case)));
        match foretold.into_iter().chain(observed).collect::<String>() {
            text if text.is_empty() => Ok(()),
            text => Err(format!("{}: {text}", self.name)),
        }
    }
}

/// Checks rows as they come, up to the first that is wrong. How many there were
/// comes back.
pub fn check_each(
    part: Part,
    rows: impl Iterator<Item = impl Borrow<Row>>,
) -> Result<usize, String> {
    rows.map(|row| row.borrow().check(part))
        .try_fold(0, |count, checked| checked.map(|()| count + 1))
}

/// Checks many rows; all that is wrong comes back in one text.
pub fn check_all(part: Part, rows: &[Row]) -> Result<(), String> {
    let wrong: Vec<String> = rows
        .iter()
        .filter_map(|row| row.check(part).err())
        .collect();
    if wrong.is_empty() {
        return Ok(());
    }
    Err(format!(
        "{} of {} rows:\n{}",
        wrong.len(),
        rows.len(),
        wrong.concat()
    ))
}
