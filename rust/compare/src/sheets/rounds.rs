//! Random runs written, read back and written again, in rooms of all lengths.

use crate::author::numbered;
use crate::case::Case;
use crate::rounds::located;
use crate::sheets::drawn::{Size, any_case};
use crate::sheets::lines::{lines_of, text};
use crate::sheets::{FIELDS, Parts, Question, READ_REPORT, Rooms, Sighting, Tally, WRITE_REPORT};
use driftpocket_reference::dice::Dice;
use driftpocket_reference::pages::PAGE_BYTES;
use std::ops::Range;

/// The longest report that is tried.
const LONGEST_REPORT: usize = 7;

/// Compares many random runs, up to the first difference.
pub fn compare(parts: Parts, seed: u64, numbers: Range<u64>) -> Result<Tally, String> {
    let mut round = Round {
        parts,
        tally: Tally::default(),
    };
    for number in numbers {
        let mut dice = numbered(seed, number);
        let size = if dice.once_in(8) {
            Size::Any
        } else {
            Size::Few
        };
        let case = any_case(&mut dice, size);
        let done = round.case(&mut dice, &case);
        done.map_err(|text| located(seed, number, &text))?;
    }
    Ok(round.tally)
}

/// The parts under test, and what came of them so far.
struct Round {
    parts: Parts,
    tally: Tally,
}

impl Round {
    /// All that is asked about one run.
    fn case(&mut self, dice: &mut Dice, case: &Case) -> Result<(), String> {
        let sheet = text(&lines_of(case));
        let seen = self.write(case, sheet.len() + dice.index(9))?;
        self.write(case, 0)?;
        if seen.returned != 0 {
            return self.refused(dice, case, &sheet);
        }
        demand(seen.text() == Some(&sheet), "the text is another one")?;
        self.write_rooms(dice, case, sheet.len())?;
        self.read_rooms(dice, case, &sheet)?;
        let exact = self.read(&sheet, Rooms::of(case))?;
        let run = exact.run();
        demand(
            run.as_ref().is_some_and(|run| is_sorted(run, case)),
            "what was written is read otherwise",
        )?;
        let again = self.write(&run.expect("it was read"), sheet.len())?;
        demand(again.bytes == sheet, "what was read is written otherwise")
    }

    /// What else is asked about a run that is refused, reports that are too short
    /// among it. Its text may be a sheet or not.
    fn refused(&mut self, dice: &mut Dice, case: &Case, sheet: &[u8]) -> Result<(), String> {
        self.read(sheet, Rooms::of(case))?;
        self.read(sheet, Rooms::NONE)?;
        let report = dice.index(READ_REPORT);
        let rooms = Rooms::of(case);
        self.read(sheet, Rooms { report, ..rooms })?;
        let mut case = case.clone();
        case.room = dice.index(WRITE_REPORT);
        self.write(&case, sheet.len())?;
        Ok(())
    }

    /// Writes a run.
    fn write(&mut self, case: &Case, room: usize) -> Result<Sighting, String> {
        let case = case.clone();
        let seen = Question::Write { case, room }.compare(self.parts)?;
        self.tally.write(&seen);
        Ok(seen)
    }

    /// Reads a text.
    fn read(&mut self, sheet: &[u8], rooms: Rooms) -> Result<Sighting, String> {
        let text = sheet.to_vec();
        let seen = Question::Read { text, rooms }.compare(self.parts)?;
        self.tally.read(&seen);
        Ok(seen)
    }

    /// Writes a run in rooms around the length of its text, and with reports of
    /// all lengths.
    fn write_rooms(&mut self, dice: &mut Dice, case: &Case, length: usize) -> Result<(), String> {
        for room in [length - 1, length, length + 1, dice.index(length)] {
            self.write(case, room)?;
        }
        let mut case = case.clone();
        for report in 0..=LONGEST_REPORT {
            case.room = report;
            self.write(&case, length)?;
        }
        Ok(())
    }

    /// Reads a text with buffers that are too short, just long enough or longer,
    /// and with reports of all lengths.
    fn read_rooms(&mut self, dice: &mut Dice, case: &Case, sheet: &[u8]) -> Result<(), String> {
        let exact = Rooms::of(case);
        let longer = Rooms {
            state: exact.state + dice.index(3),
            pages: exact.pages + dice.index(3),
            bytes: exact.bytes + dice.index(20),
            words: exact.words + dice.index(6),
            report: exact.report + dice.index(3),
        };
        for base in [exact, longer] {
            for rooms in shorter(base, exact) {
                self.read(sheet, rooms)?;
            }
        }
        for report in 0..=LONGEST_REPORT {
            let rooms = Rooms { report, ..longer };
            self.read(sheet, rooms)?;
        }
        self.read(sheet, Rooms::NONE)?;
        Ok(())
    }
}

/// Rooms that have one buffer too short by one, or by all.
fn shorter(base: Rooms, exact: Rooms) -> Vec<Rooms> {
    let mut all = Vec::new();
    for cut in [|length: usize| length.saturating_sub(1), |_| 0] {
        let (state, pages) = (cut(FIELDS), cut(exact.pages));
        let (bytes, words) = (cut(exact.bytes), cut(exact.words));
        all.extend([
            Rooms { state, ..base },
            Rooms { pages, ..base },
            Rooms { bytes, ..base },
            Rooms { words, ..base },
        ]);
    }
    all
}

/// Whether a run is another one with its pages ascending.
fn is_sorted(run: &Case, other: &Case) -> bool {
    let mut order: Vec<usize> = (0..other.pages.len()).collect();
    order.sort_by_key(|&page| other.pages[page] / PAGE_BYTES);
    let sorted = other.on_pages(&order);
    (&run.state, &run.pages, &run.bytes, &run.words)
        == (&sorted.state, &sorted.pages, &sorted.bytes, &sorted.words)
}

/// Something that must hold, or else these words.
fn demand(holds: bool, otherwise: &str) -> Result<(), String> {
    holds.then_some(()).ok_or_else(|| otherwise.to_string())
}
