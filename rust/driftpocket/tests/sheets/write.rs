//! The library's writer of run sheets on plain buffers: lengths, the order of
//! refusals, what is written.

use crate::common::user;
use crate::texts::{line, lines};
use driftpocket::sheet::{MOST_TEXT, WRITE_REPORT_WORDS};
use driftpocket::{MOST_INSTRUCTIONS, MOST_PAGES, PAGE_BYTES, sheet_write_raw};

/// What a buffer holds where nothing was written.
const KEPT: u8 = 0x77;

/// The same in a report.
const KEPT_WORD: u64 = 0x77;

/// The run of a call.
#[derive(Clone)]
struct Input {
    state: Vec<u64>,
    pages: Vec<u64>,
    bytes: Vec<u8>,
    words: Vec<u64>,
}

impl Input {
    /// The run of the sheet in `texts`, its pages in the other order.
    fn good() -> Input {
        let mut bytes = vec![0; 2 * PAGE_BYTES];
        bytes[0xff0..0xff8].copy_from_slice(&0x2ff9_u64.to_le_bytes());
        Input {
            state: user(0x1ff0).to_words().to_vec(),
            pages: vec![0x2001, 0x1001],
            bytes,
            words: vec![3, 5, 0x2ff0, 0],
        }
    }

    /// Writes it into room of this length, with a report of this length.
    fn write(&self, room: usize, report: usize) -> (u64, Vec<u8>, Vec<u64>) {
        let mut text = vec![KEPT; room];
        let mut report = vec![KEPT_WORD; report];
        let answer = sheet_write_raw(
            &self.state,
            &self.pages,
            &self.bytes,
            &self.words,
            &mut text,
            &mut report,
        );
        (answer, text, report)
    }

    /// Makes sure that it is refused with this report, and that the text is not
    /// touched; nor a report that is too short for that.
    fn is_refused(&self, room: usize, report: [u64; WRITE_REPORT_WORDS]) {
        let (answer, text, after) = self.write(room, WRITE_REPORT_WORDS + 1);
        assert_eq!(answer, report[0]);
        assert!(text.iter().all(|byte| *byte == KEPT));
        assert_eq!(after, [report[0], report[1], KEPT_WORD]);
        self.is_unreported(room, report[0]);
    }

    /// Makes sure that with a report that is too short this number comes, and
    /// nothing is touched.
    fn is_unreported(&self, room: usize, number: u64) {
        for length in 0..WRITE_REPORT_WORDS {
            let (answer, text, report) = self.write(room, length);
            assert_eq!(answer, number, "report of {length} words");
            assert!(text.iter().all(|byte| *byte == KEPT));
            assert!(report.iter().all(|word| *word == KEPT_WORD));
        }
    }
}

#[test]
fn a_sheet_is_written_and_the_rest_stays() {
    let wanted = lines().concat();
    let length = wanted.len() as u64;
    let (answer, text, report) = Input::good().write(wanted.len(), WRITE_REPORT_WORDS);
    assert_eq!((answer, report), (0, vec![0, length]));
    assert_eq!(text, wanted.as_bytes());
    let (answer, text, report) = Input::good().write(wanted.len() + 3, 4);
    assert_eq!(answer, 0);
    assert_eq!(report, [0, length, KEPT_WORD, KEPT_WORD]);
    assert_eq!(text, [wanted.as_bytes(), &[KEPT; 3]].concat());
}

#[test]
fn room_that_is_too_short() {
    let length = lines().concat().len();
    for room in [0, 1, 24, length - 1] {
        Input::good().is_refused(room, [8, length as u64]);
    }
}

#[test]
fn a_short_report_stops_everything() {
    let mut input = Input::good();
    for room in [0, 1000] {
        input.is_unreported(room, 8);
    }
    input.pages.push(0);
    input.is_unreported(1000, 1);
}

#[test]
fn a_state_of_another_length_is_out_of_range() {
    for length in [0, 1, 9, 11, 20] {
        let mut input = Input::good();
        input.state.resize(length, 0);
        input.is_refused(1000, [5, 0]);
    }
}

#[test]
fn refusals_come_in_their_order() {
    let mut input = Input::good();
    input.words.push(0);
    input.is_refused(0, [7, 0]);
    input.state[1] = 4;
    input.is_refused(0, [5, 0]);
    input.pages[1] = 0x2002;
    input.is_refused(0, [4, 0]);
    input.pages = [1, 2].map(|kind| 0x8000_0000_0000 + kind).to_vec();
    input.is_refused(0, [3, 0]);
    input.pages[1] += 2;
    input.is_refused(0, [2, 0]);
    input.bytes.pop();
    input.is_refused(0, [1, 0]);
}

#[test]
fn an_instruction_that_breaks_its_form_is_written() {
    let mut input = Input::good();
    input.words = vec![99, 0, u64::MAX, 0xabcd_ef01_2345_6789];
    let (answer, text, _) = input.write(1000, WRITE_REPORT_WORDS);
    assert_eq!(answer, 0);
    let wanted = line("do", &input.words);
    let text = String::from_utf8(text).unwrap();
    assert!(text.contains(&wanted));
}

#[test]
fn the_longest_sheet() {
    let top = 0xffff_ffff_ffff_f001;
    let pages = (0..MOST_PAGES as u64).map(|page| top - (page << 12));
    let mut input = Input {
        state: user(0x1ff0).to_words().to_vec(),
        pages: pages.collect(),
        bytes: vec![0xff; MOST_PAGES * PAGE_BYTES],
        words: vec![u64::MAX; 4 * MOST_INSTRUCTIONS],
    };
    input.is_refused(MOST_TEXT - 1, [8, MOST_TEXT as u64]);
    let (answer, _, report) = input.write(MOST_TEXT, WRITE_REPORT_WORDS);
    assert_eq!((answer, report), (0, vec![0, MOST_TEXT as u64]));
    input.words.extend([0; 4]);
    input.is_refused(MOST_TEXT, [7, 0]);
}
