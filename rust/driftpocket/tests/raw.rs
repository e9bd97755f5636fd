//! The library's function on plain numbers: lengths, order of refusals, what
//! is written.

mod common;

use common::{pages, user};
use driftpocket::{Instruction, Kind, PAGE_BYTES, REPORT_WORDS, run_raw};

/// Everything that a call takes.
#[derive(Clone, Debug, PartialEq)]
struct Input {
    state: Vec<u64>,
    pages: Vec<u64>,
    bytes: Vec<u8>,
    words: Vec<u64>,
    report: Vec<u64>,
}

impl Input {
    /// A switch of stacks and back that completes.
    fn good() -> Input {
        let mut list = pages(&[(0x1000, Kind::UserShadow), (0x2000, Kind::UserShadow)]);
        list.write(0x2ff0, driftpocket::Size::Eight, 0x2ff9)
            .unwrap();
        let switch = [
            Instruction::rstorssp(5, 0x2ff0),
            Instruction::saveprevssp(4),
        ];
        Input {
            state: user(0x1ff0).to_words().to_vec(),
            pages: list.entries().to_vec(),
            bytes: list.bytes().to_vec(),
            words: switch.iter().flat_map(Instruction::to_words).collect(),
            report: vec![0x77; REPORT_WORDS + 2],
        }
    }

    /// Runs it.
    fn run(&mut self) -> u64 {
        run_raw(
            &mut self.state,
            &self.pages,
            &mut self.bytes,
            &self.words,
            &mut self.report,
        )
    }

    /// Makes sure that it is sent back with this number before any step, also
    /// where there is no room to report it.
    fn is_refused(&self, number: u64) {
        let mut after = self.clone();
        assert_eq!(after.run(), number);
        let mut wanted = self.clone();
        wanted.report[..REPORT_WORDS].copy_from_slice(&[0, number, 0, 0, 0]);
        assert_eq!(after, wanted, "refusal {number}");
        self.is_unreported(number);
    }

    /// Makes sure that with a report that is too short this number comes, and
    /// nothing is touched.
    fn is_unreported(&self, number: u64) {
        for room in 0..REPORT_WORDS {
            let mut short = self.clone();
            short.report.truncate(room);
            let before = short.clone();
            assert_eq!(short.run(), number, "room for {room} words");
            assert_eq!(short, before, "refusal {number}, room for {room} words");
        }
    }
}

#[test]
fn nothing_at_all() {
    assert_eq!(run_raw(&mut [], &[], &mut [], &[], &mut []), 5);
    let mut report = [7; REPORT_WORDS];
    assert_eq!(run_raw(&mut [], &[], &mut [], &[], &mut report), 5);
    assert_eq!(report, [0, 5, 0, 0, 0]);
    let mut state = user(0x1ff0).to_words();
    assert_eq!(run_raw(&mut state, &[], &mut [], &[], &mut report), 0);
    assert_eq!(report, [0; REPORT_WORDS]);
    assert_eq!(state, user(0x1ff0).to_words());
}

#[test]
fn a_short_report_stops_everything() {
    let mut input = Input::good();
    input.is_unreported(8);
    // Nothing is run, so neither form nor fault of an instruction is met.
    input.words[4] = 99;
    input.is_unreported(8);
    input.words[1] = 16;
    input.is_unreported(8);
    input.words = Instruction::rstorssp(5, 0x2ff4).to_words().to_vec();
    input.is_unreported(8);
    input.words.clear();
    input.is_unreported(8);
}

#[test]
fn what_lies_past_the_report_stays() {
    let mut input = Input::good();
    assert_eq!(input.run(), 0);
    assert_eq!(input.report, [2, 0, 0, 0, 0, 0x77, 0x77]);
}

#[test]
fn a_state_of_another_length_is_out_of_range() {
    for length in [0, 1, 9, 11, 20] {
        let mut input = Input::good();
        input.state.resize(length, 0);
        input.is_refused(5);
    }
}

#[test]
fn refusals_come_in_their_order() {
    let mut input = Input::good();
    input.words[1] = 16;
    input.words.push(0);
    input.is_refused(7);
    input.state[1] = 4;
    input.is_refused(5);
    input.pages[1] = 0x1002;
    input.is_refused(4);
    input.pages = [1, 2].map(|kind| 0x8000_0000_0000 + kind).to_vec();
    input.is_refused(3);
    input.pages[1] += 2;
    input.is_refused(2);
    input.bytes.pop();
    input.is_refused(1);
}

#[test]
fn sixteen_pages_and_no_more() {
    for (count, number) in [(16, 0), (17, 1)] {
        let mut input = Input::good();
        input.pages = (1..=count).map(|page| page * 0x1000 + 1).collect();
        input.bytes.resize(input.pages.len() * PAGE_BYTES, 0);
        assert_eq!(input.run(), number);
    }
}

#[test]
fn a_thousand_and_twenty_four_instructions_and_no_more() {
    let one = Instruction::incsspq(1, 0).to_words();
    for (count, number) in [(1024, 0), (1025, 7)] {
        let mut input = Input::good();
        input.words = one.repeat(count);
        assert_eq!(input.run(), number);
        let done = if number == 0 { 1024 } else { 0 };
        assert_eq!(input.report[0], done);
        assert_eq!(input.state[5], 0x40_0000 + done);
    }
}

#[test]
fn lengths_of_instructions() {
    for (length, number) in [(0, 6), (1, 0), (15, 0), (16, 6)] {
        let mut input = Input::good();
        input.words[5] = length;
        assert_eq!(input.run(), number);
        let count = if number == 0 { 2 } else { 1 };
        assert_eq!(input.report[..REPORT_WORDS], [count, number, 0, 0, 0]);
        assert_eq!(input.state[7], if number == 0 { 0x2ff8 } else { 0x2ff0 });
    }
}
