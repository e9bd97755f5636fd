//! The library's reader of run sheets on plain buffers: lengths, the order of
//! refusals, the lines that are refused, what is written.

use crate::common::user;
use crate::texts::{line, lines};
use driftpocket::sheet::READ_REPORT_WORDS;
use driftpocket::{PAGE_BYTES, STATE_WORDS, sheet_read_raw};

/// What a buffer holds where nothing was written.
const KEPT: u64 = 0x7777_7777_7777_7777;

/// All the room that a call is lent.
#[derive(Clone, Debug, PartialEq)]
struct Room {
    state: Vec<u64>,
    pages: Vec<u64>,
    bytes: Vec<u8>,
    words: Vec<u64>,
    report: Vec<u64>,
}

impl Room {
    /// Room of these lengths.
    fn of(state: usize, pages: usize, bytes: usize, words: usize) -> Room {
        Room {
            state: vec![KEPT; state],
            pages: vec![KEPT; pages],
            bytes: vec![KEPT as u8; bytes],
            words: vec![KEPT; words],
            report: vec![KEPT; READ_REPORT_WORDS + 2],
        }
    }

    /// Room for the largest runs.
    fn ample() -> Room {
        Room::of(12, 20, 20 * PAGE_BYTES, 4200)
    }

    /// Reads a text.
    fn read(&mut self, text: &str) -> u64 {
        sheet_read_raw(
            text.as_bytes(),
            &mut self.state,
            &mut self.pages,
            &mut self.bytes,
            &mut self.words,
            &mut self.report,
        )
    }

    /// Makes sure that a text is refused with this report, and that no other
    /// buffer is touched; nor a report that is too short for that.
    fn is_refused(&self, text: &str, report: [u64; READ_REPORT_WORDS]) {
        let mut after = self.clone();
        assert_eq!(after.read(text), report[0], "{text}");
        let mut wanted = self.clone();
        wanted.report[..READ_REPORT_WORDS].copy_from_slice(&report);
        assert!(after == wanted, "{text}");
        self.is_unreported(text, report[0]);
    }

    /// Makes sure that with a report that is too short this number comes, and
    /// nothing is touched.
    fn is_unreported(&self, text: &str, number: u64) {
        for length in 0..READ_REPORT_WORDS {
            let mut short = self.clone();
            short.report.truncate(length);
            let before = short.clone();
            assert_eq!(short.read(text), number, "report of {length} words: {text}");
            assert!(short == before, "report of {length} words: {text}");
        }
    }
}

/// Makes sure that this line is the first that is refused.
fn refused_at(line: u64, text: &str) {
    Room::ample().is_refused(text, [9, line, 0, 0, 0]);
    Room::of(0, 0, 0, 0).is_refused(text, [9, line, 0, 0, 0]);
}

#[test]
fn a_sheet_is_read_and_the_rest_stays() {
    let mut room = Room::of(12, 3, 2 * PAGE_BYTES + 5, 6);
    assert_eq!(room.read(&lines().concat()), 0);
    assert_eq!(room.state[..STATE_WORDS], user(0x1ff0).to_words());
    assert_eq!(room.state[STATE_WORDS..], [KEPT, KEPT]);
    assert_eq!(room.pages, [0x1001, 0x2001, KEPT]);
    assert_eq!(room.words, [3, 5, 0x2ff0, 0, KEPT, KEPT]);
    let mut bytes = vec![0; 2 * PAGE_BYTES];
    bytes[0x1ff0..0x1ff8].copy_from_slice(&0x2ff9_u64.to_le_bytes());
    bytes.extend([KEPT as u8; 5]);
    assert!(room.bytes == bytes);
    assert_eq!(room.report, [0, 0, 2, 8192, 4, KEPT, KEPT]);
}

#[test]
fn a_sheet_of_nothing() {
    let mut room = Room::of(10, 0, 0, 0);
    assert_eq!(room.read(&lines()[..2].concat()), 0);
    assert_eq!(room.report, [0, 0, 0, 0, 0, KEPT, KEPT]);
    assert_eq!(room.state, user(0x1ff0).to_words());
}

#[test]
fn room_that_is_one_short() {
    let text = lines().concat();
    let exact = [10, 2, 8192, 4];
    let of = |sizes: [usize; 4]| Room::of(sizes[0], sizes[1], sizes[2], sizes[3]);
    assert_eq!(of(exact).read(&text), 0);
    for place in 0..exact.len() {
        let mut sizes = exact;
        sizes[place] -= 1;
        of(sizes).is_refused(&text, [8, 0, 2, 8192, 4]);
    }
    of([0; 4]).is_refused(&text, [8, 0, 2, 8192, 4]);
}

#[test]
fn a_short_report_stops_everything() {
    Room::ample().is_unreported(&lines().concat(), 8);
    Room::ample().is_unreported(&lines()[..2].concat(), 8);
    Room::ample().is_unreported("", 9);
}

#[test]
fn refusals_come_in_their_order() {
    let mut lines = vec![
        line("sheet", &[1]),
        line("state", &[3; STATE_WORDS]),
        line("page", &[0x1004]),
        line("page", &[0x0000_8000_0000_0001]),
    ];
    lines.extend((0..13).map(|page| line("page", &[0x0000_9000_0000_0001 + (page << 12)])));
    lines.extend(std::iter::repeat_n(line("do", &[0; 4]), 1025));
    let none = Room::of(0, 0, 0, 0);
    let refused = |number, lines: &[String]| {
        none.is_refused(&lines.concat(), [number, 0, 0, 0, 0]);
    };
    lines.insert(17, line("page", &[0x0000_a000_0000_0001]));
    none.is_refused(&(lines.concat() + "x"), [9, 1044, 0, 0, 0]);
    lines.insert(18, line("page", &[0x0000_b000_0000_0001]));
    refused(1, &lines);
    lines.drain(17..19);
    refused(2, &lines);
    lines.remove(2);
    refused(3, &lines);
    lines.drain(2..16);
    refused(5, &lines);
    lines[1] = line("state", &user(0x1ff0).to_words());
    refused(7, &lines);
    lines.pop();
    none.is_refused(&lines.concat(), [8, 0, 0, 0, 4096]);
}

#[test]
fn sixteen_pages_and_no_more() {
    let page = |number: u64| line("page", &[(number << 12) + 1]);
    for (count, answer) in [(16, 0), (17, 1)] {
        let pages: String = (1..=count).map(page).collect();
        let mut room = Room::ample();
        assert_eq!(room.read(&(lines()[..2].concat() + &pages)), answer);
        let read = if answer == 0 { 16 } else { 0 };
        assert_eq!(room.report[2..4], [read, read * 4096]);
    }
}

#[test]
fn a_thousand_and_twenty_four_instructions_and_no_more() {
    for (count, answer) in [(1024, 0), (1025, 7)] {
        let list = lines()[5].repeat(count);
        let mut room = Room::ample();
        assert_eq!(room.read(&(lines()[..5].concat() + &list)), answer);
        assert_eq!(room.report[4], if answer == 0 { 4096 } else { 0 });
    }
}

#[test]
fn a_text_that_ends_too_soon() {
    let lines = lines();
    refused_at(1, "");
    refused_at(2, &lines[0]);
    for count in 1..=lines.len() {
        let mut text = lines[..count].concat();
        text.pop();
        refused_at(count as u64, &text);
    }
}

#[test]
fn lines_that_are_not_to_the_byte() {
    let spoilers: [fn(&str) -> String; 12] = [
        |line| line.replace('\n', "\t\n"),
        |line| line.replace('\n', "\r\n"),
        |line| line.replace('\n', " \n"),
        |line| line.replacen('\t', " ", 1),
        |line| line.replacen('\t', "\t\t", 1),
        |line| line.replacen('x', "X", 1),
        |line| line.replacen('x', "0x", 1),
        |line| line.replacen("x0", "x", 1),
        |line| line.replacen("\n", "\tx0000000000000000\n", 1),
        |line| line[..1].to_uppercase() + &line[1..],
        |line| format!(" {line}"),
        |_| "\n".to_string(),
    ];
    for place in 0..lines().len() {
        for spoil in spoilers {
            let mut lines = lines();
            lines[place] = spoil(&lines[place]);
            refused_at(place as u64 + 1, &lines.concat());
        }
    }
}

#[test]
fn digits_are_lower_case_and_hexadecimal() {
    for digit in 0..=0x7f {
        let digit = char::from(digit);
        let mut lines = lines();
        lines[4] = lines[4].replacen("x0", &format!("x{digit}"), 2);
        let text = lines.concat();
        match digit {
            // The second number may be any; the first must stay on its page.
            '0' => assert_eq!(Room::ample().read(&text), 0),
            _ => refused_at(5, &text),
        }
        lines[4] = format!("word\tx0000000000002ff0\tx{digit}000000000002ff9\n");
        let text = lines.concat();
        match digit {
            '0'..='9' | 'a'..='f' => assert_eq!(Room::ample().read(&text), 0),
            _ => refused_at(5, &text),
        }
    }
}

#[test]
fn lines_out_of_their_place() {
    let [head, state, low, high, word, act] = lines().try_into().unwrap();
    let at = |number, lines: &[&String]| {
        let text: String = lines.iter().map(|line| line.as_str()).collect();
        refused_at(number, &text);
    };
    at(1, &[&state, &head]);
    at(2, &[&head, &head]);
    at(2, &[&head, &low]);
    at(3, &[&head, &state, &state]);
    at(3, &[&head, &state, &word, &low]);
    at(4, &[&head, &state, &high, &low]);
    at(4, &[&head, &state, &low, &low]);
    at(5, &[&head, &state, &high, &word, &low]);
    at(5, &[&head, &state, &high, &word, &word]);
    at(4, &[&head, &state, &act, &high, &word]);
    at(5, &[&head, &state, &high, &act, &word]);
    let other_kind = line("page", &[0x1002]);
    at(4, &[&head, &state, &low, &other_kind]);
    let version = line("sheet", &[2]);
    at(1, &[&version, &state]);
}

#[test]
fn words_that_cannot_be() {
    let refused = [
        (0x2ff4, 1),
        (0x2ff9, 1),
        (0x3000, 1),
        (0xff8, 1),
        (0x2ff0, 0),
        (u64::MAX - 7, 1),
    ];
    for (address, value) in refused {
        let mut lines = lines();
        lines[4] = line("word", &[address, value]);
        refused_at(5, &lines.concat());
    }
    for (first, second, good) in [
        (0x1ff8, 0x2000, true),
        (0x2ff0, 0x2ff8, true),
        (0x2000, 0x1ff8, false),
    ] {
        let mut lines = lines();
        lines[4] = line("word", &[first, 1]);
        lines.insert(5, line("word", &[second, u64::MAX]));
        match good {
            true => assert_eq!(Room::ample().read(&lines.concat()), 0),
            false => refused_at(6, &lines.concat()),
        }
    }
}
