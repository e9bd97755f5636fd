//! What no stored text can say of sheets: buffers, reports, writes, and lines in
//! many wrong places. Tabs are shown as `|`.

use super::*;

/// The sheet that the request shows, without pages and instructions.
const BARE: &str = "\
sheet|x0000000000000001
state|x0000000000000002|x0000000000000003|x0000000000000001|x0000000000000001|x0000000000000000|\
x0000000000400000|x0000000000005010|x0000000000001ff0|x0000000000000000|x00000000ffffffff
";

/// The state in it.
const STATE: [u64; 10] = [2, 3, 1, 1, 0, 0x40_0000, 0x5010, 0x1ff0, 0, 0xffff_ffff];

/// What stands after it in a sheet with three pages, lines 3 to 10.
const REST: [&str; 8] = [
    "page|x0000000000001001",
    "page|x0000000000002003",
    "page|xfffffffffffff002",
    "word|x0000000000001000|x0000000000000001",
    "word|x0000000000002ff8|x8000000000000000",
    "word|xfffffffffffffff8|x0123456789abcdef",
    "do|x0000000000000002|x0000000000000004|x0000000000000000|x0000000000000003",
    "do|x0000000000000000|xffffffffffffffff|x0000000000000001|x0000000000000000",
];

/// What is in every buffer before.
const OLD: u64 = 0xdead_dead_dead_dead;

/// Buffers for everything, and what came back.
#[derive(Clone, Debug, PartialEq, Eq)]
struct Desk {
    returned: u64,
    state: Vec<u64>,
    pages: Vec<u64>,
    bytes: Vec<u8>,
    words: Vec<u64>,
    report: Vec<u64>,
}

impl Desk {
    /// Buffers of these lengths, and a report of seven words.
    fn new(state: usize, pages: usize, bytes: usize, words: usize) -> Desk {
        Desk {
            returned: OLD,
            state: vec![OLD; state],
            pages: vec![OLD; pages],
            bytes: vec![0xdd; bytes],
            words: vec![OLD; words],
            report: vec![OLD; 7],
        }
    }

    /// More room than the sheets here need.
    fn large() -> Desk {
        Desk::new(11, 17, 17 * 4096, 4100)
    }

    fn read(mut self, text: &[u8]) -> Desk {
        self.returned = read_sheet(
            text,
            &mut self.state,
            &mut self.pages,
            &mut self.bytes,
            &mut self.words,
            &mut self.report,
        );
        self
    }

    /// The text of what is in the buffers, and the report.
    fn write(&self, room: usize) -> (Vec<u8>, [u64; 3]) {
        let mut text = vec![b'?'; room];
        let mut report = [OLD; 3];
        let returned = write_sheet(
            &self.state,
            &self.pages,
            &self.bytes,
            &self.words,
            &mut text,
            &mut report,
        );
        assert_eq!(returned, report[0]);
        (text, report)
    }
}

/// A text with its tabs.
fn tabs(shown: &str) -> Vec<u8> {
    shown.replace('|', "\t").into_bytes()
}

/// The bare sheet with more lines.
fn with(lines: &[&str]) -> Vec<u8> {
    let more: String = lines.iter().map(|line| format!("{line}\n")).collect();
    tabs(&format!("{BARE}{more}"))
}

/// A text is refused, and all stays as it was but the report.
fn refused(text: &[u8], refusal: u64, line: u64) {
    let seen = Desk::large().read(text);
    let mut wanted = Desk::large();
    wanted.returned = refusal;
    wanted.report[..5].copy_from_slice(&[refusal, line, 0, 0, 0]);
    assert!(seen == wanted, "{:?}", String::from_utf8_lossy(text));
    let nothing = Desk::new(0, 0, 0, 0).read(text);
    assert_eq!(nothing.report, wanted.report, "without room");
}

/// The run of the sheet with three pages.
fn three_pages() -> Desk {
    let mut desk = Desk::new(10, 3, 3 * 4096, 8);
    desk.state.copy_from_slice(&STATE);
    desk.pages
        .copy_from_slice(&[0x1001, 0x2003, 0xffff_ffff_ffff_f002]);
    desk.bytes.fill(0);
    desk.bytes[0] = 1;
    desk.bytes[0x1fff] = 0x80;
    desk.bytes[0x2ff8..].copy_from_slice(&[0xef, 0xcd, 0xab, 0x89, 0x67, 0x45, 0x23, 1]);
    desk.words.copy_from_slice(&[2, 4, 0, 3, 0, u64::MAX, 1, 0]);
    desk
}

#[test]
fn the_sheet_without_pages_and_instructions() {
    let text = tabs(BARE);
    let desk = Desk::new(10, 0, 0, 0).read(&text);
    assert_eq!(desk.report, [0, 0, 0, 0, 0, OLD, OLD]);
    assert_eq!((desk.returned, desk.state.as_slice()), (0, &STATE[..]));
    assert_eq!(desk.write(210), (text, [0, 210, OLD]));
}

#[test]
fn a_sheet_with_pages_and_instructions() {
    let text = with(&REST);
    let run = three_pages();
    let mut exact = Desk::new(10, 3, 3 * 4096, 8).read(&text);
    assert_eq!(exact.report, [0, 0, 3, 3 * 4096, 8, OLD, OLD]);
    exact.report.fill(OLD);
    exact.returned = OLD;
    assert!(exact == run);
    assert_eq!(run.write(text.len()).0, text);
    let large = Desk::large().read(&text);
    assert_eq!(large.state[10], OLD);
    assert_eq!(large.pages[3..], [OLD; 14]);
    assert!(large.bytes[3 * 4096..].iter().all(|&byte| byte == 0xdd));
    assert!(large.words[8..].iter().all(|&word| word == OLD));
    let longer = run.write(text.len() + 2).0;
    assert_eq!(longer, [&text[..], b"??"].concat());
}

#[test]
fn equal_meaning_gives_equal_text() {
    let run = three_pages();
    let mut turned = run.clone();
    turned.pages.reverse();
    let pages: Vec<&[u8]> = run.bytes.chunks(4096).rev().collect();
    turned.bytes = pages.concat();
    assert_eq!(turned.write(5000), run.write(5000));
}

#[test]
fn lines_that_are_missing_or_not_ended() {
    refused(b"", 9, 1);
    refused(b"\n", 9, 1);
    refused(b"sheet", 9, 1);
    refused(b"sheet\tx0000000000000001", 9, 1);
    refused(b"sheet\tx0000000000000001\n", 9, 2);
    refused(b"sheet\tx0000000000000001\n\n", 9, 2);
    refused(&with(&[""]), 9, 3);
    let text = with(&REST);
    refused(&text[..text.len() - 1], 9, 10);
    refused(&[&text[..], b"d"].concat(), 9, 11);
}

#[test]
fn lines_that_stand_in_a_wrong_place() {
    let [low, high, top, first, second, last, call, other] = REST;
    for (lines, line) in [
        (vec![high, low], 4),
        (vec![low, low], 4),
        (vec![low, "page|x0000000000001002"], 4),
        (vec!["page|x0000000000001fff", low], 4),
        (vec![top, low], 4),
        (vec![first], 3),
        (vec![high, first], 4),
        (vec![low, high, top, second, first], 7),
        (vec![low, first, first], 5),
        (vec![low, first, second], 5),
        (vec![low, high, second, last], 6),
        (vec![low, first, high], 5),
        (vec![low, call, first], 5),
        (vec![call, low], 4),
        (vec![call, other, "sheet|x0000000000000001"], 5),
        (vec![low, "word|x0000000000001000|x0000000000000000"], 4),
        (vec![low, "word|x0000000000001004|x0000000000000001"], 4),
        (vec![low, "word|x0000000000001001|x0000000000000001"], 4),
        (vec![low, "word|x0000000000000ff8|x0000000000000001"], 4),
    ] {
        refused(&with(&lines), 9, line);
    }
}

/// Rows of pages from 1000 up, as lines.
fn pages(count: u64) -> Vec<String> {
    (1..=count)
        .map(|page| format!("page|x{page:013x}001"))
        .collect()
}

/// The first line of the bare sheet and another state.
fn with_state(state: [u64; 10]) -> Vec<u8> {
    format!("{}{}", Line::Sheet(1), Line::State(state)).into_bytes()
}

#[test]
fn other_refusals_come_after_the_text() {
    let seventeen = pages(17);
    let mut lines: Vec<&str> = seventeen.iter().map(String::as_str).collect();
    refused(&with(&lines), 1, 0);
    lines.push("word|x0000000000011ff8|x0000000000000001");
    refused(&with(&lines), 1, 0);
    lines.push("word|x0000000000012000|x0000000000000001");
    refused(&with(&lines), 9, 21);
    let no_kind = "page|x0000000000001000";
    let hole = "page|x0000800000000001";
    refused(&with(&[no_kind, hole]), 2, 0);
    refused(&with(&[no_kind, REST[3]]), 2, 0);
    refused(&with(&["page|x0000000000001fff", REST[1]]), 2, 0);
    refused(
        &with(&[hole, "word|x0000800000000000|x0000000000000001"]),
        3,
        0,
    );
    refused(&with_state([3, 3, 1, 1, 0, 0, 0, 0, 0, 0]), 5, 0);
    refused(&with_state([1, 3, 1, 1, 0, 1 << 32, 0, 0, 0, 0]), 5, 0);
    let mut lines = vec![REST[7]; 1025];
    refused(&with(&lines), 7, 0);
    lines.push("do");
    refused(&with(&lines), 9, 1028);
    assert_eq!(Desk::large().read(&with(&lines[..1024])).returned, 0);
}

#[test]
fn a_result_that_is_longer_than_its_buffer() {
    let text = with(&REST);
    for (state, pages, bytes, words) in [
        (9, 3, 3 * 4096, 8),
        (10, 2, 3 * 4096, 8),
        (10, 3, 3 * 4096 - 1, 8),
        (10, 3, 3 * 4096, 7),
        (0, 0, 0, 0),
    ] {
        let mut wanted = Desk::new(state, pages, bytes, words);
        let seen = wanted.clone().read(&text);
        wanted.returned = 8;
        wanted.report[..5].copy_from_slice(&[8, 0, 3, 3 * 4096, 8]);
        assert!(seen == wanted, "{state} {pages} {bytes} {words}");
    }
    let run = three_pages();
    for room in [0, 1, text.len() - 1] {
        let length = text.len() as u64;
        assert_eq!(run.write(room), (vec![b'?'; room], [8, length, OLD]));
    }
}

#[test]
fn a_report_that_is_too_short_is_refused_last_and_stays() {
    let seventeen = pages(17);
    let seventeen: Vec<&str> = seventeen.iter().map(String::as_str).collect();
    for room in 0..5 {
        for (text, refusal) in [
            (with(&REST), 8),
            (Vec::new(), 9),
            (with(&seventeen), 1),
            (with(&["page|x0000000000001000"]), 2),
            (with(&["page|x0000800000000001"]), 3),
            (with_state([3; 10]), 5),
            (with(&[REST[7]; 1025]), 7),
        ] {
            for mut wanted in [Desk::large(), Desk::new(0, 0, 0, 0)] {
                wanted.report.truncate(room);
                let seen = wanted.clone().read(&text);
                wanted.returned = refusal;
                assert!(seen == wanted, "{room} {refusal}");
            }
        }
    }
    let nothing: Spoiler = (|_| (), 8);
    for (spoil, refusal) in SPOILERS.into_iter().chain([nothing]) {
        let mut run = three_pages();
        spoil(&mut run);
        let mut text = [b'?'; 1000];
        for report in [&mut [][..], &mut [OLD]] {
            let returned = write_sheet(
                &run.state, &run.pages, &run.bytes, &run.words, &mut text, report,
            );
            assert_eq!(returned, refusal);
            assert!(report.iter().all(|&word| word == OLD));
            assert_eq!(text, [b'?'; 1000]);
        }
    }
}

/// A way to spoil a run, with the refusal that it earns.
type Spoiler = (fn(&mut Desk), u64);

/// One or more for each refusal of a write but 8.
const SPOILERS: [Spoiler; 9] = [
    (|run| run.bytes.push(0), 1),
    (|run| run.pages[1] = 0x2000, 2),
    (|run| run.pages[0] = 0x0000_8000_0000_0001, 3),
    (|run| run.pages[1] = 0x1002, 4),
    (|run| run.state[7] = 2, 5),
    (|run| run.state.push(0), 5),
    (|run| run.state.clear(), 5),
    (|run| run.words.push(0), 7),
    (
        |run| {
            run.state.clear();
            run.pages[1] = 0x1002;
        },
        4,
    ),
];

#[test]
fn a_write_tests_the_run_first() {
    for (spoil, refusal) in SPOILERS {
        let mut run = three_pages();
        spoil(&mut run);
        for room in [0, 2000] {
            let untouched = (vec![b'?'; room], [refusal, 0, OLD]);
            assert_eq!(run.write(room), untouched);
        }
    }
}
