//! Refused runs, short buffers and writes: rows with their numbers written out
//! by hand.

use crate::case::{Case, PAGE};
use crate::damage::{self, Spoiler};
use crate::sheets::lines::{line, lines_of, text};
use crate::sheets::rows::{ENOUGH, Row, small_lines, small_run};
use crate::sheets::{Question, READ_REPORT, Rooms, Sighting, WRITE_REPORT};
use driftpocket_reference::address::{ABOVE_HOLE, HOLE, LAST_PAGE};
use std::collections::BTreeSet;

/// All rows.
pub fn rows() -> Vec<Row> {
    [
        refused_reads(),
        later_lines(),
        limits(),
        page_order(),
        short_rooms(),
        long_reports(),
        unreported_reads(),
        unreported_writes(),
        writes(),
        refused_writes(),
    ]
    .concat()
}

/// The report of a read that is refused without a line.
fn refused(number: u64) -> [u64; 5] {
    [number, 0, 0, 0, 0]
}

/// The small run, spoiled.
fn spoiled(spoilers: &[Spoiler]) -> Case {
    let mut case = small_run();
    for spoiler in spoilers {
        (spoiler.spoil)(&mut case);
    }
    case
}

/// A spoiled run with its name and the refusal that it earns.
type Spoiled = (String, Case, u64);

/// Each way to spoil a run.
fn alone() -> Vec<Spoiled> {
    damage::all()
        .map(|one| (one.name.to_string(), spoiled(&[one]), one.refusal))
        .collect()
}

/// Each two ways that earn different refusals: the lower number comes.
fn in_pairs() -> Vec<Spoiled> {
    let mut pairs = Vec::new();
    for one in damage::all() {
        for two in damage::all().filter(|two| two.refusal > one.refusal) {
            let name = format!("{} and then {}", one.name, two.name);
            pairs.push((name, spoiled(&[one, two]), one.refusal));
        }
    }
    pairs
}

/// Whether what is wrong with a run can be said in a sheet.
fn is_text(case: &Case) -> bool {
    let addresses: BTreeSet<u64> = case.pages.iter().map(|entry| entry / 4096).collect();
    case.state.len() == 10
        && addresses.len() == case.pages.len()
        && case.bytes.len() == case.pages.len() * PAGE
        && case.words.len().is_multiple_of(4)
}

/// A read of a run that is refused although its text is a sheet.
fn refused_read(name: &str, case: &Case, number: u64, rooms: Rooms) -> Row {
    let text = text(&lines_of(case));
    Row::reported(name, Question::Read { text, rooms }, &refused(number))
}

/// Such reads, with room and without; and the same runs with a last line that
/// makes their text no sheet.
fn refused_reads() -> Vec<Row> {
    let mut rows = Vec::new();
    for (name, case, number) in alone().into_iter().filter(|(_, case, _)| is_text(case)) {
        rows.push(refused_read(&name, &case, number, ENOUGH));
        rows.push(refused_read(&name, &case, number, Rooms::NONE));
        let mut lines = lines_of(&case);
        lines.push("do".into());
        let name = format!("{name}, and the last line is wrong");
        rows.push(Row::no_sheet(name, text(&lines), lines.len() as u64));
    }
    for (name, case, number) in in_pairs().into_iter().filter(|(_, case, _)| is_text(case)) {
        rows.push(refused_read(&name, &case, number, Rooms::NONE));
    }
    rows
}

/// The small sheet with other lines after the state.
fn sheet(lines: impl IntoIterator<Item = String>) -> Vec<u8> {
    let head = small_lines().into_iter().take(2);
    text(&Vec::from_iter(head.chain(lines)))
}

/// So many pages from 1000 up.
fn pages(count: u64) -> impl Iterator<Item = String> {
    (1..=count).map(|page| line("page", &[0x1000 * page + 1]))
}

/// A text is looked at to its end, whatever its beginning is refused for. A page
/// that is refused is listed all the same.
fn later_lines() -> Vec<Row> {
    let word = |address| line("word", &[address, 1]);
    let with = |entry, address| sheet([line("page", &[entry]), word(address)]);
    let many = |address| sheet(pages(17).chain([word(address)]));
    let calls = |count| (0..count).map(|_| line("do", &[0; 4]));
    let last = pages(17).skip(16);
    let [page, state] = [small_lines()[2].clone(), small_lines()[1].clone()];
    let read = |name: &str, text, number| {
        let rooms = ENOUGH;
        Row::reported(name, Question::Read { text, rooms }, &refused(number))
    };
    vec![
        read("a word on the 17th page", many(0x1_1ff8), 1),
        Row::no_sheet("a word after the 17th page", many(0x1_2000), 20),
        read("a word on a page of no kind", with(0x1000, 0x1008), 2),
        read("a word on a page of kind fff", with(0x1fff, 0x1ff8), 2),
        Row::no_sheet("a word after a page of kind fff", with(0x1fff, 0x2000), 4),
        read("a word in the hole", with(HOLE + 1, HOLE), 3),
        Row::no_sheet(
            "a page after 1,025 instructions",
            sheet(calls(1025).chain([page])),
            1028,
        ),
        Row::no_sheet(
            "a state after 1,024 instructions",
            sheet(calls(1024).chain([state])),
            1027,
        ),
        read("300 pages", sheet(pages(300)), 1),
        Row::no_sheet(
            "the 18th page is the 17th",
            sheet(pages(17).chain(last)),
            20,
        ),
    ]
}

/// The small run without its pages.
fn without_pages() -> Case {
    small_run().on_pages(&[])
}

/// As much as there may be, and instructions that no run would carry out.
fn limits() -> Vec<Row> {
    let mut pages = without_pages();
    for page in 1..=16 {
        pages.add_page(0x1000 * page + page % 3 + 1, page as u8);
    }
    let mut calls = small_run();
    calls.words = (0..4096).collect();
    let mut odd = small_run();
    odd.words = vec![0, u64::MAX, 0, 0, u64::MAX, 16, 1, 1];
    [
        ("16 full pages", pages),
        ("1,024 instructions", calls),
        ("broken forms", odd),
    ]
    .into_iter()
    .flat_map(|(name, case)| {
        let text = text(&lines_of(&case));
        [
            Row::read(name, text.clone(), Rooms::of(&case), &case),
            Row::written(name, case, text.len(), &text),
        ]
    })
    .collect()
}

/// The order of pages is that of their addresses as numbers without a sign.
fn page_order() -> Vec<Row> {
    let mut high = without_pages();
    for entry in [3, ABOVE_HOLE + 1, LAST_PAGE + 2] {
        high.add_page(entry, 0);
    }
    high.bytes[0] = 0x80;
    high.bytes[3 * PAGE - 1] = 0x7f;
    let words =
        [(0, 0x80), (u64::MAX - 7, 0x7f << 56)].map(|(at, value)| line("word", &[at, value]));
    let list = |order: [usize; 3]| order.map(|place| line("page", &[high.pages[place]]));
    let calls = small_lines().split_off(7);
    let good = sheet(list([0, 1, 2]).into_iter().chain(words).chain(calls));
    let mut rows = vec![
        Row::read("pages at both ends", good.clone(), Rooms::of(&high), &high),
        Row::no_sheet("the last page first", sheet(list([2, 0, 1])), 4),
        Row::no_sheet(
            "the last page before the upper half",
            sheet(list([0, 2, 1])),
            5,
        ),
        Row::no_sheet("the upper half first", sheet(list([1, 2, 0])), 5),
    ];
    for order in [
        [0, 1, 2],
        [0, 2, 1],
        [1, 0, 2],
        [1, 2, 0],
        [2, 0, 1],
        [2, 1, 0],
    ] {
        let name = format!("pages in the order {order:?}");
        rows.push(Row::written(name, high.on_pages(&order), good.len(), &good));
    }
    rows
}

/// Buffers of a read that are too short by one, or by all, or just long enough.
fn short_rooms() -> Vec<Row> {
    let exact = Rooms::of(&small_run());
    let sheet = text(&small_lines());
    let question = |rooms| Question::Read {
        text: sheet.clone(),
        rooms,
    };
    let short = [
        Rooms { state: 9, ..exact },
        Rooms { state: 0, ..exact },
        Rooms { pages: 1, ..exact },
        Rooms { pages: 0, ..exact },
        Rooms {
            bytes: 8191,
            ..exact
        },
        Rooms { bytes: 0, ..exact },
        Rooms { words: 7, ..exact },
        Rooms { words: 0, ..exact },
        Rooms { state: 9, ..ENOUGH },
        Rooms { words: 7, ..ENOUGH },
        Rooms::NONE,
    ];
    let mut rows: Vec<Row> = short
        .into_iter()
        .map(|rooms| Row::reported(format!("{rooms:?}"), question(rooms), &[8, 0, 2, 8192, 8]))
        .collect();
    rows.push(Row::read("just enough", sheet.clone(), exact, &small_run()));
    rows
}

/// Reports that are longer than need be.
fn long_reports() -> Vec<Row> {
    let sheet = text(&small_lines());
    let read = |report| {
        let name = format!("a read with {report} words of report");
        let rooms = Rooms { report, ..ENOUGH };
        Row::read(name, sheet.clone(), rooms, &small_run())
    };
    let write = |report| {
        let name = format!("a write with {report} words of report");
        let mut case = small_run();
        case.room = report;
        Row::written(name, case, sheet.len(), &sheet)
    };
    let reads = (READ_REPORT..=7).map(read);
    reads.chain((WRITE_REPORT..=7).map(write)).collect()
}

/// Texts with what a read gives where its report is too short: a refusal that is
/// due, or else 8.
fn unreported_texts() -> Vec<(String, Vec<u8>, u64)> {
    let sheet = text(&small_lines());
    let cut = sheet[..sheet.len() - 1].to_vec();
    let mut texts = vec![
        ("the small sheet".to_string(), sheet, 8),
        ("no text".to_string(), Vec::new(), 9),
        ("the last line unended".to_string(), cut, 9),
    ];
    for (name, case, number) in alone().into_iter().filter(|(_, case, _)| is_text(case)) {
        let mut lines = lines_of(&case);
        texts.push((name.clone(), text(&lines), number));
        lines.push("do".into());
        let name = format!("{name}, and the last line is wrong");
        texts.push((name, text(&lines), 9));
    }
    texts
}

/// Such reads, with room for their results and without.
fn unreported_reads() -> Vec<Row> {
    let mut rows = Vec::new();
    for (name, text, number) in unreported_texts() {
        for report in 0..READ_REPORT {
            for rooms in [ENOUGH, Rooms::NONE] {
                let name = format!("{name}, read with {report} words of report");
                let rooms = Rooms { report, ..rooms };
                let text = text.clone();
                rows.push(untouched(name, Question::Read { text, rooms }, number));
            }
        }
    }
    rows
}

/// The same of writes, whether there is room for the text or not.
fn unreported_writes() -> Vec<Row> {
    let mut all = alone();
    all.push(("the small run".to_string(), small_run(), 8));
    let mut rows = Vec::new();
    for (name, case, number) in all {
        for report in 0..WRITE_REPORT {
            for room in [0, 1000] {
                let name = format!("{name}, written with {report} words of report");
                let case = Case {
                    room: report,
                    ..case.clone()
                };
                rows.push(untouched(name, Question::Write { case, room }, number));
            }
        }
    }
    rows
}

/// Nothing is done, and this number comes back.
fn untouched(name: String, question: Question, returned: u64) -> Row {
    let wanted = Sighting {
        returned,
        ..question.untouched()
    };
    Row {
        name,
        question,
        wanted,
    }
}

/// The small run written, with room for its text and without.
fn writes() -> Vec<Row> {
    let sheet = text(&small_lines());
    let length = sheet.len() as u64;
    let mut rows = Vec::new();
    for room in [sheet.len(), sheet.len() + 1, 5000] {
        let name = format!("the small run in {room} bytes");
        rows.push(Row::written(name, small_run(), room, &sheet));
    }
    for room in [0, 1, 24, sheet.len() - 1] {
        let case = small_run();
        let question = Question::Write { case, room };
        let name = format!("the small run in {room} bytes");
        rows.push(Row::reported(name, question, &[8, length]));
    }
    rows.push(Row::written(
        "the small run, its pages turned",
        small_run().on_pages(&[1, 0]),
        sheet.len(),
        &sheet,
    ));
    rows
}

/// Refused runs are not written, whether there is room or not.
fn refused_writes() -> Vec<Row> {
    let mut rows = Vec::new();
    for (name, case, number) in [alone(), in_pairs()].concat() {
        for room in [0, 1000] {
            let case = case.clone();
            let question = Question::Write { case, room };
            rows.push(Row::reported(name.as_str(), question, &[number, 0]));
        }
    }
    rows
}
