//! Readers and writers of sheets that are wrong on purpose, each in one thing.
//!
//! All of them call the second program and then spoil what it did, or change
//! what it is given.

use driftpocket_compare::case::Case;
use driftpocket_compare::sheets::lines::{line, lines_of, text as joined};
use driftpocket_compare::sheets::{FIELDS, Parts, SECOND};
use driftpocket_reference::pages::PAGE_BYTES;
use driftpocket_reference::sheet::{read_sheet, write_sheet};

/// A wrong reader together with the right writer.
macro_rules! reader {
    ($name:ident, |$text:ident, $state:ident, $pages:ident, $bytes:ident, $words:ident, $report:ident| $body:expr) => {
        const $name: Parts = Parts {
            read: |$text, $state, $pages, $bytes, $words, $report| $body,
            ..SECOND
        };
    };
}

/// A reader that does something after the right one, if the report was long
/// enough.
macro_rules! after_read {
    ($name:ident, |$text:ident, $state:ident, $pages:ident, $bytes:ident, $report:ident| $spoil:expr) => {
        reader!($name, |$text, $state, $pages, $bytes, words, report| {
            let returned = read_sheet($text, $state, $pages, $bytes, words, report);
            let Some($report) = report.first_chunk_mut::<5>() else {
                return returned;
            };
            $spoil;
            $report[0]
        });
    };
}

/// A reader that takes a text which is no sheet for another one.
macro_rules! mending {
    ($name:ident, $mend:expr) => {
        reader!($name, |text, state, pages, bytes, words, report| {
            let mend: fn(&[u8]) -> Vec<u8> = $mend;
            let returned = read_sheet(text, state, pages, bytes, words, report);
            if returned != 9 {
                return returned;
            }
            match read_sheet(&mend(text), state, pages, bytes, words, report) {
                9 => read_sheet(text, state, pages, bytes, words, report),
                other => other,
            }
        });
    };
}

/// A wrong writer together with the right reader.
macro_rules! writer {
    ($name:ident, |$state:ident, $pages:ident, $bytes:ident, $words:ident, $text:ident, $report:ident| $body:expr) => {
        const $name: Parts = Parts {
            write: |$state, $pages, $bytes, $words, $text, $report| $body,
            ..SECOND
        };
    };
}

/// A writer that writes other lines for a run that is not refused.
macro_rules! rewriting {
    ($name:ident, |$case:ident, $lines:ident| $change:expr) => {
        writer!($name, |state, pages, bytes, words, text, report| {
            let returned = write_sheet(state, pages, bytes, words, text, report);
            if !matches!(returned, 0 | 8) || report.len() < 2 {
                return returned;
            }
            let $case = case(state, pages, bytes, words);
            let mut $lines = lines_of(&$case);
            let () = $change;
            deliver(&joined(&$lines), text, report)
        });
    };
}

/// The run that a writer is given.
fn case(state: &[u64], pages: &[u64], bytes: &[u8], words: &[u64]) -> Case {
    Case {
        state: state.to_vec(),
        pages: pages.to_vec(),
        bytes: bytes.to_vec(),
        words: words.to_vec(),
        room: 2,
    }
}

/// Hands out a text as the right writer does.
fn deliver(printed: &[u8], text: &mut [u8], report: &mut [u64]) -> u64 {
    let fits = printed.len() <= text.len();
    if fits {
        text[..printed.len()].copy_from_slice(printed);
    }
    report[0] = if fits { 0 } else { 8 };
    report[1] = printed.len() as u64;
    report[0]
}

/// A text in which something stands for something else.
fn replaced(text: &[u8], old: &str, new: &str) -> Vec<u8> {
    String::from_utf8_lossy(text).replace(old, new).into_bytes()
}

/// The lines of a text, each with its line feed.
fn lines(text: &[u8]) -> Vec<&[u8]> {
    text.split_inclusive(|&byte| byte == b'\n').collect()
}

/// The order of lines by their names, from the top of a sheet down.
fn rank(line: &[u8]) -> usize {
    let names: [&[u8]; 4] = [b"sheet", b"state", b"page", b"word"];
    let is_it = |name: &&[u8]| line.starts_with(name);
    names.iter().position(is_it).unwrap_or(names.len())
}

mending!(TAKES_CARRIAGE_RETURNS, |text| replaced(text, "\r\n", "\n"));
mending!(TAKES_TABS_AT_THE_END, |text| replaced(text, "\t\n", "\n"));
mending!(TAKES_EMPTY_LINES, |text| replaced(text, "\n\n", "\n"));
mending!(TAKES_A_BYTE_ORDER_MARK, |text| {
    replaced(text, "\u{feff}sheet", "sheet")
});
mending!(TAKES_VERSION_2, |text| {
    replaced(text, "sheet\tx0000000000000002", "sheet\tx0000000000000001")
});
mending!(TAKES_NO_LAST_LINE_FEED, |text| [text, b"\n"].concat());
mending!(TAKES_UPPER_CASE_DIGITS, |text| {
    let lower = |byte: &u8| match byte {
        b'A'..=b'F' => byte.to_ascii_lowercase(),
        _ => *byte,
    };
    text.iter().map(lower).collect()
});
mending!(TAKES_ZERO_WORDS, |text| {
    let is_zero = |line: &&[u8]| rank(line) == 3 && line.ends_with(b"\tx0000000000000000\n");
    let kept = lines(text).into_iter().filter(|line| !is_zero(line));
    kept.collect::<Vec<_>>().concat()
});
mending!(TAKES_PAGES_IN_ANY_ORDER, |text| {
    let mut lines = lines(text);
    let is_page = |line: &&[u8]| rank(line) == 2;
    let first = lines.iter().position(is_page).unwrap_or(0);
    let count = lines[first..]
        .iter()
        .take_while(|line| is_page(line))
        .count();
    lines[first..][..count].sort_unstable();
    lines.concat()
});
mending!(TAKES_LINES_IN_ANY_ORDER, |text| {
    let mut lines = lines(text);
    lines.sort_by_key(|line| rank(line));
    lines.concat()
});

after_read!(
    NAMES_THE_NEXT_LINE,
    |_text, _state, _pages, _bytes, report| {
        report[1] += u64::from(report[0] == 9);
    }
);
after_read!(
    NAMES_THE_LAST_LINE_FOR_A_MISSING_ONE,
    |text, _state, _pages, _bytes, report| {
        report[1] = report[1].min(lines(text).len() as u64);
    }
);
after_read!(
    TOUCHES_THE_STATE_WITHOUT_ROOM,
    |_text, state, _pages, _bytes, report| {
        if report[0] == 8 {
            state.fill(0);
        }
    }
);
after_read!(
    TOUCHES_THE_PAGES_OF_NO_SHEET,
    |_text, _state, pages, _bytes, report| {
        if report[0] == 9 && report[1] > 4 {
            pages.fill(0);
        }
    }
);
after_read!(
    COUNTS_INSTRUCTIONS_WITHOUT_ROOM,
    |_text, _state, _pages, _bytes, report| {
        if report[0] == 8 {
            report[4] /= 4;
        }
    }
);
after_read!(
    COUNTS_NOTHING_WITHOUT_ROOM,
    |_text, _state, _pages, _bytes, report| {
        if report[0] == 8 {
            report[2..].fill(0);
        }
    }
);
after_read!(
    CLEARS_PAST_THE_BYTES,
    |_text, _state, _pages, bytes, report| {
        if report[0] == 0 {
            bytes[report[3] as usize..].fill(0);
        }
    }
);
after_read!(
    LOOKS_FOR_ROOM_FIRST,
    |_text, _state, pages, _bytes, report| {
        if (1..8).contains(&report[0]) && pages.is_empty() {
            report[0] = 8;
        }
    }
);
after_read!(
    BLAMES_THE_17TH_PAGE,
    |_text, _state, _pages, _bytes, report| {
        if report[0] == 1 {
            report[..2].copy_from_slice(&[9, 19]);
        }
    }
);
after_read!(
    LISTS_16_PAGES_ONLY,
    |text, _state, _pages, _bytes, report| {
        let lines = lines(text);
        let page = |line: &[u8]| line.get(6..19).map(<[u8]>::to_vec);
        let listed: Vec<_> = lines
            .iter()
            .skip(2)
            .take(16)
            .map(|line| page(line))
            .collect();
        let is_lost = |line: &&[u8]| rank(line) == 3 && !listed.contains(&page(line));
        if let (1, Some(lost)) = (report[0], lines.iter().position(is_lost)) {
            report[..2].copy_from_slice(&[9, lost as u64 + 1]);
        }
    }
);
reader!(LEAVES_ZERO_BYTES, |text,
                            state,
                            pages,
                            bytes,
                            words,
                            report| {
    let old = bytes.to_vec();
    let returned = read_sheet(text, state, pages, bytes, words, report);
    for (byte, old) in bytes.iter_mut().zip(old) {
        *byte = if *byte == 0 { old } else { *byte };
    }
    returned
});
reader!(
    TOUCHES_A_SHORT_REPORT,
    |text, state, pages, bytes, words, report| {
        report.iter_mut().take(5).for_each(|word| *word = 8);
        read_sheet(text, state, pages, bytes, words, report)
    }
);
reader!(
    FILLS_THE_WHOLE_REPORT,
    |text, state, pages, bytes, words, report| {
        report.iter_mut().skip(5).for_each(|word| *word = 0);
        read_sheet(text, state, pages, bytes, words, report)
    }
);

rewriting!(KEEPS_THE_ORDER_OF_PAGES, |case, lines| {
    for (place, &entry) in case.pages.iter().enumerate() {
        lines[2 + place] = line("page", &[entry]);
    }
});
rewriting!(SORTS_SIGNED_ADDRESSES, |case, lines| {
    let mut entries = case.pages.clone();
    entries.sort_by_key(|entry| entry.cast_signed());
    for (place, entry) in entries.into_iter().enumerate() {
        lines[2 + place] = line("page", &[entry]);
    }
});
rewriting!(PRINTS_ZERO_WORDS, |case, lines| {
    let first = case.pages.iter().map(|entry| entry / PAGE_BYTES).min();
    let place = 2 + case.pages.len();
    if let Some(start) = first.map(|page| page * PAGE_BYTES) {
        let zero = line("word", &[start, 0]);
        let is_there = |line: &String| line[..22] == zero[..22];
        if !lines.get(place).is_some_and(is_there) {
            lines.insert(place, zero);
        }
    }
});
rewriting!(PRINTS_UPPER_CASE_DIGITS, |_case, lines| {
    for line in &mut lines {
        *line = line.replace('f', "F");
    }
});
rewriting!(FORGETS_THE_LAST_INSTRUCTION, |case, lines| {
    if case.words.len() == 4096 {
        lines.pop();
    }
});
writer!(
    CLEARS_PAST_THE_TEXT,
    |state, pages, bytes, words, text, report| {
        let returned = write_sheet(state, pages, bytes, words, text, report);
        if returned == 0 {
            text[report[1] as usize..].fill(0);
        }
        returned
    }
);
writer!(WANTS_A_BYTE_MORE, |state,
                            pages,
                            bytes,
                            words,
                            text,
                            report| {
    let room = text.len().saturating_sub(1);
    write_sheet(state, pages, bytes, words, &mut text[..room], report)
});
writer!(WRITES_WHAT_FITS, |state,
                           pages,
                           bytes,
                           words,
                           text,
                           report| {
    let returned = write_sheet(state, pages, bytes, words, text, report);
    if returned == 8 && report.len() >= 2 {
        let printed = joined(&lines_of(&case(state, pages, bytes, words)));
        text.copy_from_slice(&printed[..text.len()]);
    }
    returned
});
writer!(
    SAYS_NO_LENGTH_WITHOUT_ROOM,
    |state, pages, bytes, words, text, report| {
        let returned = write_sheet(state, pages, bytes, words, text, report);
        if let (8, Some([_, length])) = (returned, report.first_chunk_mut()) {
            *length = 0;
        }
        returned
    }
);
writer!(
    LOOKS_FOR_ROOM_BEFORE_A_WRITE,
    |state, pages, bytes, words, text, report| {
        let returned = write_sheet(state, pages, bytes, words, text, report);
        if (1..8).contains(&returned) && text.is_empty() && report.len() >= 2 {
            report[0] = 8;
            return 8;
        }
        returned
    }
);
reader!(
    LOOKS_FOR_THE_REPORT_FIRST,
    |text, state, pages, bytes, words, report| {
        if report.len() < 5 {
            return 8;
        }
        read_sheet(text, state, pages, bytes, words, report)
    }
);
writer!(
    LOOKS_FOR_THE_REPORT_BEFORE_A_WRITE,
    |state, pages, bytes, words, text, report| {
        if report.len() < 2 {
            return 8;
        }
        write_sheet(state, pages, bytes, words, text, report)
    }
);
writer!(TAKES_ELEVEN_FIELDS, |state,
                              pages,
                              bytes,
                              words,
                              text,
                              report| {
    let fields = &state[..state.len().min(FIELDS)];
    write_sheet(fields, pages, bytes, words, text, report)
});
writer!(
    TESTS_SEVEN_BEFORE_FIVE,
    |state, pages, bytes, words, text, report| {
        let returned = write_sheet(state, pages, bytes, words, text, report);
        if returned == 5 && !words.len().is_multiple_of(4) && report.len() >= 2 {
            report[0] = 7;
            return 7;
        }
        returned
    }
);

/// All of them with their names.
pub const ALL: &[(&str, Parts)] = &[
    ("takes carriage returns", TAKES_CARRIAGE_RETURNS),
    ("takes tabs at the end", TAKES_TABS_AT_THE_END),
    ("takes empty lines", TAKES_EMPTY_LINES),
    ("takes a byte order mark", TAKES_A_BYTE_ORDER_MARK),
    ("takes version 2", TAKES_VERSION_2),
    ("takes no last line feed", TAKES_NO_LAST_LINE_FEED),
    ("takes upper-case digits", TAKES_UPPER_CASE_DIGITS),
    ("takes zero words", TAKES_ZERO_WORDS),
    ("takes pages in any order", TAKES_PAGES_IN_ANY_ORDER),
    ("takes lines in any order", TAKES_LINES_IN_ANY_ORDER),
    ("names the next line", NAMES_THE_NEXT_LINE),
    (
        "names the last line for a missing one",
        NAMES_THE_LAST_LINE_FOR_A_MISSING_ONE,
    ),
    (
        "touches the state without room",
        TOUCHES_THE_STATE_WITHOUT_ROOM,
    ),
    (
        "touches the pages of no sheet",
        TOUCHES_THE_PAGES_OF_NO_SHEET,
    ),
    (
        "counts instructions without room",
        COUNTS_INSTRUCTIONS_WITHOUT_ROOM,
    ),
    ("counts nothing without room", COUNTS_NOTHING_WITHOUT_ROOM),
    ("clears past the bytes", CLEARS_PAST_THE_BYTES),
    ("looks for room first", LOOKS_FOR_ROOM_FIRST),
    ("blames the 17th page", BLAMES_THE_17TH_PAGE),
    ("lists 16 pages only", LISTS_16_PAGES_ONLY),
    ("leaves zero bytes", LEAVES_ZERO_BYTES),
    ("touches a short report", TOUCHES_A_SHORT_REPORT),
    ("fills the whole report", FILLS_THE_WHOLE_REPORT),
    ("keeps the order of pages", KEEPS_THE_ORDER_OF_PAGES),
    ("sorts signed addresses", SORTS_SIGNED_ADDRESSES),
    ("prints zero words", PRINTS_ZERO_WORDS),
    ("prints upper-case digits", PRINTS_UPPER_CASE_DIGITS),
    ("forgets the last instruction", FORGETS_THE_LAST_INSTRUCTION),
    ("clears past the text", CLEARS_PAST_THE_TEXT),
    ("wants a byte more", WANTS_A_BYTE_MORE),
    ("writes what fits", WRITES_WHAT_FITS),
    ("says no length without room", SAYS_NO_LENGTH_WITHOUT_ROOM),
    (
        "looks for room before a write",
        LOOKS_FOR_ROOM_BEFORE_A_WRITE,
    ),
    ("looks for the report first", LOOKS_FOR_THE_REPORT_FIRST),
    (
        "looks for the report before a write",
        LOOKS_FOR_THE_REPORT_BEFORE_A_WRITE,
    ),
    ("takes eleven fields", TAKES_ELEVEN_FIELDS),
    ("tests seven before five", TESTS_SEVEN_BEFORE_FIVE),
];

mending!(MENDS_NOTHING, |text| text.to_vec());
rewriting!(REWRITES_NOTHING, |_case, _lines| ());

/// Parts that go the same ways and spoil nothing.
pub const UNSPOILED: Parts = Parts {
    read: MENDS_NOTHING.read,
    write: REWRITES_NOTHING.write,
};

/// The parts that have this name.
pub fn named(name: &str) -> Parts {
    let (_, parts) = ALL.iter().find(|(other, _)| *other == name).expect(name);
    *parts
}
