//! Limits of lists, lengths and reports: what just passes and what just does not.

use crate::answer::Answer;
use crate::case::{Case, FOUR_GIB, REPORT_WORDS, field};
use crate::rows::{Row, plain};

/// INCSSPQ of no element, with this length.
fn stay(length: u64) -> [u64; 4] {
    [2, length, 0, 0]
}

/// All of them.
pub fn rows() -> Vec<Row> {
    [
        entries(),
        instructions(),
        lengths(),
        empty_lists(),
        reports(),
    ]
    .concat()
}

/// 16 and 17 entries.
fn entries() -> Vec<Row> {
    let many = |count: u64| -> Vec<u64> { (1..=count).map(|page| page << 12 | 1).collect() };
    let full = plain(&[stay(1)]).on(&many(16));
    let last = full.clone().with(field::SSP, 0x1_0ff8);
    let beyond = full.clone().with(field::SSP, 0x1_1000);
    vec![
        Row::completes("16 entries", full),
        Row::completes("16 entries, the last used", last),
        Row::ends(
            "16 entries, one beyond",
            beyond,
            Answer::page_fault(0x1_1000),
        ),
        Row::ends(
            "17 entries",
            plain(&[stay(1)]).on(&many(17)),
            Answer::refusal(1),
        ),
    ]
}

/// 1,024 and 1,025 instructions.
fn instructions() -> Vec<Row> {
    let mut last_broken = [stay(1); 1024];
    last_broken[1023] = stay(0);
    let mut beyond_broken = [stay(1); 1025];
    beyond_broken[1024] = stay(0);
    let refused = Answer::refusal(7);
    vec![
        Row::completes("1,024 instructions", plain(&[stay(1); 1024])).field(field::IP, 0x40_0400),
        Row::stops(
            "1,024 instructions, the last one broken",
            plain(&last_broken),
            1023,
            Answer::refusal(6),
        ),
        Row::ends("1,025 instructions", plain(&[stay(1); 1025]), refused),
        Row::ends(
            "1,025 instructions, the last one broken",
            plain(&beyond_broken),
            refused,
        ),
    ]
}

/// Lengths 0, 1, 15 and 16.
fn lengths() -> Vec<Row> {
    let refused = |length| {
        let name = format!("length {length:x}");
        Row::ends(name, plain(&[stay(length)]), Answer::refusal(6))
    };
    let good = |length| Row::completes(format!("length {length:x}"), plain(&[stay(length)]));
    let at_end = |mode| {
        plain(&[[1, 15, 0, 0]])
            .with(field::MODE, mode)
            .with(field::IP, FOUR_GIB - 1)
    };
    vec![
        refused(0),
        good(1).field(field::IP, 0x40_0001),
        good(15).field(field::IP, 0x40_000f),
        refused(16),
        refused(u64::MAX),
        Row::completes("Next past 2^32, mode 1", at_end(1)).field(field::IP, 14),
        Row::completes("Next past 2^32, mode 2", at_end(2)).field(field::IP, FOUR_GIB + 14),
    ]
}

/// No page and no instruction.
fn empty_lists() -> Vec<Row> {
    vec![
        Row::completes("empty run", plain(&[])),
        Row::completes("empty run, no page", plain(&[]).on(&[])),
        Row::ends(
            "no page",
            plain(&[stay(1)]).on(&[]),
            Answer::page_fault(0x1ff0),
        ),
    ]
}

/// Reports with room for 0 to 7 words.
fn reports() -> Vec<Row> {
    let good = plain(&[[7, 5, 0x10, 0]]);
    let refused = good.clone().with(field::CPL, 4);
    let mut rows = Vec::new();
    for room in 0..8 {
        let cut = |case: &Case| Case {
            room,
            ..case.clone()
        };
        if room < REPORT_WORDS {
            let name = format!("room for {room} words");
            rows.push(Row::too_short(name.clone(), cut(&good), 8));
            rows.push(Row::too_short(name + ", refused", cut(&refused), 5));
            continue;
        }
        rows.push(Row::ends(
            format!("room for {room} words, refused"),
            cut(&refused),
            Answer::refusal(5),
        ));
        rows.push(Row::completes(
            format!("room for {room} words, no instruction"),
            Case {
                words: Vec::new(),
                ..cut(&good)
            },
        ));
    }
    rows
}
