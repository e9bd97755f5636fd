//! Every refusal, and which of several comes.

use crate::answer::{Answer, GP, PF, UD};
use crate::case::{Case, FOUR_GIB, REPORT_WORDS, field};
use crate::damage;
use crate::rows::{Row, plain};

/// A good instruction of every code, with its operands.
const GOOD: [[u64; 4]; 12] = [
    [1, 3, 0, 1],
    [2, 3, 0, 1],
    [3, 3, 0x2ff0, 0],
    [4, 3, 0, 0],
    [5, 3, 0x2000, 7],
    [6, 3, 0x2000, 7],
    [7, 3, 0x10, 0],
    [8, 3, 0x1000, 0],
    [9, 3, 0, 0],
    [10, 3, 0x10, 0],
    [11, 3, 0x2000, 7],
    [12, 3, 0x2000, 7],
];

/// All rows.
pub fn rows() -> Vec<Row> {
    [
        alone(),
        in_pairs(),
        ranges(),
        forms(),
        forms_before_faults(),
        faults_hidden_by_forms(),
        later(),
        short_reports(),
    ]
    .concat()
}

/// Each refusal that comes before any step, alone.
fn alone() -> Vec<Row> {
    damage::all()
        .map(|spoiler| {
            let mut case = plain(&[GOOD[0]]);
            (spoiler.spoil)(&mut case);
            Row::ends(spoiler.name, case, Answer::refusal(spoiler.refusal))
        })
        .collect()
}

/// Every two of them that have different numbers, done in either order, while
/// the only instruction breaks its form as well: the lower number comes.
fn in_pairs() -> Vec<Row> {
    let mut rows = Vec::new();
    for first in damage::all() {
        for second in damage::all().filter(|second| second.refusal != first.refusal) {
            let mut case = plain(&[[0, 0, 0, 0]]);
            (first.spoil)(&mut case);
            (second.spoil)(&mut case);
            let number = first.refusal.min(second.refusal);
            let name = format!("{} and then {}", first.name, second.name);
            rows.push(Row::ends(name, case, Answer::refusal(number)));
        }
    }
    rows
}

/// A mode, a field and its value.
type Setting = (u64, usize, u64);

/// Fields that are just in their range.
const IN_RANGE: [Setting; 18] = [
    (2, field::CPL, 0),
    (2, field::CPL, 3),
    (2, field::CET, 0),
    (2, field::USER, u64::MAX),
    (2, field::SUPERVISOR, u64::MAX),
    (2, field::FLAGS, u64::MAX),
    (2, field::IP, u64::MAX),
    (2, field::SP, u64::MAX),
    (2, field::SSP, u64::MAX - 3),
    (2, field::LIMIT, FOUR_GIB - 1),
    (0, field::MODE, 0),
    (0, field::MODE, 1),
    (0, field::IP, FOUR_GIB - 1),
    (1, field::IP, FOUR_GIB - 1),
    (0, field::SP, FOUR_GIB - 1),
    (1, field::SP, FOUR_GIB - 1),
    (0, field::SSP, FOUR_GIB - 4),
    (1, field::SSP, FOUR_GIB - 4),
];

/// Fields that are not.
const OUT_OF_RANGE: [Setting; 14] = [
    (2, field::MODE, FOUR_GIB),
    (2, field::CPL, u64::MAX),
    (2, field::CET, u64::MAX),
    (2, field::SSP, u64::MAX),
    (2, field::SSP, u64::MAX - 1),
    (2, field::SSP, u64::MAX - 2),
    (0, field::IP, FOUR_GIB),
    (1, field::IP, u64::MAX),
    (0, field::SP, FOUR_GIB),
    (1, field::SP, u64::MAX),
    (0, field::SSP, FOUR_GIB),
    (1, field::SSP, u64::MAX - 3),
    (0, field::LIMIT, FOUR_GIB),
    (1, field::LIMIT, FOUR_GIB),
];

/// Every field of the state at the ends of its range, with an empty run.
fn ranges() -> Vec<Row> {
    let case = |(mode, field, value)| plain(&[]).with(field::MODE, mode).with(field, value);
    let name = |(mode, field, value)| format!("mode {mode}, field {field} is {value:x}");
    let good = IN_RANGE.map(|of| Row::completes(name(of), case(of)));
    let bad = OUT_OF_RANGE.map(|of| Row::ends(name(of), case(of), Answer::refusal(5)));
    [good.as_slice(), bad.as_slice()].concat()
}

/// The instructions that break their form in a mode.
fn broken(mode: u64) -> Vec<[u64; 4]> {
    let mut all = Vec::new();
    for good @ [code, length, a, b] in GOOD {
        for wrong in [0, 16, 17, FOUR_GIB + 1, u64::MAX] {
            all.push([code, wrong, a, b]);
        }
        for wrong in [1, 8, FOUR_GIB - 1, 1 << 63] {
            if matches!(code, 1 | 2 | 4 | 9) {
                all.push([code, length, wrong, b]);
            }
            if matches!(code, 3 | 4 | 7..=10) {
                all.push([code, length, a, wrong]);
            }
        }
        if mode == 1 {
            all.push([code, length, a + FOUR_GIB, b]);
            all.push([code, length, a, b + FOUR_GIB]);
        }
        let refused = match mode {
            0 => matches!(code, 7..=10),
            1 => matches!(code, 2 | 6 | 12),
            _ => false,
        };
        if refused {
            all.push(good);
        }
    }
    all.push([7, 5, FOUR_GIB, 0]);
    all.push([7, 5, 0xffff_ffff_ffff_fff0, 0]);
    for count in [0x1_0000, 0x1_0010, 0xffff_ffff, 1 << 63] {
        all.push([10, 3, count, 0]);
    }
    for code in [0, 13, 14, 256 + 1, FOUR_GIB + 1, u64::MAX] {
        all.push([code, 3, 0, 0]);
    }
    all
}

/// Instructions that break their form, as the first and as the second of a
/// run, in each mode.
fn forms() -> Vec<Row> {
    let mut rows = Vec::new();
    let stay = [1, 4, 0, 0];
    for mode in 0..3 {
        for words in broken(mode) {
            let case = |all: &[_]| plain(all).with(field::MODE, mode).with(field::USER, 3);
            let name = format!("mode {mode}, broken form {words:x?}");
            let refused = Answer::refusal(6);
            rows.push(Row::ends(name.clone(), case(&[words]), refused));
            if mode > 0 {
                rows.push(Row::stops(
                    name + ", second",
                    case(&[stay, words]),
                    1,
                    refused,
                ));
            }
        }
    }
    rows
}

/// A broken form while shadow stacks are off, and while both stacks are lost.
fn forms_before_faults() -> Vec<Row> {
    let mut rows = Vec::new();
    for mode in 0..3 {
        for words in broken(mode) {
            let case = plain(&[words]).with(field::MODE, mode);
            let off = case.clone().with(field::CET, 0);
            let lost = case.with(field::SSP, 0x9000).with(field::SP, 0x9000);
            for (ill, case) in [("off", off), ("lost", lost)] {
                let name = format!("mode {mode}, {ill}, broken form {words:x?}");
                rows.push(Row::ends(name, case, Answer::refusal(6)));
            }
        }
    }
    rows
}

/// Instructions that fault, with U_CET and the vector, and one word of them
/// that breaks their form: its place and value.
const FAULTING: [([u64; 4], u64, u64, usize, u64); 10] = [
    ([5, 1, 0x2001, 0], 1, UD, 1, 0),
    ([6, 15, 0x2001, 0], 3, GP, 1, 16),
    ([3, 1, 0x2ff4, 0], 1, GP, 3, 1),
    ([4, 1, 0, 0], 1, GP, 2, 1),
    ([8, 1, 1 << 63, 0], 1, GP, 3, 1),
    ([7, 1, 0, 0], 1, GP, 2, FOUR_GIB),
    ([6, 1, 0x9000, 0], 3, PF, 1, 0),
    ([9, 1, 0, 0], 0, GP, 2, 8),
    ([10, 1, 0xffff, 0], 0, GP, 2, 0x1_0000),
    ([11, 1, 0x2001, 0], 0, GP, 1, 16),
];

/// Instructions that fault, and then break their form besides.
fn faults_hidden_by_forms() -> Vec<Row> {
    let mut rows = Vec::new();
    for (words, user, vector, place, value) in FAULTING {
        let case = plain(&[words])
            .with(field::USER, user)
            .with(field::IP, 1 << 63);
        let answer = match vector {
            PF => Answer::page_fault(0x9000),
            _ => Answer::fault(vector),
        };
        let mut broken = case.clone();
        broken.words[place] = value;
        let name = format!("faulting {words:x?}");
        rows.push(Row::ends(name.clone(), case, answer));
        rows.push(Row::ends(name + ", broken", broken, Answer::refusal(6)));
    }
    rows
}

/// An instruction that breaks its form behind one that faults is never met.
fn later() -> Vec<Row> {
    let stay = [1, 4, 0, 0];
    let fault = [3, 4, 0x2ff4, 0];
    let broken = [9, 0, 1, 1];
    vec![
        Row::ends(
            "fault before form",
            plain(&[fault, broken]),
            Answer::fault(GP),
        ),
        Row::ends(
            "form before fault",
            plain(&[broken, fault]),
            Answer::refusal(6),
        ),
        Row::stops(
            "fault in the third step",
            plain(&[stay, stay, fault, broken]),
            2,
            Answer::fault(GP),
        ),
        Row::stops(
            "form in the third step",
            plain(&[stay, stay, broken, fault]),
            2,
            Answer::refusal(6),
        ),
    ]
}

/// Runs that are not refused before their first step. With a report that is too
/// short it is never made.
fn started() -> [(&'static str, Case); 5] {
    let [good, broken, fault] = [GOOD[0], [0; 4], [3, 4, 0x2ff4, 0]];
    [
        ("all good", plain(&[good])),
        ("no instruction", plain(&[])),
        ("a broken form", plain(&[broken])),
        ("a broken form, second", plain(&[good, broken])),
        ("a fault", plain(&[fault])),
    ]
}

/// Reports that are too short. What is refused before any step is refused all the
/// same, and all else is 8.
fn short_reports() -> Vec<Row> {
    let mut rows = Vec::new();
    for room in 0..REPORT_WORDS {
        let name = |what| format!("{what}, room for {room} words");
        for spoiler in damage::all() {
            let mut case = plain(&[[0; 4]]);
            (spoiler.spoil)(&mut case);
            let case = Case { room, ..case };
            rows.push(Row::too_short(name(spoiler.name), case, spoiler.refusal));
        }
        for (what, case) in started() {
            let case = Case { room, ..case };
            rows.push(Row::too_short(name(what), case, 8));
        }
    }
    rows
}
