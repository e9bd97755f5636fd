//! Near RET: what it pops, what it compares, what it checks, and in which order.

use super::real_mode;
use crate::answer::{Answer, CP, GP, SS};
use crate::case::{Case, FOUR_GIB, field};
use crate::page_ends::layout::cut;
use crate::page_ends::trials::{LENGTH, NARROW, Spot};
use crate::page_ends::{Deed, Trial};
use crate::rows::{Row, plain};
use crate::table::{Law, law};
use driftpocket_reference::dice::Dice;

/// The return address of most cases.
const TARGET: u64 = 0x1234;

/// The code limit of most cases.
const LIMIT: u64 = 0x40_1000;

/// The first address that is not canonical, and the first above those.
const HOLE: u64 = 0x0000_8000_0000_0000;
const ABOVE_HOLE: u64 = 0xffff_8000_0000_0000;

/// The last page of all.
const LAST_PAGE: u64 = 0xffff_ffff_ffff_f000;

/// RET without a count.
const RET: [u64; 4] = [9, 1, 0, 0];

/// How many bytes a RET at the end of a page drops besides, if it has a count.
const DROPPED: u64 = 0x1235;

/// RET that drops so many bytes.
fn dropping(count: u64) -> [u64; 4] {
    [10, 3, count, 0]
}

/// The bytes of a return address in mode 1 or 2.
fn size(mode: u64) -> u64 {
    4 * mode
}

/// The first address of a mode where no code can be.
fn no_target(mode: u64) -> u64 {
    if mode == 1 { LIMIT + 1 } else { HOLE }
}

/// One instruction in a mode, with a page of each kind and both stacks holding
/// a return address.
fn back(mode: u64, instruction: [u64; 4], target: u64) -> Case {
    plain(&[instruction])
        .on(&[0x1001, 0x2002, 0x5003])
        .with(field::MODE, mode)
        .with(field::LIMIT, LIMIT)
        .holding::<8>(0x5010, target)
        .holding::<8>(0x1ff0, target)
}

/// A return that completes, SP having moved so far besides the return address.
fn returned(name: impl Into<String>, case: Case, target: u64, count: u64) -> Row {
    let size = size(case.state[field::MODE]);
    let sp = case.state[field::SP].wrapping_add(size + count);
    let ssp = case.state[field::SSP].wrapping_add(size);
    Row::completes(name, case)
        .field(field::IP, target)
        .field(field::SP, sp)
        .field(field::SSP, ssp)
}

/// All rows.
pub fn rows() -> Vec<Row> {
    [
        in_real_mode(),
        counts(),
        without_shadow_stacks(),
        levels(),
        differences(),
        ordinary_stack_first(),
        shadow_stack_second(),
        target_last(),
        targets(),
        end_of_64_bits(),
        beside_the_hole(),
        end_of_32_bits(),
        ordinary_pages(),
        shadow_ends(),
        calls(),
        spoiled_calls(),
        many(),
    ]
    .concat()
}

/// Mode 0: refusal 6.
fn in_real_mode() -> Vec<Row> {
    [9, 10]
        .map(|code| real_mode(code, 0, 0, Answer::refusal(6)))
        .into()
}

/// Counts of bytes up to the largest, and the first that is too large.
fn counts() -> Vec<Row> {
    let mut rows = Vec::new();
    for mode in [1, 2] {
        let plain_return = back(mode, RET, TARGET).with(field::FLAGS, u64::MAX);
        rows.push(returned(
            format!("mode {mode}, RET, all flags staying"),
            plain_return,
            TARGET,
            0,
        ));
        for count in [0, 1, 4, 8, 0xff, 0x100, 0xffff] {
            let name = format!("mode {mode}, RET {count:x}");
            let case = back(mode, dropping(count), TARGET);
            rows.push(returned(name, case, TARGET, count));
        }
        for count in [0x1_0000, 0x1_0008, FOUR_GIB, FOUR_GIB + 8, 1 << 63] {
            let name = format!("mode {mode}, RET {count:x}");
            let case = back(mode, dropping(count), TARGET);
            rows.push(Row::ends(name, case, Answer::refusal(6)));
        }
    }
    for words in [RET, dropping(0), dropping(8)] {
        let name = format!("mode 0, {words:x?}");
        let case = back(0, words, TARGET);
        rows.push(Row::ends(name, case, Answer::refusal(6)));
    }
    rows
}

/// Mode, CPL, CR4.CET, U_CET and S_CET where shadow stacks are not enabled.
const NOT_ENABLED: [(u64, u64, u64, u64, u64); 7] = [
    (1, 3, 0, 3, 3),
    (2, 3, 0, 3, 3),
    (1, 3, 1, 2, 3),
    (2, 3, 1, 2, 3),
    (2, 0, 1, 3, 2),
    (1, 1, 1, 3, 0),
    (2, 2, 0, 1, 1),
];

/// Not enabled, the shadow stack is neither read nor moved.
fn without_shadow_stacks() -> Vec<Row> {
    let mut rows = Vec::new();
    for (mode, cpl, cet, user, supervisor) in NOT_ENABLED {
        let off = |case: Case| {
            case.with(field::CPL, cpl)
                .with(field::CET, cet)
                .with(field::USER, user)
                .with(field::SUPERVISOR, supervisor)
        };
        let name = format!("mode {mode}, CPL {cpl}, CR4.CET {cet}, not enabled");
        let other = off(back(mode, dropping(4), TARGET)).holding::<8>(0x1ff0, TARGET + 1);
        let nowhere = off(back(mode, dropping(4), TARGET)).with(field::SSP, 0x9000);
        for (what, case) in [("another address", other), ("no page", nowhere)] {
            let ssp = case.state[field::SSP];
            let row = returned(format!("{name}, {what}"), case, TARGET, 4);
            rows.push(row.field(field::SSP, ssp));
        }
        rows.push(Row::ends(
            format!("{name}, bad target"),
            off(back(mode, RET, no_target(mode))),
            Answer::fault(GP),
        ));
        rows.push(Row::ends(
            format!("{name}, no ordinary page"),
            off(back(mode, RET, TARGET)).with(field::SP, 0x6000),
            Answer::page_fault(0x6000),
        ));
    }
    rows
}

/// Each level has its own kind of shadow stack; the ordinary one is of one kind.
fn levels() -> Vec<Row> {
    let mut rows = Vec::new();
    for mode in [1, 2] {
        for cpl in 0..4 {
            let case = |ssp| {
                back(mode, RET, TARGET)
                    .holding::<8>(0x2ff0, TARGET)
                    .with(field::CPL, cpl)
                    .with(field::SUPERVISOR, 1)
                    .with(field::SSP, ssp)
            };
            let (own, other) = match cpl {
                3 => (0x1ff0, 0x2ff0),
                _ => (0x2ff0, 0x1ff0),
            };
            let name = format!("mode {mode}, CPL {cpl}, own shadow stack");
            rows.push(returned(name, case(own), TARGET, 0));
            rows.push(Row::ends(
                format!("mode {mode}, CPL {cpl}, the other shadow stack"),
                case(other),
                Answer::page_fault(other),
            ));
        }
    }
    rows
}

/// Every bit counts, in mode 1 those of the low four bytes.
fn differences() -> Vec<Row> {
    let mut rows = Vec::new();
    for bit in [0, 1, 7, 8, 31, 32, 47, 63] {
        let other = TARGET ^ (1 << bit);
        let wide = back(2, RET, TARGET);
        let narrow = back(1, RET, TARGET).holding::<8>(0x1ff0, other);
        for (place, name) in [(0x1ff0, "shadow"), (0x5010, "ordinary")] {
            rows.push(Row::ends(
                format!("mode 2, bit {bit} on the {name} stack"),
                wide.clone().holding::<8>(place, other),
                Answer::BAD_RETURN,
            ));
        }
        let name = format!("mode 1, bit {bit}");
        rows.push(match bit {
            0..32 => Row::ends(name, narrow, Answer::BAD_RETURN),
            _ => returned(name, narrow, TARGET, 0),
        });
    }
    rows
}

/// A return to where no code can be, with these two pointers and this number
/// for a return address on the shadow stack.
fn astray(mode: u64, sp: u64, ssp: u64, shadow: u64) -> Case {
    back(mode, dropping(8), no_target(mode))
        .with(field::SP, sp)
        .with(field::SSP, ssp)
        .holding::<8>(0x1ff0, shadow)
}

/// Everything is wrong: the ordinary stack decides.
fn ordinary_stack_first() -> Vec<Row> {
    vec![
        Row::ends(
            "SP in the hole",
            astray(2, HOLE, 0x3000, 0),
            Answer::fault(SS),
        ),
        Row::ends(
            "no ordinary page",
            astray(2, 0x6000, 0x3000, 0),
            Answer::page_fault(0x6000),
        ),
        Row::ends(
            "no ordinary page, SSP in the hole",
            astray(2, 0x6000, HOLE, 0),
            Answer::page_fault(0x6000),
        ),
        Row::ends(
            "mode 1, past 2^32",
            astray(1, FOUR_GIB - 3, 0x3000, 0),
            Answer::fault(SS),
        ),
        Row::ends(
            "mode 1, no ordinary page",
            astray(1, 0x6000, 0x3000, 0),
            Answer::page_fault(0x6000),
        ),
    ]
}

/// Everything but the ordinary stack is wrong: the shadow stack decides.
fn shadow_stack_second() -> Vec<Row> {
    vec![
        Row::ends(
            "SSP in the hole",
            astray(2, 0x5010, HOLE - 4, 0),
            Answer::fault(GP),
        ),
        Row::ends(
            "no shadow page",
            astray(2, 0x5010, 0x3000, 0),
            Answer::page_fault(0x3000),
        ),
        Row::ends(
            "mode 1, no shadow page",
            astray(1, 0x5010, 0x3000, 0),
            Answer::page_fault(0x3000),
        ),
    ]
}

/// Both stacks can be read: they are compared, and the target comes after that.
fn target_last() -> Vec<Row> {
    let popped = |mode, shadow| astray(mode, 0x5010, 0x1ff0, shadow);
    let bad = LIMIT + 1;
    vec![
        Row::ends(
            "two return addresses, target in the hole",
            popped(2, HOLE + 1),
            Answer::BAD_RETURN,
        ),
        Row::ends("target in the hole", popped(2, HOLE), Answer::fault(GP)),
        Row::ends(
            "mode 1, two return addresses, target above the limit",
            popped(1, bad + 1),
            Answer::BAD_RETURN,
        ),
        Row::ends(
            "mode 1, target above the limit",
            popped(1, bad),
            Answer::fault(GP),
        ),
        returned(
            "mode 1, all is well",
            popped(1, bad).with(field::LIMIT, bad),
            bad,
            8,
        ),
    ]
}

/// Targets at the code limit, which only mode 1 knows, and beside the hole.
fn targets() -> Vec<Row> {
    let good = [
        (1, 0),
        (1, LIMIT),
        (2, LIMIT + 1),
        (2, HOLE - 1),
        (2, ABOVE_HOLE),
        (2, u64::MAX),
    ];
    let bad = [
        (1, LIMIT + 1),
        (1, FOUR_GIB - 1),
        (2, HOLE),
        (2, ABOVE_HOLE - 1),
        (2, 1 << 63),
    ];
    let name = |mode: u64, target: u64| format!("mode {mode}, back to {target:x}");
    let good = good.map(|(mode, target)| {
        let case = back(mode, RET, target);
        returned(name(mode, target), case, target, 0)
    });
    let bad = bad.map(|(mode, target)| {
        let case = back(mode, dropping(0xffff), target);
        Row::ends(name(mode, target), case, Answer::fault(GP))
    });
    [good.as_slice(), bad.as_slice()].concat()
}

/// A return of mode 2 from this SP, with ordinary pages at an edge.
fn at_edge(pages: &[u64], instruction: [u64; 4], sp: u64) -> Case {
    plain(&[instruction])
        .on(&[&[0x1001][..], pages].concat())
        .with(field::SP, sp)
        .with(field::SSP, 0x1100)
}

/// Sets a return address byte by byte, on as many pages as it takes.
fn put(mut case: Case, first: u64, target: u64) -> Case {
    for (step, byte) in (0..).zip(target.to_le_bytes()) {
        case = case.holding::<1>(first.wrapping_add(step), byte.into());
    }
    case
}

/// A return from an edge that completes.
fn returned_from_edge(name: &str, pages: &[u64], instruction: [u64; 4], sp: u64) -> Row {
    let target = 0x0000_1122_3344_5566;
    let case = at_edge(pages, instruction, sp).holding::<8>(0x1100, target);
    // RET without a count has 0 in its place.
    let count = instruction[2];
    returned(name, put(case, sp, target), target, count)
}

/// SP at the end of 64 bits.
fn end_of_64_bits() -> Vec<Row> {
    let ends = [LAST_PAGE + 3, 3];
    let both = |name, instruction, sp| returned_from_edge(name, &ends, instruction, sp);
    vec![
        both("at the very end", RET, u64::MAX - 7),
        both("on both ends", RET, u64::MAX - 5),
        both("from the last byte on", RET, u64::MAX),
        both("count past the end", dropping(0xffff), u64::MAX - 7),
        both("count up to the end", dropping(8), u64::MAX - 15),
        Row::ends(
            "one end missing",
            at_edge(&ends[..1], RET, u64::MAX - 5),
            Answer::page_fault(0),
        ),
    ]
}

/// SP below the hole, in it and above it.
fn beside_the_hole() -> Vec<Row> {
    let beside = [HOLE - 0x1000 + 3, ABOVE_HOLE + 3];
    let outside = |name, instruction, sp| returned_from_edge(name, &beside, instruction, sp);
    let mut rows = vec![
        outside("below the hole", RET, HOLE - 8),
        outside("count into the hole", dropping(0xffff), HOLE - 8),
        outside("above the hole", RET, ABOVE_HOLE),
        Row::ends(
            "no page below the hole",
            at_edge(&[], RET, HOLE - 8),
            Answer::page_fault(HOLE - 8),
        ),
    ];
    for sp in [HOLE - 7, HOLE - 1, HOLE, ABOVE_HOLE - 8, ABOVE_HOLE - 1] {
        for (what, pages) in [("pages", &beside[..]), ("no pages", &[])] {
            let name = format!("SP {sp:x}, {what}");
            rows.push(Row::ends(name, at_edge(pages, RET, sp), Answer::fault(SS)));
        }
    }
    rows
}

/// SP at the end of 32 bits.
fn end_of_32_bits() -> Vec<Row> {
    let case = |instruction, sp| {
        at_edge(&[0xffff_f003, 3, FOUR_GIB + 3], instruction, sp)
            .with(field::MODE, 1)
            .holding::<4>(0x1100, 0xcccc_cccc)
    };
    let target = 0xcccc_cccc;
    let ended = |name, instruction, sp, last| {
        returned(name, case(instruction, sp), target, 0).field(field::SP, last)
    };
    let top = FOUR_GIB - 4;
    let mut rows = vec![
        ended("mode 1, at the very end", RET, top, 0),
        ended("mode 1, count past the end", dropping(5), top, 5),
        ended("mode 1, largest count", dropping(0xffff), top, 0xffff),
        ended("mode 1, count to the end", dropping(8), top - 8, 0),
        ended("mode 1, count over the end", dropping(9), top - 8, 1),
        ended("mode 1, odd", RET, top - 1, FOUR_GIB - 1),
    ];
    for sp in [FOUR_GIB - 3, FOUR_GIB - 2, FOUR_GIB - 1] {
        let name = format!("mode 1, SP {sp:x}");
        rows.push(Row::ends(name, case(RET, sp), Answer::fault(SS)));
    }
    // Mode 2 goes on above.
    let wide = put(
        case(RET, top)
            .with(field::MODE, 2)
            .holding::<8>(0x1100, TARGET),
        top,
        TARGET,
    );
    rows.push(returned("mode 2, over 2^32", wide, TARGET, 0));
    rows
}

/// Mode, SP, and the first byte of the pop that is not on an ordinary page.
const NOT_ORDINARY: [(u64, u64, u64); 10] = [
    (2, 0x4fff, 0x4fff),
    (2, 0x5ff9, 0x6000),
    (2, 0x5fff, 0x6000),
    (2, 0x6000, 0x6000),
    (2, 0x1100, 0x1100),
    (2, 0x2100, 0x2100),
    (1, 0x4ffd, 0x4ffd),
    (1, 0x5ffd, 0x6000),
    (1, 0x1100, 0x1100),
    (1, 0x2100, 0x2100),
];

/// The pop about the ends of a page, and on pages of another kind. What the
/// count drops need not be there.
fn ordinary_pages() -> Vec<Row> {
    let mut rows = Vec::new();
    for (mode, sp, missing) in NOT_ORDINARY {
        for cpl in [0, 3] {
            let case = back(mode, RET, TARGET)
                .with(field::CPL, cpl)
                .with(field::SP, sp);
            let name = format!("mode {mode}, CPL {cpl}, SP {sp:x}");
            rows.push(Row::ends(name, case, Answer::page_fault(missing)));
        }
    }
    for (mode, sp) in [(2, 0x5ff8), (1, 0x5ffc)] {
        let case = back(mode, dropping(0x100), TARGET).with(field::SP, sp);
        let case = if mode == 2 {
            case.holding::<8>(sp, TARGET)
        } else {
            case.holding::<4>(sp, TARGET)
        };
        let name = format!("mode {mode}, SP {sp:x}, dropping what is not there");
        rows.push(returned(name, case, TARGET, 0x100));
    }
    rows
}

/// SSP at the ends of memory and of its page.
fn shadow_ends() -> Vec<Row> {
    let case = |mode, pages: &[u64], ssp| {
        plain(&[RET])
            .on(&[&[0x5003][..], pages].concat())
            .with(field::MODE, mode)
            .with(field::SSP, ssp)
            .holding::<8>(0x5010, TARGET)
    };
    let narrow = case(1, &[0xffff_f001], FOUR_GIB - 4).holding::<4>(FOUR_GIB - 4, TARGET);
    let wide = |ssp| put(case(2, &[LAST_PAGE + 1, 1], ssp), ssp, TARGET);
    let upper = u64::MAX - 3;
    vec![
        returned("mode 1, SSP 2^32 - 4", narrow, TARGET, 0).field(field::SSP, 0),
        returned("SSP 2^64 - 8", wide(u64::MAX - 7), TARGET, 0),
        returned("SSP 2^64 - 4", wide(upper), TARGET, 0),
        Row::ends(
            "SSP 2^64 - 4, one end missing",
            case(2, &[LAST_PAGE + 1], upper),
            Answer::page_fault(0),
        ),
        Row::ends(
            "SSP at the end of a page",
            back(2, RET, TARGET).with(field::SSP, 0x1ffc),
            Answer::page_fault(0x2000),
        ),
        Row::ends(
            "SSP on an ordinary page",
            back(2, RET, TARGET).with(field::SSP, 0x5010),
            Answer::page_fault(0x5010),
        ),
        Row::ends(
            "SSP half in the hole",
            case(2, &[HOLE - 0x1000 + 1], HOLE - 4),
            Answer::fault(GP),
        ),
    ]
}

/// Calls that return, one inside the other.
fn calls() -> Vec<Row> {
    let call = [8, 5, 0x7000, 0];
    let inner = [7, 2, 0x100, 0];
    let mut rows = Vec::new();
    for mode in [1, 2] {
        for enabled in [0, 1] {
            let case = |all: &[_]| {
                plain(all)
                    .with(field::MODE, mode)
                    .with(field::USER, enabled)
            };
            let pushed = |row: Row, level: u64, next: u64| {
                let (sp, ssp) = (0x5010 - level * size(mode), 0x1ff0 - level * size(mode));
                match (mode, enabled) {
                    (1, 0) => row.bytes::<4>(sp, next),
                    (1, _) => row.bytes::<4>(sp, next).bytes::<4>(ssp, next),
                    (_, 0) => row.bytes::<8>(sp, next),
                    _ => row.bytes::<8>(sp, next).bytes::<8>(ssp, next),
                }
            };
            let name = format!("mode {mode}, U_CET {enabled}");
            let once = Row::completes(format!("{name}, a call returns"), case(&[call, RET]));
            rows.push(pushed(once.field(field::IP, 0x40_0005), 1, 0x40_0005));
            let twice = case(&[call, inner, RET, dropping(0x20)]);
            let twice = Row::completes(format!("{name}, two calls return"), twice)
                .field(field::IP, 0x40_0005)
                .field(field::SP, 0x5030);
            rows.push(pushed(pushed(twice, 1, 0x40_0005), 2, 0x7002));
        }
    }
    rows
}

/// Calls whose return addresses are lost or changed before they return.
fn spoiled_calls() -> Vec<Row> {
    let call = [8, 5, 0x7000, 0];
    let inner = [8, 5, 0x9000, 0];
    let case = |all: &[_]| plain(all).with(field::USER, 3);
    let next = [0x40_0005, 0x7005];
    let pushed = |row: Row, calls: u64| {
        let mut row = row
            .field(field::SP, 0x5010 - 8 * calls)
            .field(field::SSP, 0x1ff0 - 8 * calls);
        for level in 1..=calls {
            let next = next[level as usize - 1];
            row = row.bytes::<8>(0x5010 - 8 * level, next);
            row = row.bytes::<8>(0x1ff0 - 8 * level, next);
        }
        row
    };
    let written = [call, [6, 4, 0x1fe8, 0x40_0006], RET];
    let half = [call, [5, 4, 0x1fec, 1], RET];
    let dropped = [call, inner, [2, 4, 0, 1], RET];
    let skipped = [call, inner, dropping(8), RET];
    let stopped = |name, all: &[_], count| Row::stops(name, case(all), count, Answer::BAD_RETURN);
    vec![
        pushed(stopped("WRSSQ over a frame", &written, 2), 1)
            .bytes::<8>(0x1fe8, 0x40_0006)
            .field(field::IP, 0x7004),
        pushed(stopped("WRSSD over half a frame", &half, 2), 1)
            .bytes::<4>(0x1fec, 1)
            .field(field::IP, 0x7004),
        pushed(stopped("INCSSPQ over a frame", &dropped, 3), 2)
            .field(field::SSP, 0x1fe8)
            .field(field::IP, 0x9004),
        pushed(stopped("RET 8 over an ordinary frame", &skipped, 3), 2)
            .field(field::SP, 0x5010)
            .field(field::SSP, 0x1fe8)
            .field(field::IP, 0x7005),
    ]
}

/// 512 calls and their returns.
fn many() -> Vec<Row> {
    let pair = [[7, 5, 0x10, 0], dropping(0)];
    let mut row = Row::completes("512 returns", plain(&[pair; 512].concat()));
    row = row.field(field::IP, 0x40_0000 + 5 * 512);
    let last = 0x40_0000 + 5 * 512;
    vec![row.bytes::<8>(0x5008, last).bytes::<8>(0x1fe8, last)]
}

/// Answers that it does not give.
pub(crate) const LAWS: &[Law] = &[law("not enabled, RET compares nothing", |cell| {
    !cell.is_enabled() && cell.is_return() && cell.vector() == Some(CP)
})];

/// How many bytes a return drops.
pub(crate) fn byte_count(dice: &mut Dice) -> u64 {
    let any = dice.below(1 << 16);
    match dice.below(40) {
        0 => 1 << 16,
        1 => any << 1,
        2 => 0xffff,
        3 => any,
        4..8 => dice.below(40),
        _ => 4 * dice.below(6),
    }
}

impl Spot {
    /// RET in both forms, the pop at the spot being the ordinary one or that
    /// off the shadow stack. Both stacks hold the same, so that a byte from a
    /// wrong place makes them differ.
    pub(crate) fn returns(self) -> Vec<Trial> {
        let targets = if self.mode == 1 {
            [NARROW, 0xcdef_abba]
        } else {
            [0x0000_6655_4433_2211, 0xffff_9876_5432_1043]
        };
        let forms = [[9, LENGTH, 0, 0], [10, LENGTH, DROPPED, 0]];
        let mut trials = Vec::new();
        for (words, target) in forms.into_iter().zip(targets) {
            let back = |sp: u64, ssp: u64| {
                let popped = sp.wrapping_add(self.size() + words[2]);
                self.frames(words, sp, ssp, Deed::Load(Some(target)))
                    .with(field::SP, sp)
                    .with(field::SSP, ssp)
                    .sets(field::IP, target)
                    .sets(field::SP, cut(self.mode, popped))
                    .sets(field::SSP, self.after(ssp))
            };
            trials.extend(self.on_either_stack(back));
        }
        trials
    }
}
