//! Near CALL: what it pushes and where to it goes.
//!
//! Most rows are about calls of the next line. Written relatively, with a
//! displacement of 0, they have nothing to do with the shadow stack; written
//! absolutely they push on it as every other call. Both forms are tried from the
//! same states, at every level of both modes that have calls. Page 1000 is for
//! shadow stacks of the level, page 2000 for those of the other levels, page 5000
//! is ordinary.

use super::real_mode;
use crate::answer::{Answer, GP, SS};
use crate::case::{Case, FOUR_GIB, field};
use crate::page_ends::layout::{ORDINARY, SAFE_ORDINARY, SAFE_SHADOW};
use crate::page_ends::trials::{LENGTH, NARROW, Spot};
use crate::page_ends::{Deed, Trial};
use crate::rows::{Row, plain};
use crate::world::{LANDMARKS, World};
use driftpocket_reference::dice::Dice;

/// The two forms.
const RELATIVE: [u64; 4] = [7, 5, 0, 0];
const ABSOLUTE: [u64; 4] = [8, 5, NEXT, 0];

/// Where the next line is.
const NEXT: u64 = 0x40_0005;

/// The code limit of calls that are tried at it.
const LIMIT: u64 = 0x40_1000;

/// RET without a count.
const RET: [u64; 4] = [9, 1, 0, 0];

/// A pointer to a shadow stack that has room, and those that have none: off the
/// pages, and in mode 2 not canonical.
const ROOM: u64 = 0x1ff0;
const NOWHERE: u64 = 0x9000;
const IN_THE_HOLE: u64 = 0x0000_8000_0000_0100;

/// A mode and a level.
#[derive(Clone, Copy)]
struct Place {
    mode: u64,
    cpl: u64,
}

/// All rows.
pub fn rows() -> Vec<Row> {
    [
        in_real_mode(),
        many_calls(),
        narrow_pointers(),
        narrow_stacks(),
        targets(),
        calls_of_next(),
    ]
    .concat()
}

/// Mode 0: refusal 6.
fn in_real_mode() -> Vec<Row> {
    [7, 8]
        .map(|code| real_mode(code, 0, 0, Answer::refusal(6)))
        .into()
}

/// 512 calls that fill the ordinary page, an element dropped after each.
fn many_calls() -> Vec<Row> {
    let pair = [[7, 5, 0x10, 0], [2, 4, 0, 1]];
    let step = 5 + 0x10 + 4;
    let case = plain(&[pair; 512].concat()).with(field::SP, 0x6000);
    let mut row = Row::completes("512 calls", case)
        .field(field::IP, 0x40_0000 + step * 512)
        .field(field::SP, 0x5000)
        .bytes::<8>(0x1fe8, 0x40_0000 + step * 511 + 5);
    for call in 0..512 {
        row = row.bytes::<8>(0x6000 - 8 * (call + 1), 0x40_0000 + step * call + 5);
    }
    vec![row]
}

/// A plain case in 32-bit mode.
fn narrow(instructions: &[[u64; 4]]) -> Case {
    plain(instructions).with(field::MODE, 1)
}

/// Mode 1 with SSP 2^32 - 4.
fn narrow_pointers() -> Vec<Row> {
    let top = narrow(&[ABSOLUTE])
        .on(&[0xffff_f001, 0x5003])
        .with(field::SSP, FOUR_GIB - 4);
    vec![
        Row::completes("mode 1, SSP 2^32 - 4, call", top)
            .field(field::SP, 0x500c)
            .field(field::SSP, FOUR_GIB - 8)
            .bytes::<4>(0x500c, NEXT)
            .bytes::<4>(FOUR_GIB - 8, NEXT),
    ]
}

/// Pushes below 0 in mode 1.
fn narrow_stacks() -> Vec<Row> {
    let case = |sp, ssp| {
        narrow(&[ABSOLUTE])
            .on(&[0x1001, 0xffff_f003])
            .with(field::SP, sp)
            .with(field::SSP, ssp)
    };
    let pushed = Row::completes("mode 1, SP 0", case(0, 0x1010))
        .field(field::SP, FOUR_GIB - 4)
        .field(field::SSP, 0x100c)
        .bytes::<4>(FOUR_GIB - 4, 0x40_0005)
        .bytes::<4>(0x100c, 0x40_0005);
    let past = |sp| {
        let name = format!("mode 1, SP {sp}");
        Row::ends(name, case(sp, 0x1010), Answer::fault(SS))
    };
    vec![
        pushed,
        past(1),
        past(2),
        past(3),
        Row::ends("mode 1, SP 4", case(4, 0x1010), Answer::page_fault(0)),
        Row::ends(
            "mode 1, SSP 0",
            case(0, 0),
            Answer::page_fault(FOUR_GIB - 4),
        ),
    ]
}

/// A call with this operand, on a limit that only mode 1 knows.
fn call(mode: u64, code: u64, a: u64) -> Case {
    plain(&[[code, 5, a, 0]])
        .with(field::MODE, mode)
        .with(field::LIMIT, LIMIT)
}

/// A call that completes and pushes in 4 or 8 bytes.
fn called(name: &str, case: Case, target: u64, size: u64) -> Row {
    let row = Row::completes(name, case)
        .field(field::IP, target)
        .field(field::SP, 0x5010 - size)
        .field(field::SSP, 0x1ff0 - size);
    let next = 0x40_0005;
    match size {
        4 => row.bytes::<4>(0x500c, next).bytes::<4>(0x1fec, next),
        _ => row.bytes::<8>(0x5008, next).bytes::<8>(0x1fe8, next),
    }
}

/// Mode 1 calls to the code limit and one above; calls beside the hole; calls
/// at the ends of the displacement and to the next instruction or beside it.
fn targets() -> Vec<Row> {
    let fault = |name, case| Row::ends(name, case, Answer::fault(GP));
    let below = 0x0000_7fff_ffff_ffff;
    let above = 0xffff_8000_0000_0000;
    let up = 0x40_0005 + 0x7fff_ffff;
    let down = 0x40_0005_u64.wrapping_sub(0x8000_0000);
    vec![
        called("absolute, to the limit", call(1, 8, LIMIT), LIMIT, 4),
        fault("absolute, past the limit", call(1, 8, LIMIT + 1)),
        called("relative, to the limit", call(1, 7, 0xffb), LIMIT, 4),
        fault("relative, past the limit", call(1, 7, 0xffc)),
        called("mode 2 has no limit", call(2, 8, LIMIT + 1), LIMIT + 1, 8),
        called("end below the hole", call(2, 8, below), below, 8),
        fault("start of the hole", call(2, 8, below + 1)),
        fault("end of the hole", call(2, 8, above - 1)),
        called("start above the hole", call(2, 8, above), above, 8),
        called("farthest up", call(2, 7, 0x7fff_ffff), up, 8),
        called("farthest down", call(2, 7, 0x8000_0000), down, 8),
        called("back to itself", call(1, 7, 0xffff_fffb), 0x40_0000, 4),
        called("absolute, to Next", call(2, 8, 0x40_0005), 0x40_0005, 8),
        called("one past Next", call(2, 7, 1), 0x40_0006, 8),
        called("one short of Next", call(1, 7, 0xffff_ffff), 0x40_0004, 4),
    ]
}

/// Calls of the next line, and beside them other displacements.
fn calls_of_next() -> Vec<Row> {
    let places = (0..8).map(|number| Place {
        mode: 1 + number / 4,
        cpl: number % 4,
    });
    let made = places.flat_map(|place| {
        [
            place.pointers(),
            place.pointers_out_of_range(),
            place.not_enabled(),
            place.displacements(),
            place.faults(),
            place.ends_of_code(),
            place.returns(),
            place.frames_between(),
            place.many(),
        ]
    });
    made.flatten().collect()
}

/// Shadow stack pointers of mode 1, with what comes of a push of 4 bytes there.
const NARROW_POINTERS: [(u64, Answer); 11] = [
    (ROOM, Answer::COMPLETED),
    (0x1004, Answer::COMPLETED),
    (0x1000, Answer::page_fault(0xffc)),
    (NOWHERE, Answer::page_fault(0x8ffc)),
    (0x2004, Answer::page_fault(0x2000)),
    (0x2ff0, Answer::page_fault(0x2fec)),
    (0x5ff0, Answer::page_fault(0x5fec)),
    (0x5010, Answer::page_fault(0x500c)),
    (0, Answer::page_fault(0xffff_fffc)),
    (4, Answer::page_fault(0)),
    (0xffff_fffc, Answer::page_fault(0xffff_fff8)),
];

/// Those of mode 2, with what comes of a push of 8 bytes there.
const WIDE_POINTERS: [(u64, Answer); 21] = [
    (ROOM, Answer::COMPLETED),
    (0x1008, Answer::COMPLETED),
    (0x1004, Answer::page_fault(0xffc)),
    (0x1000, Answer::page_fault(0xff8)),
    (NOWHERE, Answer::page_fault(0x8ff8)),
    (0x2004, Answer::page_fault(0x2000)),
    (0x2ff0, Answer::page_fault(0x2fe8)),
    (0x5ff0, Answer::page_fault(0x5fe8)),
    (0x5010, Answer::page_fault(0x5008)),
    (0, Answer::page_fault(0xffff_ffff_ffff_fff8)),
    (4, Answer::page_fault(0xffff_ffff_ffff_fffc)),
    (FOUR_GIB, Answer::page_fault(0xffff_fff8)),
    (
        0x0000_8000_0000_0000,
        Answer::page_fault(0x0000_7fff_ffff_fff8),
    ),
    (0x0000_8000_0000_0004, Answer::fault(GP)),
    (0x0000_8000_0000_0008, Answer::fault(GP)),
    (IN_THE_HOLE, Answer::fault(GP)),
    (0x8000_0000_0000_0000, Answer::fault(GP)),
    (0xffff_7fff_ffff_fff8, Answer::fault(GP)),
    (0xffff_8000_0000_0000, Answer::fault(GP)),
    (0xffff_8000_0000_0004, Answer::fault(GP)),
    (
        0xffff_8000_0000_0008,
        Answer::page_fault(0xffff_8000_0000_0000),
    ),
];

/// Displacements with the targets that they have in mode 1 and in mode 2.
const DISPLACEMENTS: [(u64, u64, u64); 8] = [
    (1, 0x40_0006, 0x40_0006),
    (0x100, 0x40_0105, 0x40_0105),
    (0x1_0000, 0x41_0005, 0x41_0005),
    (0x7fff_ffff, 0x8040_0004, 0x8040_0004),
    (0x8000_0000, 0x8040_0005, 0xffff_ffff_8040_0005),
    (0xffff_0000, 0x3f_0005, 0x3f_0005),
    (0xffff_fffb, 0x40_0000, 0x40_0000),
    (0xffff_ffff, 0x40_0004, 0x40_0004),
];

/// Fields that spoil a call of the next line in mode 1, and how.
const NARROW_FAULTS: [(&[(usize, u64)], Answer); 11] = [
    (&[(field::LIMIT, NEXT - 1)], Answer::fault(GP)),
    (&[(field::LIMIT, 0)], Answer::fault(GP)),
    (
        &[(field::LIMIT, NEXT - 1), (field::SP, 3)],
        Answer::fault(GP),
    ),
    (&[(field::SP, 1)], Answer::fault(SS)),
    (&[(field::SP, 3)], Answer::fault(SS)),
    (&[(field::SP, 0)], Answer::page_fault(0xffff_fffc)),
    (&[(field::SP, 4)], Answer::page_fault(0)),
    (&[(field::SP, 0x5003)], Answer::page_fault(0x4fff)),
    (&[(field::SP, 0x6001)], Answer::page_fault(0x6000)),
    (&[(field::SP, 0x1010)], Answer::page_fault(0x100c)),
    (&[(field::SP, 0x2010)], Answer::page_fault(0x200c)),
];

/// Those of mode 2.
const WIDE_FAULTS: [(&[(usize, u64)], Answer); 12] = [
    (&[(field::IP, 0x0000_7fff_ffff_fffb)], Answer::fault(GP)),
    (&[(field::IP, 0xffff_7fff_ffff_fffa)], Answer::fault(GP)),
    (
        &[
            (field::IP, 0x0000_7fff_ffff_fffb),
            (field::SP, 0x0000_8000_0000_0001),
        ],
        Answer::fault(GP),
    ),
    (&[(field::SP, 0x0000_8000_0000_0001)], Answer::fault(SS)),
    (&[(field::SP, 0x0000_8000_0000_0008)], Answer::fault(SS)),
    (&[(field::SP, 0xffff_8000_0000_0007)], Answer::fault(SS)),
    (&[(field::SP, 0)], Answer::page_fault(0xffff_ffff_ffff_fff8)),
    (&[(field::SP, 4)], Answer::page_fault(0xffff_ffff_ffff_fffc)),
    (&[(field::SP, 0x5007)], Answer::page_fault(0x4fff)),
    (&[(field::SP, 0x6001)], Answer::page_fault(0x6000)),
    (&[(field::SP, 0x1010)], Answer::page_fault(0x1008)),
    (&[(field::SP, 0x2010)], Answer::page_fault(0x2008)),
];

/// Code at the ends of mode 1: IP and length, Next, and the code limit.
const NARROW_ENDS: [(u64, u64, u64, u64); 5] = [
    (0xffff_ffff, 1, 0, 0),
    (0xffff_fffe, 5, 3, 3),
    (0xffff_ffff, 15, 14, 0xffff_ffff),
    (0xffff_fff0, 15, 0xffff_ffff, 0xffff_ffff),
    (0x40_0000, 5, NEXT, NEXT),
];

/// The same of mode 2, which has no limit.
const WIDE_ENDS: [(u64, u64, u64, u64); 6] = [
    (0xffff_ffff_ffff_ffff, 1, 0, 0),
    (0xffff_ffff_ffff_fffe, 5, 3, 0),
    (0xffff_ffff_ffff_fff0, 15, 0xffff_ffff_ffff_ffff, 0),
    (0xffff_fffe, 5, FOUR_GIB + 3, 0),
    (0x0000_7fff_ffff_fffa, 5, 0x0000_7fff_ffff_ffff, 0),
    (0xffff_7fff_ffff_fffb, 5, 0xffff_8000_0000_0000, 0),
];

impl Place {
    /// A run here, enabled, with this shadow stack pointer.
    fn case(self, ssp: u64, instructions: &[[u64; 4]]) -> Case {
        let own = if self.cpl == 3 { 1 } else { 2 };
        plain(instructions)
            .on(&[0x1000 + own, 0x2000 + (3 - own), 0x5003])
            .with(field::MODE, self.mode)
            .with(field::CPL, self.cpl)
            .with(field::SUPERVISOR, 1)
            .with(field::SSP, ssp)
    }

    /// What a row is called.
    fn name(self, what: &str) -> String {
        format!("mode {}, CPL {}, {what}", self.mode, self.cpl)
    }

    /// The bytes of a return address.
    fn size(self) -> u64 {
        4 * self.mode
    }

    /// Pointers with what comes of a push.
    fn all_pointers(self) -> &'static [(u64, Answer)] {
        if self.mode == 1 {
            &NARROW_POINTERS
        } else {
            &WIDE_POINTERS
        }
    }

    /// The same row, with a return address pushed below where a pointer was.
    fn pushed(self, row: Row, field: usize, top: u64, address: u64) -> Row {
        let at = top - self.size();
        let row = row.field(field, at);
        if self.mode == 1 {
            row.bytes::<4>(at, address)
        } else {
            row.bytes::<8>(at, address)
        }
    }

    /// A case of one call of the next line that pushes on the ordinary stack and
    /// does no more.
    fn leaves_no_frame(self, what: &str, case: Case) -> Row {
        let sp = case.state[field::SP];
        let row = Row::completes(self.name(what), case).field(field::IP, NEXT);
        self.pushed(row, field::SP, sp, NEXT)
    }

    /// The same with a frame on the shadow stack besides.
    fn leaves_a_frame(self, what: &str, case: Case) -> Row {
        let ssp = case.state[field::SSP];
        self.pushed(self.leaves_no_frame(what, case), field::SSP, ssp, NEXT)
    }

    /// Wherever SSP points, the relative call completes. The absolute one pushes
    /// there if that can be done.
    fn pointers(self) -> Vec<Row> {
        let mut rows = Vec::new();
        for &(ssp, push) in self.all_pointers() {
            let relative = self.case(ssp, &[RELATIVE]);
            rows.push(self.leaves_no_frame(&format!("relative, SSP {ssp:x}"), relative));
            let absolute = self.case(ssp, &[ABSOLUTE]);
            let what = format!("absolute, SSP {ssp:x}");
            rows.push(match push {
                Answer::COMPLETED => self.leaves_a_frame(&what, absolute),
                fault => Row::ends(self.name(&what), absolute, fault),
            });
        }
        let alone = self.case(ROOM, &[RELATIVE]).on(&[0x5003]);
        rows.push(self.leaves_no_frame("relative, no shadow page", alone));
        rows
    }

    /// A pointer that no state may have is refused whatever is called. In mode 1
    /// so is every one that is not canonical.
    fn pointers_out_of_range(self) -> Vec<Row> {
        let pointers: &[u64] = if self.mode == 1 {
            &[0x1ff2, FOUR_GIB, 0x0000_8000_0000_0008]
        } else {
            &[0x1ff2]
        };
        let mut rows = Vec::new();
        for &ssp in pointers {
            for words in [RELATIVE, ABSOLUTE] {
                let name = self.name(&format!("{words:x?}, SSP {ssp:x}"));
                rows.push(Row::ends(
                    name,
                    self.case(ssp, &[words]),
                    Answer::refusal(5),
                ));
            }
        }
        rows
    }

    /// Not enabled, in each of the ways, neither form asks where SSP points.
    fn not_enabled(self) -> Vec<Row> {
        let (own, other) = match self.cpl {
            3 => (field::USER, field::SUPERVISOR),
            _ => (field::SUPERVISOR, field::USER),
        };
        let mut rows = Vec::new();
        for words in [RELATIVE, ABSOLUTE] {
            let case = || self.case(NOWHERE, &[words]).with(other, 3);
            let off = format!("{words:x?}, CR4.CET off");
            rows.push(self.leaves_no_frame(&off, case().with(field::CET, 0)));
            let clear = format!("{words:x?}, SH_STK_EN clear");
            rows.push(self.leaves_no_frame(&clear, case().with(own, 2)));
        }
        rows
    }

    /// All displacements but 0 push, or fail where there is no page.
    fn displacements(self) -> Vec<Row> {
        let missing = NOWHERE - self.size();
        let mut rows = Vec::new();
        for (displacement, narrow, wide) in DISPLACEMENTS {
            let words = [7, 5, displacement, 0];
            let what = format!("displacement {displacement:x}");
            let target = if self.mode == 1 { narrow } else { wide };
            let row = self.leaves_a_frame(&what, self.case(ROOM, &[words]));
            rows.push(row.field(field::IP, target));
            let lost = self.case(NOWHERE, &[words]);
            let name = self.name(&(what + ", no page"));
            rows.push(Row::ends(name, lost, Answer::page_fault(missing)));
        }
        rows
    }

    /// The faults that a call has before it comes to the shadow stack are still
    /// there, wherever SSP points.
    fn faults(self) -> Vec<Row> {
        let (faults, pointers): (&[(&[_], _)], &[u64]) = if self.mode == 1 {
            (&NARROW_FAULTS, &[ROOM, NOWHERE])
        } else {
            (&WIDE_FAULTS, &[ROOM, NOWHERE, IN_THE_HOLE])
        };
        let mut rows = Vec::new();
        for &(fields, answer) in faults {
            for &ssp in pointers {
                let mut case = self.case(ssp, &[RELATIVE]);
                for &(field, value) in fields {
                    case = case.with(field, value);
                }
                let name = self.name(&format!("relative, SSP {ssp:x}, spoiled {fields:x?}"));
                rows.push(Row::ends(name, case, answer));
            }
        }
        rows
    }

    /// Next at an end of memory or of what code may lie in. The absolute target
    /// is the one that Next is cut down to.
    fn ends_of_code(self) -> Vec<Row> {
        let ends: &[_] = if self.mode == 1 {
            &NARROW_ENDS
        } else {
            &WIDE_ENDS
        };
        let mut rows = Vec::new();
        for &(ip, length, next, limit) in ends {
            let case = |words| {
                self.case(ROOM, &[words])
                    .with(field::IP, ip)
                    .with(field::LIMIT, limit)
            };
            let called = |form: &str, words| {
                let name = self.name(&format!("{form} from {ip:x} to {next:x}"));
                let row = Row::completes(name, case(words)).field(field::IP, next);
                self.pushed(row, field::SP, 0x5010, next)
            };
            rows.push(called("relative", [7, length, 0, 0]));
            let absolute = called("absolute", [8, length, next, 0]);
            rows.push(self.pushed(absolute, field::SSP, ROOM, next));
        }
        rows
    }

    /// A return right after the call. The relative one left no frame for it, so
    /// that it meets whatever is on top.
    fn returns(self) -> Vec<Row> {
        let size = self.size();
        let called = |what: &str, case, answer| {
            let row = Row::stops(self.name(what), case, 1, answer);
            self.pushed(row, field::SP, 0x5010, NEXT)
        };
        let back = |what: &str, case, ssp| {
            let row = Row::completes(self.name(what), case).field(field::IP, NEXT);
            let row = self.pushed(row, field::SP, 0x5010, NEXT);
            row.field(field::SP, 0x5010).field(field::SSP, ssp)
        };
        let pair = |ssp| self.case(ssp, &[RELATIVE, RET]);
        let matching = pair(ROOM).holding::<8>(ROOM, NEXT);
        let absolute = self.case(ROOM, &[ABSOLUTE, RET]);
        let absolute = back("absolute, then RET", absolute, ROOM);
        let mut rows = vec![
            called("relative, then RET", pair(ROOM), Answer::BAD_RETURN),
            called("no page", pair(NOWHERE), Answer::page_fault(NOWHERE)),
            back("the address stands there", matching, ROOM + size),
            back("not enabled", pair(NOWHERE).with(field::CET, 0), NOWHERE),
            self.pushed(absolute, field::SSP, ROOM, NEXT)
                .field(field::SSP, ROOM),
        ];
        if self.mode == 2 {
            let lost = pair(IN_THE_HOLE);
            rows.push(called("in the hole", lost, Answer::fault(GP)));
        }
        rows
    }

    /// The same row, with several return addresses pushed one after the other.
    fn all_pushed(self, row: Row, top: u64, addresses: &[u64]) -> Row {
        let tops = (0..).map(|depth| top - depth * self.size());
        let push = |row, (top, &address)| self.pushed(row, field::SP, top, address);
        tops.zip(addresses).fold(row, push)
    }

    /// Calls of the next line inside a call from 400000 to 400015: a return must
    /// not take one of their addresses for that of the call. And an absolute one
    /// after a relative one: its return leads to itself, and then the relative
    /// one's address is on top.
    fn frames_between(self) -> Vec<Row> {
        let top = 0x5100;
        let stops = |what: &str, list: &[_]| {
            let case = self.case(ROOM, list).with(field::SP, top);
            Row::stops(self.name(what), case, 3, Answer::BAD_RETURN)
        };
        let inside = stops(
            "two inside a call",
            &[[7, 5, 0x10, 0], RELATIVE, RELATIVE, RET],
        );
        let inside = self.all_pushed(inside, top, &[NEXT, 0x40_001a, 0x40_001f]);
        let inside = self.pushed(inside, field::SSP, ROOM, NEXT);
        let after = stops(
            "absolute after relative",
            &[RELATIVE, [8, 5, 0x40_000a, 0], RET, RET],
        );
        let after = self.all_pushed(after, top, &[NEXT, 0x40_000a]);
        let after = self.pushed(after, field::SSP, ROOM, 0x40_000a);
        vec![
            inside.field(field::IP, 0x40_001f),
            after
                .field(field::IP, 0x40_000a)
                .field(field::SP, top - self.size())
                .field(field::SSP, ROOM),
        ]
    }

    /// So many that the ordinary page is full, and one more.
    fn many(self) -> Vec<Row> {
        let size = self.size();
        let count = 0x1000 / size;
        let full = vec![RELATIVE; count as usize];
        let mut rows = Vec::new();
        for (more, ssp) in [(0, ROOM), (0, NOWHERE), (1, NOWHERE)] {
            let list = [&full[..], &vec![RELATIVE; more]].concat();
            let case = self.case(ssp, &list).with(field::SP, 0x6000);
            let name = self.name(&format!("{} calls, SSP {ssp:x}", list.len()));
            if list.len() > 1024 {
                rows.push(Row::ends(name, case, Answer::refusal(7)));
                continue;
            }
            let answer = match more {
                0 => Answer::COMPLETED,
                _ => Answer::page_fault(0x5000 - size),
            };
            let addresses: Vec<u64> = (0..count).map(|call| NEXT + 5 * call).collect();
            let row = Row::stops(name, case, count, answer);
            rows.push(self.all_pushed(row, 0x6000, &addresses));
        }
        rows
    }
}

/// A target for an absolute call.
pub(crate) fn target(dice: &mut Dice, world: &World) -> u64 {
    let any = dice.any();
    let near = dice
        .one_of(&LANDMARKS)
        .wrapping_add(dice.below(3))
        .wrapping_sub(1);
    let limit = world.limit + dice.below(3);
    let low = dice.below(0x80_0000);
    dice.one_of(&[low, low, limit.saturating_sub(1), near, any])
}

/// A displacement for a relative call.
pub(crate) fn displacement(dice: &mut Dice, world: &World, state: &[u64]) -> u64 {
    let any = dice.below(FOUR_GIB);
    let to_target = target(dice, world).wrapping_sub(state[field::IP]);
    let close = to_target.wrapping_sub(dice.between(0, 16)) % FOUR_GIB;
    let end = dice.one_of(&[0x7fff_ffff, 0x8000_0000, 0xffff_ffff]);
    dice.one_of(&[0, 0x10, 0x10, 0xffff_fff0, end, close, any])
}

impl Spot {
    /// A Next at which code may lie, with bytes that are all different.
    fn next(self) -> u64 {
        if self.mode == 1 {
            NARROW
        } else {
            0xffff_9876_5432_1043
        }
    }

    /// CALL in both forms, the push at the spot being the ordinary one or that
    /// on the shadow stack. A relative call of mode 2, and one of the next line,
    /// needs a Next close to where code may lie.
    pub(crate) fn calls(self) -> Vec<Trial> {
        let absolute = ([8, LENGTH, 0x1234, 0], self.value(), 0x1234);
        let next = self.next();
        let of_next = ([8, LENGTH, next, 0], next, next);
        let relative = ([7, LENGTH, 0x10, 0], next, next + 0x10);
        let mut trials = Vec::new();
        for (words, next, target) in [absolute, of_next, relative] {
            let call = |sp, ssp| {
                self.frames(words, sp, ssp, Deed::Store(next))
                    .with(field::IP, next - LENGTH)
                    .with(field::SP, self.after(sp))
                    .with(field::SSP, self.after(ssp))
                    .sets(field::IP, target)
                    .sets(field::SP, sp)
                    .sets(field::SSP, ssp)
            };
            trials.extend(self.on_either_stack(call));
        }
        trials
    }

    /// CALL with displacement 0, which pushes on the ordinary stack alone. The
    /// push is made at the spot; or else one on the shadow stack would be, and
    /// then the pages beside the end are not looked at.
    pub(crate) fn calls_of_next(self) -> Vec<Trial> {
        let next = self.next();
        let words = [7, LENGTH, 0, 0];
        let call = |sp, ssp| {
            self.trial(&format!("{words:x?} with {sp:x} below {ssp:x}"), words)
                .with(field::IP, next - LENGTH)
                .with(field::SP, self.after(sp))
                .with(field::SSP, ssp)
                .touches(ORDINARY, sp, self.size(), Deed::Store(next))
                .sets(field::SP, sp)
        };
        let pushed = |ssp| Trial {
            kind: ORDINARY,
            ..call(self.at, ssp)
        };
        let above = self.after(self.at);
        vec![
            pushed(SAFE_SHADOW + 0x808),
            pushed(above),
            call(SAFE_ORDINARY + 0x808, above),
        ]
    }
}
