//! Runs of several instructions over an end. A part that remembers a page, or
//! what it found out about one, must not take it for another.

use super::layout::{MIDDLES, ORDINARY, SAFE_SHADOW, cut, patterned};
use super::trials::shadow_kind;
use super::{leaving, place_number};
use crate::answer::Answer;
use crate::case::{Case, FOUR_GIB, field};
use crate::rows::Row;
use driftpocket_reference::pages::{MOST_PAGES, PAGE_BYTES};

/// Where the first instruction lies.
const IP: u64 = 0x40_0000;

/// A page between others.
const OTHER: u64 = 0x9000;

/// The end of the first of two pages for shadow stacks.
const SHADOW_END: u64 = SAFE_SHADOW + PAGE_BYTES;

/// RET without a count.
const RET: [u64; 4] = [9, 1, 0, 0];

/// In which mode and at which level a walk is made.
#[derive(Clone, Copy)]
struct Walk {
    mode: u64,
    cpl: u64,
}

/// All modes and levels.
const WALKS: [Walk; 4] = [
    Walk { mode: 1, cpl: 3 },
    Walk { mode: 1, cpl: 0 },
    Walk { mode: 2, cpl: 3 },
    Walk { mode: 2, cpl: 0 },
];

/// All of them.
pub fn rows() -> Vec<Row> {
    let made = WALKS.map(|walk| {
        [
            walk.there_and_back(),
            walk.returns_up(),
            walk.increments(),
            walk.writes(),
            walk.one_page_for_both(),
            walk.switches(),
        ]
        .concat()
    });
    made.concat()
}

/// The orders in which two pages can be listed with another one.
fn orders(low: u64, high: u64) -> [Vec<u64>; 4] {
    let other = OTHER + low % PAGE_BYTES;
    [
        vec![low, high, other],
        vec![high, low, other],
        vec![low, other, high],
        vec![high, other, low],
    ]
}

impl Walk {
    /// The page below the end and the end.
    fn pages(self) -> (u64, u64) {
        let edge = &MIDDLES[self.mode as usize - 1];
        (edge.low, edge.high)
    }

    /// The bytes of a return address.
    fn size(self) -> u64 {
        4 * self.mode
    }

    /// The kind of the level's shadow stacks.
    fn kind(self) -> u64 {
        shadow_kind(self.cpl)
    }

    /// A run on these pages with these two pointers.
    fn case(self, pages: &[u64], sp: u64, ssp: u64, instructions: &[[u64; 4]]) -> Case {
        let Walk { mode, cpl } = self;
        let state = [mode, cpl, 1, 3, 3, IP, sp, ssp, 0, FOUR_GIB - 1];
        patterned(&state, pages.to_vec(), instructions.concat())
    }

    /// What a row is called.
    fn name(self, what: &str, pages: &[u64]) -> String {
        let Walk { mode, cpl } = self;
        format!("mode {mode}, CPL {cpl}, {what} on {pages:x?}")
    }

    /// Calls down over an end on both stacks, and back, from every place, also
    /// on the last pages of a list of 16.
    fn there_and_back(self) -> Vec<Row> {
        let (low, end) = self.pages();
        let shadow = [SAFE_SHADOW, SHADOW_END].map(|page| page + self.kind());
        let mut rows = Vec::new();
        for skew in 0..8 {
            for ordinary in orders(low + ORDINARY, end + ORDINARY) {
                let pages = [&shadow[1..], &ordinary, &shadow[..1]].concat();
                let before = (pages.len()..MOST_PAGES).map(|number| (number as u64) << 32 | 3);
                let full = before.chain(pages.clone()).collect();
                rows.extend([pages, full].map(|pages| self.calls_and_returns(pages, skew)));
            }
        }
        rows
    }

    /// Five calls and their returns, so far from where nothing lies on two
    /// pages.
    fn calls_and_returns(self, pages: Vec<u64>, skew: u64) -> Row {
        let size = self.size();
        let sp = self.pages().1 + 2 * size + skew;
        let ssp = SHADOW_END + 2 * size + skew % 2 * 4;
        let targets = [1, 2, 3, 4, 5].map(|number| 0x0102_0304 * number);
        let calls = targets.map(|target| [8, 5, target, 0]);
        let case = self.case(&pages, sp, ssp, &[calls, [RET; 5]].concat());
        let name = self.name(&format!("five calls and returns from {sp:x}"), &pages);
        let mut row = Row::completes(name, case).field(field::IP, IP + 5);
        for (depth, from) in (1..).zip([IP].into_iter().chain(targets).take(5)) {
            row = leaving(row, sp - depth * size, size, from + 5);
            row = leaving(row, ssp - depth * size, size, from + 5);
        }
        row
    }

    /// Returns up to an end with nothing right behind it, shadow stacks off.
    fn returns_up(self) -> Vec<Row> {
        let (low, end) = self.pages();
        let size = self.size();
        let target = |number: u64| 0x0102_0304 * (number + 1);
        let low = low + ORDINARY;
        let mut rows = Vec::new();
        for skew in 0..size {
            let sp = end - 3 * size + skew;
            // The last of so many fits no more, unless there is no skew.
            let whole = if skew == 0 { 3 } else { 2 };
            for pages in [
                vec![low],
                vec![low, OTHER + 3],
                vec![end + 2, OTHER + 3, low],
            ] {
                let name = self.name(&format!("returns up from {sp:x}"), &pages);
                let mut case = self.case(&pages, sp, 0, &[RET; 4]).with(field::CET, 0);
                for number in 0..4 {
                    place_number(&mut case, sp + number * size, size, target(number));
                }
                let row = Row::stops(name, case, whole, Answer::page_fault(end));
                let row = row.field(field::IP, target(whole - 1));
                rows.push(row.field(field::SP, sp + whole * size));
            }
        }
        rows
    }

    /// INCSSP step by step over an end, to the other side or up to it.
    fn increments(self) -> Vec<Row> {
        let (low, end) = self.pages();
        let kind = self.kind();
        let mut rows = Vec::new();
        for (size, gap) in [(4, 0), (8, 0), (8, 4)] {
            if size > self.size() {
                continue;
            }
            let words = [[size / 4, 5, 0, 1]; 4];
            let ssp = end - 2 * size - gap;
            let walk = |pages: &[u64]| {
                let name = self.name(&format!("increments by {size} from {ssp:x}"), pages);
                (name, self.case(pages, 0, ssp, &words))
            };
            for pages in orders(low + kind, end + kind) {
                let (name, case) = walk(&pages);
                rows.push(Row::completes(name, case).field(field::SSP, ssp + 4 * size));
            }
            let wrong = [3 - kind, ORDINARY].map(|kind| orders(low + self.kind(), end + kind));
            let missing = vec![OTHER + kind, low + kind];
            for pages in wrong.into_iter().flatten().chain([missing]) {
                let (name, case) = walk(&pages);
                let row = Row::stops(name, case, 2, Answer::page_fault(end));
                rows.push(row.field(field::SSP, ssp + 2 * size));
            }
        }
        rows
    }

    /// WRSS on both sides of an end in turn; the second side of a wrong kind.
    fn writes(self) -> Vec<Row> {
        let (low, end) = self.pages();
        let kind = self.kind();
        let size = self.size();
        let code = 4 + size / 4;
        let value = |number: u64| cut(self.mode, 0x8877_6655_4433_2211 + number * 0x0101_0101);
        let places = [end - size, end, end - 2 * size, end + size];
        let words = [0, 1, 2, 3].map(|number| [code, 5, places[number], value(number as u64)]);
        let mut rows = Vec::new();
        for pages in orders(low + kind, end + kind) {
            let case = self.case(&pages, 0, 0, &words);
            let mut row = Row::completes(self.name("writes in turn", &pages), case);
            for (number, place) in (0..).zip(places) {
                row = leaving(row, place, size, value(number));
            }
            rows.push(row);
        }
        for pages in [3 - kind, ORDINARY]
            .map(|other| orders(low + kind, end + other))
            .concat()
        {
            let case = self.case(&pages, 0, 0, &words);
            let name = self.name("writes in turn, one not made", &pages);
            let row = Row::stops(name, case, 1, Answer::page_fault(end));
            rows.push(leaving(row, places[0], size, value(0)));
        }
        rows
    }

    /// SP and SSP on one page, which has only one kind.
    fn one_page_for_both(self) -> Vec<Row> {
        let (low, end) = self.pages();
        let size = self.size();
        let mut rows = Vec::new();
        for (sp, ssp) in [(end, end - 16), (end - 16, end), (end - 8, end - 8)] {
            for (words, by) in [([8, 5, 0x1234, 0], size), (RET, 0)] {
                // A return from the very end would read what is behind it.
                let [sp, ssp] = [sp, ssp].map(|top| if by == 0 { top - size } else { top });
                for (kind, missed) in [(ORDINARY, ssp - by), (self.kind(), sp - by)] {
                    let pages = [low + kind, OTHER + ORDINARY, 0x8000 + self.kind()];
                    let name = self.name(&format!("{words:x?} from {sp:x} and {ssp:x}"), &pages);
                    let case = self.case(&pages, sp, ssp, &[words]);
                    rows.push(Row::ends(name, case, Answer::page_fault(missed)));
                }
            }
        }
        rows
    }

    /// RSTORSSP to a token beside an end, then SAVEPREVSSP to an old pointer
    /// around the same end: both write there, one over the other.
    fn switches(self) -> Vec<Row> {
        let (low, end) = self.pages();
        let kind = self.kind();
        let mark = self.mode / 2;
        let words = |token: u64| [[3, 5, token, 0], [4, 4, 0, 0]];
        let mut rows = Vec::new();
        for token in [end - 8, end] {
            for old in (0..9).map(|step| end - 16 + 4 * step) {
                for pages in orders(low + kind, end + kind) {
                    let what = format!("a switch from {old:x} to {token:x}");
                    let mut case = self.case(&pages, 0, old, &words(token));
                    place_number(&mut case, token, 8, token + 8 + mark);
                    let row = Row::completes(self.name(&what, &pages), case);
                    let row = leaving(row, token, 8, old + mark + 2);
                    let row = leaving(row, old - 4, 4, 0);
                    let row = leaving(row, old - old % 8 - 8, 8, old + mark);
                    rows.push(row.field(field::SSP, token + 8));
                }
            }
        }
        rows
    }
}
