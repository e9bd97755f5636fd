//! Numbers at the end of a page: whole on it, whole on the next one, or partly
//! on both.
//!
//! A part that looks up the page of a number once, and not that of every byte,
//! goes wrong here if anywhere. So every load and store of every operation is
//! made at every place around an end, with the pages on both sides listed in
//! several orders, of a wrong kind, or not listed.
//!
//! * [`layout`]: the ends, the pages beside them, their lists and bytes.
//! * [`trials`]: the operations, each with one access at the end.
//! * [`places`]: every two places in a list of 16 pages.
//! * [`walks`]: runs of several instructions over an end.
//!
//! What must come of a trial is worked out here, page by page and not byte by
//! byte: an access has a first and a last byte, and there is no page between
//! those of the two.

use crate::answer::{Answer, GP, SS};
use crate::case::{Case, field};
use crate::rows::Row;
use driftpocket_reference::address::{ABOVE_HOLE, HOLE};
use layout::{Edge, ORDINARY, SAFE_ORDINARY, SAFE_SHADOW, cut, lying, page_of, patterned};

pub mod layout;
pub mod places;
pub mod trials;
pub mod walks;

/// Bytes that an instruction loads or stores.
#[derive(Clone, Copy, Debug)]
pub struct Touch {
    /// The kind of page that they must lie on.
    pub kind: u64,
    /// The address of the first.
    pub first: u64,
    /// How many, 4 or 8.
    pub size: u64,
    /// What is done with them.
    pub deed: Deed,
}

/// What is done with bytes.
#[derive(Clone, Copy, Debug)]
pub enum Deed {
    /// They are loaded and hold this, or whatever they hold.
    Load(Option<u64>),
    /// This is stored.
    Store(u64),
}

/// One instruction with what the rules say of it, whatever the pages are.
#[derive(Clone, Debug)]
pub struct Trial {
    /// What it is about.
    pub name: String,
    /// The state before it.
    pub state: Vec<u64>,
    /// Its words.
    pub words: [u64; 4],
    /// The kind of page that its access at the end must have.
    pub kind: u64,
    /// The fault that comes ahead of all accesses, if one does.
    pub early: Option<Answer>,
    /// Its accesses, in the order in which they are tried.
    pub touches: Vec<Touch>,
    /// The answer if all accesses can be made.
    pub late: Answer,
    /// The fields that it sets if it completes, but for IP going on to Next.
    pub fields: Vec<(usize, u64)>,
}

impl Touch {
    /// The address of its last byte.
    fn last(&self, mode: u64) -> u64 {
        cut(mode, self.first.wrapping_add(self.size - 1))
    }

    /// Whether it lies on two pages.
    fn crosses(&self, mode: u64) -> bool {
        page_of(self.first) != page_of(self.last(mode))
    }

    /// Whether one of its bytes has an address that no such access may have: in
    /// the hole, or for ordinary stacks of mode 1 beyond the end of memory.
    fn is_out_of_reach(&self, mode: u64) -> bool {
        let (first, last) = (self.first, self.last(mode));
        if mode == 1 {
            return self.kind == ORDINARY && last < first;
        }
        let hole = HOLE..ABOVE_HOLE;
        hole.contains(&first) || hole.contains(&last)
    }

    /// Whether it is made on one of the safe pages.
    fn is_safe(&self) -> bool {
        [SAFE_SHADOW, SAFE_ORDINARY].contains(&page_of(self.first))
    }

    /// Why it can't be made on these pages, if so.
    fn obstacle(&self, mode: u64, pages: &[u64]) -> Option<Answer> {
        if self.is_out_of_reach(mode) {
            let vector = if self.kind == ORDINARY { SS } else { GP };
            return Some(Answer::fault(vector));
        }
        let last_page = page_of(self.last(mode));
        if !pages.contains(&(page_of(self.first) + self.kind)) {
            Some(Answer::page_fault(self.first))
        } else if !pages.contains(&(last_page + self.kind)) {
            Some(Answer::page_fault(last_page))
        } else {
            None
        }
    }
}

impl Trial {
    /// What comes of it on these pages.
    fn answer(&self, pages: &[u64]) -> Answer {
        if !self.state[field::SSP].is_multiple_of(4) {
            return Answer::refusal(5);
        }
        let mode = self.state[field::MODE];
        let obstacle = |touch: &Touch| touch.obstacle(mode, pages);
        self.early
            .or_else(|| self.touches.iter().find_map(obstacle))
            .unwrap_or(self.late)
    }

    /// Whether the pages beside the end count for nothing: it ends before it
    /// comes to an access there, or with one that no page helps.
    fn is_settled(&self) -> bool {
        let mode = self.state[field::MODE];
        let misaligned = !self.state[field::SSP].is_multiple_of(4);
        let at_end = self.touches.iter().find(|touch| !touch.is_safe());
        misaligned || self.early.is_some() || at_end.is_some_and(|at| at.is_out_of_reach(mode))
    }

    /// The case on these pages. What it is to load lies there, as far as its
    /// pages are listed, whatever their kind.
    fn case(&self, pages: &[u64]) -> Case {
        let mut case = patterned(&self.state, pages.to_vec(), self.words.to_vec());
        for touch in &self.touches {
            if let Deed::Load(Some(number)) = touch.deed {
                place_number(&mut case, touch.first, touch.size, number);
            }
        }
        case
    }

    /// The row on these pages.
    pub fn row(&self, pages: &[u64]) -> Row {
        let name = format!("{} on {pages:x?}", self.name);
        let case = self.case(pages);
        match self.answer(pages) {
            Answer::COMPLETED => self.completed(Row::completes(name, case)),
            answer => Row::ends(name, case, answer),
        }
    }

    /// What is seen once it is completed.
    fn completed(&self, row: Row) -> Row {
        let set = |row: Row, &(field, value): &(usize, u64)| row.field(field, value);
        let mut row = self.fields.iter().fold(row, set);
        for touch in &self.touches {
            if let Deed::Store(number) = touch.deed {
                row = leaving(row, touch.first, touch.size, number);
            }
        }
        row
    }
}

/// Puts a number into the bytes of a case, as far as their pages are listed.
fn place_number(case: &mut Case, first: u64, size: u64, number: u64) {
    let mode = case.state[field::MODE];
    for (address, byte) in lying(mode, first, size, number) {
        if let Some(place) = case.place(address) {
            case.bytes[place] = byte;
        }
    }
}

/// The same row, with a number at these bytes in the end.
fn leaving(mut row: Row, first: u64, size: u64, number: u64) -> Row {
    let mode = row.case.state[field::MODE];
    for (address, byte) in lying(mode, first, size, number) {
        row = row.bytes::<1>(address, byte.into());
    }
    row
}

/// All trials around an end, at both privilege levels, on all lists; those that
/// are settled without a look at the pages on a few.
pub fn around(edge: &'static Edge) -> impl Iterator<Item = Row> {
    let spots = [3, 0]
        .into_iter()
        .flat_map(move |cpl| edge.addresses().map(move |at| (cpl, at)));
    spots.flat_map(move |(cpl, at)| {
        let shadow = trials::shadow_kind(cpl);
        let trials = trials::at(edge.mode, cpl, at).into_iter();
        trials.flat_map(move |trial| {
            let lists = if trial.is_settled() {
                edge.few_lists(trial.kind, shadow)
            } else {
                edge.lists(trial.kind, shadow)
            };
            lists.into_iter().map(move |pages| trial.row(&pages))
        })
    })
}

/// All rows there are.
pub fn rows() -> impl Iterator<Item = Row> {
    let around_all = layout::edges().flat_map(around);
    let lists_of_16 = layout::MIDDLES.iter().flat_map(places::rows);
    walks::rows()
        .into_iter()
        .chain(around_all)
        .chain(lists_of_16)
}
