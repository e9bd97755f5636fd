//! Comparison and properties over many random runs.

use crate::author::Author;
use crate::case::{Part, field, foretell_from, observe};
use crate::difference::explain;
use crate::properties::{self, Kind};
use crate::reasons::Reasons;
use crate::table::Table;
use driftpocket_reference::runs;
use std::collections::BTreeMap;
use std::ops::Range;

/// What was counted in passing.
#[derive(Clone, Debug, Default)]
pub struct Tally {
    /// Answers by code, mode and CPL.
    pub table: Table,
    /// Reasons for faults.
    pub reasons: Reasons,
    /// Runs.
    pub runs: u64,
    /// Completed instructions.
    pub completed: u64,
    /// Runs that completed at least four instructions.
    pub deep: u64,
}

impl Tally {
    /// What should have come up and did not, or the other way round.
    pub fn complaints(&self) -> Vec<String> {
        let table = self.table.complaints();
        [table, self.reasons.complaints()].concat()
    }

    /// Adds what another one has counted.
    pub fn add(&mut self, other: &Tally) {
        self.table.add(&other.table);
        self.reasons.add(&other.reasons);
        self.runs += other.runs;
        self.completed += other.completed;
        self.deep += other.deep;
    }
}

/// Compares the part under test with the second program in one random run.
fn compare_one(part: Part, seed: u64, number: u64, tally: &mut Tally) -> Result<(), String> {
    let case = Author::numbered(seed, number).any_case();
    let run = runs::run(&case.input());
    let wanted = foretell_from(&case, &run);
    let seen = observe(part, &case);
    if let Some(text) = explain(("second program", &wanted), ("under test", &seen)) {
        let stop = wanted.count().min(seen.count());
        let given = case.describe(stop);
        return Err(located(seed, number, &format!("{given}{text}")));
    }
    tally.table.count(&case, &seen);
    if let Some(&mode) = case.state.get(field::MODE) {
        tally.reasons.count(mode, &run.ending);
    }
    tally.runs += 1;
    tally.completed += run.count;
    tally.deep += u64::from(run.count >= 4);
    Ok(())
}

/// Compares them in many random runs, up to the first difference.
pub fn compare(part: Part, seed: u64, numbers: Range<u64>) -> Result<Tally, String> {
    let mut tally = Tally::default();
    for number in numbers {
        compare_one(part, seed, number, &mut tally)?;
    }
    Ok(tally)
}

/// Says of a text where it comes from.
pub(crate) fn located(seed: u64, number: u64, text: &str) -> String {
    format!("seed {seed}, run {number}: {text}")
}

/// How often first runs ended in which way.
pub type Kinds = BTreeMap<Kind, u64>;

/// Asks something of many random runs.
fn ask<T>(
    seed: u64,
    numbers: Range<u64>,
    question: impl Fn(&mut Author) -> Result<T, String>,
    mut take: impl FnMut(T),
) -> Result<(), String> {
    for number in numbers {
        let answer = question(&mut Author::numbered(seed, number));
        take(answer.map_err(|text| located(seed, number, &text))?);
    }
    Ok(())
}

/// The same, and counts how the first runs ended.
fn ask_kinds(
    seed: u64,
    numbers: Range<u64>,
    question: impl Fn(&mut Author) -> Result<Kind, String>,
) -> Result<Kinds, String> {
    let mut kinds = Kinds::new();
    let count = |kind| *kinds.entry(kind).or_default() += 1;
    ask(seed, numbers, question, count)?;
    Ok(kinds)
}

/// More memory alters no answer but a page fault, in many random pairs.
pub fn more_memory(part: Part, seed: u64, numbers: Range<u64>) -> Result<Kinds, String> {
    ask_kinds(seed, numbers, |author| {
        let (small, large) = author.memory_pair();
        properties::more_memory(part, &small, &large)
    })
}

/// More rights alter no answer but that of a WRSS which is not permitted, in
/// many random pairs.
pub fn more_rights(part: Part, seed: u64, numbers: Range<u64>) -> Result<Kinds, String> {
    ask_kinds(seed, numbers, |author| {
        let (case, bits) = author.rights_pair();
        properties::more_rights(part, &case, bits)
    })
}

/// The ledger and the single steps, in many random runs. How many instructions
/// were completed comes back.
pub fn ledger(part: Part, seed: u64, numbers: Range<u64>) -> Result<u64, String> {
    let mut sum = 0;
    let question = |author: &mut Author| {
        let mut case = author.any_case();
        case.room = 5;
        properties::ledger(part, &case)
    };
    ask(seed, numbers, question, |count| sum += count)?;
    Ok(sum)
}
