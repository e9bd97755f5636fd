//! Which reasons for faults came up, in which mode.
//!
//! One vector has many reasons. The second program keeps them, so that a table
//! of them shows whether the random runs reach every check of the rules.

use driftpocket_reference::fault::{Fault, Part};
use driftpocket_reference::runs::Ending;
use std::collections::BTreeMap;

/// Reasons that come up in both modes that have shadow stacks.
const IN_BOTH: [Fault; 10] = [
    Fault::NotEnabled,
    Fault::WritesNotPermitted,
    Fault::CetIsOff,
    Fault::LevelAboveZero,
    Fault::ReturnsDiffer,
    Fault::Misaligned,
    Fault::RestoreMark,
    Fault::RestorePlace,
    Fault::PreviousMark,
    Fault::Page(Part::Token, 0),
];

/// Reasons of mode 1 alone: all numbers have 32 bits there, code has a limit,
/// and the gap that the carry flag promises is read.
const IN_NARROW: [Fault; 7] = [
    Fault::RestoreHigh,
    Fault::PreviousHigh,
    Fault::TargetAboveLimit,
    Fault::PushPastEnd,
    Fault::PopPastEnd,
    Fault::GapNotZero,
    Fault::Page(Part::Gap, 0),
];

/// Reasons of mode 2 alone: some addresses are not canonical, and the carry
/// flag can't be set.
const IN_WIDE: [Fault; 5] = [
    Fault::TargetNotCanonical,
    Fault::PushNotCanonical,
    Fault::PopNotCanonical,
    Fault::GapInLongMode,
    Fault::ShadowNotCanonical(Part::Token),
];

/// The shadow accesses that both modes make, besides the load of a token.
const SHADOW_ACCESSES: [Part; 8] = [
    Part::FirstElement,
    Part::LastElement,
    Part::Zeros,
    Part::NewToken,
    Part::Value,
    Part::ShadowPush,
    Part::ShadowPop,
    Part::UserValue,
];

/// The accesses to the ordinary stack, which both modes make.
const ORDINARY_ACCESSES: [Part; 2] = [Part::OrdinaryPush, Part::OrdinaryPop];

/// All reasons that can come up in a mode.
fn expected(mode: u64) -> Vec<Fault> {
    let pages = SHADOW_ACCESSES.map(|part| Fault::Page(part, 0));
    let ordinary = ORDINARY_ACCESSES.map(|part| Fault::Page(part, 0));
    let canonical = SHADOW_ACCESSES.map(Fault::ShadowNotCanonical);
    match mode {
        0 => vec![Fault::RealMode],
        1 => [&IN_BOTH[..], &IN_NARROW, &pages, &ordinary].concat(),
        _ => [&IN_BOTH[..], &IN_WIDE, &pages, &ordinary, &canonical].concat(),
    }
}

/// How often each reason came up in each mode.
#[derive(Clone, Debug, Default)]
pub struct Reasons {
    hits: BTreeMap<(u64, Fault), u64>,
}

impl Reasons {
    /// Counts the end of a run in a mode.
    pub fn count(&mut self, mode: u64, ending: &Ending) {
        if let Ending::Faulted(fault) = ending {
            let nameless = match fault {
                Fault::Page(part, _) => Fault::Page(*part, 0),
                other => *other,
            };
            *self.hits.entry((mode, nameless)).or_default() += 1;
        }
    }

    /// Adds what others have counted.
    pub fn add(&mut self, other: &Reasons) {
        for (&key, hits) in &other.hits {
            *self.hits.entry(key).or_default() += hits;
        }
    }

    /// Reasons that should have come up and did not, or the other way round.
    pub fn complaints(&self) -> Vec<String> {
        let missed = (0..3).flat_map(|mode| expected(mode).into_iter().map(move |one| (mode, one)));
        let missed = missed
            .filter(|key| !self.hits.contains_key(key))
            .map(|(mode, reason)| format!("never in mode {mode}: {reason:?}"));
        let strange = self
            .hits
            .keys()
            .filter(|(mode, reason)| !expected(*mode).contains(reason))
            .map(|(mode, reason)| format!("unexpected in mode {mode}: {reason:?}"));
        missed.chain(strange).collect()
    }
}
