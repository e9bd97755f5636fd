//! Parts that are wrong about SAVEPREVSSP.

use super::{Named, step_by_step};
use driftpocket_compare::answer::{GP, PF};
use driftpocket_compare::case::field;

wrong_step!(tests_the_carry_before_the_pop, |step| {
    let carry = step.before[field::MODE] == 2 && step.before[field::FLAGS] % 2 == 1;
    if step.code() == 4 && carry && step.report[2] == PF {
        step.report = [0, 0, GP, 0, 0];
    }
});

wrong_step!(loses_the_hole, |step| {
    if step.code() != 4 || !step.is_completed() {
        return;
    }
    let token = step.place(step.before[field::SSP]);
    let old =
        token.map(|place| u64::from_le_bytes(*step.old_bytes[place..].first_chunk().unwrap()));
    let saved = old.and_then(|old| step.place((old & !7).wrapping_sub(8)));
    if let Some(place) = saved {
        step.bytes[place] &= !4;
    }
});

/// All of them with their names.
pub const ALL: &[Named] = &[
    (
        "tests the carry before the pop",
        tests_the_carry_before_the_pop,
    ),
    ("loses the hole", loses_the_hole),
];
