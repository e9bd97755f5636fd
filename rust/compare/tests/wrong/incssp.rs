//! Parts that are wrong about INCSSP.

use super::{Named, step_by_step};
use driftpocket_compare::answer::{GP, PF};
use driftpocket_compare::case::field;

wrong_step!(skips_the_load_of_no_element, |step| {
    let none = step.is_increment() && step.words[3] % 256 == 0;
    if none && matches!(step.report[2], GP | PF) {
        step.state[field::IP] = step.state[field::IP].wrapping_add(step.words[1]);
        step.report = [1, 0, 0, 0, 0];
    }
});

wrong_step!(uses_nine_bits_of_the_count, |step| {
    if step.is_increment() && step.is_completed() && step.words[3] & 0x100 != 0 {
        let ssp = step.state[field::SSP].wrapping_add(0x400 * step.code());
        let limit = if step.state[field::MODE] == 2 {
            u64::MAX
        } else {
            u32::MAX.into()
        };
        step.state[field::SSP] = ssp & limit;
    }
});

wrong_step!(drops_one_element_fewer, |step| {
    if step.code() == 1 && step.is_completed() && step.state[field::SSP] > 4 {
        step.state[field::SSP] -= 4;
    }
});

/// All of them with their names.
pub const ALL: &[Named] = &[
    ("skips the load of no element", skips_the_load_of_no_element),
    ("uses nine bits of the count", uses_nine_bits_of_the_count),
    ("drops one element fewer", drops_one_element_fewer),
];
