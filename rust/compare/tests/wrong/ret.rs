//! Parts that are wrong about near RET.

use super::{Named, Step, step_by_step};
use driftpocket_compare::answer::{CP, GP, PF, SS};
use driftpocket_compare::case::{FOUR_GIB, field};

/// The report of a shadow load as RET makes it: that of an INCSSP that drops no
/// element.
fn shadow_load(step: &Step) -> [u64; 5] {
    let code = step.return_size() / 4;
    step.probe(&step.before, &[code, 1, 0, 0])
}

/// The state before, with shadow stacks switched on.
fn switched_on(step: &Step) -> Vec<u64> {
    let mut state = step.before.clone();
    state[field::CET] = 1;
    state[field::USER] |= 1;
    state[field::SUPERVISOR] |= 1;
    state
}

wrong_step!(forgets_the_count, |step| {
    if step.is_return() && step.is_completed() {
        step.state[field::SP] = step.cut(step.state[field::SP].wrapping_sub(step.words[2]));
    }
});

wrong_step!(uses_eight_bits_of_the_return_count, |step| {
    if step.is_return() && step.is_completed() {
        let high = step.words[2] & 0xff00;
        step.state[field::SP] = step.cut(step.state[field::SP].wrapping_sub(high));
    }
});

wrong_step!(takes_a_count_of_seventeen_bits, |step| {
    let [code, length, count, b] = *step.words else {
        return;
    };
    if code == 10 && count >> 16 == 1 && step.report[1] == 6 {
        let before = step.before.clone();
        step.redo(&before, step.pages, &[code, length, count & 0xffff, b]);
        if step.is_completed() {
            step.state[field::SP] = step.cut(step.state[field::SP].wrapping_add(1 << 16));
        }
    }
});

wrong_step!(lets_the_count_leave_32_bits, |step| {
    if step.is_return() && step.is_completed() && !step.is_wide() {
        let sp = step.before[field::SP] + 4 + step.words[2];
        step.state[field::SP] = sp;
    }
});

wrong_step!(looks_at_what_the_count_drops, |step| {
    if step.is_return() && step.is_completed() && !step.is_wide() {
        let end = step.before[field::SP] + 4 + step.words[2];
        if end > FOUR_GIB {
            step.fault(SS);
        }
    }
});

wrong_step!(reads_the_shadow_stack_first, |step| {
    if step.is_return() && step.was_enabled() && matches!(step.report[2], SS | PF) {
        let first = shadow_load(step);
        if first[2] != 0 {
            step.report = first;
        }
    }
});

wrong_step!(checks_the_target_before_the_comparison, |step| {
    if step.is_return() && step.report[2] == CP {
        let alone = step.probe(&step.before_with(field::CET, 0), step.words);
        if alone[2] == GP {
            step.report = alone;
        }
    }
});

wrong_step!(compares_without_shadow_stacks, |step| {
    if step.is_return() && step.is_completed() && !step.was_enabled() {
        let report = step.probe(&switched_on(step), step.words);
        if report[2] != 0 {
            step.undo();
            step.report = report;
        }
    }
});

wrong_step!(compares_nothing, |step| {
    if step.is_return() && step.report[2] == CP {
        let [cet, ssp] = [field::CET, field::SSP].map(|field| step.before[field]);
        let off = step.before_with(field::CET, 0);
        step.redo(&off, step.pages, step.words);
        step.state[field::CET] = cet;
        if step.is_completed() {
            step.state[field::SSP] = step.cut(ssp.wrapping_add(step.return_size()));
        }
    }
});

wrong_step!(gives_error_code_four, |step| {
    if step.is_return() && step.report[2] == CP {
        step.report[3] = 4;
    }
});

wrong_step!(keeps_the_shadow_pop_at_a_bad_target, |step| {
    let bad = step.is_return() && step.report[2] == GP && step.was_enabled();
    if bad && shadow_load(step)[2] == 0 {
        let ssp = step.before[field::SSP].wrapping_add(step.return_size());
        step.state[field::SSP] = step.cut(ssp);
    }
});

wrong_step!(keeps_the_ordinary_pop_at_a_difference, |step| {
    if step.is_return() && step.report[2] == CP {
        let sp = step.before[field::SP].wrapping_add(step.return_size());
        step.state[field::SP] = step.cut(sp);
    }
});

wrong_step!(leaves_the_shadow_stack, |step| {
    if step.is_return() && step.is_completed() {
        step.state[field::SSP] = step.before[field::SSP];
    }
});

wrong_step!(moves_the_shadow_stack_by_the_count, |step| {
    if step.is_return() && step.is_completed() && step.was_enabled() {
        let ssp = step.state[field::SSP].wrapping_add(step.words[2] & !3);
        step.state[field::SSP] = step.cut(ssp);
    }
});

wrong_step!(returns_to_the_next_instruction, |step| {
    if step.is_return() && step.is_completed() {
        let next = step.before[field::IP].wrapping_add(step.words[1]);
        step.state[field::IP] = step.cut(next);
    }
});

/// All of them with their names.
pub const ALL: &[Named] = &[
    ("forgets the count of RET", forgets_the_count),
    (
        "uses eight bits of the count of RET",
        uses_eight_bits_of_the_return_count,
    ),
    (
        "takes a count of seventeen bits",
        takes_a_count_of_seventeen_bits,
    ),
    ("lets the count leave 32 bits", lets_the_count_leave_32_bits),
    (
        "looks at what the count drops",
        looks_at_what_the_count_drops,
    ),
    ("reads the shadow stack first", reads_the_shadow_stack_first),
    (
        "checks the target before the comparison",
        checks_the_target_before_the_comparison,
    ),
    (
        "compares without shadow stacks",
        compares_without_shadow_stacks,
    ),
    ("compares nothing", compares_nothing),
    ("gives RET error code 4", gives_error_code_four),
    (
        "keeps the shadow pop at a bad target",
        keeps_the_shadow_pop_at_a_bad_target,
    ),
    (
        "keeps the ordinary pop at a difference",
        keeps_the_ordinary_pop_at_a_difference,
    ),
    ("leaves the shadow stack", leaves_the_shadow_stack),
    (
        "moves the shadow stack by the count",
        moves_the_shadow_stack_by_the_count,
    ),
    (
        "returns to the next instruction",
        returns_to_the_next_instruction,
    ),
];
