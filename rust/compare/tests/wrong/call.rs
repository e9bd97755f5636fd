//! Parts that are wrong about CALL, most of them about calls of the next line.

use super::{Named, Step, right, step_by_step};
use driftpocket_compare::answer::{GP, PF};
use driftpocket_compare::case::field;

/// Where the next line is.
fn next(step: &Step) -> u64 {
    step.cut(step.before[field::IP].wrapping_add(step.words[1]))
}

/// The call of the next line that pushes on the shadow stack.
fn absolute(step: &Step) -> [u64; 4] {
    [8, step.words[1], next(step), 0]
}

/// Whether this is a relative call of the next line, shadow stacks enabled, as
/// far as it goes well.
fn is_spared(step: &Step) -> bool {
    matches!(step.words, [7, _, 0, _]) && step.was_enabled() && step.is_completed()
}

/// Pushes a frame where there should be none.
fn push(step: &mut Step) {
    let (before, words) = (step.before.clone(), absolute(step));
    step.redo(&before, step.pages, &words);
}

/// Pushes no frame where there should be one, nor asks whether it can.
fn spare(step: &mut Step) {
    let off = step.before_with(field::CET, 0);
    step.redo(&off, step.pages, step.words);
    step.state[field::CET] = step.before[field::CET];
}

wrong_step!(leaves_the_ordinary_push, |step| {
    if matches!(step.code(), 7 | 8) && step.report[2] == PF {
        let mut state = step.before.clone();
        state[field::CET] = 0;
        right(&mut state, step.pages, step.bytes, step.words, &mut [0; 5]);
    }
});

wrong_step!(pushes_for_every_call, |step| {
    if is_spared(step) {
        push(step);
    }
});

wrong_step!(pushes_in_mode_1, |step| {
    if is_spared(step) && !step.is_wide() {
        push(step);
    }
});

wrong_step!(pushes_in_mode_2, |step| {
    if is_spared(step) && step.is_wide() {
        push(step);
    }
});

wrong_step!(pushes_below_level_3, |step| {
    if is_spared(step) && step.before[field::CPL] < 3 {
        push(step);
    }
});

wrong_step!(tries_the_shadow_stack, |step| {
    if is_spared(step) {
        let tried = step.probe(&step.before, &absolute(step));
        if tried[2] != 0 {
            step.undo();
            step.report = tried;
        }
    }
});

wrong_step!(asks_for_a_canonical_pointer, |step| {
    let ssp = step.before[field::SSP];
    let canonical = ssp.wrapping_add(1 << 47) >> 48 == 0;
    if is_spared(step) && step.is_wide() && !canonical {
        step.fault(GP);
    }
});

wrong_step!(moves_ssp_without_a_push, |step| {
    if is_spared(step) {
        let ssp = step.before[field::SSP].wrapping_sub(step.return_size());
        step.state[field::SSP] = step.cut(ssp);
    }
});

wrong_step!(pushes_without_moving_ssp, |step| {
    let ssp = step.before[field::SSP];
    if is_spared(step) && step.probe(&step.before, &absolute(step))[2] == 0 {
        push(step);
        step.state[field::SSP] = ssp;
    }
});

wrong_step!(spares_the_ordinary_stack_too, |step| {
    if is_spared(step) {
        let next = next(step);
        step.undo();
        step.state[field::IP] = next;
    }
});

wrong_step!(spares_absolute_calls_of_the_next_line, |step| {
    if step.code() == 8 && step.words[2] == next(step) && step.was_enabled() {
        spare(step);
    }
});

wrong_step!(spares_sixteen_bits_of_0, |step| {
    let low = step.words[2] & 0xffff;
    if step.code() == 7 && low == 0 && step.was_enabled() {
        spare(step);
    }
});

wrong_step!(spares_calls_of_themselves, |step| {
    let itself = step.words[1].wrapping_neg() & 0xffff_ffff;
    if step.code() == 7 && step.words[2] == itself && step.was_enabled() {
        spare(step);
    }
});

wrong_step!(forgets_the_code_limit, |step| {
    let limit = step.before[field::LIMIT];
    if matches!(step.words, [7, _, 0, _]) && !step.is_wide() && step.report[2] == GP {
        let free = step.before_with(field::LIMIT, 0xffff_ffff);
        step.redo(&free, step.pages, step.words);
        step.state[field::LIMIT] = limit;
    }
});

/// All of them with their names.
pub const ALL: &[Named] = &[
    ("leaves the ordinary push", leaves_the_ordinary_push),
    ("pushes for every call", pushes_for_every_call),
    ("pushes for the next line in mode 1", pushes_in_mode_1),
    ("pushes for the next line in mode 2", pushes_in_mode_2),
    ("pushes for the next line below CPL 3", pushes_below_level_3),
    (
        "tries the shadow stack for the next line",
        tries_the_shadow_stack,
    ),
    (
        "asks for a canonical SSP for the next line",
        asks_for_a_canonical_pointer,
    ),
    ("moves SSP without a push", moves_ssp_without_a_push),
    ("pushes without moving SSP", pushes_without_moving_ssp),
    (
        "spares the ordinary stack too",
        spares_the_ordinary_stack_too,
    ),
    (
        "spares absolute calls of the next line",
        spares_absolute_calls_of_the_next_line,
    ),
    (
        "looks at sixteen bits of the displacement",
        spares_sixteen_bits_of_0,
    ),
    ("spares calls of themselves", spares_calls_of_themselves),
    (
        "forgets the code limit for the next line",
        forgets_the_code_limit,
    ),
];
