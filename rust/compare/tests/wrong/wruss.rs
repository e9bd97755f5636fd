//! Parts that are wrong about WRUSS.

use super::{Named, Step, step_by_step};
use driftpocket_compare::answer::{GP, UD};
use driftpocket_compare::case::{field, own_controls};

/// The bytes that a WRUSS writes.
fn size(step: &Step) -> u64 {
    4 * (step.code() - 10)
}

/// Whether this is a WRUSS of good form.
fn is_well_formed(step: &Step) -> bool {
    step.is_user_write() && step.report[1] == 0
}

/// Whether this is one outside mode 0.
fn is_met(step: &Step) -> bool {
    is_well_formed(step) && step.before[field::MODE] > 0
}

/// Whether this is one in mode 0.
fn is_in_mode_0(step: &Step) -> bool {
    is_well_formed(step) && step.before[field::MODE] == 0
}

/// The page list with the two kinds of shadow stack exchanged.
fn exchanged(pages: &[u64]) -> Vec<u64> {
    let other = |entry: &u64| match entry & 0xfff {
        1 | 2 => entry ^ 3,
        _ => *entry,
    };
    pages.iter().map(other).collect()
}

/// The page list with supervisor shadow pages made into those of user code.
fn given_away(pages: &[u64]) -> Vec<u64> {
    let other = |entry: &u64| match entry & 0xfff {
        2 => entry ^ 3,
        _ => *entry,
    };
    pages.iter().map(other).collect()
}

wrong_step!(asks_for_shadow_stacks, |step| {
    if is_met(step) && !step.was_enabled() {
        step.fault(UD);
    }
});

wrong_step!(asks_for_the_permission, |step| {
    let permitted = own_controls(&step.before).is_some_and(|own| own & 2 != 0);
    if is_met(step) && !permitted {
        step.fault(UD);
    }
});

wrong_step!(takes_one_kind_for_the_other, |step| {
    if is_met(step) {
        let pages = exchanged(step.pages);
        let before = step.before.clone();
        step.redo(&before, &pages, step.words);
    }
});

wrong_step!(reaches_supervisor_pages_too, |step| {
    if is_met(step) {
        let pages = given_away(step.pages);
        let before = step.before.clone();
        step.redo(&before, &pages, step.words);
    }
});

wrong_step!(reaches_all_pages, |step| {
    if is_met(step) && !step.is_completed() {
        let pages: Vec<u64> = step.pages.iter().map(|entry| entry & !0xfff | 1).collect();
        let before = step.before.clone();
        step.redo(&before, &pages, step.words);
    }
});

wrong_step!(tests_the_alignment_before_cet, |step| {
    if is_met(step) && !step.words[2].is_multiple_of(size(step)) {
        step.fault(GP);
    }
});

wrong_step!(tests_the_level_before_cet, |step| {
    if is_met(step) && step.before[field::CPL] > 0 {
        step.fault(GP);
    }
});

wrong_step!(lets_every_supervisor_write, |step| {
    let cpl = step.before[field::CPL];
    if is_met(step) && matches!(cpl, 1 | 2) {
        let as_kernel = step.before_with(field::CPL, 0);
        step.redo(&as_kernel, step.pages, step.words);
        step.state[field::CPL] = cpl;
    }
});

wrong_step!(lets_user_code_write, |step| {
    let cpl = step.before[field::CPL];
    if is_met(step) && cpl == 3 {
        let as_kernel = step.before_with(field::CPL, 0);
        step.redo(&as_kernel, step.pages, step.words);
        step.state[field::CPL] = cpl;
    }
});

wrong_step!(forgets_the_alignment, |step| {
    let off = step.words[2] % if step.is_user_write() { size(step) } else { 1 };
    if is_met(step) && step.report[2] == GP && off != 0 {
        let mut words = step.words.to_vec();
        words[2] -= off;
        let before = step.before.clone();
        step.redo(&before, step.pages, &words);
    }
});

wrong_step!(tests_the_level_before_the_mode, |step| {
    if is_in_mode_0(step) && step.before[field::CPL] > 0 {
        step.fault(GP);
    }
});

wrong_step!(knows_wruss_in_mode_0, |step| {
    if is_in_mode_0(step) {
        let wide = step.before_with(field::MODE, 2);
        step.redo(&wide, step.pages, step.words);
        step.state[field::MODE] = 0;
        step.state[field::IP] = step.cut(step.state[field::IP]);
    }
});

wrong_step!(writes_half_of_eight_bytes, |step| {
    if step.code() == 12 && step.is_completed() {
        let [_, length, a, b] = *step.words else {
            return;
        };
        let before = step.before.clone();
        step.redo(&before, step.pages, &[11, length, a, b]);
    }
});

/// All of them with their names.
pub const ALL: &[Named] = &[
    ("asks WRUSS for shadow stacks", asks_for_shadow_stacks),
    (
        "asks WRUSS for the permission to write",
        asks_for_the_permission,
    ),
    (
        "takes one kind of shadow page for the other",
        takes_one_kind_for_the_other,
    ),
    (
        "lets WRUSS reach supervisor pages too",
        reaches_supervisor_pages_too,
    ),
    ("lets WRUSS reach all pages", reaches_all_pages),
    (
        "tests the alignment before CR4.CET",
        tests_the_alignment_before_cet,
    ),
    ("tests the level before CR4.CET", tests_the_level_before_cet),
    (
        "lets every supervisor use WRUSS",
        lets_every_supervisor_write,
    ),
    ("lets user code use WRUSS", lets_user_code_write),
    ("forgets the alignment of WRUSS", forgets_the_alignment),
    (
        "tests the level before the mode",
        tests_the_level_before_the_mode,
    ),
    ("knows WRUSS in mode 0", knows_wruss_in_mode_0),
    ("writes half of eight bytes", writes_half_of_eight_bytes),
];
