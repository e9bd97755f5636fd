//! Parts that are wrong on purpose, each in one thing.
//!
//! Most of them call the library and then spoil what it did, either after the
//! whole run or after each single instruction. Those that are wrong about one
//! operation are in a file with its name. Those that look for bytes in a wrong
//! way, which are made from the second program, have a file too.

use driftpocket::run_raw as right;
use driftpocket_compare::answer::{CP, FAULT, PF};
use driftpocket_compare::case::{FOUR_GIB, PAGE, Part, field, is_enabled};

/// A whole run with something done to it afterwards.
macro_rules! wrong_run {
    ($name:ident, |$state:ident, $pages:ident, $bytes:ident, $words:ident, $report:ident| $body:expr) => {
        fn $name(
            $state: &mut [u64],
            $pages: &[u64],
            $bytes: &mut [u8],
            $words: &[u64],
            $report: &mut [u64],
        ) -> u64 {
            $body
        }
    };
}

/// A run in which something is done after each single instruction.
macro_rules! wrong_step {
    ($name:ident, $spoil:expr) => {
        wrong_run!($name, |state, pages, bytes, words, report| step_by_step(
            state, pages, bytes, words, report, $spoil
        ));
    };
}

mod call;
mod incssp;
mod ret;
mod saveprevssp;
pub mod searches;
mod wruss;

pub use call::ALL as CALLS;

/// A single instruction that was carried out rightly.
struct Step<'run> {
    /// Code, length, A and B.
    words: &'run [u64],
    pages: &'run [u64],
    /// State and bytes before it.
    before: Vec<u64>,
    old_bytes: Vec<u8>,
    /// State, bytes and report after it.
    state: &'run mut [u64],
    bytes: &'run mut [u8],
    report: [u64; 5],
}

impl Step<'_> {
    fn code(&self) -> u64 {
        self.words[0]
    }

    fn is_completed(&self) -> bool {
        self.report[0] == 1
    }

    fn is_increment(&self) -> bool {
        matches!(self.code(), 1 | 2)
    }

    /// Whether this is RET.
    fn is_return(&self) -> bool {
        matches!(self.code(), 9 | 10)
    }

    /// Whether this is WRUSS.
    fn is_user_write(&self) -> bool {
        matches!(self.code(), 11 | 12)
    }

    /// Whether 64-bit mode was on.
    fn is_wide(&self) -> bool {
        self.before[field::MODE] == 2
    }

    /// Whether shadow stacks were enabled.
    fn was_enabled(&self) -> bool {
        is_enabled(&self.before)
    }

    /// A pointer, cut down to the addresses of the mode.
    fn cut(&self, pointer: u64) -> u64 {
        if self.is_wide() {
            pointer
        } else {
            pointer % FOUR_GIB
        }
    }

    /// The bytes of a return address.
    fn return_size(&self) -> u64 {
        if self.is_wide() { 8 } else { 4 }
    }

    /// Gives everything back and ends with this fault.
    fn fault(&mut self, vector: u64) {
        self.undo();
        self.report = [0, 0, vector, 0, 0];
    }

    /// Makes state and bytes what they were before.
    fn undo(&mut self) {
        self.state.copy_from_slice(&self.before);
        self.bytes.copy_from_slice(&self.old_bytes);
    }

    /// Does these words instead, on this state and these pages.
    fn redo(&mut self, state: &[u64], pages: &[u64], words: &[u64]) {
        self.undo();
        self.state.copy_from_slice(state);
        self.report = [0; 5];
        right(self.state, pages, self.bytes, words, &mut self.report);
    }

    /// The report of these words from this state, without any effect.
    fn probe(&self, state: &[u64], words: &[u64]) -> [u64; 5] {
        let mut report = [0; 5];
        let mut bytes = self.old_bytes.clone();
        right(
            &mut state.to_vec(),
            self.pages,
            &mut bytes,
            words,
            &mut report,
        );
        report
    }

    /// The state before, with another field.
    fn before_with(&self, field: usize, value: u64) -> Vec<u64> {
        let mut state = self.before.clone();
        state[field] = value;
        state
    }

    /// The place of a byte, if its page is listed.
    fn place(&self, address: u64) -> Option<usize> {
        let is_it = |entry: &u64| entry & !0xfff == address & !0xfff;
        let page = self.pages.iter().position(is_it)?;
        Some(page * PAGE + (address & 0xfff) as usize)
    }
}

/// Carries out a run one instruction after the other and spoils each of them.
fn step_by_step(
    state: &mut [u64],
    pages: &[u64],
    bytes: &mut [u8],
    words: &[u64],
    report: &mut [u64],
    spoil: fn(&mut Step),
) -> u64 {
    let returned = try_out(state, pages, bytes, words);
    if report.len() < 5 || matches!(returned, 1..=5 | 7) {
        return right(state, pages, bytes, words, report);
    }
    report[..5].fill(0);
    for (count, words) in (0..).zip(words.chunks(4)) {
        let mut step = Step {
            words,
            pages,
            before: state.to_vec(),
            old_bytes: bytes.to_vec(),
            state,
            bytes,
            report: [0; 5],
        };
        right(step.state, pages, step.bytes, words, &mut step.report);
        spoil(&mut step);
        report[..5].copy_from_slice(&step.report);
        report[0] += count;
        match step.report {
            [_, 0, 0, ..] => {}
            [_, 0, vector, ..] => return FAULT + vector,
            [_, refusal, ..] => return refusal,
        }
    }
    0
}

/// What the library returns, without any effect.
fn try_out(state: &[u64], pages: &[u64], bytes: &[u8], words: &[u64]) -> u64 {
    right(
        &mut state.to_vec(),
        pages,
        &mut bytes.to_vec(),
        words,
        &mut [0; 5],
    )
}

/// Pretends that all was completed.
fn pretend(words: &[u64], report: &mut [u64]) -> u64 {
    report[..5].fill(0);
    report[0] = (words.len() / 4) as u64;
    0
}

wrong_run!(counts_one_too_many, |state, pages, bytes, words, report| {
    let returned = right(state, pages, bytes, words, report);
    if report.len() >= 5 && report[1] == 0 {
        report[0] += 1;
    }
    returned
});

wrong_run!(always_page_fault, |_state,
                               _pages,
                               _bytes,
                               _words,
                               report| {
    if report.len() < 5 {
        return 8;
    }
    report[..5].copy_from_slice(&[0, 0, PF, 0, 0]);
    FAULT + PF
});

wrong_run!(refuses_everything, |_state,
                                _pages,
                                _bytes,
                                _words,
                                report| {
    if report.len() < 5 {
        return 8;
    }
    report[..5].copy_from_slice(&[0, 1, 0, 0, 0]);
    1
});

wrong_run!(moves_nothing, |state, pages, bytes, words, report| {
    if report.len() < 5 || matches!(try_out(state, pages, bytes, words), 1..=5 | 7) {
        return right(state, pages, bytes, words, report);
    }
    pretend(words, report)
});

wrong_run!(idles_after_one, |state, pages, bytes, words, report| {
    let idles = try_out(state, pages, bytes, words) == 0 && words.len() > 4;
    if report.len() < 5 || !idles {
        return right(state, pages, bytes, words, report);
    }
    right(state, pages, bytes, &words[..4], report);
    pretend(words, report)
});

wrong_run!(
    writes_past_the_report,
    |state, pages, bytes, words, report| {
        if let Some(word) = report.get_mut(5) {
            *word = 0;
        }
        right(state, pages, bytes, words, report)
    }
);

wrong_run!(runs_without_room, |state, pages, bytes, words, report| {
    let returned = right(state, pages, bytes, words, report);
    if report.len() < 5 && returned == 8 {
        right(state, pages, bytes, words, &mut [0; 5]);
    }
    returned
});

wrong_run!(
    looks_for_room_first,
    |state, pages, bytes, words, report| {
        if report.len() < 5 {
            return 8;
        }
        right(state, pages, bytes, words, report)
    }
);

wrong_run!(
    looks_for_room_after_the_form,
    |state, pages, bytes, words, report| {
        let returned = right(state, pages, bytes, words, report);
        let tried = try_out(state, pages, bytes, words);
        if report.len() < 5 && tried == 6 {
            return tried;
        }
        returned
    }
);

wrong_run!(
    writes_a_short_report,
    |state, pages, bytes, words, report| {
        let returned = right(state, pages, bytes, words, report);
        if let ([_, word, ..], 1..=7) = (&mut *report, returned) {
            *word = returned;
        }
        returned
    }
);

wrong_run!(
    returns_a_bare_vector,
    |state, pages, bytes, words, report| right(state, pages, bytes, words, report) % FAULT
);

wrong_run!(
    forgets_the_error_code,
    |state, pages, bytes, words, report| {
        let returned = right(state, pages, bytes, words, report);
        if returned == FAULT + CP {
            report[3] = 0;
        }
        returned
    }
);

wrong_run!(names_the_page, |state, pages, bytes, words, report| {
    let returned = right(state, pages, bytes, words, report);
    if returned == FAULT + PF {
        report[4] &= !0xfff;
    }
    returned
});

wrong_run!(moves_on_at_a_fault, |state, pages, bytes, words, report| {
    let returned = right(state, pages, bytes, words, report);
    if returned > FAULT {
        state[field::IP] ^= 1;
    }
    returned
});

wrong_run!(
    tests_seven_before_five,
    |state, pages, bytes, words, report| {
        let returned = right(state, pages, bytes, words, report);
        if returned == 5 && !words.len().is_multiple_of(4) && report.len() >= 5 {
            report[1] = 7;
            return 7;
        }
        returned
    }
);

wrong_run!(sorts_the_pages, |state, pages, bytes, words, report| {
    let mut sorted = pages.to_vec();
    sorted.sort_unstable();
    right(state, &sorted, bytes, words, report)
});

wrong_run!(counts_the_pages, |state, pages, bytes, words, report| {
    let returned = right(state, pages, bytes, words, report);
    if returned == 0 && pages.len() > 3 {
        state[field::FLAGS] ^= 1 << 40;
    }
    returned
});

wrong_run!(
    touches_the_last_page,
    |state, pages, bytes, words, report| {
        let returned = right(state, pages, bytes, words, report);
        if let (0, Some(byte)) = (returned, bytes.last_mut()) {
            *byte ^= 1;
        }
        returned
    }
);

wrong_run!(
    looks_at_permissions,
    |state, pages, bytes, words, report| {
        let returned = right(state, pages, bytes, words, report);
        if returned == 0 && state[field::USER] & 2 != 0 {
            state[field::FLAGS] ^= 1 << 41;
        }
        returned
    }
);

/// A wrong part with its name.
type Named = (&'static str, Part);

/// All of them with their names.
pub fn all() -> impl Iterator<Item = Named> {
    [
        COMMON,
        incssp::ALL,
        saveprevssp::ALL,
        wruss::ALL,
        CALLS,
        ret::ALL,
        searches::ALL,
    ]
    .concat()
    .into_iter()
}

/// Those of this file.
const COMMON: &[Named] = &[
    ("counts one too many", counts_one_too_many),
    ("always page fault", always_page_fault),
    ("refuses everything", refuses_everything),
    ("moves nothing", moves_nothing),
    ("idles after one", idles_after_one),
    ("writes past the report", writes_past_the_report),
    ("runs without room", runs_without_room),
    ("looks for room first", looks_for_room_first),
    (
        "looks for room after the form",
        looks_for_room_after_the_form,
    ),
    ("writes a short report", writes_a_short_report),
    ("returns a bare vector", returns_a_bare_vector),
    ("forgets the error code", forgets_the_error_code),
    ("names the page", names_the_page),
    ("moves on at a fault", moves_on_at_a_fault),
    ("tests seven before five", tests_seven_before_five),
    ("sorts the pages", sorts_the_pages),
    ("counts the pages", counts_the_pages),
    ("touches the last page", touches_the_last_page),
    ("looks at permissions", looks_at_permissions),
];

/// A run one instruction after the other that is not spoiled.
pub const UNSPOILED: Part = unspoiled;

wrong_step!(unspoiled, |_step| {});

/// The part that has this name.
pub fn named(name: &str) -> Part {
    let (_, part) = all().find(|(other, _)| *other == name).expect(name);
    part
}
