//! A part that is wrong in one thing is noticed.

use driftpocket_compare::case::field;
use driftpocket_compare::page_ends::layout::MIDDLES;
use driftpocket_compare::rows::{Row, check_all, check_each};
use driftpocket_compare::sheets::LIBRARY;
use driftpocket_compare::stored::{self, Stored};
use driftpocket_compare::{edges, operations, page_ends, refusals, rounds};
use std::collections::BTreeSet;
use wrong::searches::{self, Search};

mod wrong;

/// How many random runs may pass before a wrong part is noticed.
const RUNS: u64 = 20_000;

#[test]
fn random_runs_notice_every_wrong_part() {
    for (name, part) in wrong::all() {
        let Err(text) = rounds::compare(part, 77, 0..RUNS) else {
            panic!("not noticed: {name}");
        };
        assert!(text.starts_with("seed 77, run "), "{text}");
        assert!(text.contains("what differs (second program | under test):"));
    }
}

#[test]
fn what_is_not_spoiled_passes() {
    let tally = rounds::compare(wrong::UNSPOILED, 77, 0..RUNS / 10);
    assert_eq!(tally.map(|tally| tally.runs), Ok(RUNS / 10));
}

#[test]
fn a_difference_can_be_rerun_and_shows_only_what_differs() {
    let part = wrong::named("forgets the error code");
    let text = rounds::compare(part, 5, 0..RUNS).unwrap_err();
    let number = text.strip_prefix("seed 5, run ").unwrap();
    let number: u64 = number.split(':').next().unwrap().parse().unwrap();
    assert_eq!(
        rounds::compare(part, 5, number..number + 1).unwrap_err(),
        text
    );
    let is_it = |code: u64| text.ends_with(&format!("):\n  error code: {code} | 0\n"));
    assert!([1, 4].into_iter().any(is_it), "{text}");
}

#[test]
fn fixed_cases_and_stored_sheets_notice_every_wrong_part() {
    let rows = [edges::rows(), operations::rows(), refusals::rows()].concat();
    let stored = stored::all().unwrap();
    // Wrong searches are for the ends of pages, below.
    let is_search = |name: &str| searches::ALL.iter().any(|(other, _)| *other == name);
    for (name, part) in wrong::all().filter(|(name, _)| !is_search(name)) {
        let noticed = check_each(part, rows.iter()).is_err();
        let noticed = noticed || stored::first_wrong(LIBRARY, part, stored.iter()).is_some();
        assert!(noticed, "not noticed: {name}");
    }
}

/// Makes sure that stored sheets whose names begin with one of these notice a
/// wrong part.
fn stored_notice(starts: &[&str], part: &str) {
    let all = stored::all().unwrap();
    let asked = |one: &&Stored| starts.iter().any(|start| one.name.starts_with(start));
    let found = stored::first_wrong(LIBRARY, wrong::named(part), all.iter().filter(asked));
    assert!(found.is_some(), "not noticed: {part}");
}

#[test]
fn the_worked_cases_alone_notice_the_poor_parts() {
    for name in [
        "always page fault",
        "refuses everything",
        "moves nothing",
        "idles after one",
        "counts one too many",
    ] {
        stored_notice(&["worked/p"], name);
    }
}

#[test]
fn p14_and_p15_alone_notice_known_mistakes() {
    for name in [
        "pushes for every call",
        "spares absolute calls of the next line",
        "moves SSP without a push",
        "spares the ordinary stack too",
    ] {
        stored_notice(&["worked/p14", "worked/p15"], name);
    }
}

#[test]
fn rows_about_calls_notice_all_mistakes_about_them() {
    let rows = operations::call::rows();
    for (name, part) in wrong::CALLS {
        assert!(check_all(*part, &rows).is_err(), "{name}");
    }
}

#[test]
fn the_worked_returns_and_user_writes_alone_notice_known_mistakes() {
    for name in [
        "forgets the count of RET",
        "reads the shadow stack first",
        "checks the target before the comparison",
        "gives RET error code 4",
        "keeps the shadow pop at a bad target",
        "compares without shadow stacks",
        "takes a count of seventeen bits",
        "asks WRUSS for shadow stacks",
        "lets user code use WRUSS",
        "lets every supervisor use WRUSS",
        "knows WRUSS in mode 0",
        "tests the alignment before CR4.CET",
        "lets WRUSS reach all pages",
        "writes half of eight bytes",
    ] {
        stored_notice(&["worked/r"], name);
    }
}

#[test]
fn pairs_notice_what_depends_on_pages() {
    for name in [
        "sorts the pages",
        "counts the pages",
        "touches the last page",
    ] {
        let found = rounds::more_memory(wrong::named(name), 78, 0..RUNS);
        assert!(found.is_err(), "{name}");
    }
}

#[test]
fn pairs_notice_what_depends_on_permissions() {
    for name in [
        "looks at permissions",
        "asks WRUSS for the permission to write",
    ] {
        let found = rounds::more_rights(wrong::named(name), 79, 0..RUNS);
        assert!(found.is_err(), "{name}");
    }
}

#[test]
fn the_ledger_and_single_steps_notice_wrong_sums_and_idling() {
    for (name, words) in [
        ("drops one element fewer", "the ledger says"),
        ("uses nine bits of the count", "the ledger says"),
        ("leaves the shadow stack", "the ledger says"),
        ("pushes for every call", "the ledger says"),
        ("moves SSP without a push", "the ledger says"),
        ("spares absolute calls of the next line", "the ledger says"),
        ("idles after one", "one by one"),
        ("counts one too many", ""),
    ] {
        let text = rounds::ledger(wrong::named(name), 80, 0..RUNS).unwrap_err();
        assert!(text.contains(words), "{name}: {text}");
    }
}

#[test]
fn the_ends_of_pages_alone_notice_every_wrong_search() {
    for (name, part) in searches::ALL {
        assert!(check_each(*part, page_ends::rows()).is_err(), "{name}");
    }
    for name in [
        "leaves the ordinary push",
        "pushes for every call",
        "tries the shadow stack for the next line",
        "spares absolute calls of the next line",
        "loses the hole",
        "names the page",
        "sorts the pages",
        "touches the last page",
    ] {
        let part = wrong::named(name);
        assert!(check_each(part, page_ends::rows()).is_err(), "{name}");
    }
    let walks = page_ends::walks::rows().into_iter();
    assert!(check_each(searches::UNSPOILED, walks).is_ok());
}

/// An access of an operation.
#[derive(Clone, Copy, Debug, PartialEq, Eq, PartialOrd, Ord)]
struct Spot {
    mode: u64,
    cpl: u64,
    code: u64,
    /// Whether it has accesses of its own: SAVEPREVSSP that finds the carry flag
    /// set, and a relative call of the next line.
    special: bool,
    /// How many accesses the operation makes before this one.
    turn: u64,
}

/// The operations: mode, code, whether special, and how many accesses.
const OPERATIONS: [(u64, u64, bool, u64); 25] = [
    (1, 1, false, 2),
    (1, 3, false, 2),
    (1, 4, false, 3),
    (1, 4, true, 4),
    (1, 5, false, 1),
    (1, 7, false, 2),
    (1, 7, true, 1),
    (1, 8, false, 2),
    (1, 9, false, 2),
    (1, 10, false, 2),
    (1, 11, false, 1),
    (2, 1, false, 2),
    (2, 2, false, 2),
    (2, 3, false, 2),
    (2, 4, false, 3),
    (2, 4, true, 1),
    (2, 5, false, 1),
    (2, 6, false, 1),
    (2, 7, false, 2),
    (2, 7, true, 1),
    (2, 8, false, 2),
    (2, 9, false, 2),
    (2, 10, false, 2),
    (2, 11, false, 1),
    (2, 12, false, 1),
];

impl Spot {
    /// All of them. WRUSS makes its access at CPL 0 alone.
    fn all() -> BTreeSet<Spot> {
        let mut all = BTreeSet::new();
        for (mode, code, special, count) in OPERATIONS {
            let levels: &[u64] = if code > 10 { &[0] } else { &[0, 3] };
            for &cpl in levels {
                all.extend((0..count).map(|turn| Spot {
                    mode,
                    cpl,
                    code,
                    special,
                    turn,
                }));
            }
        }
        all
    }

    /// Whether a row is about its operation.
    fn is_of(&self, row: &Row) -> bool {
        let (state, words) = (&row.case.state, &row.case.words);
        let special = match words[0] {
            7 => words[2] == 0,
            _ => state[field::FLAGS] % 2 == 1,
        };
        let of = (state[field::MODE], state[field::CPL], words[0]);
        (self.mode, self.cpl, self.code) == of && self.special == special
    }
}

/// Makes one access after the other by a wrong search. Rows must notice it in
/// all but those where nobody can.
fn watch(search: &Search, name: &str, is_hidden: impl Fn(&Spot) -> bool) {
    let mut unnoticed = Spot::all();
    for row in MIDDLES.iter().flat_map(page_ends::around) {
        unnoticed.retain(|spot| !spot.is_of(&row) || !search.is_noticed(&row, spot.turn));
    }
    let hidden: BTreeSet<Spot> = Spot::all().into_iter().filter(is_hidden).collect();
    assert_eq!(unnoticed, hidden, "{name}");
}

#[test]
fn every_access_of_every_operation_is_watched() {
    // Only numbers on an ordinary stack, and 8 bytes on a shadow stack, whose
    // pointer is a multiple of 4, can lie on two pages.
    watch(&searches::GOING_ON, "going on", |spot| {
        let ordinary = matches!((spot.code, spot.turn), (7..=10, 0));
        let shadow = matches!((spot.mode, spot.code), (2, 2 | 7..=10));
        !ordinary && !shadow
    });
    // What INCSSP loads is not looked at, nor a token if the carry flag is bad.
    watch(&searches::MISSING_A_BYTE, "missing a byte", |spot| {
        matches!(spot.code, 1 | 2) || (spot.mode, spot.code, spot.special) == (2, 4, true)
    });
    // RSTORSSP stores where it has loaded.
    let cannot_fault = |spot: &Spot| (spot.code, spot.turn) == (3, 1);
    watch(&searches::ASKING_NO_KIND, "asking no kind", cannot_fault);
    watch(&searches::NAMING_THE_LAST, "naming the last", cannot_fault);
}
