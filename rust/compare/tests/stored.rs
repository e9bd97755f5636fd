//! The stored sheets: the library, by its C interface, and the second program
//! give the outcome that is stored of each, to the byte.

use driftpocket::run_raw;
use driftpocket_compare::sheets::LIBRARY;
use driftpocket_compare::stored::{self, Stored};
use driftpocket_reference::outcome::outcome;

/// How many there are at least.
const LEAST: usize = 80;

/// All of them.
fn all() -> Vec<Stored> {
    let all = stored::all().unwrap();
    assert!(all.len() >= LEAST, "only {} stored texts", all.len());
    all
}

#[test]
fn the_library_gives_the_stored_outcomes() {
    let all = all();
    assert_eq!(stored::first_wrong(LIBRARY, run_raw, all.iter()), None);
}

#[test]
fn the_second_program_gives_the_stored_outcomes() {
    for one in all() {
        let stored = String::from_utf8(one.outcome).unwrap();
        assert_eq!(outcome(&one.text), stored, "{}", one.name);
    }
}

#[test]
fn every_worked_case_is_there() {
    let all = all();
    for (letter, last) in [('p', 19), ('r', 17)] {
        for number in 1..=last {
            let name = format!("worked/{letter}{number:02}");
            let is_it = |one: &Stored| one.name.split('-').next() == Some(&name);
            assert!(all.iter().any(is_it), "{name} is there");
        }
    }
}

#[test]
fn what_is_left_stops_where_the_run_stopped() {
    for one in all() {
        let outcome = stored::outcome(LIBRARY, run_raw, &one.text);
        let end = outcome.iter().position(|&byte| byte == b'\n').unwrap() + 1;
        let (answer, left) = outcome.split_at(end);
        if answer.starts_with(b"refused\t") {
            assert!(left.is_empty(), "{}", one.name);
            continue;
        }
        let again = stored::outcome(LIBRARY, run_raw, left);
        // The count, the first of five numbers, is 0 now.
        let none = [&b"answer\tx0000000000000000"[..], &answer[24..], left].concat();
        assert_eq!(again, none, "{}", one.name);
    }
}
