//! A reader or a writer of sheets that is wrong in one thing is noticed.

use driftpocket_compare::sheets::{Parts, edits, refusals, rounds, rows, texts};

mod wrong_sheets;

/// How many random runs may pass before a wrong part is noticed, and how many
/// random texts for each of them.
const RUNS: u64 = 2000;
const TEXTS: u64 = 20;

#[test]
fn hand_written_rows_notice_every_wrong_part() {
    let rows = [rows::rows(), refusals::rows()].concat();
    for (name, parts) in wrong_sheets::ALL {
        let noticed = rows
            .iter()
            .any(|row| row.question.ask(*parts) != row.wanted);
        assert!(noticed, "not noticed: {name}");
    }
}

/// The first difference that is found without the rows.
fn difference(parts: Parts) -> Result<(), String> {
    for run in 0..RUNS {
        rounds::compare(parts, 77, run..run + 1)?;
        texts::compare(parts, 77, run * TEXTS..(run + 1) * TEXTS)?;
    }
    edits::compare(parts)?;
    Ok(())
}

#[test]
fn random_runs_texts_and_edits_notice_every_wrong_part() {
    for (name, parts) in wrong_sheets::ALL {
        assert!(difference(*parts).is_err(), "not noticed: {name}");
    }
}

#[test]
fn edits_alone_notice_what_is_kind_to_texts() {
    for name in [
        "takes carriage returns",
        "takes tabs at the end",
        "takes empty lines",
        "takes version 2",
        "takes no last line feed",
        "takes upper-case digits",
        "takes zero words",
        "takes pages in any order",
        "takes lines in any order",
        "names the next line",
        "names the last line for a missing one",
        "touches the pages of no sheet",
        "clears past the bytes",
        "leaves zero bytes",
    ] {
        let found = edits::compare(wrong_sheets::named(name));
        assert!(found.is_err(), "not noticed: {name}");
    }
}

#[test]
fn what_is_not_spoiled_passes() {
    let parts = wrong_sheets::UNSPOILED;
    assert_eq!(rows::check_all(parts, &rows::rows()), Ok(()));
    assert_eq!(rounds::compare(parts, 77, 0..RUNS / 4).err(), None);
    assert_eq!(texts::compare(parts, 77, 0..RUNS * 10).err(), None);
}

#[test]
fn a_difference_can_be_rerun_and_shows_only_what_differs() {
    let parts = wrong_sheets::named("counts instructions without room");
    let text = texts::compare(parts, 5, 0..RUNS).unwrap_err();
    let number = text.strip_prefix("seed 5, run ").unwrap();
    let number: u64 = number.split(':').next().unwrap().parse().unwrap();
    assert_eq!(
        texts::compare(parts, 5, number..number + 1).unwrap_err(),
        text
    );
    let shown: Vec<&str> = text.lines().collect();
    assert!(shown[0].ends_with("what differs (second program | under test):"));
    assert!(shown[1].starts_with("  report, place 4: "), "{text}");
    assert_eq!(shown.len(), 2, "{text}");
}
