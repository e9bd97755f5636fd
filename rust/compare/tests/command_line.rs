//! The program `compare` as it is called.

use std::process::{Command, Output};

fn compare(arguments: &[&str]) -> Output {
    Command::new(env!("CARGO_BIN_EXE_compare"))
        .args(arguments)
        .output()
        .expect("the program runs")
}

#[test]
fn wrong_arguments_get_the_usage() {
    for arguments in [
        &[][..],
        &["1"],
        &["1", "x"],
        &["1", "-2"],
        &["1", "2", "3", "4"],
    ] {
        let output = compare(arguments);
        assert_eq!(output.status.code(), Some(2), "{arguments:?}");
        assert!(output.stdout.is_empty());
        assert!(output.stderr.starts_with(b"usage: compare SEED COUNT"));
    }
}

#[test]
fn too_few_runs_leave_cells_empty() {
    let output = compare(&["5", "100"]);
    let text = String::from_utf8(output.stdout).unwrap();
    assert_eq!(output.status.code(), Some(1));
    assert!(text.contains("\n100 runs alike, "), "{text}");
    assert!(text.contains("\nnever hit: "), "{text}");
}

#[test]
fn the_same_seed_gives_the_same_table() {
    let whole = compare(&["7", "300"]);
    assert_eq!(whole.stdout, compare(&["7", "300", "0"]).stdout);
    assert_ne!(whole.stdout, compare(&["8", "300"]).stdout);
    assert_ne!(whole.stdout, compare(&["7", "300", "300"]).stdout);
}
