//! The program `replay` as a person starts it, at the root of the repository.
//! What it shows of the stored sheets is compared by `./test`.

use std::fs;
use std::io::Write;
use std::path::{Path, PathBuf};
use std::process::{Command, Output, Stdio};

/// The sheet that the README starts with.
const FIRST: &str = "sheets/first.sheet";

/// That sheet, as a spreadsheet saves it.
const SAVED: &str = "sheets/spoilt/saved.txt";

/// The root of the repository.
fn root() -> PathBuf {
    Path::new(env!("CARGO_MANIFEST_DIR")).join("../..")
}

/// A stored text.
fn stored(name: &str) -> Vec<u8> {
    fs::read(root().join(name)).unwrap()
}

/// Starts the program with this on its standard input.
fn replay_with(arguments: &[&str], input: &[u8]) -> Output {
    let mut child = Command::new(env!("CARGO_BIN_EXE_replay"))
        .args(arguments)
        .current_dir(root())
        .stdin(Stdio::piped())
        .stdout(Stdio::piped())
        .stderr(Stdio::piped())
        .spawn()
        .unwrap();
    // A program that reads nothing may be gone before all is written.
    let _ = child.stdin.take().unwrap().write_all(input);
    child.wait_with_output().unwrap()
}

/// Starts the program with nothing on its standard input.
fn replay(arguments: &[&str]) -> Output {
    replay_with(arguments, b"")
}

/// What went to standard output, as text.
fn shown(output: &Output) -> String {
    String::from_utf8(output.stdout.clone()).unwrap()
}

/// What went to standard error, as text.
fn told(output: &Output) -> String {
    String::from_utf8(output.stderr.clone()).unwrap()
}

#[test]
fn it_says_what_it_does() {
    let output = replay(&["--help"]);
    assert_eq!(output.status.code(), Some(0));
    assert!(shown(&output).starts_with("replay: shows, instruction by instruction,"));
}

#[test]
fn other_arguments_are_not_understood() {
    let cases: [&[&str]; 5] = [
        &["--sheet"],
        &["--help", "--help"],
        &[""],
        &[FIRST, ""],
        &["--restore", FIRST, FIRST],
    ];
    for arguments in cases {
        let output = replay(arguments);
        assert_eq!(output.status.code(), Some(2), "{arguments:?}");
        assert!(output.stdout.is_empty());
        assert!(told(&output).starts_with("replay: unexpected argument '"));
    }
}

#[test]
fn a_sheet_from_a_file_and_from_standard_input() {
    let file = replay(&[FIRST]);
    assert_eq!(file.status.code(), Some(0));
    assert!(file.stderr.is_empty());
    let text = shown(&file);
    assert!(text.starts_with("sheets/first.sheet (pages: 3, instructions: 6)\n"));
    assert!(text.contains("\ncount: 6 of 6\nanswer: 0 (refusal 0,"));
    let sheet = stored(FIRST);
    for arguments in [["-"].as_slice(), &[]] {
        let input = replay_with(arguments, &sheet);
        assert_eq!(input.status.code(), Some(0));
        let wanted = text.replacen(FIRST, "standard input", 1);
        assert_eq!(shown(&input), wanted);
    }
}

#[test]
fn several_sheets_and_the_worst_status() {
    let faulting = "sheets/worked/p02.sheet";
    let [first, second] = [FIRST, faulting].map(|name| shown(&replay(&[name])));
    let twice = replay(&[FIRST, FIRST]);
    assert_eq!(twice.status.code(), Some(0));
    assert_eq!(shown(&twice), format!("{first}\n{first}"));
    let output = replay(&[faulting, FIRST]);
    assert_eq!(output.status.code(), Some(1));
    assert_eq!(shown(&output), format!("{second}\n{first}"));
    let output = replay(&[FIRST, SAVED, faulting]);
    assert_eq!(output.status.code(), Some(1));
    assert_eq!(shown(&output), format!("{first}\n\n{second}"));
    let start = format!("replay: {SAVED}, line 1: refusal 9: ");
    assert!(told(&output).starts_with(&start), "{}", told(&output));
}

#[test]
fn the_last_line_is_a_line_of_a_sheet() {
    let text = shown(&replay(&[FIRST]));
    let last = text.lines().last().unwrap();
    let again = format!("sheet\tx0000000000000001\n{last}\n");
    let output = replay_with(&["-"], again.as_bytes());
    assert_eq!(output.status.code(), Some(0));
    assert_eq!(shown(&output).lines().last(), Some(last));
}

#[test]
fn a_run_that_does_not_complete() {
    for (sheet, end) in [
        (
            "sheets/worked/p02.sheet",
            "\nanswer: 270 (refusal 0, vector 14,",
        ),
        ("sheets/refused/refusal-6.sheet", "\nanswer: 6 (refusal 6,"),
    ] {
        let output = replay(&[sheet]);
        assert_eq!(output.status.code(), Some(1), "{sheet}");
        assert!(output.stderr.is_empty());
        assert!(shown(&output).contains(end), "{sheet}");
    }
}

#[test]
fn a_call_and_its_return() {
    for (sheet, end) in [
        ("matching", "\ncount: 4 of 4\n"),
        ("byte-count", "\ncount: 2 of 2\n"),
        ("mode-1", "\ncount: 2 of 2\n"),
        ("not-enabled", "\ncount: 1 of 1\n"),
    ] {
        let output = replay(&[&format!("sheets/returns/{sheet}.sheet")]);
        assert_eq!(output.status.code(), Some(0), "{sheet}");
        assert!(output.stderr.is_empty());
        let text = shown(&output);
        assert!(text.contains(end), "{text}");
        assert!(text.contains("\n     popped: SP moves up by "), "{text}");
    }
}

#[test]
fn returns_and_user_writes_that_do_not_complete() {
    for (sheet, parts) in [
        (
            "returns/overwritten",
            [
                "\nanswer: 277 (refusal 0, vector 21, error code 1, address 0x0)\n",
                " 0x414141 at ordinary 0x5008 and 0x400005 at shadow 0x1fe8\n",
            ],
        ),
        (
            "kernel/cpl-3",
            [
                "\nanswer: 269 (refusal 0, vector 13, error code 0, address 0x0)\n",
                "\n     why: CPL is 3, and must be 0\n",
            ],
        ),
        (
            "refused/refusal-6-count",
            [
                "\nanswer: 6 (refusal 6, ",
                "\n  there: field 4 (A) 0x10000\n  expected: a byte count below 2^16\n",
            ],
        ),
    ] {
        let output = replay(&[&format!("sheets/{sheet}.sheet")]);
        assert_eq!(output.status.code(), Some(1), "{sheet}");
        assert!(output.stderr.is_empty());
        let text = shown(&output);
        assert!(parts.iter().all(|part| text.contains(part)), "{text}");
    }
}

#[test]
fn a_text_that_is_no_sheet() {
    let output = replay_with(&["-"], b"sheet\tx0000000000000001\nstate\t7E12\n");
    assert_eq!(output.status.code(), Some(1));
    assert!(output.stdout.is_empty());
    let text = told(&output);
    assert!(text.starts_with("replay: standard input, line 2: refusal 9: "));
    assert!(text.contains("\n  there: `state` and 1 more fields\n  expected: `state` and 10 "));
    let nothing = told(&replay(&[]));
    assert!(nothing.starts_with("replay: standard input, line 1: refusal 9: "));
}

#[test]
fn a_file_that_cannot_be_read() {
    for name in ["sheets/there-is-none.sheet", "sheets"] {
        for arguments in [[name].as_slice(), &["--restore", name]] {
            let output = replay(arguments);
            assert_eq!(output.status.code(), Some(1), "{name}");
            assert!(output.stdout.is_empty());
            let start = format!("replay: {name}: cannot be read: ");
            assert!(told(&output).starts_with(&start), "{}", told(&output));
        }
    }
}

#[test]
fn a_text_without_end_is_not_waited_for() {
    let long = vec![b'\t'; (1 << 24) + 1];
    let output = replay_with(&["-"], &long);
    assert_eq!(output.status.code(), Some(1));
    assert!(told(&output).contains("a sheet that can be run has at most 413250"));
}

#[test]
fn what_a_spreadsheet_has_saved_is_restored_and_not_taken() {
    let output = replay(&[SAVED]);
    assert_eq!(output.status.code(), Some(1));
    assert!(output.stdout.is_empty());
    let text = told(&output);
    for part in [
        "A spreadsheet has saved this text",
        "Its numbers are whole.",
        "replay --restore sheets/spoilt/saved.txt >NEW",
    ] {
        assert!(text.contains(part), "{text}");
    }
    for name in [SAVED, "sheets/spoilt/saved-returns.txt", FIRST] {
        let output = replay(&["--restore", name]);
        assert_eq!(output.status.code(), Some(0), "{name}");
        assert_eq!(output.stdout, stored(FIRST), "{name}");
        assert!(told(&output).ends_with("; it is a sheet\n"));
    }
    let output = replay_with(&["--restore"], &stored(SAVED));
    assert_eq!(output.stdout, stored(FIRST));
}

#[test]
fn what_cannot_be_restored_is_said_to_be_no_sheet() {
    let output = replay(&["--restore", "sheets/spoilt/saved-changed.txt"]);
    assert_eq!(output.status.code(), Some(1));
    let sheet = String::from_utf8(stored(FIRST)).unwrap();
    let changed = sheet.replacen("x0000000000002ff9", "2FF9", 1);
    assert_eq!(shown(&output), changed);
    let text = told(&output);
    assert!(text.contains("line 6: refusal 9"), "{text}");
    assert!(text.contains("field 3 (value) `2FF9`"), "{text}");
}

#[test]
fn a_restored_text_whose_run_is_refused() {
    let mut text = stored("sheets/refused/refusal-5.sheet");
    text.insert(24 - 1, b'\t');
    let output = replay_with(&["--restore", "-"], &text);
    assert_eq!(output.status.code(), Some(1));
    assert_eq!(output.stdout, stored("sheets/refused/refusal-5.sheet"));
    assert!(told(&output).starts_with("replay: standard input, line 2: refusal 5: "));
}
