//! The binary as it is called from outside.

use std::io::Write;
use std::process::{Command, Output, Stdio};

/// Runs the binary with these arguments and this standard input.
fn reference(arguments: &[&str], input: &[u8]) -> Output {
    let mut child = Command::new(env!("CARGO_BIN_EXE_reference"))
        .args(arguments)
        .stdin(Stdio::piped())
        .stdout(Stdio::piped())
        .stderr(Stdio::piped())
        .spawn()
        .unwrap();
    // A program that stops reading early closes the pipe, which is no failure.
    let _ = child.stdin.take().unwrap().write_all(input);
    child.wait_with_output().unwrap()
}

#[test]
fn a_text_gets_its_outcome() {
    let no_sheet = "refused\tx0000000000000009\tx0000000000000001\n";
    let too_long = "refused\tx0000000000000008\tx0000000000000000\n";
    for (length, wanted) in [
        (0, no_sheet),
        (413_250, no_sheet),
        (413_251, too_long),
        (500_000, too_long),
    ] {
        let output = reference(&["outcome"], &vec![b'\n'; length]);
        assert_eq!(String::from_utf8(output.stdout).unwrap(), wanted);
        assert!(output.stderr.is_empty());
        assert_eq!(output.status.code(), Some(0));
    }
}

#[test]
fn other_arguments_get_the_usage() {
    for arguments in [&[][..], &["--help"], &["Outcome"], &["outcome", "file"]] {
        let output = reference(arguments, b"");
        assert_eq!(output.status.code(), Some(2), "{arguments:?}");
        assert!(output.stdout.is_empty());
        assert!(output.stderr.starts_with(b"usage: "));
    }
}
