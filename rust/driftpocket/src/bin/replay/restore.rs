//! Getting a sheet back from what a spreadsheet has saved.
//!
//! A spreadsheet fills shorter lines up with tabs, and may end lines with a
//! carriage return before the line feed. These are taken off, and nothing else.
//! What comes of it is a sheet only if the library says so.

use crate::lines::{body, lines};

/// The text without tabs and carriage returns at the ends of its lines.
pub fn restored(text: &[u8]) -> Vec<u8> {
    let mut kept = Vec::with_capacity(text.len());
    for line in lines(text) {
        let (rest, _) = parted(line);
        kept.extend_from_slice(rest);
        kept.extend_from_slice(&line[body(line).len()..]);
    }
    kept
}

/// A line without its line feed, parted before the tabs and carriage returns at
/// its end.
fn parted(line: &[u8]) -> (&[u8], &[u8]) {
    let body = body(line);
    let kept = body.iter().rposition(|byte| !matches!(byte, b'\t' | b'\r'));
    body.split_at(kept.map_or(0, |last| last + 1))
}

/// What stands at the end of a line that would be taken off, in words.
pub fn ending(line: &[u8]) -> String {
    in_words(parted(line).1)
}

/// What is taken off a whole text, in words.
pub fn taken(text: &[u8]) -> String {
    let all: Vec<u8> = lines(text)
        .flat_map(|line| parted(line).1.iter().copied())
        .collect();
    in_words(&all)
}

/// Tabs and carriage returns, counted.
fn in_words(bytes: &[u8]) -> String {
    let tabs = bytes.iter().filter(|byte| **byte == b'\t').count();
    let returns = bytes.len() - tabs;
    let counted = |count: usize, name: &str| match count {
        1 => format!("1 {name}"),
        _ => format!("{count} {name}s"),
    };
    match (tabs, returns) {
        (0, 0) => "nothing".to_string(),
        (_, 0) => counted(tabs, "tab"),
        (0, _) => counted(returns, "carriage return"),
        _ => format!(
            "{} and {}",
            counted(tabs, "tab"),
            counted(returns, "carriage return")
        ),
    }
}

#[cfg(test)]
mod tests {
    use super::*;

    #[test]
    fn only_the_ends_of_lines_are_touched() {
        let cases: [(&[u8], &[u8]); 8] = [
            (b"", b""),
            (b"a\tb\n", b"a\tb\n"),
            (b"a\tb\t\t\r\nc\r\n", b"a\tb\nc\n"),
            (b"\ta\t\tb\r\t\r\n", b"\ta\t\tb\n"),
            (b"\t\t\n\n", b"\n\n"),
            (b"a\t", b"a"),
            (b"a \t \n", b"a \t \n"),
            (b"a\rb\x0b\xff\t\n", b"a\rb\x0b\xff\n"),
        ];
        for (text, wanted) in cases {
            assert_eq!(restored(text), wanted, "{}", text.escape_ascii());
            assert_eq!(restored(wanted), wanted);
        }
    }

    #[test]
    fn words_for_what_is_taken() {
        assert_eq!(ending(b"a\tb\t\t\n"), "2 tabs");
        assert_eq!(ending(b"a\r\n"), "1 carriage return");
        assert_eq!(ending(b"a\t\r\n"), "1 tab and 1 carriage return");
        assert_eq!(ending(b"a\n"), "nothing");
        assert_eq!(taken(b"a\t\r\nb\t\r\n"), "2 tabs and 2 carriage returns");
    }
}
