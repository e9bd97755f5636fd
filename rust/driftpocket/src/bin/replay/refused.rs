//! What a person is told of a text that the library does not read.

use crate::input::Source;
use crate::lines::lines;
use crate::no_sheet;
use crate::reason::Reason;
use crate::restore::{ending, restored};
use crate::sent_back;
use driftpocket::{Refusal, Sheet, SheetError};

/// All that there is to say of a refused text.
pub fn message(source: &Source, text: &[u8], error: SheetError) -> String {
    match error.line {
        Some(line) => no_sheet(source, text, error, line),
        None => match sent_back::reason(text, error.refusal) {
            Some((line, reason)) => at_line(source, line, error.refusal, &reason),
            None => format!("{source}: {}", error.refusal),
        },
    }
}

/// Of a text that is no sheet. Where the end of the line is all that is wrong
/// with it, the library gets further without that.
fn no_sheet(source: &Source, text: &[u8], error: SheetError, line: u64) -> String {
    let restored = restored(text);
    let again = Sheet::read(&restored).err();
    match again.and_then(|again| again.line) {
        Some(same) if same <= line => {
            let reason = no_sheet::reason(&restored, line);
            at_line(source, line, error.refusal, &reason)
        }
        _ => {
            let reason = spreadsheet(text, line);
            let told = at_line(source, line, error.refusal, &reason);
            format!("{told}\n{}", advice(source, &restored, again))
        }
    }
}

/// A line that was filled up.
fn spreadsheet(text: &[u8], line: u64) -> Reason {
    let place = usize::try_from(line.saturating_sub(1)).unwrap_or(usize::MAX);
    let end = lines(text).nth(place).map(ending).unwrap_or_default();
    Reason::new(
        format!("{end} at the end of the line"),
        "the line without that",
    )
}

/// What to do with a text that a spreadsheet has saved.
fn advice(source: &Source, restored: &[u8], again: Option<SheetError>) -> String {
    let saved = "  A spreadsheet has saved this text: one fills lines up with tabs, or ends them with carriage returns.";
    let back = match source {
        Source::File(path) => format!("replay --restore {} >NEW", path.display()),
        Source::Input => "replay --restore <OLD >NEW".to_string(),
    };
    let rest = match again {
        Some(again) if again.refusal == Refusal::Sheet => {
            let told = message(source, restored, again);
            format!("  Even without these it is no sheet:\n{told}")
        }
        _ => format!(
            "  Its numbers are whole. To get the sheet back, with these taken off and nothing else:\n      {back}"
        ),
    };
    format!("{saved}\n{rest}")
}

/// What is wrong with a line, and where it is.
fn at_line(source: &Source, line: u64, refusal: Refusal, reason: &Reason) -> String {
    let [found, expected] = reason.lines();
    format!("{source}, line {line}: {refusal}\n{found}\n{expected}")
}

#[cfg(test)]
mod tests {
    use super::*;

    /// A sheet.
    const SHEET: &str = "\
sheet\tx0000000000000001
state\tx0000000000000002\tx0000000000000003\tx0000000000000001\tx0000000000000001\
\tx0000000000000000\tx0000000000400000\tx0000000000005010\tx0000000000001ff0\
\tx0000000000000000\tx00000000ffffffff
page\tx0000000000001001
";

    /// What is said of a text.
    fn said(text: &str) -> Vec<String> {
        let source = Source::File("a.txt".into());
        let error = Sheet::read(text.as_bytes()).unwrap_err();
        let message = message(&source, text.as_bytes(), error);
        message.lines().map(str::to_string).collect()
    }

    #[test]
    fn a_line_with_its_reason() {
        assert_eq!(
            said(&SHEET.replace("x0000000000001001", "7E12")),
            [
                "a.txt, line 3: refusal 9: the text is no run sheet",
                "  there: field 2 (entry) `7E12`",
                "  expected: x and 16 hexadecimal digits, lower case",
            ]
        );
        assert_eq!(
            said(&SHEET.replace("1001", "1000")),
            [
                "a.txt, line 3: refusal 2: a page's kind is none of 1, 2, 3",
                "  there: kind 0x0 in entry 0x1000",
                "  expected: 1 (user shadow), 2 (supervisor shadow) or 3 (ordinary)",
            ]
        );
    }

    #[test]
    fn a_text_that_a_spreadsheet_has_saved() {
        let lines = said(&SHEET.replace("x0000000000000001\n", "x0000000000000001\t\t\t\n"));
        assert_eq!(
            lines[0],
            "a.txt, line 1: refusal 9: the text is no run sheet"
        );
        assert_eq!(lines[1], "  there: 3 tabs at the end of the line");
        assert!(lines[3].starts_with("  A spreadsheet has saved this text"));
        assert!(lines[4].starts_with("  Its numbers are whole."));
        assert_eq!(lines[5], "      replay --restore a.txt >NEW");
        let lines = said(&SHEET.replace('\n', "\r\n"));
        assert_eq!(
            lines[1],
            "  there: 1 carriage return at the end of the line"
        );
        let source = Source::Input;
        let text = b"\t\r\n";
        let error = Sheet::read(text).unwrap_err();
        let lines = message(&source, text, error);
        assert!(!lines.contains("spreadsheet"), "{lines}");
    }

    #[test]
    fn one_that_has_something_else_wrong_with_it_too() {
        let text = SHEET.replace('\n', "\t\n").replace("1001", "1A01");
        let lines = said(&text);
        assert_eq!(
            lines[0],
            "a.txt, line 1: refusal 9: the text is no run sheet"
        );
        assert_eq!(lines[4], "  Even without these it is no sheet:");
        assert_eq!(
            lines[5],
            "a.txt, line 3: refusal 9: the text is no run sheet"
        );
        assert_eq!(lines[6], "  there: field 2 (entry) `x0000000000001A01`");
        assert_eq!(lines.len(), 8);
    }

    #[test]
    fn numbers_that_are_whole_and_refused() {
        let text = SHEET.replace("1001", "1009").replace('\n', "\t\n");
        let lines = said(&text);
        assert!(lines[4].starts_with("  Its numbers are whole."));
    }

    #[test]
    fn whatever_the_text_is_something_is_said() {
        for place in 0..SHEET.len() {
            for byte in *b"\t\n\r\0x9A\xff" {
                let mut text = SHEET.as_bytes().to_vec();
                text[place] = byte;
                let Err(error) = Sheet::read(&text) else {
                    continue;
                };
                let message = message(&Source::Input, &text, error);
                let wanted = format!(": refusal {}: ", error.refusal.number());
                assert!(message.contains(&wanted), "{message}");
                assert!(message.contains("\n  expected: "), "{message}");
            }
        }
    }
}
