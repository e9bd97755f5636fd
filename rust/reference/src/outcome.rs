//! The outcome of a sheet: the answer that its run gave, and the run that is
//! left, as a sheet.

use crate::runs::{Input, WORDS, run};
use crate::sheet::line::print;
use crate::sheet::{NO_ROOM, NO_SHEET, Sheet};

/// The bytes of the longest text that is read: that of 1,024 instructions and
/// of 16 pages without eight zero bytes.
pub const LONGEST_TEXT: usize = 413_250;

/// What comes of a text: a line `answer` and the sheet of what is left of the
/// run, or nothing but a line `refused`.
pub fn outcome(text: &[u8]) -> String {
    match read(text) {
        Ok(sheet) => answer(&sheet),
        Err((refusal, line)) => print("refused", &[refusal, line]),
    }
}

/// The sheet that a text is, or the refusal with its line.
fn read(text: &[u8]) -> Result<Sheet, (u64, u64)> {
    if text.len() > LONGEST_TEXT {
        return Err((NO_ROOM, 0));
    }
    let sheet = Sheet::read(text).map_err(|line| (NO_SHEET, line))?;
    sheet.admit().map_err(|refusal| (refusal, 0))?;
    Ok(sheet)
}

/// The answer of the run, and the sheet of what is left.
fn answer(sheet: &Sheet) -> String {
    let (pages, words) = (sheet.entries(), sheet.list.as_flattened());
    let report = run(&Input {
        state: &sheet.state,
        pages: &pages,
        bytes: &sheet.bytes(),
        words,
    });
    let first = print(
        "answer",
        &[
            report.count,
            report.ending.refusal(),
            report.ending.vector(),
            report.ending.error_code(),
            report.ending.address(),
        ],
    );
    let left = &words[WORDS * report.count as usize..];
    let rest = Sheet::gather(&report.moment.state, &pages, &report.moment.bytes, left)
        .expect("a run leaves what can be run");
    first + &rest.print()
}

#[cfg(test)]
mod tests {
    use super::*;

    /// The lines of a sheet in mode 2 at CPL 3 with the page 2000 of kind 1,
    /// SSP 2FF0 and 7 there. Tabs are shown as `|`.
    const SHEET: [&str; 4] = [
        "sheet|x0000000000000001",
        "state|x0000000000000002|x0000000000000003|x0000000000000001|x0000000000000001|x0000000000000000|\
x0000000000400000|x0000000000005010|x0000000000002ff0|x0000000000000000|x00000000ffffffff",
        "page|x0000000000002001",
        "word|x0000000000002ff0|x0000000000000007",
    ];

    /// INCSSPQ of two elements, four bytes long.
    const TWO: &str = "do|x0000000000000002|x0000000000000004|x0000000000000000|x0000000000000002";

    /// The state after it.
    const MOVED: &str = "state|x0000000000000002|x0000000000000003|x0000000000000001|x0000000000000001|x0000000000000000|\
x0000000000400004|x0000000000005010|x0000000000003000|x0000000000000000|x00000000ffffffff";

    /// A text of these lines.
    fn text(lines: &[&str]) -> String {
        let shown: String = lines.iter().map(|line| format!("{line}\n")).collect();
        shown.replace('|', "\t")
    }

    /// A line of these numbers, and these lines.
    fn with(first: &str, numbers: &[u64], lines: &[&str]) -> String {
        print(first, numbers) + &text(lines)
    }

    #[test]
    fn what_completed_is_gone_and_what_did_not_is_left() {
        let [sheet, state, page, word] = SHEET;
        let bare = text(&SHEET);
        let completed = with("answer", &[0; 5], &SHEET);
        assert_eq!(outcome(bare.as_bytes()), completed);
        let run = text(&[sheet, state, page, word, TWO, TWO, TWO]);
        let left = [sheet, MOVED, page, word, TWO, TWO];
        let faulted = with("answer", &[1, 0, 14, 0, 0x3000], &left);
        assert_eq!(outcome(run.as_bytes()), faulted);
        let again = with("answer", &[0, 0, 14, 0, 0x3000], &left);
        assert_eq!(outcome(text(&left).as_bytes()), again);
    }

    #[test]
    fn refusal_6_has_an_answer() {
        let [sheet, state, page, word] = SHEET;
        let unknown = "do|x0000000000000000|x0000000000000004|x0000000000000000|x0000000000000000";
        let run = text(&[sheet, state, page, word, TWO, unknown]);
        let left = [sheet, MOVED, page, word, unknown];
        let refused = with("answer", &[1, 6, 0, 0, 0], &left);
        assert_eq!(outcome(run.as_bytes()), refused);
    }

    #[test]
    fn a_text_that_is_not_read() {
        let [sheet, state, page, _] = SHEET;
        assert_eq!(outcome(b""), with("refused", &[9, 1], &[]));
        let twice = text(&[sheet, state, page, page]);
        assert_eq!(outcome(twice.as_bytes()), with("refused", &[9, 4], &[]));
        let no_kind = text(&[sheet, state, "page|x0000000000002000"]);
        assert_eq!(outcome(no_kind.as_bytes()), with("refused", &[2, 0], &[]));
        let odd = text(&[sheet, &state.replace("2ff0", "2ff2")]);
        assert_eq!(outcome(odd.as_bytes()), with("refused", &[5, 0], &[]));
    }

    /// The longest text that can be read, its instructions of unknown code.
    fn longest() -> String {
        let list = vec![[u64::MAX; WORDS]; 1024].concat();
        let pages: Vec<u64> = (1..=16).map(|page| page * 4096 + 1).collect();
        let state = [2, 3, 1, 1, 0, 0, 0, 0, 0, 0];
        let full = Sheet::gather(&state, &pages, &[1; 16 * 4096], &list);
        full.unwrap().print()
    }

    #[test]
    fn a_longer_text_is_refused_whatever_it_holds() {
        let longest = longest();
        assert_eq!(longest.len(), LONGEST_TEXT);
        let refused = with("answer", &[0, 6, 0, 0, 0], &[]) + &longest;
        assert_eq!(outcome(longest.as_bytes()), refused);
        let longer = longest + "\n";
        assert_eq!(outcome(longer.as_bytes()), with("refused", &[8, 0], &[]));
        let as_long = &longer.as_bytes()[1..];
        assert_eq!(outcome(as_long), with("refused", &[9, 1], &[]));
    }
}
