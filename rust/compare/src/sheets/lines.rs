//! Sheets as lines, made without looking for refusals.

use crate::case::{Case, PAGE};
use driftpocket_reference::pages::PAGE_BYTES;
use driftpocket_reference::runs::WORDS;

/// A line without its line feed: a name and numbers.
pub fn line(name: &str, numbers: &[u64]) -> String {
    let numbers = numbers.iter().map(|number| format!("\tx{number:016x}"));
    [name.to_string()].into_iter().chain(numbers).collect()
}

/// The lines of a run, its pages by their addresses. If the run is refused they
/// may be a sheet or not.
pub fn lines_of(case: &Case) -> Vec<String> {
    let mut pages: Vec<(u64, &[u8])> = Vec::new();
    for (place, &entry) in case.pages.iter().enumerate() {
        let rest = case.bytes.get(place * PAGE..).unwrap_or_default();
        pages.push((entry, &rest[..rest.len().min(PAGE)]));
    }
    pages.sort_by_key(|(entry, _)| entry / PAGE_BYTES);
    let mut lines = vec![line("sheet", &[1]), line("state", &case.state)];
    lines.extend(pages.iter().map(|&(entry, _)| line("page", &[entry])));
    for (entry, bytes) in pages {
        let start = entry / PAGE_BYTES * PAGE_BYTES;
        for (place, &eight) in bytes.as_chunks().0.iter().enumerate() {
            let value = u64::from_le_bytes(eight);
            if value != 0 {
                lines.push(line("word", &[start + 8 * place as u64, value]));
            }
        }
    }
    lines.extend(case.words.chunks(WORDS).map(|words| line("do", words)));
    lines
}

/// Lines as a text, each with its line feed.
pub fn text<L: AsRef<str>>(lines: &[L]) -> Vec<u8> {
    let lines = lines.iter().map(|line| format!("{}\n", line.as_ref()));
    lines.collect::<String>().into_bytes()
}

/// Tabs for the bars that stand for them where lines are written out.
pub fn tabs(shown: &str) -> String {
    shown.replace('|', "\t")
}
