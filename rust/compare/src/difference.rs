//! Two sightings side by side, and only what differs.

use crate::case::{PAGE, Seen};
use std::fmt::Write;

/// The names of the fields of a state.
const FIELDS: [&str; 10] = [
    "mode",
    "CPL",
    "CR4.CET",
    "U_CET",
    "S_CET",
    "IP",
    "SP",
    "SSP",
    "RFLAGS",
    "code limit",
];

/// The names of the words of a report.
const REPORT: [&str; 5] = ["count", "refusal", "vector", "error code", "address"];

/// The most bytes that are listed.
const MOST_BYTES: usize = 16;

/// A sighting with the name of the one who saw it.
pub type Named<'seen> = (&'seen str, &'seen Seen);

/// What differs between two sightings, one line for each, or nothing.
pub fn explain(left: Named, right: Named) -> Option<String> {
    if left.1 == right.1 {
        return None;
    }
    let mut text = format!("what differs ({} | {}):\n", left.0, right.0);
    let (left, right) = (left.1, right.1);
    line(&mut text, "returned", left.returned, right.returned);
    words(&mut text, &REPORT, "report", &left.report, &right.report);
    words(&mut text, &FIELDS, "state", &left.state, &right.state);
    bytes(&mut text, &left.bytes, &right.bytes);
    Some(text)
}

/// A line, if two numbers differ.
fn line(text: &mut String, name: &str, left: u64, right: u64) {
    if left != right {
        writeln!(text, "  {name}: {left:x} | {right:x}").expect("a string takes all");
    }
}

/// A line for each of two rows' words that differ.
fn words(text: &mut String, names: &[&str], row: &str, left: &[u64], right: &[u64]) {
    line(
        text,
        &format!("length of {row}"),
        left.len() as u64,
        right.len() as u64,
    );
    for (place, (&left, &right)) in left.iter().zip(right).enumerate() {
        let name = match names.get(place) {
            Some(name) => (*name).to_string(),
            None => format!("word {place} of {row}"),
        };
        line(text, &name, left, right);
    }
}

/// A line for each of the first bytes that differ.
fn bytes(text: &mut String, left: &[u8], right: &[u8]) {
    line(
        text,
        "length of bytes",
        left.len() as u64,
        right.len() as u64,
    );
    let pairs = left.iter().zip(right).enumerate();
    let mut differing = pairs.filter(|(_, (left, right))| left != right);
    for (place, (&left, &right)) in differing.by_ref().take(MOST_BYTES) {
        let name = format!(
            "byte {:x} of page {} of the list",
            place % PAGE,
            place / PAGE
        );
        line(text, &name, left.into(), right.into());
    }
    let more = differing.count();
    if more > 0 {
        writeln!(text, "  and {more} bytes more").expect("a string takes all");
    }
}

#[cfg(test)]
mod tests {
    use super::*;

    fn seen() -> Seen {
        Seen {
            returned: 0,
            report: vec![1, 0, 0, 0, 0, 77],
            state: vec![2; 10],
            bytes: vec![0; 8192],
        }
    }

    #[test]
    fn equal_sightings_need_no_words() {
        assert_eq!(explain(("one", &seen()), ("two", &seen())), None);
    }

    #[test]
    fn only_what_differs_is_named() {
        let mut other = seen();
        other.report[5] = 78;
        other.state[7] = 0x1ff8;
        other.bytes[0x1010..0x1022].fill(1);
        let text = explain(("one", &seen()), ("two", &other)).unwrap();
        let lines: Vec<&str> = text.lines().collect();
        assert_eq!(lines[0], "what differs (one | two):");
        assert_eq!(lines[1], "  word 5 of report: 4d | 4e");
        assert_eq!(lines[2], "  SSP: 2 | 1ff8");
        assert_eq!(lines[3], "  byte 10 of page 1 of the list: 0 | 1");
        assert_eq!(lines.last(), Some(&"  and 2 bytes more"));
        assert_eq!(lines.len(), 3 + 16 + 1);
    }
}
