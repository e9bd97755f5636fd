//! Texts of run sheets that several tests start from, made without the library.

use crate::common::user;

/// A line of a sheet.
pub fn line(word: &str, numbers: &[u64]) -> String {
    let fields: String = numbers
        .iter()
        .map(|number| format!("\tx{number:016x}"))
        .collect();
    format!("{word}{fields}\n")
}

/// The lines of a sheet: two pages, a token on the second, and a switch to it.
pub fn lines() -> Vec<String> {
    vec![
        line("sheet", &[1]),
        line("state", &user(0x1ff0).to_words()),
        line("page", &[0x1001]),
        line("page", &[0x2001]),
        line("word", &[0x2ff0, 0x2ff9]),
        line("do", &[3, 5, 0x2ff0, 0]),
    ]
}
