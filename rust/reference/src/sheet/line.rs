//! One line of a sheet as a value, from bytes and back.

use crate::processor::FIELDS;
use crate::runs::WORDS;
use std::fmt;

/// A line that has the right form, wherever it stands.
#[derive(Clone, Debug, PartialEq, Eq)]
pub(super) enum Line {
    /// The version of the sheet.
    Sheet(u64),
    /// The fields of the state.
    State([u64; FIELDS]),
    /// An entry of the page list.
    Page(u64),
    /// What eight bytes hold.
    Word {
        /// Where the first of them lies.
        address: u64,
        /// The number that they make.
        value: u64,
    },
    /// The words of an instruction.
    Do([u64; WORDS]),
}

impl Line {
    /// Understands a piece of text that should end with its line feed.
    ///
    /// The standard library is generous with blanks and digits. What it lets
    /// pass too much is caught in the end: a line must print as the same bytes.
    pub(super) fn read(piece: &[u8]) -> Option<Line> {
        let text = str::from_utf8(piece).ok()?;
        let mut fields = text.split_whitespace();
        let name = fields.next()?;
        let numbers = fields.map(read_number).collect::<Option<Vec<u64>>>()?;
        let line = match (name, numbers.as_slice()) {
            ("sheet", &[version]) => Line::Sheet(version),
            ("state", fields) => Line::State(fields.try_into().ok()?),
            ("page", &[entry]) => Line::Page(entry),
            ("word", &[address, value]) => Line::Word { address, value },
            ("do", words) => Line::Do(words.try_into().ok()?),
            _ => return None,
        };
        (line.to_string() == text).then_some(line)
    }
}

/// A number after its `x`, in any form that hexadecimal digits allow.
fn read_number(field: &str) -> Option<u64> {
    u64::from_str_radix(field.strip_prefix('x')?, 16).ok()
}

impl fmt::Display for Line {
    /// The bytes of the line, its line feed among them.
    fn fmt(&self, output: &mut fmt::Formatter) -> fmt::Result {
        let text = match self {
            Line::Sheet(version) => print("sheet", &[*version]),
            Line::State(fields) => print("state", fields),
            Line::Page(entry) => print("page", &[*entry]),
            Line::Word { address, value } => print("word", &[*address, *value]),
            Line::Do(words) => print("do", words),
        };
        output.write_str(&text)
    }
}

/// A name and its numbers as a line, its line feed among them.
pub(crate) fn print(name: &str, numbers: &[u64]) -> String {
    let fields: String = numbers.iter().map(|one| format!("\tx{one:016x}")).collect();
    format!("{name}{fields}\n")
}

#[cfg(test)]
mod tests {
    use super::*;

    #[test]
    fn every_line_has_one_form() {
        for (line, text) in [
            (Line::Sheet(1), "sheet\tx0000000000000001\n"),
            (Line::Page(0x1003), "page\tx0000000000001003\n"),
            (
                Line::Word {
                    address: u64::MAX - 7,
                    value: 0xab,
                },
                "word\txfffffffffffffff8\tx00000000000000ab\n",
            ),
            (
                Line::Do([8, 5, 0xdead_beef, 0]),
                "do\tx0000000000000008\tx0000000000000005\tx00000000deadbeef\tx0000000000000000\n",
            ),
        ] {
            assert_eq!(line.to_string(), text);
            assert_eq!(Line::read(text.as_bytes()), Some(line));
        }
        let state = Line::State(std::array::from_fn(|field| field as u64));
        let text = state.to_string();
        assert_eq!(text.len(), 5 + 10 * 18 + 1);
        assert_eq!(Line::read(text.as_bytes()), Some(state));
    }

    #[test]
    fn what_is_generously_understood_is_still_refused() {
        for text in [
            "",
            "\n",
            "page\tx0000000000001001",
            "page\tx0000000000001001\r\n",
            "page\tx0000000000001001\n\n",
            "page\tx0000000000001001\t\n",
            "page\tx0000000000001001 \n",
            " page\tx0000000000001001\n",
            "page\t\tx0000000000001001\n",
            "page x0000000000001001\n",
            "page\u{b}x0000000000001001\n",
            "page\u{3000}x0000000000001001\n",
            "\u{feff}page\tx0000000000001001\n",
            "page\tx000000000000100A\n",
            "page\tX0000000000001001\n",
            "page\t0000000000001001\n",
            "page\tx+000000000001001\n",
            "page\tx000000000001001\n",
            "page\tx00000000000001001\n",
            "page\tx10000000000001001\n",
            "page\tx\n",
            "page\n",
            "page\tx0000000000001001\tx0000000000001001\n",
            "Page\tx0000000000001001\n",
            "pages\tx0000000000001001\n",
            "word\tx0000000000001001\n",
            "do\tx0000000000000001\tx0000000000000001\tx0000000000000001\n",
        ] {
            assert_eq!(Line::read(text.as_bytes()), None, "{text:?}");
        }
        assert_eq!(Line::read(b"page\tx000000000000100\xff\n"), None);
    }
}
