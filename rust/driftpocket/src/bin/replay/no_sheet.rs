//! Why a text is no sheet, for a person: what stands in the line that the
//! library names, and what was expected there.
//!
//! This judges nothing, and the line is the library's. Where nothing is found
//! to be wrong with it, the line is shown with all that could stand there.

use crate::lines::{KINDS, Kind, body, fields, lines, number, numbers, shown};
use crate::reason::Reason;

/// Why a text cannot have this line, counted from 1, after the lines before it.
pub fn reason(text: &[u8], line: u64) -> Reason {
    let place = usize::try_from(line.saturating_sub(1)).unwrap_or(usize::MAX);
    let before = Before::of(text, place);
    match lines(text).nth(place) {
        Some(line) => before
            .wrong(line)
            .unwrap_or_else(|| Reason::new(whole(line), before.may_come())),
        None => Reason::new("the end of the text".to_string(), before.may_come()),
    }
}

/// A line as it stands there.
fn whole(line: &[u8]) -> String {
    match body(line) {
        [] => "an empty line".to_string(),
        body => shown(body),
    }
}

/// What the lines before have settled.
#[derive(Default)]
struct Before {
    /// How many there are.
    count: usize,
    /// The place of the last one's kind.
    kind: usize,
    /// The addresses of the pages.
    pages: Vec<u64>,
    /// The address of the last `word` line.
    word: Option<u64>,
}

impl Before {
    /// What the first lines settle.
    fn of(text: &[u8], count: usize) -> Before {
        let mut before = Before::default();
        for line in lines(text).take(count) {
            before.add(line);
        }
        before
    }

    /// Adds a line.
    fn add(&mut self, line: &[u8]) {
        let (word, numbers) = numbers(line);
        self.count += 1;
        let kind = KINDS.iter().position(|kind| kind.word.as_bytes() == word);
        self.kind = kind.unwrap_or(self.kind);
        match (word, numbers.as_slice()) {
            (b"page", [entry]) => self.pages.push(page_of(*entry)),
            (b"word", [address, _]) => self.word = Some(*address),
            _ => {}
        }
    }

    /// The kinds that may come next.
    fn kinds(&self) -> &'static [Kind] {
        match self.count {
            0 => &KINDS[..1],
            1 => &KINDS[1..2],
            _ => &KINDS[self.kind.max(2)..],
        }
    }

    /// All that may come next, in words.
    fn may_come(&self) -> String {
        let kinds = self.kinds();
        match kinds {
            [kind] if self.count < 2 => with_numbers(kind),
            _ => format!(
                "{} with its numbers, parted by single tabs; or the end of the text",
                any_of(kinds)
            ),
        }
    }

    /// What is wrong with a line that comes next, if it is found.
    fn wrong(&self, line: &[u8]) -> Option<Reason> {
        let fields = fields(line);
        let (word, rest) = fields.split_first()?;
        let kind = self
            .kinds()
            .iter()
            .find(|kind| kind.word.as_bytes() == *word)?;
        if rest.len() != kind.numbers.len() {
            let found = format!("`{}` and {} more fields", kind.word, rest.len());
            return Some(Reason::new(found, with_numbers(kind)));
        }
        let mut values = Vec::new();
        for (place, field) in rest.iter().enumerate() {
            match number(field) {
                Some(value) => values.push(value),
                None => return Some(no_number(kind, place, field)),
            }
        }
        self.against_the_rules(kind, &values)
            .or_else(|| unended(line))
    }

    /// What is wrong with the numbers of a line.
    fn against_the_rules(&self, kind: &Kind, values: &[u64]) -> Option<Reason> {
        let wrong = |place: usize, expected: String| {
            let found = format!("{} {:#x}", kind.field(place), values[place]);
            Some(Reason::new(found, expected))
        };
        match (kind.word, values) {
            ("sheet", [version]) if *version != 1 => wrong(0, "version 1".to_string()),
            ("page", [entry]) => {
                let last = self.pages.last().filter(|last| page_of(*entry) <= **last)?;
                wrong(
                    0,
                    format!("a page above {last:#x}: pages ascend, none stands twice"),
                )
            }
            ("word", [address, value]) => {
                let (place, expected) = self.word_rule(*address, *value)?;
                wrong(place, expected)
            }
            _ => None,
        }
    }

    /// What a `word` line breaks: the place of the number, and what was
    /// expected of it.
    fn word_rule(&self, address: u64, value: u64) -> Option<(usize, String)> {
        if !address.is_multiple_of(8) {
            Some((0, "a multiple of 8".to_string()))
        } else if !self.pages.contains(&page_of(address)) {
            Some((0, "an address on one of the pages".to_string()))
        } else if let Some(last) = self.word.filter(|last| address <= *last) {
            Some((0, format!("an address above {last:#x}: words ascend")))
        } else if value == 0 {
            Some((
                1,
                "not 0: where all 8 bytes are 0 no line stands".to_string(),
            ))
        } else {
            None
        }
    }
}

/// The address of the page with this entry, or with this byte.
fn page_of(address: u64) -> u64 {
    address & !0xfff
}

/// The words of some kinds of lines.
fn any_of(kinds: &[Kind]) -> String {
    let words = kinds.iter().map(|kind| format!("`{}`", kind.word));
    let words: Vec<_> = words.collect();
    match words.split_last() {
        Some((last, [])) => last.clone(),
        Some((last, others)) => format!("{} or {last}", others.join(", ")),
        None => String::new(),
    }
}

/// A kind of line in words.
fn with_numbers(kind: &Kind) -> String {
    let count = kind.numbers.len();
    let plural = if count == 1 { "" } else { "s" };
    let names = kind.numbers.join(", ");
    format!(
        "`{}` and {count} number{plural} ({names}), parted by single tabs",
        kind.word
    )
}

/// A field that has not the form of a number.
fn no_number(kind: &Kind, place: usize, field: &[u8]) -> Reason {
    let found = format!("{} {}", kind.field(place), shown(field));
    Reason::new(found, "x and 16 hexadecimal digits, lower case")
}

/// A line that is right but has no line feed at its end.
fn unended(line: &[u8]) -> Option<Reason> {
    let found = || "a last line without a line feed".to_string();
    (!line.ends_with(b"\n")).then(|| Reason::new(found(), "a line feed at its end"))
}

#[cfg(test)]
mod tests {
    use super::*;
    use driftpocket::Sheet;

    /// A sheet of all kinds of lines.
    const SHEET: &str = "\
sheet\tx0000000000000001
state\tx0000000000000002\tx0000000000000003\tx0000000000000001\tx0000000000000001\
\tx0000000000000000\tx0000000000400000\tx0000000000005010\tx0000000000001ff0\
\tx0000000000000000\tx00000000ffffffff
page\tx0000000000001001
page\tx0000000000002001
word\tx0000000000001ff8\tx0000000000000001
word\tx0000000000002ff0\tx0000000000002ff9
do\tx0000000000000003\tx0000000000000005\tx0000000000002ff0\tx0000000000000000
";

    /// The line that the library refuses, where the sheet has one text in place
    /// of another, and what is said of it.
    fn said(old: &str, new: &str) -> (u64, String, String) {
        assert!(SHEET.contains(old), "{old}");
        let text = SHEET.replacen(old, new, 1);
        let line = Sheet::read(text.as_bytes()).unwrap_err().line.unwrap();
        let Reason { found, expected } = reason(text.as_bytes(), line);
        (line, found, expected)
    }

    /// Holds what is said to what is wanted.
    fn expect(old: &str, new: &str, line: u64, found: &str, expected: &str) {
        let wanted = (line, found.to_string(), expected.to_string());
        assert_eq!(said(old, new), wanted, "{old} -> {new}");
    }

    #[test]
    fn the_text_is_a_sheet() {
        assert!(Sheet::read(SHEET.as_bytes()).is_ok());
    }

    #[test]
    fn words_and_fields() {
        let head = "`sheet` and 1 number (version), parted by single tabs";
        expect("sheet", "Sheet", 1, "`Sheet\\tx0000000000000001`", head);
        expect("sheet\t", "sheet ", 1, "`sheet x0000000000000001`", head);
        expect("sheet\t", "sheet\t\t", 1, "`sheet` and 2 more fields", head);
        let any = "`page`, `word` or `do` with its numbers, parted by single tabs; or the end of the text";
        expect("page", "\npage", 3, "an empty line", any);
        let late = "`word` or `do` with its numbers, parted by single tabs; or the end of the text";
        let shown = "`page\\tx0000000000000003\\tx0000000000000005\\tx0000000000002ff` ..";
        expect("do", "page", 7, shown, late);
        let act = "`do` and 4 numbers (code, length, A, B), parted by single tabs";
        let last = "\tx0000000000000000\n";
        expect(last, "\n", 7, "`do` and 3 more fields", act);
    }

    #[test]
    fn forms_of_numbers() {
        let form = "x and 16 hexadecimal digits, lower case";
        let (old, new) = ("x0000000000400000", "7E12");
        expect(old, new, 2, "field 7 (IP) `7E12`", form);
        let (old, new) = ("x0000000000001ff8", "x0000000000001FF8");
        let found = "field 2 (address) `x0000000000001FF8`";
        expect(old, new, 5, found, form);
        let old = "x0000000000000005";
        expect(old, "", 7, "field 3 (length) ``", form);
    }

    #[test]
    fn rules_of_numbers() {
        let (old, new) = ("0001\nstate", "0002\nstate");
        expect(old, new, 1, "field 2 (version) 0x2", "version 1");
        let above = "a page above 0x1000: pages ascend, none stands twice";
        expect("2001", "1002", 4, "field 2 (entry) 0x1002", above);
        let address = |new: &str, expected: &str| {
            let found = format!("field 2 (address) 0x{new}");
            expect("2ff0", new, 6, &found, expected);
        };
        address("2ff4", "a multiple of 8");
        address("3ff0", "an address on one of the pages");
        address("1ff8", "an address above 0x1ff8: words ascend");
        let zero = "not 0: where all 8 bytes are 0 no line stands";
        expect("2ff9", "0000", 6, "field 3 (value) 0x0", zero);
    }

    #[test]
    fn texts_that_end_too_soon() {
        let state = reason(SHEET.as_bytes(), 2).expected;
        assert!(state.starts_with("`state` and 10 numbers (mode, CPL, "));
        let (line, found, expected) = said(&SHEET[24..], "");
        assert_eq!((line, found.as_str()), (2, "the end of the text"));
        assert_eq!(expected, state);
        let (line, found, _) = said("0\n", "0");
        let unended = "a last line without a line feed";
        assert_eq!((line, found.as_str()), (7, unended));
        assert_eq!(reason(b"", 1).found, "the end of the text");
    }

    /// The first line that this module finds something wrong with.
    fn first_wrong(text: &[u8]) -> Option<u64> {
        let mut before = Before::default();
        for (place, line) in (1..).zip(lines(text)) {
            let word = fields(line)[0];
            let mut kinds = before.kinds().iter();
            let may_come = kinds.any(|kind| kind.word.as_bytes() == word);
            if !may_come || before.wrong(line).is_some() {
                return Some(place);
            }
            before.add(line);
        }
        (before.count < 2).then_some(before.count as u64 + 1)
    }

    /// Texts that differ a little from the sheet.
    fn others() -> Vec<Vec<u8>> {
        let text = SHEET.as_bytes();
        let mut others = Vec::new();
        for place in 0..text.len() {
            others.push([&text[..place], &text[place + 1..]].concat());
            others.push(text[..place].to_vec());
            for byte in *b"\t\n\rx0189afA \xff" {
                others.push([&text[..place], &[byte], &text[place..]].concat());
                others.push([&text[..place], &[byte], &text[place + 1..]].concat());
            }
        }
        let all: Vec<_> = lines(text).collect();
        for first in 0..all.len() {
            for second in 0..all.len() {
                let mut moved = all.clone();
                let line = moved.remove(first);
                moved.insert(second, line);
                others.push(moved.concat());
                moved[first] = line;
                others.push(moved.concat());
            }
        }
        others
    }

    #[test]
    fn the_line_that_the_library_names_is_the_first_that_is_found_wrong() {
        let (mut sheets, mut none) = (0, 0);
        for text in others() {
            let named = Sheet::read(&text).err().and_then(|error| error.line);
            assert_eq!(first_wrong(&text), named, "{}", text.escape_ascii());
            sheets += usize::from(named.is_none());
            none += usize::from(named.is_some());
        }
        assert!(sheets > 500 && none > 5000, "{sheets} {none}");
    }

    #[test]
    fn any_line_of_any_text_has_a_reason() {
        let texts: [&[u8]; 5] = [
            b"",
            b"\n",
            b"\xff\xfe\t\t",
            b"page\nword\ndo\n",
            SHEET.as_bytes(),
        ];
        for text in texts {
            for line in [0, 1, 2, 3, 5, 7, 8, 9, u64::MAX] {
                assert!(!reason(text, line).expected.is_empty());
            }
        }
    }
}
