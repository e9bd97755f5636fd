//! Where the run of a sheet breaks the rules, for a person: the line that the
//! refusal is about.
//!
//! This judges nothing. The refusal is the library's, and the text is a sheet.

use crate::lines::{KINDS, lines, numbers};
use crate::reason::Reason;
use driftpocket::{Kind, MOST_INSTRUCTIONS, MOST_PAGES, Refusal};

/// The line, counted from 1, that is refused, and why.
pub fn reason(text: &[u8], refusal: Refusal) -> Option<(u64, Reason)> {
    let most = |word, most| one_too_many(text, word, most);
    match refusal {
        Refusal::PageCount => most("page", MOST_PAGES),
        Refusal::PageKind => first(text, "page", |numbers| kind(numbers[0])),
        Refusal::PageAddress => first(text, "page", |numbers| address(numbers[0])),
        Refusal::State => first(text, "state", state),
        Refusal::Words => most("do", MOST_INSTRUCTIONS),
        _ => None,
    }
}

/// The lines of a word, with their places and numbers.
fn of_word<'text>(
    text: &'text [u8],
    word: &'static str,
) -> impl Iterator<Item = (u64, Vec<u64>)> + 'text {
    let lines = (1..).zip(lines(text));
    lines.filter_map(move |(place, line)| {
        let (found, numbers) = numbers(line);
        (found == word.as_bytes() && !numbers.is_empty()).then_some((place, numbers))
    })
}

/// The first line of a word that has something wrong with it.
fn first(
    text: &[u8],
    word: &'static str,
    wrong: fn(&[u64]) -> Option<Reason>,
) -> Option<(u64, Reason)> {
    of_word(text, word).find_map(|(line, numbers)| Some((line, wrong(&numbers)?)))
}

/// The first line of a word that is one too many.
fn one_too_many(text: &[u8], word: &'static str, most: usize) -> Option<(u64, Reason)> {
    let (line, _) = of_word(text, word).nth(most)?;
    let found = format!("`{word}` line number {}", most + 1);
    Some((line, Reason::new(found, format!("at most {most}"))))
}

/// A kind that is none.
fn kind(entry: u64) -> Option<Reason> {
    let number = entry & 0xfff;
    let found = format!("kind {number:#x} in entry {entry:#x}");
    let expected = "1 (user shadow), 2 (supervisor shadow) or 3 (ordinary)";
    match Kind::from_number(number) {
        Some(_) => None,
        None => Some(Reason::new(found, expected)),
    }
}

/// A page address that is not canonical.
fn address(entry: u64) -> Option<Reason> {
    let page = entry & !0xfff;
    let high = page >> 47;
    let found = format!("page address {page:#x}");
    let expected = "a canonical address: bits 63 to 47 all equal";
    (high != 0 && high != 0x1_ffff).then(|| Reason::new(found, expected))
}

/// A field of the state that is out of its range.
fn state(fields: &[u64]) -> Option<Reason> {
    let &[mode, cpl, cet, _, _, ip, sp, ssp, _, limit] = fields else {
        return None;
    };
    let wide = |number: u64| number >> 32 != 0;
    let narrow = |number| mode != 2 && wide(number);
    let tests = [
        (0, mode > 2, "0, 1 or 2"),
        (1, cpl > 3, "0 to 3"),
        (2, cet > 1, "0 or 1"),
        (5, narrow(ip), "below 2^32, since the mode is not 2"),
        (6, narrow(sp), "below 2^32, since the mode is not 2"),
        (7, narrow(ssp), "below 2^32, since the mode is not 2"),
        (7, ssp % 4 != 0, "a multiple of 4"),
        (9, wide(limit), "below 2^32"),
    ];
    let (place, _, expected) = tests.into_iter().find(|(_, wrong, _)| *wrong)?;
    let found = format!("{} {:#x}", KINDS[1].field(place), fields[place]);
    Some(Reason::new(found, expected))
}

#[cfg(test)]
mod tests {
    use super::*;
    use driftpocket::Sheet;

    /// A sheet with this state and these lines after it.
    fn text(state: [u64; 10], rest: &str) -> String {
        let fields: String = state.map(|field| format!("\tx{field:016x}")).concat();
        format!("sheet\tx0000000000000001\nstate{fields}\n{rest}")
    }

    /// The line, what stands there and what was expected, of what the library
    /// refuses.
    fn refused(text: &str) -> (u64, u64, String, String) {
        let refusal = Sheet::read(text.as_bytes()).unwrap_err().refusal;
        let (line, reason) = reason(text.as_bytes(), refusal).unwrap();
        (refusal.number(), line, reason.found, reason.expected)
    }

    /// A line of one number.
    fn page(entry: u64) -> String {
        format!("page\tx{entry:016x}\n")
    }

    #[test]
    fn every_field_that_has_a_range() {
        let good = [1, 3, 1, 1, 0, 0x40_0000, 0x5010, 0x1ff0, 0, 0xffff_ffff];
        let wrong = [
            (0, 3, "field 2 (mode) 0x3", "0, 1 or 2"),
            (1, 4, "field 3 (CPL) 0x4", "0 to 3"),
            (2, 2, "field 4 (CR4.CET) 0x2", "0 or 1"),
            (5, 1 << 32, "field 7 (IP) 0x100000000", "below 2^32"),
            (6, 1 << 32, "field 8 (SP) 0x100000000", "below 2^32"),
            (7, 1 << 32, "field 9 (SSP) 0x100000000", "below 2^32"),
            (7, 0x1ff2, "field 9 (SSP) 0x1ff2", "a multiple of 4"),
            (
                9,
                1 << 32,
                "field 11 (code limit) 0x100000000",
                "below 2^32",
            ),
        ];
        for (place, value, found, expected) in wrong {
            let mut state = good;
            state[place] = value;
            let (number, line, there, wanted) = refused(&text(state, ""));
            assert_eq!((number, line, there.as_str()), (5, 2, found));
            assert!(wanted.starts_with(expected), "{wanted}");
        }
    }

    #[test]
    fn pages_and_instructions() {
        let state = [0; 10];
        let (number, line, found, _) = refused(&text(state, &(page(1) + &page(0x1004))));
        assert_eq!((number, line), (2, 4));
        assert_eq!(found, "kind 0x4 in entry 0x1004");
        let (number, line, found, _) = refused(&text(state, &page(0x8000_0000_0003)));
        assert_eq!((number, line), (3, 3));
        assert_eq!(found, "page address 0x800000000000");
        let pages: String = (0..18).map(|place| page((place << 12) + 1)).collect();
        let (number, line, found, expected) = refused(&text(state, &pages));
        assert_eq!((number, line), (1, 19));
        assert_eq!(
            (found.as_str(), expected.as_str()),
            ("`page` line number 17", "at most 16")
        );
        let zeros = "\tx0000000000000000".repeat(4);
        let list = format!("do{zeros}\n").repeat(1026);
        let (number, line, found, _) = refused(&text(state, &list));
        assert_eq!((number, line), (7, 1027));
        assert_eq!(found, "`do` line number 1025");
    }

    #[test]
    fn other_refusals_have_no_line() {
        assert_eq!(reason(b"", Refusal::Room), None);
        assert_eq!(reason(b"", Refusal::State), None);
        assert_eq!(reason(b"state\tx\n", Refusal::State), None);
    }
}
