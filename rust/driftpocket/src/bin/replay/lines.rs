//! The lines of a text, as far as is needed to talk about them to a person.
//!
//! Nothing here judges: whether a text is a sheet is the library's word alone.

/// How many characters are shown of what stands in a text.
const MOST_SHOWN: usize = 60;

/// A kind of line: its first field, and what the numbers after it are.
pub struct Kind {
    /// The first field.
    pub word: &'static str,
    /// The names of the numbers.
    pub numbers: &'static [&'static str],
}

impl Kind {
    /// What the field of the number with this place is called. The word is
    /// field 1.
    pub fn field(&self, place: usize) -> String {
        let name = self.numbers.get(place).unwrap_or(&"none");
        format!("field {} ({name})", place + 2)
    }
}

/// All kinds, in the order in which a sheet has them.
pub const KINDS: [Kind; 5] = [
    Kind {
        word: "sheet",
        numbers: &["version"],
    },
    Kind {
        word: "state",
        numbers: &[
            "mode",
            "CPL",
            "CR4.CET",
            "U_CET",
            "S_CET",
            "IP",
            "SP",
            "SSP",
            "RFLAGS",
            "code limit",
        ],
    },
    Kind {
        word: "page",
        numbers: &["entry"],
    },
    Kind {
        word: "word",
        numbers: &["address", "value"],
    },
    Kind {
        word: "do",
        numbers: &["code", "length", "A", "B"],
    },
];

/// The lines of a text, each with the line feed at its end, if it has one.
pub fn lines(text: &[u8]) -> impl Iterator<Item = &[u8]> {
    text.split_inclusive(|byte| *byte == b'\n')
}

/// A line without its line feed.
pub fn body(line: &[u8]) -> &[u8] {
    line.strip_suffix(b"\n").unwrap_or(line)
}

/// The fields of a line.
pub fn fields(line: &[u8]) -> Vec<&[u8]> {
    body(line).split(|byte| *byte == b'\t').collect()
}

/// The number of a field, if it has the form of one.
pub fn number(field: &[u8]) -> Option<u64> {
    let digits = field.strip_prefix(b"x")?;
    let is_digit = |byte: &u8| matches!(byte, b'0'..=b'9' | b'a'..=b'f');
    if digits.len() != 16 || !digits.iter().all(is_digit) {
        return None;
    }
    u64::from_str_radix(str::from_utf8(digits).ok()?, 16).ok()
}

/// The word of a line and its numbers, without those that are none.
pub fn numbers(line: &[u8]) -> (&[u8], Vec<u64>) {
    let fields = fields(line);
    let numbers = fields.iter().skip(1).filter_map(|field| number(field));
    (fields[0], numbers.collect())
}

/// Bytes of a text for a person: nothing but printable characters, and not too
/// many of them.
pub fn shown(bytes: &[u8]) -> String {
    let mut characters = bytes.escape_ascii().map(char::from);
    let start: String = characters.by_ref().take(MOST_SHOWN).collect();
    match characters.next() {
        Some(_) => format!("`{start}` .."),
        None => format!("`{start}`"),
    }
}

#[cfg(test)]
mod tests {
    use super::*;

    #[test]
    fn numbers_have_one_form() {
        assert_eq!(number(b"x00000000000000ff"), Some(0xff));
        assert_eq!(number(b"xffffffffffffffff"), Some(u64::MAX));
        let others: [&[u8]; 8] = [
            b"",
            b"x",
            b"x00000000000000FF",
            b"X00000000000000ff",
            b"x0000000000000ff",
            b"x000000000000000ff",
            b"x+0000000000000ff",
            b"7E12",
        ];
        for other in others {
            assert_eq!(number(other), None, "{}", other.escape_ascii());
        }
    }

    #[test]
    fn lines_and_fields() {
        let all: Vec<_> = lines(b"a\tb\n\nc").collect();
        assert_eq!(all, [b"a\tb\n".as_slice(), b"\n", b"c"]);
        assert_eq!(fields(all[0]), [b"a", b"b"]);
        assert_eq!(fields(all[1]), [b""]);
        assert_eq!(lines(b"").count(), 0);
        let (word, found) = numbers(b"page\tx0000000000001001\t7E12\n");
        assert_eq!((word, found), (b"page".as_slice(), vec![0x1001]));
    }

    #[test]
    fn what_is_shown_is_printable_and_short() {
        assert_eq!(shown(b"a\tb\xff\x1b"), "`a\\tb\\xff\\x1b`");
        assert_eq!(shown(&[b'a'; 60]), format!("`{}`", "a".repeat(60)));
        assert_eq!(shown(&[b'a'; 61]), format!("`{}` ..", "a".repeat(60)));
    }
}
