//! What the text of a sheet may be: rows with refusal and line written out by
//! hand. Tabs are shown as `|`.

use crate::case::Case;
use crate::sheets::lines::{tabs, text};
use crate::sheets::{Parts, Question, Rooms, SECOND, Sighting, WRITE_REPORT, explain};

/// A small sheet: two pages, three numbers on them, two instructions.
pub const SMALL: [&str; 9] = [
    "sheet|x0000000000000001",
    "state|x0000000000000002|x0000000000000003|x0000000000000001|x0000000000000001|x0000000000000000|\
     x0000000000400000|x0000000000005010|x0000000000001ff0|x0000000000000000|x00000000ffffffff",
    "page|x0000000000001001",
    "page|x0000000000005003",
    "word|x0000000000001008|x0000000000000001",
    "word|x0000000000001ff8|x00000000000a0000",
    "word|x0000000000005000|xfedcba9876543210",
    "do|x0000000000000002|x0000000000000005|x0000000000000000|x0000000000000001",
    "do|x0000000000000007|x0000000000000005|x0000000000000010|x0000000000000000",
];

/// How many lines of it are a sheet of their own, without pages.
pub const BARE: usize = 2;

/// The run of the small sheet.
pub fn small_run() -> Case {
    let mut bytes = vec![0; 2 * 4096];
    bytes[8] = 1;
    bytes[0xffa] = 0x0a;
    bytes[0x1000..0x1008].copy_from_slice(&[0x10, 0x32, 0x54, 0x76, 0x98, 0xba, 0xdc, 0xfe]);
    Case {
        state: vec![2, 3, 1, 1, 0, 0x40_0000, 0x5010, 0x1ff0, 0, 0xffff_ffff],
        pages: vec![0x1001, 0x5003],
        bytes,
        words: vec![2, 5, 0, 1, 7, 5, 0x10, 0],
        room: WRITE_REPORT,
    }
}

/// The lines of the small sheet, with their tabs.
pub fn small_lines() -> Vec<String> {
    SMALL.map(tabs).to_vec()
}

/// Room enough for the small sheet, with some left over in every buffer.
pub const ENOUGH: Rooms = Rooms {
    state: 12,
    pages: 3,
    bytes: 2 * 4096 + 9,
    words: 13,
    report: 7,
};

/// A question with what must be seen.
#[derive(Clone, Debug)]
pub struct Row {
    /// What it is about.
    pub name: String,
    /// The question.
    pub question: Question,
    /// What must be seen.
    pub wanted: Sighting,
}

impl Row {
    /// A question that changes the report only.
    pub fn reported(name: impl Into<String>, question: Question, report: &[u64]) -> Row {
        Row {
            name: name.into(),
            wanted: question.reported(report),
            question,
        }
    }

    /// A text that is no sheet from this line on.
    pub fn no_sheet(name: impl Into<String>, text: Vec<u8>, line: u64) -> Row {
        let rooms = ENOUGH;
        Row::reported(name, Question::Read { text, rooms }, &[9, line, 0, 0, 0])
    }

    /// A text that is read as this run.
    pub fn read(name: impl Into<String>, text: Vec<u8>, rooms: Rooms, run: &Case) -> Row {
        let counts = [run.pages.len(), run.bytes.len(), run.words.len()];
        let [pages, bytes, words] = counts.map(|count| count as u64);
        let question = Question::Read { text, rooms };
        let mut row = Row::reported(name, question, &[0, 0, pages, bytes, words]);
        lay(&mut row.wanted.state, &run.state);
        lay(&mut row.wanted.pages, &run.pages);
        lay(&mut row.wanted.bytes, &run.bytes);
        lay(&mut row.wanted.words, &run.words);
        row
    }

    /// A run that is written as this text.
    pub fn written(name: impl Into<String>, case: Case, room: usize, text: &[u8]) -> Row {
        let length = text.len() as u64;
        let mut row = Row::reported(name, Question::Write { case, room }, &[0, length]);
        lay(&mut row.wanted.bytes, text);
        row
    }

    /// Compares all three: what the rules say, what the second program says,
    /// what the part under test does.
    fn check(&self, parts: Parts) -> Option<String> {
        let wanted = ("by hand", &self.wanted);
        let foretold = explain(wanted, ("second program", &self.question.ask(SECOND)));
        let observed = explain(wanted, ("under test", &self.question.ask(parts)));
        let text: String = foretold.into_iter().chain(observed).collect();
        (!text.is_empty()).then(|| format!("{}: {text}", self.name))
    }
}

/// Puts a result at the beginning of a buffer.
fn lay<T: Copy>(buffer: &mut [T], result: &[T]) {
    buffer[..result.len()].copy_from_slice(result);
}

/// Checks many rows; all that is wrong comes back in one text.
pub fn check_all(parts: Parts, rows: &[Row]) -> Result<(), String> {
    let wrong: Vec<String> = rows.iter().filter_map(|row| row.check(parts)).collect();
    if wrong.is_empty() {
        return Ok(());
    }
    let (some, all) = (wrong.len(), rows.len());
    Err(format!("{some} of {all} rows:\n{}", wrong.concat()))
}

/// All rows.
pub fn rows() -> Vec<Row> {
    [good(), ends(), forms(), numbers(), places(), first_of_two()].concat()
}

/// Texts that are sheets.
fn good() -> Vec<Row> {
    let lines = small_lines();
    let run = small_run();
    let row = |name, lines: &[String], run: &Case| Row::read(name, text(lines), ENOUGH, run);
    let mut zeros = run.first(0);
    zeros.bytes.fill(0);
    let no_page = run.on_pages(&[]);
    vec![
        row("the small sheet", &lines, &run),
        row("no instruction", &lines[..7], &run.first(0)),
        row("no number that is not 0", &lines[..4], &zeros),
        row("no page", &[&lines[..BARE], &lines[7..]].concat(), &no_page),
        row("neither", &lines[..BARE], &no_page.first(0)),
    ]
}

/// Texts that end too soon or too late.
fn ends() -> Vec<Row> {
    let lines = small_lines();
    let whole = text(&lines);
    let cut = |length| whole[..length].to_vec();
    let more = |rest: &[u8]| [whole.as_slice(), rest].concat();
    vec![
        Row::no_sheet("no text", Vec::new(), 1),
        Row::no_sheet("a line feed alone", b"\n".to_vec(), 1),
        Row::no_sheet("the first line unended", cut(23), 1),
        Row::no_sheet("only the first line", cut(24), 2),
        Row::no_sheet("the second line unended", cut(24 + 185), 2),
        Row::no_sheet("the second line cut", cut(24 + 100), 2),
        Row::no_sheet("the last line unended", cut(whole.len() - 1), 9),
        Row::no_sheet("the last line cut", cut(whole.len() - 74), 9),
        Row::no_sheet("an empty line at the end", more(b"\n"), 10),
        Row::no_sheet("a tab at the end", more(b"\t"), 10),
        Row::no_sheet("a zero byte at the end", more(&[0]), 10),
        Row::no_sheet("a carriage return at the end", more(b"\r"), 10),
        Row::no_sheet("a second sheet", more(&whole), 10),
    ]
}

/// A way to spoil any line.
type Spoil = fn(&str) -> String;

/// Ways to spoil the form of a line, whichever it is.
const FORMS: [(&str, Spoil); 24] = [
    ("a carriage return", |line| format!("{line}\r")),
    ("a carriage return in front", |line| format!("\r{line}")),
    ("a carriage return for the tab", |line| {
        line.replacen('|', "\r", 1)
    }),
    ("a space at the end", |line| format!("{line} ")),
    ("a space in front", |line| format!(" {line}")),
    ("a space for the tab", |line| line.replacen('|', " ", 1)),
    ("a space after the tab", |line| line.replacen('|', "| ", 1)),
    ("a tab at the end", |line| format!("{line}|")),
    ("a tab in front", |line| format!("|{line}")),
    ("a second tab", |line| line.replacen('|', "||", 1)),
    ("no tab", |line| line.replacen('|', "", 1)),
    ("an empty line in front", |line| format!("\n{line}")),
    ("a byte order mark", |line| format!("\u{feff}{line}")),
    ("a zero byte", |line| format!("{line}\0")),
    ("an upper-case X", |line| line.replacen('x', "X", 1)),
    ("no x", |line| line.replacen('x', "", 1)),
    ("a zero before the x", |line| line.replacen('x', "0x", 1)),
    ("an upper-case digit", |line| {
        line[..line.len() - 1].to_string() + "A"
    }),
    ("no digit", |line| line[..line.len() - 1].to_string() + "g"),
    ("a short number", |line| line[..line.len() - 1].to_string()),
    ("a long number", |line| line.replacen('x', "x0", 1)),
    ("a sign", |line| line.replacen("x0", "x+", 1)),
    ("a field more", |line| format!("{line}|x0000000000000001")),
    ("a field fewer", |line| line[..line.len() - 18].to_string()),
];

/// Each of them in each line of the small sheet: it is that line.
fn forms() -> Vec<Row> {
    let mut rows = Vec::new();
    for (what, spoil) in FORMS {
        for place in 0..SMALL.len() {
            let mut lines = small_lines();
            lines[place] = tabs(&spoil(SMALL[place]));
            let number = place as u64 + 1;
            rows.push(Row::no_sheet(
                format!("{what}, line {number}"),
                text(&lines),
                number,
            ));
        }
    }
    rows
}

/// A line of the small sheet that is another one, which makes it no sheet there.
const NUMBERS: [(u64, &str); 27] = [
    (1, "sheet|x0000000000000000"),
    (1, "sheet|x0000000000000002"),
    (1, "sheet|x0100000000000001"),
    (1, "sheet|xffffffffffffffff"),
    (1, "Sheet|x0000000000000001"),
    (1, "sheets|x0000000000000001"),
    (1, "# a sheet"),
    (3, "PAGE|x0000000000001001"),
    (3, "pages|x0000000000001001"),
    (3, "desc|x0000000000001001"),
    // The same page address with other kinds, and pages that do not ascend.
    (4, "page|x0000000000001001"),
    (4, "page|x0000000000001002"),
    (4, "page|x0000000000001fff"),
    (4, "page|x0000000000001000"),
    (4, "page|x0000000000000003"),
    // Eight bytes that are zero, cross their eights, or have no page.
    (5, "word|x0000000000001008|x0000000000000000"),
    (5, "word|x0000000000001009|x0000000000000001"),
    (5, "word|x000000000000100c|x0000000000000001"),
    (5, "word|x0000000000001fff|x0000000000000001"),
    (5, "word|x0000000000000ff8|x0000000000000001"),
    (5, "word|x0000000000002000|x0000000000000001"),
    (5, "word|x0000000100001008|x0000000000000001"),
    (7, "word|x0000000000004ff8|x0000000000000001"),
    (7, "word|x0000000000006000|x0000000000000001"),
    // Words that do not ascend.
    (7, "word|x0000000000001ff8|x0000000000000001"),
    (7, "word|x0000000000001ff0|x0000000000000001"),
    (
        8,
        "Do|x0000000000000002|x0000000000000005|x0000000000000000|x0000000000000001",
    ),
];

/// Each of them.
fn numbers() -> Vec<Row> {
    let row = |(number, line): (u64, &str)| {
        let mut lines = small_lines();
        lines[number as usize - 1] = tabs(line);
        Row::no_sheet(format!("line {number}: {line}"), text(&lines), number)
    };
    NUMBERS.map(row).to_vec()
}

/// Lines of the small sheet in another order, and the first that is wrong.
const PLACES: [(&str, &[usize], u64); 20] = [
    ("no sheet line", &[2, 3, 4, 5, 6, 7, 8, 9], 1),
    ("no state", &[1, 3, 4, 5, 6, 7, 8, 9], 2),
    ("sheet and an instruction", &[1, 8], 2),
    ("a state first", &[2, 1], 1),
    ("two sheet lines", &[1, 1, 2], 2),
    ("two states", &[1, 2, 2], 3),
    ("a sheet line after the state", &[1, 2, 1], 3),
    ("pages the other way round", &[1, 2, 4, 3], 4),
    ("a page twice", &[1, 2, 3, 3], 4),
    ("a page after a word", &[1, 2, 3, 5, 4], 5),
    ("a page after an instruction", &[1, 2, 3, 8, 4], 5),
    ("a state after a page", &[1, 2, 3, 2], 4),
    ("a word without pages", &[1, 2, 5], 3),
    ("a word without its page", &[1, 2, 4, 5], 4),
    ("a word on the page that is missing", &[1, 2, 3, 5, 6, 7], 6),
    ("words the other way round", &[1, 2, 3, 4, 6, 5], 6),
    ("a word twice", &[1, 2, 3, 4, 5, 5], 6),
    ("a word after an instruction", &[1, 2, 3, 4, 5, 8, 6], 7),
    ("a state after the instructions", &[1, 2, 8, 9, 2], 5),
    (
        "a sheet line at the end",
        &[1, 2, 3, 4, 5, 6, 7, 8, 9, 1],
        10,
    ),
];

/// Each of them.
fn places() -> Vec<Row> {
    let small = small_lines();
    let row = |(name, order, line): (&str, &[usize], u64)| {
        let lines: Vec<&String> = order.iter().map(|number| &small[number - 1]).collect();
        Row::no_sheet(name, text(&lines), line)
    };
    PLACES.map(row).to_vec()
}

/// Two lines are wrong: it is the first.
fn first_of_two() -> Vec<Row> {
    let mut rows = Vec::new();
    for first in 1..=9 {
        for second in first + 1..=9 {
            let mut lines = small_lines();
            lines[first - 1].push('\r');
            lines[second - 1].clear();
            let name = format!("lines {first} and {second}");
            rows.push(Row::no_sheet(name, text(&lines), first as u64));
        }
    }
    rows
}
