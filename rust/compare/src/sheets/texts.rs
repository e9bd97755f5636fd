//! Random texts: sheets of a few lines, some of them changed or at other places.

use crate::author::numbered;
use crate::rounds::located;
use crate::sheets::drawn::{Size, any_case};
use crate::sheets::lines::{line, lines_of, text};
use crate::sheets::{Parts, Rooms, Tally, compare_back};
use driftpocket_reference::dice::Dice;
use std::ops::Range;

/// Bytes that are likely to be taken for others.
const BYTES: &[u8] = b"\t\n\r x0189afgAFXdsw|\0\x0b\x0c\x7f\x80\xff";

/// Compares reads of many random texts, up to the first difference.
pub fn compare(parts: Parts, seed: u64, numbers: Range<u64>) -> Result<Tally, String> {
    let mut tally = Tally::default();
    for number in numbers {
        let mut dice = numbered(seed, number);
        let text = any_text(&mut dice);
        let rooms = any_rooms(&mut dice);
        let seen = compare_back(parts, &text, rooms);
        tally.read(&seen.map_err(|text| located(seed, number, &text))?);
    }
    Ok(tally)
}

/// Rooms for four pages and five instructions, or a little less.
fn any_rooms(dice: &mut Dice) -> Rooms {
    let most = Rooms {
        state: 11,
        pages: 5,
        bytes: 5 * 4096,
        words: 28,
        report: 5,
    };
    match dice.below(12) {
        0 => Rooms::NONE,
        1 => Rooms { state: 9, ..most },
        2 => Rooms { pages: 1, ..most },
        3 => Rooms {
            bytes: 4095,
            ..most
        },
        4 => Rooms { words: 7, ..most },
        5 => Rooms {
            report: dice.index(8),
            ..most
        },
        _ => most,
    }
}

/// A text that is a sheet, or nearly.
fn any_text(dice: &mut Dice) -> Vec<u8> {
    let size = if dice.once_in(400) {
        Size::Any
    } else {
        Size::Few
    };
    let mut lines = lines_of(&any_case(dice, size));
    for _ in 0..dice.below(4) {
        change_lines(dice, &mut lines);
    }
    let mut text = text(&lines);
    if dice.once_in(3) {
        change_bytes(dice, &mut text);
    }
    text
}

/// Changes, adds, moves or drops a line.
fn change_lines(dice: &mut Dice, lines: &mut Vec<String>) {
    if lines.is_empty() {
        return;
    }
    let count = lines.len();
    let (one, other) = (dice.index(count), dice.index(count));
    match dice.below(17) {
        0 => lines.swap(one, other),
        1 => lines.swap(one, (one + 1) % count),
        2 => drop(lines.remove(one)),
        3 => lines.insert(other, lines[one].clone()),
        4 => lines[one].push(dice.one_of(&['\r', ' ', '\t', '\n', '0', '\0'])),
        5 => lines[one].insert(0, dice.one_of(&['\r', ' ', '\t', '\n', '\u{feff}'])),
        6 => lines[one] = lines[one].to_uppercase(),
        7 => dice.shuffle(lines),
        8 => lines[1.min(one)..].reverse(),
        9..12 => insert_like(dice, lines, one),
        _ => change_number(dice, &mut lines[one]),
    }
}

/// Puts a well-formed line of any name after another one, often with a number
/// close to that one's first.
fn insert_like(dice: &mut Dice, lines: &mut Vec<String>, place: usize) {
    let (_, first) = split(&lines[place]);
    let first = first.first().copied().unwrap_or(0);
    let near = dice.one_of(&[
        first,
        first.wrapping_add(8),
        first.wrapping_sub(8),
        first ^ 3,
        !first,
    ]);
    let value = dice.below(3);
    let new = match dice.below(6) {
        0 => line("sheet", &[value]),
        1 => line("page", &[near]),
        2 | 3 => line("word", &[near & !7, value]),
        4 => line("do", &[value, 1, near, 0]),
        _ => line("state", &[2, 3, 1, 1, 0, 0, 0, 0, 0, value]),
    };
    lines.insert(place + 1, new);
}

/// Changes a number of a line, or drops it, or adds one.
fn change_number(dice: &mut Dice, changed: &mut String) {
    let (name, mut numbers) = split(changed);
    if numbers.is_empty() {
        return;
    }
    let place = dice.index(numbers.len());
    let old = numbers[place];
    match dice.below(10) {
        0 => drop(numbers.remove(place)),
        1 => numbers.insert(place, old),
        2 => numbers[place] = 0,
        3 => numbers[place] = dice.any(),
        4 => numbers[place] = old ^ 1 << dice.below(64),
        5 => numbers[place] = old.wrapping_add(4096),
        6 => numbers[place] = old.wrapping_sub(4096),
        7 => numbers[place] = old ^ 3,
        8 => numbers[place] = old ^ 4,
        _ => numbers[place] = old ^ 8,
    }
    *changed = line(&name, &numbers);
}

/// The name and the numbers of a line, as far as they can be read.
fn split(line: &str) -> (String, Vec<u64>) {
    let mut fields = line.split('\t');
    let name = fields.next().unwrap_or_default().to_string();
    let numbers = fields.filter_map(|field| u64::from_str_radix(field.get(1..)?, 16).ok());
    (name, numbers.collect())
}

/// Changes a byte, adds one, drops one, or cuts the text there.
fn change_bytes(dice: &mut Dice, text: &mut Vec<u8>) {
    if text.is_empty() {
        return;
    }
    let any = dice.index(text.len());
    let place = dice.one_of(&[any, any, text.len() - 1]);
    match dice.below(5) {
        0 | 1 => text[place] = dice.one_of(BYTES),
        2 => text.insert(place, dice.one_of(BYTES)),
        3 => drop(text.remove(place)),
        _ => text.truncate(place),
    }
}
