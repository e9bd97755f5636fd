//! Run sheets for safe Rust: both ways round, and texts that are none.

use crate::common::{pages, user};
use crate::texts::{line, lines};
use driftpocket::sheet::MOST_TEXT;
use driftpocket::{Instruction, Kind, PageList, Refusal, Sheet, SheetError, Size, State};

/// The run of the sheet in `texts`.
fn switch() -> Sheet {
    let mut pages = pages(&[(0x1000, Kind::UserShadow), (0x2000, Kind::UserShadow)]);
    pages.write(0x2ff0, Size::Eight, 0x2ff9).unwrap();
    Sheet {
        state: user(0x1ff0),
        pages,
        instructions: vec![Instruction::rstorssp(5, 0x2ff0)],
    }
}

/// The largest run there is: no byte zero, its pages from the top down.
fn largest() -> Sheet {
    let entries = (1..=16_u64).rev().map(|page| (page << 12) + 3).collect();
    Sheet {
        state: user(0x1ff0),
        pages: PageList::from_parts(entries, vec![1; 16 * 4096]),
        instructions: vec![Instruction::incsspq(5, 1); 1024],
    }
}

#[test]
fn both_ways_round() {
    let text = lines().concat();
    assert_eq!(Sheet::read(text.as_bytes()), Ok(switch()));
    assert_eq!(switch().write(), Ok(text.into_bytes()));
    let nothing = Sheet::default();
    let text = nothing.write().unwrap();
    assert_eq!(text.len(), 24 + 186);
    assert_eq!(Sheet::read(&text), Ok(nothing));
}

#[test]
fn the_largest_run() {
    let text = largest().write().unwrap();
    assert_eq!(text.len(), MOST_TEXT);
    let read = Sheet::read(&text).unwrap();
    let ascending: Vec<_> = largest().pages.entries().iter().rev().copied().collect();
    assert_eq!(read.pages.entries(), ascending);
    assert_eq!(read.instructions, largest().instructions);
    assert_eq!(read.write(), Ok(text));
}

#[test]
fn the_order_of_pages_makes_no_difference() {
    let mut other = switch();
    other.pages = pages(&[(0x2000, Kind::UserShadow), (0x1000, Kind::UserShadow)]);
    other.pages.write(0x2ff0, Size::Eight, 0x2ff9).unwrap();
    assert_ne!(other, switch());
    assert_eq!(other.write(), switch().write());
}

#[test]
fn what_is_refused_in_a_read() {
    let refused = |place: usize, other: String| {
        let mut lines = lines();
        lines[place] = other;
        Sheet::read(lines.concat().as_bytes()).unwrap_err()
    };
    let nine = |line| SheetError {
        refusal: Refusal::Sheet,
        line: Some(line),
    };
    assert_eq!(Sheet::read(b""), Err(nine(1)));
    assert_eq!(refused(3, line("page", &[0x1003])), nine(4));
    let run = |refusal| SheetError {
        refusal,
        line: None,
    };
    assert_eq!(refused(2, line("page", &[0x1009])), run(Refusal::PageKind));
    let state = line("state", &[2, 4, 0, 0, 0, 0, 0, 0, 0, 0]);
    assert_eq!(refused(1, state), run(Refusal::State));
    let long = lines()[5].repeat(1025);
    assert_eq!(refused(5, long), run(Refusal::Words));
    let pages: String = (3..=17).map(|page| line("page", &[page << 12])).collect();
    assert_eq!(refused(4, pages), run(Refusal::PageCount));
    let high = line("page", &[0x8000_0000_0001]);
    assert_eq!(refused(4, high), run(Refusal::PageAddress));
}

#[test]
fn what_is_refused_in_a_write() {
    let refused = |spoil: fn(&mut Sheet)| {
        let mut sheet = switch();
        spoil(&mut sheet);
        sheet.write().unwrap_err()
    };
    let five = refused(|sheet| sheet.state.ssp += 1);
    assert_eq!(five, Refusal::State);
    let four = refused(|sheet| sheet.pages.push(0x1000, Kind::Ordinary).unwrap());
    assert_eq!(four, Refusal::PageRepeated);
    let three = refused(|sheet| sheet.pages.push(1 << 47, Kind::Ordinary).unwrap());
    assert_eq!(three, Refusal::PageAddress);
    let two = refused(|sheet| sheet.pages = PageList::from_parts(vec![4], vec![0; 4096]));
    assert_eq!(two, Refusal::PageKind);
    let one = refused(|sheet| sheet.pages = PageList::from_parts(vec![1], vec![0; 4095]));
    assert_eq!(one, Refusal::PageCount);
    let seven = refused(|sheet| sheet.instructions = vec![Instruction::default(); 1025]);
    assert_eq!(seven, Refusal::Words);
}

/// Whether a text is no sheet, or is the one text of what it holds.
fn is_none_or_the_only_one(text: &[u8]) -> bool {
    match Sheet::read(text) {
        Ok(sheet) => sheet.write().as_deref() == Ok(text),
        Err(error) => error.line.is_some() == (error.refusal == Refusal::Sheet),
    }
}

#[test]
fn any_byte_changed_added_or_left_out() {
    let text = lines().concat().into_bytes();
    let mut accepted = 0;
    for place in 0..text.len() {
        for byte in [0, b'\t', b'\n', b'\r', b'0', b'1', b'8', b'a', b'A', 0xff] {
            let mut changed = text.clone();
            changed[place] = byte;
            accepted += usize::from(Sheet::read(&changed).is_ok());
            assert!(is_none_or_the_only_one(&changed), "{byte} at {place}");
            changed.insert(place, text[place]);
            assert!(Sheet::read(&changed).is_err(), "{byte} before {place}");
        }
        let mut shorter = text.clone();
        shorter.remove(place);
        assert!(Sheet::read(&shorter).is_err(), "without {place}");
    }
    assert!(accepted > 100, "{accepted}");
}

#[test]
fn state_fields_are_in_the_order_of_the_rules() {
    let state = State {
        mode: 2,
        cpl: 3,
        cet: 1,
        ucet: 4,
        scet: 5,
        ip: 6,
        sp: 7,
        ssp: 8,
        flags: 9,
        limit: 10,
    };
    let sheet = Sheet {
        state,
        ..Sheet::default()
    };
    let wanted = line("sheet", &[1]) + &line("state", &[2, 3, 1, 4, 5, 6, 7, 8, 9, 10]);
    assert_eq!(sheet.write(), Ok(wanted.into_bytes()));
}
