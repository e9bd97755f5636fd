//! Every small edit of a small sheet.
//!
//! Each byte becomes each other one, is left out, gets each byte in front of it,
//! and is the first that is cut off; each line is left out, comes twice, and
//! moves to each other place. Where the result is a sheet still, it is written again.

use crate::sheets::lines::text;
use crate::sheets::rows::{BARE, ENOUGH, small_lines};
use crate::sheets::{Parts, Tally, compare_back};

/// Makes all edits of the small sheet, and of the one without pages.
pub fn compare(parts: Parts) -> Result<Tally, String> {
    let mut tally = Tally::default();
    let small = small_lines();
    for lines in [&small[..], &small[..BARE]] {
        let sheet = text(lines);
        let mut check = |edited: &[u8]| {
            tally.read(&compare_back(parts, edited, ENOUGH)?);
            Ok(())
        };
        check(&sheet)?;
        edit_lines(lines, &mut check)?;
        edit_bytes(&sheet, &mut check)?;
    }
    Ok(tally)
}

/// What is done with an edited text.
type Check<'check> = &'check mut dyn FnMut(&[u8]) -> Result<(), String>;

/// Edits of whole lines.
fn edit_lines(lines: &[String], check: Check) -> Result<(), String> {
    for place in 0..lines.len() {
        let mut rest = lines.to_vec();
        let line = rest.remove(place);
        check(&text(&rest))?;
        for new_place in 0..=rest.len() {
            let mut moved = rest.clone();
            moved.insert(new_place, line.clone());
            check(&text(&moved))?;
            let mut doubled = lines.to_vec();
            doubled.insert(new_place, line.clone());
            check(&text(&doubled))?;
        }
    }
    Ok(())
}

/// Edits at every byte.
fn edit_bytes(sheet: &[u8], check: Check) -> Result<(), String> {
    for place in 0..=sheet.len() {
        let (before, after) = sheet.split_at(place);
        for byte in 0..=u8::MAX {
            check(&[before, &[byte], after].concat())?;
        }
        let Some((&old, rest)) = after.split_first() else {
            continue;
        };
        check(before)?;
        check(&[before, rest].concat())?;
        for byte in (0..=u8::MAX).filter(|&byte| byte != old) {
            check(&[before, &[byte], rest].concat())?;
        }
    }
    Ok(())
}
