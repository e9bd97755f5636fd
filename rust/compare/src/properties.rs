//! What holds of pairs of runs, and the ledger of the shadow stack pointer.
//!
//! All of it is asked of the part under test alone; the second program has no
//! say here.

use crate::answer::{Answer, PF, UD};
use crate::case::{Case, PAGE, Part, Seen, field, is_enabled, observe, own_controls};
use crate::difference::explain;
use driftpocket_reference::processor::FIELDS;
use driftpocket_reference::runs::WORDS;

/// How a first run ended, as far as a property asks.
#[derive(Clone, Copy, Debug, PartialEq, Eq, PartialOrd, Ord)]
pub enum Kind {
    /// The second run has to end alike.
    Alike,
    /// The second run only has to get as far.
    AsFar,
    /// The second run got further.
    Further,
}

/// What is wrong, with both sightings.
fn compare(what: &str, first: &Seen, second: &Seen) -> Result<(), String> {
    match explain(("first", first), ("second", second)) {
        None => Ok(()),
        Some(text) => Err(format!("{what}: {text}")),
    }
}

/// What a run on the larger list shows of the smaller one's pages. An error
/// says that an added page was touched.
fn on_old_pages(small: &Case, large: &Case, seen: Seen) -> Result<Seen, String> {
    let mut bytes = Vec::with_capacity(small.bytes.len());
    for entry in &small.pages {
        let place = large.place(entry & !0xfff).ok_or("a page is gone")?;
        bytes.extend_from_slice(&seen.bytes[place..][..PAGE]);
    }
    for (number, entry) in large.pages.iter().enumerate() {
        let page = number * PAGE..(number + 1) * PAGE;
        if !small.pages.contains(entry) && seen.bytes[page.clone()] != large.bytes[page] {
            return Err(format!("the added page {entry:x} was touched"));
        }
    }
    Ok(Seen { bytes, ..seen })
}

/// The count of a run, or an error if there were not so many instructions.
fn count(case: &Case, seen: &Seen) -> Result<u64, String> {
    if seen.count() > (case.words.len() / WORDS) as u64 {
        return Err(format!("a count of {} in a shorter run", seen.count()));
    }
    Ok(seen.count())
}

/// Makes a sighting look as if it had ended completed after so many.
fn as_completed(seen: &Seen, count: u64) -> Seen {
    let mut seen = seen.clone();
    seen.returned = 0;
    seen.report[..5].copy_from_slice(&Answer::COMPLETED.report(count));
    seen
}

/// More memory alters no answer but a page fault. The second case has all pages
/// of the first, and maybe others.
pub fn more_memory(part: Part, small: &Case, large: &Case) -> Result<Kind, String> {
    let first = observe(part, small);
    let second = observe(part, large);
    if first.answer().is_some_and(|answer| answer.vector != PF) {
        let second = on_old_pages(small, large, second)?;
        compare("more memory", &first, &second)?;
        return Ok(Kind::Alike);
    }
    let done = count(small, &first)?;
    let further = count(large, &second)?.checked_sub(done);
    let further = further.ok_or("fewer instructions with more memory")?;
    let shorter = large.first(done);
    let after = on_old_pages(small, &shorter, observe(part, &shorter))?;
    compare("more memory, so far", &as_completed(&first, done), &after)?;
    Ok(if further > 0 {
        Kind::Further
    } else {
        Kind::AsFar
    })
}

/// The same case with bits set in U_CET and S_CET, as far as there are such.
fn with_rights(state: &[u64], bits: [u64; 2]) -> Vec<u64> {
    let mut state = state.to_vec();
    for (register, bits) in [field::USER, field::SUPERVISOR].into_iter().zip(bits) {
        if let Some(value) = state.get_mut(register) {
            *value |= bits;
        }
    }
    state
}

/// Whether a run ended because a WRSS was not permitted: outside mode 0, code 5
/// or 6 gave #UD while enabled, with the permission of the level clear.
fn was_not_permitted(case: &Case, seen: &Seen) -> bool {
    let write = matches!(case.code(seen.count()), Some(5 | 6));
    let clear = own_controls(&seen.state).is_some_and(|own| own & 2 == 0);
    seen.answer() == Some(Answer::fault(UD))
        && write
        && clear
        && seen.state[field::MODE] != 0
        && is_enabled(&seen.state)
}

/// More rights alter no answer but that of a WRSS which is not permitted.
pub fn more_rights(part: Part, case: &Case, bits: [u64; 2]) -> Result<Kind, String> {
    let other = Case {
        state: with_rights(&case.state, bits),
        ..case.clone()
    };
    let mut first = observe(part, case);
    let second = observe(part, &other);
    let not_permitted = was_not_permitted(case, &first);
    first.state = with_rights(&first.state, bits);
    if !not_permitted {
        compare("more rights", &first, &second)?;
        return Ok(Kind::Alike);
    }
    let done = count(case, &first)?;
    let further = count(&other, &second)?.checked_sub(done);
    let further = further.ok_or("fewer instructions with more rights")?;
    let after = observe(part, &other.first(done));
    compare("more rights, so far", &as_completed(&first, done), &after)?;
    Ok(if further > 0 {
        Kind::Further
    } else {
        Kind::AsFar
    })
}

/// What an instruction that completes pops off the shadow stack, less what it
/// pushes, told by its words and by the state that it starts from. A relative
/// call of the next line pushes nothing.
fn popped(words: &[u64], state: &[u64]) -> i128 {
    let wide = state[field::MODE] == 2;
    let gap = state[field::FLAGS] % 2 == 1 && !wide;
    match words[0] {
        1 => 4 * i128::from(words[3] % 256),
        2 => 8 * i128::from(words[3] % 256),
        4 if gap => 12,
        4 => 8,
        7..=10 if !is_enabled(state) => 0,
        7 if words[2] == 0 => 0,
        7 | 8 if wide => -8,
        7 | 8 => -4,
        9 | 10 if wide => 8,
        9 | 10 => 4,
        _ => 0,
    }
}

/// A run is its instructions one by one, and the ledger of SSP holds unless an
/// RSTORSSP completes. How many instructions were completed comes back.
pub fn ledger(part: Part, case: &Case) -> Result<u64, String> {
    let whole = observe(part, case);
    let done = count(case, &whole)?;
    if done > 0 && case.state.len() != FIELDS {
        return Err("a step without a state".to_string());
    }
    let mut single = case.first(0);
    let mut sum = 0;
    let mut switched = false;
    for words in case.words.chunks(WORDS).take(done as usize) {
        sum += popped(words, &single.state);
        switched |= words[0] == 3;
        single.words = words.to_vec();
        let mut report = [0; 5];
        let returned = part(
            &mut single.state,
            &single.pages,
            &mut single.bytes,
            &single.words,
            &mut report,
        );
        if returned != 0 || report != Answer::COMPLETED.report(1) {
            return Err(format!("alone it ends otherwise: {words:x?}"));
        }
    }
    let end = Seen {
        state: single.state,
        bytes: single.bytes,
        ..as_completed(&whole, done)
    };
    compare("one by one", &as_completed(&whole, done), &end)?;
    if !switched && done > 0 {
        balance(case, &whole, sum)?;
    }
    Ok(done)
}

/// First SSP plus what was popped is the last SSP, as the mode counts.
fn balance(case: &Case, whole: &Seen, sum: i128) -> Result<(), String> {
    let modulus = if case.state[field::MODE] == 2 { 64 } else { 32 };
    let wanted = (i128::from(case.state[field::SSP]) + sum).rem_euclid(1 << modulus);
    let found = whole.state[field::SSP];
    if i128::from(found) != wanted {
        return Err(format!("the ledger says {wanted:x}, SSP is {found:x}"));
    }
    Ok(())
}
