//! Instructions that suit a state, or just don't.

use crate::case::{FOUR_GIB, field};
use crate::operations::{call, incssp, ret, rstorssp, wrss, wruss};
use crate::world::World;
use driftpocket_reference::dice::Dice;

/// Proposes an instruction for the fields of a state. The last code before it
/// makes some codes more likely than others.
pub fn propose(dice: &mut Dice, world: &World, state: &[u64], last: u64) -> [u64; 4] {
    let code = choose_code(dice, world, last);
    let mut words = fill(dice, world, state, code);
    if dice.once_in(40) {
        mangle(dice, &mut words);
    }
    words
}

/// Proposes an instruction of any code, whether it suits or not.
pub fn propose_any(dice: &mut Dice, world: &World, state: &[u64]) -> [u64; 4] {
    let code = dice.between(1, 12);
    let mut words = fill(dice, world, state, code);
    if dice.once_in(3) {
        mangle(dice, &mut words);
    }
    words
}

/// Proposes to write a token and to use it at once.
pub fn propose_token(dice: &mut Dice, world: &World, state: &[u64]) -> Vec<[u64; 4]> {
    let at = world.near_shadow(dice, 8);
    let (at, token, using) = if dice.once_in(2) {
        (at, world.restore_token(dice, at), [3, 4, at, 0])
    } else {
        (state[field::SSP], world.previous_token(dice), [4, 4, 0, 0])
    };
    if world.is_wide() {
        return vec![[6, 4, at, token], using];
    }
    let upper = world.cut(at.wrapping_add(4));
    let (low, high) = (token % FOUR_GIB, token / FOUR_GIB);
    vec![[5, 4, at, low], [5, 4, upper, high], using]
}

/// Finds length and operands for a code.
fn fill(dice: &mut Dice, world: &World, state: &[u64], code: u64) -> [u64; 4] {
    let length = dice.between(1, 15);
    let next = world.cut(state[field::IP].wrapping_add(length));
    let (mut a, mut b) = match code {
        1 | 2 => (0, incssp::count(dice, state, 4 * code)),
        3 => (rstorssp::restore_address(dice, world, state), 0),
        4 => (0, 0),
        5 | 6 => wrss::operands(dice, world, state, 4 * (code - 4)),
        7 => (call::displacement(dice, world, state), 0),
        8 if dice.once_in(8) => (next, 0),
        8 => (call::target(dice, world), 0),
        9 => (0, 0),
        10 => (ret::byte_count(dice), 0),
        _ => wruss::operands(dice, world, 4 * (code - 10)),
    };
    if !world.is_wide() && !dice.once_in(60) {
        a %= FOUR_GIB;
        b %= FOUR_GIB;
    }
    [code, length, a, b]
}

/// A code. Those that can't complete are chosen seldom outside mode 0.
fn choose_code(dice: &mut Dice, world: &World, last: u64) -> u64 {
    if world.mode == 0 || dice.once_in(40) {
        return dice.between(1, 12);
    }
    let back = dice.between(9, 10);
    let for_user = match world.cpl {
        0 => dice.between(11, 12),
        _ => dice.between(7, 8),
    };
    let code = match last {
        3 if dice.once_in(2) => 4,
        7 | 8 if dice.once_in(3) => back,
        _ if !world.enabled => dice.one_of(&[7, 7, 8, 8, back, for_user]),
        _ => dice.one_of(&[1, 2, 2, 3, 3, 3, 4, 5, 6, 6, 7, 7, 8, 8, back, for_user]),
    };
    match code {
        2 | 6 | 12 if world.mode == 1 => code - 1,
        _ => code,
    }
}

/// Breaks the form of an instruction, or nearly.
fn mangle(dice: &mut Dice, words: &mut [u64; 4]) {
    let any = dice.any();
    match dice.below(7) {
        0 => words[0] = dice.one_of(&[0, 13, any]),
        1 => words[1] = dice.one_of(&[0, 16, any]),
        2 => words[2] ^= 1 << dice.below(64),
        3 => words[3] ^= 1 << dice.below(64),
        4 => words[2] ^= FOUR_GIB,
        5 => words[3] ^= FOUR_GIB,
        _ => words[1] += FOUR_GIB,
    }
}
