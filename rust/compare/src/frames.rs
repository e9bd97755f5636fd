//! Calls and returns that belong together: frames that match, and frames that
//! something between has spoiled.

use crate::case::{FOUR_GIB, field};
use crate::operations::ret::byte_count;
use crate::world::World;
use driftpocket_reference::dice::Dice;

/// The most calls that stand one inside the other.
const DEEPEST: u64 = 3;

/// A stretch of calls and returns for the fields of a state.
struct Play<'world> {
    world: &'world World,
    /// SSP as it is after the instructions so far, if all of them complete.
    ssp: u64,
    /// The instructions so far.
    list: Vec<[u64; 4]>,
}

/// Proposes calls and their returns, one inside the other or one after the
/// other, now and then a return without a call. In about half of these plays
/// something comes between.
pub fn propose_frames(dice: &mut Dice, world: &World, state: &[u64]) -> Vec<[u64; 4]> {
    let mut play = Play {
        world,
        ssp: state[field::SSP],
        list: Vec::new(),
    };
    let spoiled = world.enabled && dice.once_in(2);
    for _ in 0..dice.between(1, 2) {
        let depth = dice.below(DEEPEST + 1);
        for _ in 0..depth {
            play.call(dice);
        }
        if spoiled {
            play.meddle(dice);
        }
        for _ in 0..dice.between(1, depth.max(1)) {
            play.go_back(dice, spoiled);
        }
    }
    play.list
}

impl Play<'_> {
    /// The bytes of a return address.
    fn size(&self) -> u64 {
        if self.world.is_wide() { 8 } else { 4 }
    }

    /// Takes an instruction down that moves SSP up by so much.
    fn take(&mut self, words: [u64; 4], popped: u64) {
        self.list.push(words);
        if self.world.enabled {
            self.ssp = self.world.cut(self.ssp.wrapping_add(popped));
        }
    }

    /// A call to where code may lie, but for a low code limit.
    fn call(&mut self, dice: &mut Dice) {
        let length = dice.between(1, 15);
        let words = if dice.once_in(2) {
            [7, length, dice.between(1, 0xfff), 0]
        } else {
            [8, length, dice.below(0x40_0000), 0]
        };
        self.take(words, self.size().wrapping_neg());
        if dice.once_in(20) {
            // Its address is on top of the ordinary stack alone.
            self.take([7, length, 0, 0], 0);
        }
    }

    /// A return. Where the stacks need not match any more, bytes are dropped
    /// that belong to the calls before.
    fn go_back(&mut self, dice: &mut Dice, spoiled: bool) {
        let length = dice.between(1, 15);
        let count = if spoiled || dice.once_in(4) {
            byte_count(dice)
        } else {
            0
        };
        let words = match count {
            0 if dice.once_in(2) => [9, length, 0, 0],
            _ => [10, length, count, 0],
        };
        self.take(words, self.size());
    }

    /// Changes what is on top of the shadow stack, or tries to.
    fn meddle(&mut self, dice: &mut Dice) {
        let size = self.size();
        let elements = size / 4;
        let length = dice.between(1, 15);
        let any = dice.any();
        let value = dice.one_of(&[any, 0, self.ssp]);
        match dice.below(6) {
            0 | 1 => self.take([4 + elements, length, self.ssp, self.operand(value)], 0),
            2 | 3 => self.take([elements, length, 0, 1], size),
            4 => self.take([1, length, 0, 1], 4),
            _ => self.take([10 + elements, length, self.ssp, self.operand(value)], 0),
        }
    }

    /// A number that has no more bits than an operand may.
    fn operand(&self, number: u64) -> u64 {
        if self.world.mode == 1 {
            number % FOUR_GIB
        } else {
            number
        }
    }
}

#[cfg(test)]
mod tests {
    use super::*;
    use driftpocket_reference::fault::Fault;
    use driftpocket_reference::runs::{self, Ending};
    use std::collections::BTreeMap;

    /// How many plays are looked at.
    const PLAYS: u64 = 20_000;

    /// What came of a play: whether shadow stacks were enabled, whether a call
    /// stood inside another, whether a return dropped bytes, and the end.
    type Sort = (bool, bool, bool, &'static str);

    /// The end of a play in a word.
    fn end(ending: &Ending) -> &'static str {
        match ending {
            Ending::Completed => "completed",
            Ending::Faulted(Fault::ReturnsDiffer) => "differs",
            _ => "other",
        }
    }

    /// Plays one play in a world of its own.
    fn sort(number: u64) -> Sort {
        let mut dice = Dice::new(number);
        let (world, mut case) = World::make(&mut dice);
        let list = propose_frames(&mut dice, &world, &case.state);
        case.words = list.concat();
        let code = |place: usize| list.get(place).map_or(0, |words| words[0]);
        let nested = (1..list.len()).any(|at| {
            let calls = [code(at - 1), code(at)];
            calls.iter().all(|code| (7..9).contains(code))
        });
        let drops = list.iter().any(|words| words[0] == 10 && words[2] > 0);
        let report = runs::run(&case.input());
        (world.enabled, nested, drops, end(&report.ending))
    }

    #[test]
    fn frames_match_or_differ_in_all_sorts_of_plays() {
        let mut counts: BTreeMap<Sort, u64> = BTreeMap::new();
        for number in 0..PLAYS {
            *counts.entry(sort(number)).or_default() += 1;
        }
        for nested in [false, true] {
            for drops in [false, true] {
                for (enabled, end) in [(false, "completed"), (true, "completed"), (true, "differs")]
                {
                    let count = counts.get(&(enabled, nested, drops, end));
                    let often = count.is_some_and(|&count| count > PLAYS / 200);
                    assert!(often, "{enabled} {nested} {drops} {end}: {count:?}");
                }
                assert_eq!(counts.get(&(false, nested, drops, "differs")), None);
            }
        }
    }
}
