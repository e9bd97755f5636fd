//! Random runs and random pairs of runs.
//!
//! Instructions are chosen by trying them: what completes is written down and
//! the next one is chosen for what it left; what does not complete is mostly
//! dropped, and now and then written down as the end of the run.

use crate::case::{Case, FOUR_GIB, REPORT_WORDS, field};
use crate::damage::{OF_PAGES, OF_STATE, OF_WORDS, spoil};
use crate::frames::propose_frames;
use crate::operands::{propose, propose_any, propose_token};
use crate::world::World;
use driftpocket_reference::address::{Width, is_canonical};
use driftpocket_reference::dice::Dice;
use driftpocket_reference::memory::{Access, Memory, Size};
use driftpocket_reference::operations::{Outcome, step};
use driftpocket_reference::pages::{MOST_PAGES, PAGE_BYTES};
use driftpocket_reference::processor::State;
use driftpocket_reference::runs;
use std::collections::VecDeque;

/// How often an instruction is dropped before one is taken as it is.
const ATTEMPTS: usize = 16;

/// The instruction that is taken then: a call of itself.
const CALL_SELF: [u64; 4] = [7, 5, 0xffff_fffb, 0];

/// Those that may be taken instead where there is no room for that call.
const RETURN: [u64; 4] = [9, 1, 0, 0];
const RETURN_DROPPING: [u64; 4] = [10, 3, 8, 0];

/// Runs that should be longer than this get as many instructions as there may
/// be, whether they are met or not.
const LONG: usize = 200;

/// The dice of one run among those of a seed.
pub fn numbered(seed: u64, number: u64) -> Dice {
    let row = Dice::new(seed).any();
    let own = Dice::new(row.wrapping_add(number)).any();
    Dice::new(own)
}

/// Writes random cases.
#[derive(Clone, Debug)]
pub struct Author {
    dice: Dice,
}

/// A world in the midst of a run.
struct Scene {
    world: World,
    state: State,
    memory: Memory,
    last: u64,
    /// Calls and returns that belong together and are still to come.
    frames: VecDeque<[u64; 4]>,
}

impl Author {
    /// The author of one run among those of a seed.
    pub fn numbered(seed: u64, number: u64) -> Author {
        Author {
            dice: numbered(seed, number),
        }
    }

    /// Any case, spoiled or not.
    pub fn any_case(&mut self) -> Case {
        let mut case = self.good_case();
        if self.dice.once_in(5) {
            spoil(
                &mut self.dice,
                &mut case,
                &[OF_PAGES, OF_STATE, OF_WORDS].concat(),
            );
            self.dice.shuffle(&mut case.pages);
        }
        case.room = match self.dice.below(40) {
            0 => self.dice.index(REPORT_WORDS),
            1..10 => REPORT_WORDS + self.dice.index(4),
            _ => REPORT_WORDS,
        };
        case
    }

    /// A case that is not refused before its first step.
    pub fn good_case(&mut self) -> Case {
        let (world, mut case) = World::make(&mut self.dice);
        let fields = case.state.as_slice().try_into().expect("ten fields");
        let mut scene = Scene {
            world,
            state: State::read(fields).expect("fields in their ranges"),
            memory: Memory::new(&case.pages, case.bytes.clone()).expect("a good list"),
            last: 0,
            frames: VecDeque::new(),
        };
        case.words = self.play(&mut scene);
        case
    }

    /// A case whose page list is good, while the rest may be refused.
    fn good_pages(&mut self) -> Case {
        let mut case = self.good_case();
        if self.dice.once_in(8) {
            spoil(&mut self.dice, &mut case, &[OF_STATE, OF_WORDS].concat());
        }
        case
    }

    /// The words of a run, chosen while it runs.
    fn play(&mut self, scene: &mut Scene) -> Vec<u64> {
        let steps = self.steps();
        let patience = self.dice.one_of(&[8, 30, 200, 1000]);
        let mut words = Vec::new();
        let mut goes_on = true;
        while goes_on && words.len() < steps * runs::WORDS {
            let instruction;
            (instruction, goes_on) = self.choose(scene, patience);
            words.extend(instruction);
        }
        let most = runs::MOST_INSTRUCTIONS * runs::WORDS;
        if steps > 0 {
            words.extend(self.closing(scene).as_flattened());
            words.truncate(most);
        }
        if steps > LONG {
            words.resize(most, 1);
        }
        words
    }

    /// A few instructions after those that were tried, or none.
    fn closing(&mut self, scene: &Scene) -> Vec<[u64; 4]> {
        let fields = scene.state.fields();
        let world = &scene.world;
        match self.dice.below(8) {
            0..2 => Vec::new(),
            2 | 3 if world.enabled => propose_token(&mut self.dice, world, &fields),
            2..5 => propose_frames(&mut self.dice, world, &fields),
            _ => (0..self.dice.between(1, 3))
                .map(|_| propose_any(&mut self.dice, world, &fields))
                .collect(),
        }
    }

    /// How many instructions a run should have.
    fn steps(&mut self) -> usize {
        let steps = match self.dice.below(1000) {
            0..40 => 0,
            40..110 => self.dice.between(1, 3),
            110..900 => self.dice.between(4, 16),
            900..990 => self.dice.between(17, 50),
            990..999 => self.dice.between(51, LONG as u64),
            _ => self.dice.between(1000, 1024),
        };
        steps as usize
    }

    /// An instruction, and whether it completes.
    fn choose(&mut self, scene: &mut Scene, patience: u64) -> ([u64; 4], bool) {
        let fields = scene.state.fields();
        if scene.world.mode == 0 {
            return (propose_any(&mut self.dice, &scene.world, &fields), false);
        }
        if scene.frames.is_empty() && self.dice.once_in(10) {
            scene.frames = propose_frames(&mut self.dice, &scene.world, &fields).into();
        }
        if let Some(words) = scene.frames.pop_front() {
            if scene.attempt(words) {
                return (words, true);
            }
            scene.frames.clear();
            if self.dice.once_in(6) {
                return (words, false);
            }
        }
        for _ in 0..ATTEMPTS {
            let words = propose(&mut self.dice, &scene.world, &fields, scene.last);
            let completes = scene.attempt(words);
            if completes || self.dice.once_in(patience) {
                return (words, completes);
            }
        }
        if scene.attempt(CALL_SELF) {
            return (CALL_SELF, true);
        }
        let words = self.dice.one_of(&[CALL_SELF, RETURN, RETURN_DROPPING]);
        (words, scene.attempt(words))
    }

    /// Two cases that differ in their pages alone. The second has every page of
    /// the first with the same kind and bytes, and maybe others, in any order.
    pub fn memory_pair(&mut self) -> (Case, Case) {
        let mut large = self.good_pages();
        let mut small = large.clone();
        if self.dice.once_in(2) && !large.pages.is_empty() {
            let keep = self.dice.index(large.pages.len());
            let mut order: Vec<usize> = (0..large.pages.len()).collect();
            self.dice.shuffle(&mut order);
            small = large.on_pages(&order[..keep]);
        }
        for _ in 0..self.dice.below(4) {
            self.add_page(&mut large, &small);
        }
        (small, large.shuffled(&mut self.dice))
    }

    /// Adds a page, often just the one that is missed in the small case.
    fn add_page(&mut self, large: &mut Case, small: &Case) {
        let missed = runs::run(&small.input()).ending.address() & !0xfff;
        let beside = match large.pages.len() {
            0 => 0,
            count => large.pages[self.dice.index(count)] & !0xfff,
        };
        let page = self.dice.one_of(&[
            missed,
            missed,
            beside.wrapping_add(PAGE_BYTES),
            beside.wrapping_sub(PAGE_BYTES),
            beside ^ FOUR_GIB,
        ]);
        let listed = large.place(page).is_some();
        if !listed && is_canonical(page) && large.pages.len() < MOST_PAGES {
            large.add_page(page + self.dice.between(1, 3), self.dice.any() as u8);
        }
    }

    /// Any case, and the bits to be set in U_CET and S_CET in a second one. In
    /// many cases they are clear before.
    pub fn rights_pair(&mut self) -> (Case, [u64; 2]) {
        let mut case = self.any_case();
        case.room = REPORT_WORDS;
        if self.dice.once_in(2) {
            for register in [field::USER, field::SUPERVISOR] {
                if let Some(value) = case.state.get_mut(register) {
                    *value &= !2;
                }
            }
        }
        let bits = self.dice.one_of(&[[2, 0], [0, 2], [2, 2]]);
        (case, bits)
    }
}

impl Scene {
    /// Tries an instruction. If it completes, its effects stay.
    fn attempt(&mut self, words: [u64; 4]) -> bool {
        let before = self.state;
        let Outcome::Completed(state) = step(&before, words, &mut self.memory) else {
            return false;
        };
        self.state = state;
        self.last = words[0];
        self.remember_token(&before, words);
        true
    }

    /// Remembers where a token to restore may lie now.
    fn remember_token(&mut self, before: &State, words: [u64; 4]) {
        match words[0] {
            6 => self.world.tokens.push(words[2]),
            4 => {
                let ssp = before.fields()[field::SSP];
                let old = self.read(ssp) & !7;
                self.world.tokens.push(self.world.cut(old.wrapping_sub(8)));
            }
            _ => {}
        }
    }

    /// The eight bytes at an address.
    fn read(&self, first: u64) -> u64 {
        let access = Access {
            kind: self.state.shadow_kind(),
            width: Width::Eight,
            canonical: false,
            size: Size::Eight,
            first,
        };
        self.memory.load(&access).unwrap_or(0)
    }
}

#[cfg(test)]
mod tests {
    use super::*;
    use crate::case::is_enabled;
    use std::collections::BTreeMap;

    /// How many runs are looked at.
    const RUNS: u64 = 20_000;

    /// A call of the next line while enabled: its mode and code, whether there
    /// is room for a frame, and whether it completes.
    type Sort = (u64, u64, bool, bool);

    /// The sort of an instruction, if it has one.
    fn sort(state: &State, memory: &Memory, words: [u64; 4]) -> Option<Sort> {
        let [code, length, a, _] = words;
        let fields = state.fields();
        let next = state.next(length);
        if !is_enabled(&fields) || ![(7, 0), (8, next)].contains(&(code, a)) {
            return None;
        }
        let ends = |words| {
            let outcome = step(state, words, &mut memory.clone());
            matches!(outcome, Outcome::Completed(_))
        };
        let room = ends([8, length, next, 0]);
        Some((fields[field::MODE], code, room, ends(words)))
    }

    /// Counts the sorts of a run.
    fn count(case: &Case, counts: &mut BTreeMap<Sort, u64>) {
        let fields = case.state[..].try_into().expect("ten fields");
        let mut state = State::read(fields).expect("a good state");
        let mut memory = Memory::new(&case.pages, case.bytes.clone()).expect("a good list");
        for &words in case.words.as_chunks().0 {
            if let Some(sort) = sort(&state, &memory, words) {
                *counts.entry(sort).or_default() += 1;
            }
            match step(&state, words, &mut memory) {
                Outcome::Completed(after) => state = after,
                _ => return,
            }
        }
    }

    #[test]
    fn the_next_line_is_called_in_all_ways() {
        let mut counts = BTreeMap::new();
        for number in 0..RUNS {
            count(&Author::numbered(9, number).good_case(), &mut counts);
        }
        for mode in [1, 2] {
            for (code, room, completes) in [
                (7, true, true),
                (7, false, true),
                (7, false, false),
                (8, true, true),
                (8, false, false),
            ] {
                let sort = (mode, code, room, completes);
                let times = counts.get(&sort).copied().unwrap_or(0);
                assert!(times > RUNS / 2_000, "{sort:?}: {times}");
            }
            assert_eq!(counts.get(&(mode, 8, false, true)), None);
        }
    }
}
