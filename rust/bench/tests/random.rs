//! Random runs of the codes that the plain replay has, good and bad, give the same with both replays;
//! what it does not have it says loudly.

use std::collections::BTreeMap;
use std::panic::catch_unwind;

use driftpocket_bench::{REPLAYS, outcome, plain};

const RUNS: u64 = 120_000;

/// Pages that have an end of the address space or of the canonical addresses close by.
const PAGES: [u64; 8] = [
    0x1000,
    0x2000,
    0x5000,
    0,
    0xFFFF_F000,
    0x7FFF_FFFF_F000,
    0xFFFF_8000_0000_0000,
    0xFFFF_FFFF_FFFF_F000,
];

/// Numbers that look random.
struct Dice(u64);

impl Dice {
    fn below(&mut self, limit: u64) -> u64 {
        self.0 ^= self.0 << 13;
        self.0 ^= self.0 >> 7;
        self.0 ^= self.0 << 17;
        (self.0 >> 8) % limit
    }

    fn once_in(&mut self, times: u64) -> bool {
        self.below(times) == 0
    }

    fn pick(&mut self, items: &[u64]) -> u64 {
        items[self.below(items.len() as u64) as usize]
    }

    /// An address near an end of a page.
    fn address(&mut self, mode: u64, step: u64) -> u64 {
        let near = self.pick(&PAGES) + self.pick(&[0, 0x10, 0xFF8]);
        let address = near.wrapping_add(step * self.below(5));
        if mode == 2 || self.once_in(50) {
            address
        } else {
            address & 0xFFFF_FFFF
        }
    }

    /// A state, seldom out of its range.
    fn state(&mut self) -> [u64; 10] {
        let mode = self.pick(&[0, 1, 1, 1, 2, 2, 2, 2]);
        let cpl = self.pick(&[0, 1, 2, 3, 3, 3]);
        let registers = [self.pick(&[0, 1, 3, 3]), self.pick(&[0, 1, 3, 3])];
        let limit = self.pick(&[0xFFFF_FFFF, 0xFFFF_FFFF, 0x40_0010]);
        let mut state = [
            mode,
            cpl,
            1,
            registers[0],
            registers[1],
            0x40_0000,
            0,
            0,
            0,
            limit,
        ];
        state[2] -= u64::from(self.once_in(8));
        state[6] = self.address(mode, 1);
        state[7] = self.address(mode, 4);
        state[8] = self.pick(&[0, 1, !0]);
        if self.once_in(40) {
            let field = self.below(10) as usize;
            state[field] = self.pick(&[1 << 32, 2, 3, 4, !0]);
        }
        state
    }

    /// A page list, seldom a bad one.
    fn pages(&mut self) -> Vec<u64> {
        let mut pages = Vec::new();
        for page in PAGES {
            if !self.once_in(4) {
                pages.push(page | self.pick(&[1, 1, 2, 3, 3]));
            }
        }
        if self.once_in(40) {
            let bad = [0x1001, 0x9000, 0x9004, 1 << 47 | 1];
            pages.push(self.pick(&bad));
        }
        if self.once_in(100) {
            pages.extend((0..12).map(|page| 0x10_0001 + (page << 12)));
        }
        pages
    }

    /// Bytes with tokens on them, good ones and others.
    fn bytes(&mut self, pages: &[u64], mode: u64) -> Vec<u8> {
        let mut bytes = vec![0; pages.len() * 4096];
        for (page, entry) in pages.iter().enumerate() {
            for place in [0, 0x10, 0x18, 0xFF0, 0xFF8] {
                let at = (entry & !0xFFF) + place as u64;
                let other = self.address(mode, 4);
                let token = self.pick(&[at.wrapping_add(8), other, 0]);
                let token = token | self.pick(&[mode / 2, mode / 2 + 2]);
                bytes[page * 4096 + place..][..8].copy_from_slice(&token.to_le_bytes());
            }
        }
        bytes
    }

    /// Instructions, seldom malformed or too many.
    fn words(&mut self, mode: u64) -> Vec<u64> {
        let mut words = Vec::new();
        for _ in 0..self.below(6) {
            let is_saved = words.len() >= 4 && words[words.len() - 4] == 3 && self.once_in(2);
            let code = if is_saved { 4 } else { 1 + self.below(8) };
            let code = code - u64::from(mode == 1 && matches!(code, 2 | 6) && !self.once_in(20));
            let (a, b) = match code {
                1 | 2 => (0, self.pick(&[0, 1, 2, 0x103, 255])),
                3 => (self.address(mode, 8) & !7, 0),
                4 => (0, 0),
                5 | 6 => (self.address(mode, 4), self.below(1 << 32)),
                7 => (self.pick(&[0, 0x10, 0x8000_0000, 0xFFFF_FFF0]), 0),
                _ => (self.address(mode, 1), 0),
            };
            words.extend([code, 1 + self.below(15), a, b]);
            if self.once_in(60) {
                let place = words.len() - 1 - self.below(3) as usize;
                words[place] = self.pick(&[0, 1, 16, 1 << 32]);
            }
        }
        if self.once_in(60) {
            words.push(1);
        }
        words
    }
}

#[test]
fn both_replays_agree_and_every_answer_comes() {
    let mut dice = Dice(0x9E37_79B9_7F4A_7C15);
    let mut answers: BTreeMap<u64, u64> = BTreeMap::new();
    let mut completed = [0; 9];
    for number in 0..RUNS {
        let (state, pages) = (dice.state(), dice.pages());
        let mut bytes = dice.bytes(&pages, state[0]);
        let words = dice.words(state[0]);
        if dice.once_in(100) {
            bytes.pop();
        }
        let [proved, plain] =
            REPLAYS.map(|(_, replay)| outcome(replay, &state, &pages, &bytes, &words));
        assert!(
            proved == plain,
            "run {number}: {state:x?} {pages:x?} {words:x?}"
        );
        *answers.entry(plain.answer).or_default() += 1;
        for instruction in words.chunks(4).take(plain.report[0] as usize) {
            completed[instruction[0] as usize] += 1;
        }
    }
    let seen: Vec<u64> = answers.keys().copied().collect();
    let wanted = [0, 1, 2, 3, 4, 5, 6, 7, 262, 268, 269, 270, 277];
    assert_eq!(seen, wanted, "{answers:?}");
    assert!(answers.values().all(|&count| count >= 20), "{answers:?}");
    assert!(
        completed[1..].iter().all(|&count| count >= 100),
        "{completed:?}"
    );
}

/// What the plain replay does with one instruction and a report of so many words.
fn plain(code: u64, room: usize) -> Option<u64> {
    let mut state = [2, 3, 1, 3, 0, 0x40_0000, 0x5010, 0x1FF0, 0, 0xFFFF_FFFF];
    let words = [code, 1, 0, 0];
    let result =
        catch_unwind(move || plain::run_raw(&mut state, &[], &mut [], &words, &mut vec![0; room]));
    result.ok()
}

#[test]
fn what_the_plain_replay_does_not_have_it_says() {
    for code in 1..=8 {
        assert!(plain(code, 5).is_some(), "code {code}");
        assert!(plain(code, 4).is_none(), "a short report");
    }
    for code in [0, 9, 10, 11, 12, 13, 1 << 32 | 1, !0] {
        assert!(plain(code, 5).is_none(), "code {code}");
    }
}
