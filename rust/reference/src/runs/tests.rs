//! What no sheet can bring to a run: broken inputs, and lists at their limits.

use super::*;
use crate::pages::PAGE_BYTES;

/// 64-bit mode, user code, shadow stacks on, writes permitted.
const STATE: [u64; 10] = [2, 3, 1, 3, 0, 0x40_0000, 0x5010, 0x1ff0, 0, 0xffff_ffff];

/// Two pages for shadow stacks and an ordinary one.
const PAGES: [u64; 3] = [0x1001, 0x2001, 0x5003];

/// INCSSPQ of no element.
const STAY: [u64; 4] = [2, 4, 0, 0];

/// An input that its owner may alter before the run.
#[derive(Clone)]
struct Draft {
    state: Vec<u64>,
    pages: Vec<u64>,
    bytes: Vec<u8>,
    words: Vec<u64>,
}

impl Draft {
    fn of(instructions: &[[u64; 4]]) -> Draft {
        Draft {
            state: STATE.to_vec(),
            pages: PAGES.to_vec(),
            bytes: vec![0; PAGES.len() * PAGE_BYTES as usize],
            words: instructions.concat(),
        }
    }

    fn input(&self) -> Input<'_> {
        Input {
            state: &self.state,
            pages: &self.pages,
            bytes: &self.bytes,
            words: &self.words,
        }
    }

    fn run(&self) -> Report {
        run(&self.input())
    }

    /// The count of a run that completes.
    fn completes(&self) -> u64 {
        let report = self.run();
        assert_eq!(report.ending, Ending::Completed);
        report.count
    }

    /// The number of the refusal, which leaves all as it was.
    fn refusal(&self) -> u64 {
        let report = self.run();
        assert_eq!(report.count, 0);
        assert_eq!(report.moment, self.input().opening());
        report.ending.refusal()
    }
}

/// Ways to spoil an input, with the refusal that each of them earns, in the
/// order in which they are tested.
type Spoiler = (u64, fn(&mut Draft));
const SPOILERS: [Spoiler; 9] = [
    (1, |draft| draft.bytes.push(0)),
    (1, |draft| {
        draft.pages.extend((0x10..0x20).map(|page| page << 12 | 1));
        draft.bytes.resize(draft.pages.len() << 12, 0);
    }),
    (2, |draft| draft.pages[1] += 3),
    (3, |draft| draft.pages[0] |= 1 << 50),
    (4, |draft| draft.pages[2] = draft.pages[1] ^ 3),
    (5, |draft| draft.state[0] = 3),
    (5, |draft| draft.state.truncate(9)),
    (7, |draft| draft.words.push(1)),
    (7, |draft| {
        let many = STAY.iter().copied().cycle().take(1025 * 4);
        draft.words.splice(.., many);
    }),
];

#[test]
fn refusals_come_in_their_order() {
    for (number, spoil) in SPOILERS {
        for (other, spoil_too) in SPOILERS {
            let mut draft = Draft::of(&[[0; 4]]);
            spoil(&mut draft);
            if number != other {
                spoil_too(&mut draft);
            }
            assert_eq!(draft.refusal(), number.min(other), "{number} and {other}");
        }
    }
}

#[test]
fn a_state_has_ten_fields() {
    for length in [0, 1, 9, 11, 12] {
        let mut draft = Draft::of(&[STAY]);
        draft.state.resize(length, 0);
        assert_eq!(draft.refusal(), 5);
    }
    assert_eq!(Draft::of(&[STAY]).completes(), 1);
}

#[test]
fn lists_may_be_empty_or_full() {
    assert_eq!(Draft::of(&[]).completes(), 0);
    assert_eq!(Draft::of(&[STAY; 1024]).completes(), 1024);
    let mut nothing = Draft::of(&[]);
    nothing.pages.clear();
    nothing.bytes.clear();
    assert_eq!(nothing.completes(), 0);
    assert_eq!(nothing.run().moment, nothing.input().opening());
}

#[test]
fn a_broken_form_comes_before_a_fault() {
    let mut draft = Draft::of(&[[2, 0, 0, 0]]);
    draft.state[2] = 0;
    assert_eq!(draft.refusal(), 6);
    draft.words[1] = 1;
    assert_eq!(draft.run().ending.vector(), 6);
}
