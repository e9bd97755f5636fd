//! The runs that are made complete, use every code that the plain replay has and no other, and give
//! the same with both replays, whole or with a word spoilt.

use driftpocket_bench::runs::{INSTRUCTIONS, Run, Spread, make};
use driftpocket_bench::{Outcome, REPLAYS, outcome};

/// Some runs of each mode and spread.
fn some_runs() -> Vec<Run> {
    let inputs = [
        (2, Spread::Random),
        (2, Spread::Repeated),
        (1, Spread::Random),
        (1, Spread::Repeated),
    ];
    let runs = inputs.map(|(mode, spread)| (0..4).map(move |seed| make(mode, spread, seed)));
    runs.into_iter().flatten().collect()
}

/// What comes back from both replays, which must agree.
fn agreed(run: &Run, words: &[u64]) -> Outcome {
    let [proved, plain] =
        REPLAYS.map(|(_, replay)| outcome(replay, &run.state, &run.pages, &run.bytes, words));
    assert!(proved == plain, "the replays differ");
    plain
}

#[test]
fn whole_runs_complete() {
    for run in some_runs() {
        let after = agreed(&run, &run.words);
        assert_eq!(after.answer, 0);
        assert_eq!(after.report, [INSTRUCTIONS as u64, 0, 0, 0, 0]);
    }
}

#[test]
fn runs_use_every_code_up_to_8() {
    for run in some_runs() {
        let is_used = |code| {
            run.words
                .chunks(4)
                .any(|instruction| instruction[0] == code)
        };
        let used: Vec<u64> = (1..=12).filter(|&code| is_used(code)).collect();
        let expected: &[u64] = match run.state[0] {
            1 => &[1, 3, 4, 5, 7, 8],
            _ => &[1, 2, 3, 4, 5, 6, 7, 8],
        };
        assert_eq!(used, expected);
    }
}

#[test]
fn spoilt_runs_end_alike() {
    for run in some_runs() {
        for spoilt in (0..run.words.len()).step_by(101) {
            let mut words = run.words.clone();
            words[spoilt] = words[spoilt].wrapping_add(1 << (spoilt % 61));
            let is_code = spoilt.is_multiple_of(4);
            if is_code && words[spoilt] > 8 {
                continue;
            }
            let after = agreed(&run, &words);
            assert!(after.report[0] <= INSTRUCTIONS as u64);
        }
    }
}
