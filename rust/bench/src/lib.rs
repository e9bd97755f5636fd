//! What the benchmark needs: a plain replay to measure against, and runs to measure with.

#![deny(missing_docs)]
#![deny(unsafe_code)]

#[cfg(before_library)]
mod copies;
pub mod plain;
pub mod runs;

/// A replay in the shape of the C function: state, pages, bytes, instruction words, report.
pub type Replay = fn(&mut [u64], &[u64], &mut [u8], &[u64], &mut [u64]) -> u64;

/// Both replays under their names, the proved one first.
pub const REPLAYS: [(&str, Replay); 2] =
    [("proved", driftpocket::run_raw), ("plain", plain::run_raw)];

/// The replays that are timed: both.
#[cfg(not(before_library))]
pub const TIMED: [(&str, Replay); 2] = REPLAYS;

/// The replays that are timed: both, and an earlier library. The tests leave that one out, as it
/// need not know all of the present rules. The proved replay is a copy here, placed like that one.
#[cfg(before_library)]
pub const TIMED: [(&str, Replay); 3] = [
    ("proved", copies::present),
    REPLAYS[1],
    ("before", copies::before),
];

/// All that a replay gives back.
#[derive(Debug, Clone, PartialEq, Eq)]
pub struct Outcome {
    /// The number returned.
    pub answer: u64,
    /// Count, refusal, vector, error code, address.
    pub report: [u64; 5],
    /// The state afterwards.
    pub state: Vec<u64>,
    /// The bytes afterwards.
    pub bytes: Vec<u8>,
}

/// Gives copies of a state and bytes to a replay and collects what comes back.
pub fn outcome(
    replay: Replay,
    state: &[u64],
    pages: &[u64],
    bytes: &[u8],
    words: &[u64],
) -> Outcome {
    let (mut state, mut bytes, mut report) = (state.to_vec(), bytes.to_vec(), [0; 5]);
    let answer = replay(&mut state, pages, &mut bytes, words, &mut report);
    Outcome {
        answer,
        report,
        state,
        bytes,
    }
}
