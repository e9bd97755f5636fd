//! Whole runs of Driftpocket's library compared with the second program.
//!
//! The library is called through its C interface, the second program is the
//! independent one in this workspace. Everything here takes the function under
//! test as an argument, so that a part that is wrong on purpose can be put in
//! its place to see whether it is noticed.
//!
//! * [`case`]: what a run is given, and what is seen of it afterwards.
//! * [`answer`]: the ways in which a run can end, as numbers.
//! * [`difference`]: two sightings side by side, and only what differs.
//! * [`damage`]: ways to spoil an input so that it is refused.
//! * [`rows`]: cases with what must come of them, written out by hand.
//! * [`stored`]: the stored sheets, the worked cases of the rules among them.
//! * [`edges`]: limits of lists, lengths and reports.
//! * [`operations`]: a file for each operation.
//! * [`page_ends`]: loads and stores around the end of a page.
//! * [`refusals`]: every refusal, and their order.
//! * [`world`]: pages, states and tokens for a random run.
//! * [`operands`]: instructions that suit a state, or just don't.
//! * [`frames`]: calls and returns that match, or just don't.
//! * [`author`]: random runs and random pairs of runs.
//! * [`table`]: which answers came from which code, and which can't.
//! * [`reasons`]: which reasons for faults came up.
//! * [`properties`]: what holds of pairs of runs, and the ledger.
//! * [`rounds`]: all of it, over many random runs.
//! * [`sheets`]: run sheets read and written, with modules of its own.

#![deny(missing_docs)]
#![forbid(unsafe_code)]

pub mod answer;
pub mod author;
pub mod case;
pub mod damage;
pub mod difference;
pub mod edges;
pub mod frames;
pub mod operands;
pub mod operations;
pub mod page_ends;
pub mod properties;
pub mod reasons;
pub mod refusals;
pub mod rounds;
pub mod rows;
pub mod sheets;
pub mod stored;
pub mod table;
pub mod world;
