//! The independent second program of Driftpocket.
//!
//! It answers the same questions as the proved code and shares nothing with
//! it, so that a comparison of the two means something. For that reason it
//! takes other shapes wherever there is a choice: pages stand in an ordered
//! map and are found by asking for the nearest one below an address, sums are
//! exact in `i128` and reduced afterwards, and stores never touch the lent
//! bytes but lie above them in a map of their own. An operation works on a copy
//! of the state and lets its stores wait in a transaction until nothing can go
//! wrong any more. Between the text of a sheet and the buffers of its run stand
//! ordered maps, and a line is right if it prints as the same bytes again.
//!
//! * [`address`]: exact sums, their reduction, canonical addresses.
//! * [`pages`]: reading a page list, the refusals 1 to 4, finding a byte.
//! * [`memory`]: lent pages, and what an access of 4 or 8 bytes reaches there.
//! * [`transaction`]: loads, and stores that take effect together or not at all.
//! * [`processor`]: the ten fields of a state, refusal 5, what follows from it.
//! * [`fault`]: why an operation can't be done, and what is reported of it.
//! * [`operations`]: reading an instruction, refusal 6, the operations.
//! * [`runs`]: whole runs, all refusals in their order, any input whatever.
//! * [`sheet`]: run sheets read and written, refusals 8 and 9.
//! * [`outcome`]: what comes of a sheet, as a text that can be run again.
//! * [`dice`]: numbers that look random, for programs that compare.

#![deny(missing_docs)]
#![forbid(unsafe_code)]

pub mod address;
pub mod dice;
pub mod fault;
pub mod memory;
pub mod operations;
pub mod outcome;
pub mod pages;
pub mod processor;
pub mod runs;
pub mod sheet;
pub mod transaction;
