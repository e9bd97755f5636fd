//! Run sheets.
//!
//! * `read`, `write`: the library's functions on plain buffers.
//! * `both_ways`: the module `sheet` for safe Rust.
//! * `texts`: what all of them start from.

mod both_ways;
#[path = "../common/mod.rs"]
mod common;
mod read;
mod texts;
mod write;
