//! What several tests start from.

use driftpocket::{Kind, PageList, State};

/// User code in 64-bit mode with shadow stacks enabled.
pub fn user(ssp: u64) -> State {
    State {
        mode: 2,
        cpl: 3,
        cet: 1,
        ucet: 1,
        ip: 0x40_0000,
        sp: 0x5010,
        ssp,
        limit: 0xffff_ffff,
        ..State::default()
    }
}

/// A page list of zero bytes.
pub fn pages(list: &[(u64, Kind)]) -> PageList {
    let mut pages = PageList::new();
    for &(address, kind) in list {
        pages.push(address, kind).unwrap();
    }
    pages
}
