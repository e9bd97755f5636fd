//! The operations, one file each. It has what the comparison knows of an
//! operation alone: rows with what must come of them, its accesses for the ends
//! of pages, operands for random runs, and the answers that it can't give.

use crate::answer::Answer;
use crate::case::{FOUR_GIB, field};
use crate::rows::{Row, plain};
use crate::table::Law;

pub mod call;
pub mod incssp;
pub mod ret;
pub mod rstorssp;
pub mod saveprevssp;
pub mod wrss;
pub mod wruss;

/// An operand that mode 1 does not take.
const WIDE: u64 = FOUR_GIB + 8;

/// The last eight bytes that mode 1 and mode 2 have.
const NARROW_END: u64 = FOUR_GIB - 8;
const WIDE_END: u64 = u64::MAX - 7;

/// Pages at both ends of the memory of either mode, and one between.
const ENDS: [u64; 4] = [0x1001, 0xffff_ffff_ffff_f001, 1, 0xffff_f001];

/// All rows.
pub fn rows() -> Vec<Row> {
    [
        incssp::rows(),
        rstorssp::rows(),
        saveprevssp::rows(),
        wrss::rows(),
        wruss::rows(),
        call::rows(),
        ret::rows(),
    ]
    .concat()
}

/// Why some answers do not come from them.
pub(crate) fn laws() -> impl Iterator<Item = &'static Law> {
    let all = [incssp::LAWS, wruss::LAWS, ret::LAWS];
    all.into_iter().flatten()
}

/// What an instruction with these operands gives in mode 0.
fn real_mode(code: u64, a: u64, b: u64, answer: Answer) -> Row {
    let case = plain(&[[code, 5, a, b]]).with(field::MODE, 0);
    Row::ends(format!("mode 0, code {code}"), case, answer)
}
