//! The calls into the proved libraries: the one place with `unsafe`.

#![allow(unsafe_code)]

// SAFETY: this is what `include/driftpocket.h` declares, and what the static
// libraries that `build.rs` links define.
unsafe extern "C" {
    fn driftpocket_run(
        state: *mut u64,
        state_len: usize,
        pages: *const u64,
        pages_len: usize,
        bytes: *mut u8,
        bytes_len: usize,
        words: *const u64,
        words_len: usize,
        report: *mut u64,
        report_len: usize,
    ) -> u64;

    fn driftpocket_sheet_read(
        text: *const u8,
        text_len: usize,
        state: *mut u64,
        state_len: usize,
        pages: *mut u64,
        pages_len: usize,
        bytes: *mut u8,
        bytes_len: usize,
        words: *mut u64,
        words_len: usize,
        report: *mut u64,
        report_len: usize,
    ) -> u64;

    fn driftpocket_sheet_write(
        state: *const u64,
        state_len: usize,
        pages: *const u64,
        pages_len: usize,
        bytes: *const u8,
        bytes_len: usize,
        words: *const u64,
        words_len: usize,
        text: *mut u8,
        text_len: usize,
        report: *mut u64,
        report_len: usize,
    ) -> u64;
}

/// The library's function as it is, on any numbers and any lengths.
///
/// * `state`: the ten fields, in and out ([`State::to_words`](crate::State::to_words)).
///   Another length is refusal 5.
/// * `pages`, `bytes`: the page list, and 4,096 bytes for each entry.
/// * `words`: the instructions, four words each.
/// * `report`: gets count, refusal, vector, error code and address in its
///   first five words, and keeps what is past them.
///
/// Gives 0 if all instructions completed, the refusal, or 256 plus the vector
/// of the fault. If `report` has fewer than five words, nothing is run or
/// written; the answer is then 1 to 5 or 7, where one of these is due, and
/// otherwise 8.
pub fn run_raw(
    state: &mut [u64],
    pages: &[u64],
    bytes: &mut [u8],
    words: &[u64],
    report: &mut [u64],
) -> u64 {
    // SAFETY: every pointer and length is that of one slice, so each pointer is
    // aligned, not null, and valid for its length, also where that is 0. The
    // three that are written are borrowed mutably, so they overlap nothing and
    // nobody else touches them before the call returns.
    unsafe {
        driftpocket_run(
            state.as_mut_ptr(),
            state.len(),
            pages.as_ptr(),
            pages.len(),
            bytes.as_mut_ptr(),
            bytes.len(),
            words.as_ptr(),
            words.len(),
            report.as_mut_ptr(),
            report.len(),
        )
    }
}

/// The library's reader of run sheets as it is, on any text and any lengths.
///
/// * `text`: what is to be a sheet.
/// * `state`, `pages`, `bytes`, `words`: room for the run. Each gets what the
///   sheet says and keeps what is past that.
/// * `report`: gets refusal, line, and the numbers of pages, bytes and words in
///   its first five words, and keeps what is past them. The line is 0 but for
///   refusal 9. The numbers are those needed where the refusal is 8, and 0 with
///   any other refusal.
///
/// Gives 0 or the refusal. A refused read changes nothing but `report`. If that
/// has fewer than five words, nothing is written; the answer is then 9, 1, 2, 3,
/// 5 or 7, where one of these is due, and otherwise 8.
pub fn sheet_read_raw(
    text: &[u8],
    state: &mut [u64],
    pages: &mut [u64],
    bytes: &mut [u8],
    words: &mut [u64],
    report: &mut [u64],
) -> u64 {
    // SAFETY: as in `run_raw`; the five that are written are borrowed mutably.
    unsafe {
        driftpocket_sheet_read(
            text.as_ptr(),
            text.len(),
            state.as_mut_ptr(),
            state.len(),
            pages.as_mut_ptr(),
            pages.len(),
            bytes.as_mut_ptr(),
            bytes.len(),
            words.as_mut_ptr(),
            words.len(),
            report.as_mut_ptr(),
            report.len(),
        )
    }
}

/// The library's writer of run sheets as it is, on any numbers and any lengths.
///
/// * `state`, `pages`, `bytes`, `words`: the run, as [`run_raw`] takes it. The
///   pages may be in any order.
/// * `text`: room for the sheet. It gets the sheet and keeps what is past that.
/// * `report`: gets refusal and length of the text in its first two words, and
///   keeps what is past them. The length is that needed where the refusal is 8,
///   and 0 with any other refusal.
///
/// Gives 0 or the refusal. A refused write changes nothing but `report`. If
/// that has fewer than two words, nothing is written; the answer is then 1 to 5
/// or 7, where one of these is due, and otherwise 8.
pub fn sheet_write_raw(
    state: &[u64],
    pages: &[u64],
    bytes: &[u8],
    words: &[u64],
    text: &mut [u8],
    report: &mut [u64],
) -> u64 {
    // SAFETY: as in `run_raw`; the two that are written are borrowed mutably.
    unsafe {
        driftpocket_sheet_write(
            state.as_ptr(),
            state.len(),
            pages.as_ptr(),
            pages.len(),
            bytes.as_ptr(),
            bytes.len(),
            words.as_ptr(),
            words.len(),
            text.as_mut_ptr(),
            text.len(),
            report.as_mut_ptr(),
            report.len(),
        )
    }
}
