//! The calls into copies of the proved library, an earlier build and the present one: the one place
//! with `unsafe`.

#![allow(unsafe_code)]

/// A copy's function as it is, like `driftpocket::run_raw`.
macro_rules! replay {
    ($name:ident, $exported:ident) => {
        // SAFETY: this is what `include/driftpocket.h` declares of `driftpocket_run`, unchanged
        // since there is a library, and what a copy that `build.rs` links defines under this name.
        unsafe extern "C" {
            fn $exported(
                state: *mut u64,
                state_len: usize,
                pages: *const u64,
                pages_len: usize,
                bytes: *mut u8,
                bytes_len: usize,
                words: *const u64,
                words_len: usize,
                report: *mut u64,
                report_len: usize,
            ) -> u64;
        }

        pub fn $name(
            state: &mut [u64],
            pages: &[u64],
            bytes: &mut [u8],
            words: &[u64],
            report: &mut [u64],
        ) -> u64 {
            // SAFETY: every pointer and length is that of one slice, so each pointer is aligned,
            // not null, and valid for its length, also where that is 0. The three that are written
            // are borrowed mutably, so they overlap nothing and nobody else touches them before
            // the call returns.
            unsafe {
                $exported(
                    state.as_mut_ptr(),
                    state.len(),
                    pages.as_ptr(),
                    pages.len(),
                    bytes.as_mut_ptr(),
                    bytes.len(),
                    words.as_ptr(),
                    words.len(),
                    report.as_mut_ptr(),
                    report.len(),
                )
            }
        }
    };
}

replay!(before, driftpocket_run_before);
replay!(present, driftpocket_run_present);
