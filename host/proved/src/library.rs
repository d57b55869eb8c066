//! The functions of the proved library.

use host::log::{Converter, Format};
use host::product::Joiner;

extern "C" {
    fn retimer_log_to_gaps(log: *const u8, log_len: usize, out: *mut u8, out_len: usize) -> i32;
    fn retimer_log_to_dates(log: *const u8, log_len: usize, out: *mut u8, out_len: usize) -> i32;
    fn retimer_log_sound_dates(log: *const u8, len: usize) -> usize;
    fn retimer_log_sound_gaps(log: *const u8, len: usize) -> usize;
    fn retimer_sheets_join(
        first: *const u8,
        first_len: usize,
        second: *const u8,
        second_len: usize,
        out: *mut u8,
        out_len: usize,
    ) -> i32;
    fn retimer_sheet_check(sheet: *const u8, len: usize) -> i32;
}

/// The proved library.
pub struct Proved;

impl Converter for Proved {
    fn convert(&self, from: Format, log: &[u8], output: &mut [u8]) -> i32 {
        let function = match from {
            Format::Dates => retimer_log_to_gaps,
            Format::Gaps => retimer_log_to_dates,
        };
        let (mut spare, lent) = (0, output.len());
        // SAFETY: both pointers are valid for so many bytes, the output's for
        // writing, and a shared and a mutable slice do not overlap.
        unsafe { function(start(log), log.len(), lent_at(output, &mut spare), lent) }
    }

    fn sound(&self, format: Format, log: &[u8]) -> usize {
        let function = match format {
            Format::Dates => retimer_log_sound_dates,
            Format::Gaps => retimer_log_sound_gaps,
        };
        // SAFETY: the pointer is valid for reading so many bytes.
        unsafe { function(start(log), log.len()) }
    }
}

impl Joiner for Proved {
    fn join(&self, first: &[u8], second: &[u8], output: &mut [u8]) -> i32 {
        let (mut spare, lent) = (0, output.len());
        // SAFETY: the pointers are valid for so many bytes, the output's for
        // writing, and it overlaps neither sheet.
        unsafe {
            retimer_sheets_join(
                start(first),
                first.len(),
                start(second),
                second.len(),
                lent_at(output, &mut spare),
                lent,
            )
        }
    }

    fn check(&self, sheet: &[u8]) -> i32 {
        // SAFETY: the pointer is valid for reading so many bytes.
        unsafe { retimer_sheet_check(start(sheet), sheet.len()) }
    }
}

/// Where the bytes are. An empty slice need not have an address that is one.
fn start(bytes: &[u8]) -> *const u8 {
    static SPARE: u8 = 0;
    match bytes {
        [] => &SPARE,
        _ => bytes.as_ptr(),
    }
}

/// Where a lent output is; a spare byte stands for an empty one.
fn lent_at(output: &mut [u8], spare: &mut u8) -> *mut u8 {
    match output {
        [] => spare,
        _ => output.as_mut_ptr(),
    }
}
