//! The library's own calls, as `gingerfile.h` declares them.

use super::console::KeyEnergies;

#[repr(C)]
pub struct Report {
    pub refusal: u64,
    pub value: u64,
    pub dropped: u64,
    pub contacts: u64,
}

#[repr(C)]
pub struct Sizes {
    pub refusal: u64,
    pub fs: f64,
    pub keys: usize,
    pub strings: usize,
    pub words: usize,
    pub work: usize,
    pub scratch: usize,
}

#[rustfmt::skip]
extern "C" {
    pub fn gingerfile_read(file: *const u8, file_length: usize) -> Sizes;
    pub fn gingerfile_open(file: *const u8, file_length: usize, words: *mut u64, words_length: usize, work: *mut f64, work_length: usize) -> Report;
    pub fn gingerfile_play(
        file: *const u8, file_length: usize, words: *mut u64, words_length: usize, work: *mut f64, work_length: usize,
        scratch: *mut f64, scratch_length: usize, out: *mut f64, out_length: usize, trace: *mut f64, trace_length: usize,
    ) -> Report;
    pub fn gingerfile_cue(file: *const u8, file_length: usize, words: *mut u64, words_length: usize, work: *mut f64, work_length: usize) -> Report;
    pub fn gingerfile_go(
        file: *const u8, file_length: usize, words: *mut u64, words_length: usize, work: *mut f64, work_length: usize,
        scratch: *mut f64, scratch_length: usize, p: u64,
    ) -> Report;
    pub fn gingerfile_insert(
        file: *const u8, file_length: usize, words: *mut u64, words_length: usize, work: *mut f64, work_length: usize,
        position: u64, kind: u64, key: u64, velocity: f64,
    ) -> Report;
    pub fn gingerfile_remove(
        file: *const u8, file_length: usize, words: *mut u64, words_length: usize, work: *mut f64, work_length: usize, index: usize,
    ) -> Report;
    pub fn gingerfile_energies(
        file: *const u8, file_length: usize, words: *const u64, words_length: usize, work: *const f64, work_length: usize,
    ) -> KeyEnergies;
    pub fn gingerfile_adjust(
        file: *const u8, file_length: usize, keys: *const u8, keys_length: usize, weights: *const f64, weights_length: usize,
        out: *mut u8, out_length: usize,
    ) -> Report;
    pub fn gingerfile_decimated(n: usize, factor: usize) -> usize;
    pub fn gingerfile_decimate(
        x: *const f64, x_length: usize, taps: *const f64, taps_length: usize, factor: usize, out: *mut f64, out_length: usize,
    ) -> u64;
}

/// Calls a function of a proved library. A slice is handed over as its pointer and its length: those that are read, then those
/// that are written, then the numbers.
macro_rules! call {
    ($function:ident, [$($read:expr),*], [$($written:expr),*] $(, $number:expr)*) => {
        // SAFETY: the slices of a call are distinct, by Rust's own rules, and the library reads and writes within them alone,
        // which is proved.
        unsafe { $function($($read.as_ptr(), $read.len(),)* $($written.as_mut_ptr(), $written.len(),)* $($number),*) }
    };
}

/// The same with floats computed as the proofs have them.
macro_rules! library {
    ($($call:tt)*) => { super::float::standard(|| call!($($call)*)) };
}
