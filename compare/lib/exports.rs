//! The proved functions under the names that the library `exports` gives them, for the comparisons and the benches.

use crate::design::LoopDesign;
use crate::record::{Crossing, Reading, Record};

/// What a session's calls are made in.
pub struct Lent<'a> {
    pub work: &'a mut [f64],
    pub scratch: &'a mut [f64],
    pub out: &'a mut [f64],
    pub trace: &'a mut [f64],
}

/// What the proved writer answers: the refusal's number, 0 for none; the file's length.
#[repr(C)]
struct WriteAnswer {
    refusal: u32,
    length: usize,
}

// ---- the instrument's record

impl Record {
    /// What the proved reader gives of a file: the refusal's number, 0 for none, and the record.
    pub fn read(file: &[u8]) -> (u32, Record) {
        let reading = call!(instrument_read, [file], []);
        (reading.refusal, reading.record())
    }

    /// Refusal 7's test: whether some file gives the record.
    pub fn is_given(&self) -> bool {
        instrument_test(self.crossing())
    }

    /// What the proved writer answers: the refusal's number, 0 for none, and the length of the file that it has written.
    pub fn write(&self, bytes: &mut [u8]) -> (u32, usize) {
        writes(&self.crossing(), bytes)
    }
}

/// The reading alone, for the bench.
pub fn reads(file: &[u8]) -> u32 {
    std::hint::black_box(call!(instrument_read, [file], [])).refusal
}

/// The writing alone.
pub fn writes(record: &Crossing, bytes: &mut [u8]) -> (u32, usize) {
    // SAFETY: as `call!` says; the record stands ahead of the slice.
    let WriteAnswer { refusal, length } = unsafe { instrument_write(*record, bytes.as_mut_ptr(), bytes.len()) };
    (refusal, length)
}

// ---- the library

// Numbers alone cross, so that no call can be wrong.
#[rustfmt::skip]
unsafe extern "C" {
    pub safe fn leaf_root(x: f64) -> f64;
    pub safe fn leaf_power(x: f64, word: u32) -> f64;
    pub safe fn leaf_min(a: f64, b: f64) -> f64;
    pub safe fn leaf_max(a: f64, b: f64) -> f64;
    pub safe fn leaf_clamp(x: f64, lo: f64, hi: f64) -> f64;
    pub safe fn leaf_positive_part(x: f64) -> f64;
    pub safe fn leaf_round_away(x: f64) -> u64;
    pub safe fn leaf_contact_force(
        stiffness: f64, exponent: u32, eps: f64, mass: f64, tau: f64, eps_r: f64, c0: f64, c1: f64,
    ) -> f64;
    /// How the force was found: 0 there is none, 1 by the first guess, 2 by the second, 3 by neither.
    pub safe fn leaf_force_trials(stiffness: f64, exponent: u32, eps_r: f64, c0: f64, c1: f64) -> u32;
    pub safe fn leaf_cut_string(n: usize, phi: f64, strike_ratio: f64, damper_ratio: f64, lengths: &mut [usize; 3]);
    safe fn instrument_test(instrument: Crossing) -> bool;
}

// A slice crosses as its pointer and its length.
#[rustfmt::skip]
extern "C" {
    fn leaf_allpass(cells: *mut f64, count: usize, a: f64, x: f64) -> f64;
    fn leaf_dispersion(cells: *mut f64, count: usize, a: f64, x: f64) -> f64;
    fn leaf_loop_filter(
        cells: *mut f64, count: usize, thiran_a: f64, ap_a: f64, loss_g: f64, loss_c: f64, x: f64,
    ) -> f64;
    fn leaf_root_chain(x: *const f64, count: usize) -> f64;
    fn leaf_root_sweep(x: *mut f64, count: usize);
    fn leaf_force_sweep(c0: *mut f64, count: usize, stiffness: f64, exponent: u32, eps_r: f64, c1: f64);
    fn leaf_row_run(cells: *mut f64, cell_count: usize, block: *mut f64, block_count: usize, a: f64);
    fn instrument_read(file: *const u8, file_length: usize) -> Reading;
    fn instrument_write(instrument: Crossing, bytes: *mut u8, bytes_length: usize) -> WriteAnswer;
    fn session_plays(
        file: *const u8, file_length: usize, words: *const u64, words_length: usize,
        work: *mut f64, work_length: usize, scratch: *mut f64, scratch_length: usize,
        out: *mut f64, out_length: usize, trace: *mut f64, trace_length: usize, blocks: u64,
    ) -> u64;
    fn session_cues(
        file: *const u8, file_length: usize, words: *const u64, words_length: usize, work: *mut f64, work_length: usize,
        times: u64,
    ) -> u64;
    fn session_inserts(
        file: *const u8, file_length: usize, words: *const u64, words_length: usize, work: *mut f64, work_length: usize,
        position: u64, times: u64,
    ) -> u64;
    fn session_render(
        file: *const u8, file_length: usize, words: *const u64, words_length: usize,
        part: *mut f64, part_length: usize, scratch: *mut f64, scratch_length: usize,
        out: *mut f64, out_length: usize, trace: *mut f64, trace_length: usize,
    ) -> u64;
}

// ---- the leaves

pub fn allpass(cells: &mut [f64], a: f64, x: f64) -> f64 {
    call!(leaf_allpass, [], [cells], a, x)
}

pub fn dispersion(cells: &mut [f64], a: f64, x: f64) -> f64 {
    call!(leaf_dispersion, [], [cells], a, x)
}

#[inline(always)]
pub fn loop_filter(cells: &mut [f64], design: &LoopDesign, x: f64) -> f64 {
    call!(leaf_loop_filter, [], [cells], design.thiran_a, design.ap_a, design.loss_g, design.loss_c, x)
}

/// Each root waits for the one before.
pub fn root_chain(x: &[f64]) -> f64 {
    call!(leaf_root_chain, [x], [])
}

pub fn root_sweep(x: &mut [f64]) {
    call!(leaf_root_sweep, [], [x])
}

pub fn force_sweep(stiffness: f64, exponent: u32, eps_r: f64, c1: f64, c0: &mut [f64]) {
    call!(leaf_force_sweep, [], [c0], stiffness, exponent, eps_r, c1)
}

/// The row runs over a block.
pub fn row_run(cells: &mut [f64], a: f64, block: &mut [f64]) {
    call!(leaf_row_run, [], [cells, block], a)
}

// ---- the session's calls in loops, from words that are not written: each gives what the last call answered; a refused
// call's is 1,000,000 and its number

/// `blocks` plays of the output's length, each over the one before; it gives the forces of the last.
pub fn plays(file: &[u8], words: &[u64], blocks: u64, lent: Lent) -> u64 {
    let Lent { work, scratch, out, trace } = lent;
    call!(session_plays, [file, words], [work, scratch, out, trace], blocks)
}

/// `times` cues.
pub fn cues(file: &[u8], words: &[u64], times: u64, work: &mut [f64]) -> u64 {
    call!(session_cues, [file, words], [work], times)
}

/// `times` inserts at a position; it gives t.
pub fn inserts(file: &[u8], words: &[u64], position: u64, times: u64, work: &mut [f64]) -> u64 {
    call!(session_inserts, [file, words], [work], position, times)
}

/// The renderer alone, for as many samples as the output has; it gives the forces.
pub fn render(file: &[u8], words: &[u64], lent: Lent) -> u64 {
    let Lent { work, scratch, out, trace } = lent;
    call!(session_render, [file, words], [work, scratch, out, trace])
}
