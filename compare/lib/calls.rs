//! The library's own calls on slices of any length: the wrapper lends just what an instrument asks for.

mod console {
    pub use crate::gingerfile::KeyEnergies;
}
#[allow(dead_code, unused_macros)]
#[macro_use]
#[path = "../../embed/src/library.rs"]
mod library;

pub use library::Report;
use library::*;

pub fn open(file: &[u8], words: &mut [u64], work: &mut [f64]) -> Report {
    call!(gingerfile_open, [file], [words, work])
}

pub fn play(
    file: &[u8],
    words: &mut [u64],
    work: &mut [f64],
    scratch: &mut [f64],
    out: &mut [f64],
    trace: &mut [f64],
) -> Report {
    call!(gingerfile_play, [file], [words, work, scratch, out, trace])
}

pub fn cue(file: &[u8], words: &mut [u64], work: &mut [f64]) -> Report {
    call!(gingerfile_cue, [file], [words, work])
}

pub fn go(file: &[u8], words: &mut [u64], work: &mut [f64], scratch: &mut [f64], p: u64) -> Report {
    call!(gingerfile_go, [file], [words, work, scratch], p)
}

/// An event is its position, and its kind, key and velocity as they cross.
pub fn insert(file: &[u8], words: &mut [u64], work: &mut [f64], q: u64, event: (u64, u64, f64)) -> Report {
    call!(gingerfile_insert, [file], [words, work], q, event.0, event.1, event.2)
}

pub fn remove(file: &[u8], words: &mut [u64], work: &mut [f64], index: usize) -> Report {
    call!(gingerfile_remove, [file], [words, work], index)
}
