//! The decimator.

use super::library::{gingerfile_decimate, gingerfile_decimated};
use super::refusal::Refusal;

/// Every `factor`-th sample of `x` behind 127 taps, into an output of [`decimated_length`]; a copy for factor 0 or 1. It
/// allocates nothing.
///
/// # Errors
///
/// [`FACTOR`](Refusal::FACTOR), [`TAPS`](Refusal::TAPS) and [`OUTPUT`](Refusal::OUTPUT).
pub fn decimate_into(x: &[f64], taps: &[f64], factor: usize, out: &mut [f64]) -> Result<(), Refusal> {
    // factor stands between the slices, so that this one is not a `library!`
    Refusal::of(super::float::standard(|| {
        // SAFETY: as `call!` says.
        unsafe {
            gingerfile_decimate(x.as_ptr(), x.len(), taps.as_ptr(), taps.len(), factor, out.as_mut_ptr(), out.len())
        }
    }))
}

/// How many samples the decimator makes of `n`: a factor-th of them, rounded up.
pub fn decimated_length(n: usize, factor: usize) -> usize {
    // SAFETY: numbers alone.
    unsafe { gingerfile_decimated(n, factor) }
}

/// The same as [`decimate_into`], into memory of its own.
///
/// ```
/// # fn main() -> Result<(), gingerfile::Refusal> {
/// // the mean of each two neighbours
/// let mut taps = [0.0; 127];
/// taps[63] = 0.5;
/// taps[64] = 0.5;
/// let half = gingerfile::decimate(&[1.0; 1_000], &taps, 2)?;
/// assert_eq!((half.len(), half[100]), (500, 1.0));
/// # Ok(())
/// # }
/// ```
///
/// # Errors
///
/// [`FACTOR`](Refusal::FACTOR) and [`TAPS`](Refusal::TAPS).
pub fn decimate(x: &[f64], taps: &[f64], factor: usize) -> Result<Vec<f64>, Refusal> {
    let mut out = vec![0.0; decimated_length(x.len(), factor)];
    decimate_into(x, taps, factor, &mut out)?;
    Ok(out)
}
