//! An instrument's file with other weights.

use super::library::gingerfile_adjust;
use super::refusal::Refusal;

/// Bytes of the longest file that an instrument has, `GINGERFILE_LONGEST_FILE` of `gingerfile.h`.
pub const LONGEST_FILE: usize = 2_200;

/// Writes an instrument's file anew with other weights into `out`: the key `keys[i]` gets `weights[i]`, and where a key comes
/// twice the later weight stands. Gives the new file's length; bytes of `out` beyond it stay as they were. It allocates nothing.
///
/// # Errors
///
/// 1 to 6, [`TABLE`](Refusal::TABLE) to [`KEY_TWICE`](Refusal::KEY_TWICE), for a file that is no instrument's;
/// [`RECORD`](Refusal::RECORD) where there are not as many weights as keys, the instrument has no such key, or a weight that is to stand is
/// NaN or outside 0 to 100; then [`BYTES`](Refusal::BYTES) where `out` is shorter than the new file. No byte of `out` has changed.
pub fn adjust_into(file: &[u8], keys: &[u8], weights: &[f64], out: &mut [u8]) -> Result<usize, Refusal> {
    let report = library!(gingerfile_adjust, [file, keys, weights], [out]);
    Refusal::of(report.refusal)?;
    Ok(report.value as usize)
}

/// The same as [`adjust_into`], from pairs of a key and its weight, into memory of its own.
///
/// ```
/// # fn main() -> Result<(), Box<dyn std::error::Error>> {
/// use gingerfile::{adjust, Console, Event, Refusal};
///
/// let file = std::fs::read("piano")?;
/// let softer = adjust(&file, &[(60, 0.5), (64, 0.5)])?;
///
/// // the new file is an instrument's, and is played as such
/// let mut console = Console::open(&softer)?;
/// console.insert(0, Event::NoteOn { key: 60, velocity: 3.0 })?;
/// # let (mut out, mut trace) = ([0.0; 441], [0.0; 441]);
/// console.play(&mut out, &mut trace)?;
/// # assert!(out.iter().any(|x| *x != 0.0));
///
/// // no pair, no change; a key that is not there, or a weight that no instrument has, is refused
/// assert_eq!(adjust(&file, &[])?, file);
/// assert_eq!(adjust(&file, &[(61, 0.5)]), Err(Refusal::RECORD));
/// assert_eq!(adjust(&file, &[(60, 100.5)]), Err(Refusal::RECORD));
/// # Ok(())
/// # }
/// ```
///
/// # Errors
///
/// 1 to 6, and [`RECORD`](Refusal::RECORD), as [`adjust_into`].
pub fn adjust(file: &[u8], pairs: &[(u8, f64)]) -> Result<Vec<u8>, Refusal> {
    let (keys, weights): (Vec<u8>, Vec<f64>) = pairs.iter().copied().unzip();
    let mut out = vec![0; LONGEST_FILE];
    let length = adjust_into(file, &keys, &weights, &mut out)?;
    out.truncate(length);
    Ok(out)
}
