//! A rehearsal piano whose every sample, force and count is proved: a safe wrapper over `libgingerfile.a`, which
//! `scripts/build gingerfile` makes. `docs/EMBEDDING.md` in the repository is the page for hosts.
//!
//! A [`Console`] is an instrument and a session on it: a score of at most 64 events, a position, and up to four cues, to which
//! it steps back with strings, pedal, dampers, hammer and every key's count. Its calls keep nothing outside it.
//!
//! ```
//! # fn main() -> Result<(), Box<dyn std::error::Error>> {
//! use gingerfile::{Console, Event};
//!
//! let mut console = Console::open(&std::fs::read("piano")?)?;
//! console.insert(0, Event::NoteOn { key: 60, velocity: 3.0 })?;
//! console.insert(11_025, Event::NoteOff { key: 60 })?;
//!
//! // half a second in blocks; each block's forces stand first in the trace
//! let (mut out, mut trace) = ([0.0; 441], [0.0; 441]);
//! for _ in 0..50 {
//!     let played = console.play(&mut out, &mut trace)?;
//!     assert!(played.forces <= out.len());
//!     assert_eq!(played.contact_samples, console.contact_samples());
//! }
//! assert_eq!(console.position(), 22_050);
//! # assert!(console.contact_samples() > 0);
//! # Ok(())
//! # }
//! ```
//!
//! # Real time
//!
//! [`play`](Console::play), [`cue`](Console::cue), [`go`](Console::go), [`insert`](Console::insert),
//! [`remove`](Console::remove), [`key_energies`](Console::key_energies), [`decimate_into`] and [`adjust_into`] allocate nothing,
//! take no lock and make no system call. Each needs at most [`STACK`] bytes of stack below the caller's frame. A go may replay up to
//! 1,000,000 samples before it returns.
//!
//! # Floats
//!
//! The proofs speak of floats rounded to nearest, with subnormal numbers. Where the host has set the processor to flush those
//! to zero, to round otherwise, or to trap, each call sets the standard way for its own time and puts the host's back.
#![deny(missing_docs)]

#[macro_use]
mod library;
mod console;
mod decimator;
mod float;
mod refusal;
mod weights;

pub use console::{Console, Edited, Event, KeyEnergies, Played, CONTACT_SAMPLES, END, PIANO, STACK, T, WORDS};
pub use decimator::{decimate, decimate_into, decimated_length};
pub use refusal::Refusal;
pub use weights::{adjust, adjust_into, LONGEST_FILE};
