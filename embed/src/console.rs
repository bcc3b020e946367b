//! An instrument and a session on it.

use super::library::*;
use super::refusal::Refusal;
use std::fmt;

/// Words of a session; `gingerfile.h` says what stands where.
pub const WORDS: usize = 616;
/// The word of the position.
pub const T: usize = 0;
const COUNT: usize = 1;
const EVENTS: usize = 2;
const EVENT: usize = 4;
const CUES: usize = 258;
const CUE: usize = 72;
/// Where the words of the piano now begin.
pub const PIANO: usize = 546;
/// Where the keys' contact samples begin, one word a key in the file's order; those past the last key decide nothing.
pub const CONTACT_SAMPLES: usize = 594;
const PEAK_FORCE: usize = 615;

/// The last position, `GINGERFILE_END` of `gingerfile.h`: above it lies [`PAST_END`](Refusal::PAST_END). An `f64` has every position too.
pub const END: u64 = 9_007_199_254_740_992;

/// Bytes of stack that a call needs below the caller's frame, `GINGERFILE_STACK` of `gingerfile.h`. A thread of 64 KiB has
/// them beside its own.
pub const STACK: usize = 53_248;

/// What a score has at a position. At one position releases act first, then hand damps, pedal moves and strikes. An event of a
/// key that the instrument has not does nothing.
#[derive(Clone, Copy, Debug, PartialEq)]
pub enum Event {
    /// A strike; the key's damper stays up until its release.
    NoteOn {
        /// The key's number.
        key: u8,
        /// The hammer's speed towards the strings, −100 to 100.
        velocity: f64,
    },
    /// A release: the damper falls unless the pedal holds it.
    NoteOff {
        /// The key's number.
        key: u8,
    },
    /// The pedal goes down, or up.
    Pedal(bool),
    /// A hand on the key's strings, until it is struck again.
    HandDamp {
        /// The key's number.
        key: u8,
    },
}

impl Event {
    /// Its numbers as they cross: kind, key, velocity.
    fn numbers(self) -> (u64, u64, f64) {
        match self {
            Event::NoteOn { key, velocity } => (0, key as u64, velocity),
            Event::NoteOff { key } => (1, key as u64, 0.0),
            Event::Pedal(down) => (2, down as u64, 0.0),
            Event::HandDamp { key } => (3, key as u64, 0.0),
        }
    }

    /// The event of a session's words: kind, key, the velocity's bits.
    fn of_words(kind: u64, key: u64, velocity: u64) -> Event {
        let number = key as u8;
        match kind {
            0 => Event::NoteOn { key: number, velocity: f64::from_bits(velocity) },
            1 => Event::NoteOff { key: number },
            2 => Event::Pedal(key == 1),
            _ => Event::HandDamp { key: number },
        }
    }
}

/// What a play gives, beside its samples and forces.
#[derive(Clone, Copy, Debug, PartialEq, Eq)]
pub struct Played {
    /// How many forces stand first in the trace: one for each sample that has a hammer.
    pub forces: usize,
    /// The contact samples of all keys at the position after it, as [`contact_samples`](Console::contact_samples) has them.
    pub contact_samples: u64,
}

/// What an edit gives.
#[derive(Clone, Copy, Debug, PartialEq, Eq)]
pub struct Edited {
    /// The position after it.
    pub t: u64,
    /// How many cues it dropped.
    pub dropped: u64,
}

/// Each key's energy and number in the file's order, zeros past the last.
#[repr(C)]
#[derive(Clone, Copy, Debug, PartialEq)]
pub struct KeyEnergies {
    refusal: u64,
    /// How many keys there are.
    pub count: usize,
    /// The sum of the squares of what each key's strings hold.
    pub energies: [f64; 16],
    /// The keys' numbers.
    pub keys: [u8; 16],
}

impl Report {
    fn accepted(self) -> Result<Report, Refusal> {
        Refusal::of(self.refusal)?;
        Ok(self)
    }

    fn played(self) -> Result<Played, Refusal> {
        let Report { value, contacts, .. } = self.accepted()?;
        Ok(Played { forces: value as usize, contact_samples: contacts })
    }

    fn edited(self) -> Result<Edited, Refusal> {
        let Report { value, dropped, .. } = self.accepted()?;
        Ok(Edited { t: value, dropped })
    }
}

/// The most scratch cells that an instrument asks for, one for each string.
const MOST_SCRATCH: usize = 32;

/// Scratch for one call: what stands in it decides nothing, so no session keeps any.
fn unset_scratch() -> [f64; MOST_SCRATCH] {
    [f64::NAN; MOST_SCRATCH]
}

fn sizes_of(file: &[u8]) -> Result<Sizes, Refusal> {
    let sizes = library!(gingerfile_read, [file], []);
    Refusal::of(sizes.refusal)?;
    let fits = sizes.words == WORDS && sizes.scratch <= MOST_SCRATCH;
    assert!(fits, "libgingerfile.a is of another version than this wrapper");
    Ok(sizes)
}

/// The energies refuse words and work memory as every call does, and write nothing.
fn energies_of(file: &[u8], words: &[u64], work: &[f64]) -> Result<KeyEnergies, Refusal> {
    let answer = library!(gingerfile_energies, [file, words, work], []);
    Refusal::of(answer.refusal)?;
    Ok(answer)
}

/// An instrument and a session on it, which is always one that the library accepts: its calls are never refused as
/// [`RECORD`](Refusal::RECORD), [`WORK`](Refusal::WORK) or [`SCRATCH`](Refusal::SCRATCH), but for those that put words back.
///
/// A clone is a session of its own in the same state.
#[derive(Clone)]
pub struct Console {
    file: Vec<u8>,
    fs: f64,
    /// The keys' numbers, in the file's order.
    keys: Vec<u8>,
    words: Box<[u64; WORDS]>,
    work: Vec<f64>,
    /// How many scratch cells the library asks for.
    scratch: usize,
}

impl Console {
    /// Reads an instrument file and opens a session on it: in silence at position 0, with no events and no cues.
    ///
    /// # Errors
    ///
    /// 1 to 6, [`TABLE`](Refusal::TABLE) to [`KEY_TWICE`](Refusal::KEY_TWICE), for a file that is no instrument's.
    ///
    /// # Panics
    ///
    /// Where the library that was linked has sessions of another number of words than this wrapper, or asks for more scratch.
    pub fn open(file: &[u8]) -> Result<Console, Refusal> {
        let sizes = sizes_of(file)?;
        let (mut words, mut work) = (vec![0; WORDS], vec![0.0; sizes.work]);
        library!(gingerfile_open, [file], [words, work]).accepted()?;
        Console::of(file, sizes, &words, work)
    }

    /// The session that these words and this work memory are, once the library accepts them.
    fn of(file: &[u8], sizes: Sizes, words: &[u64], work: Vec<f64>) -> Result<Console, Refusal> {
        let KeyEnergies { count, keys, .. } = energies_of(file, words, &work)?;
        // the library accepts a longer one
        if work.len() != sizes.work {
            return Err(Refusal::WORK);
        }
        let mut console = Console {
            file: file.to_vec(),
            fs: sizes.fs,
            keys: keys[..count].to_vec(),
            words: Box::new([0; WORDS]),
            work,
            scratch: sizes.scratch,
        };
        console.words.copy_from_slice(words);
        Ok(console)
    }

    /// The session that [`words`](Console::words) and [`work`](Console::work) were kept of, on the same instrument: after a
    /// restart, say. Both must be of one moment; of that, and of another instrument with as many cells, no test can tell.
    ///
    /// ```
    /// # fn main() -> Result<(), Box<dyn std::error::Error>> {
    /// # use gingerfile::{Console, Event};
    /// let file = std::fs::read("piano")?;
    /// let mut console = Console::open(&file)?;
    /// console.insert(100, Event::NoteOn { key: 60, velocity: 3.0 })?;
    /// # console.play(&mut [0.0; 150], &mut [0.0; 150])?;
    /// let kept: (Vec<u64>, Vec<f64>) = (console.words().to_vec(), console.work().to_vec());
    ///
    /// let mut again = Console::restore(&file, &kept.0, &kept.1)?;
    /// # let (mut first, mut second) = ([0.0; 441], [0.0; 441]);
    /// # assert_eq!(console.play(&mut first, &mut [0.0; 441])?, again.play(&mut second, &mut [0.0; 441])?);
    /// # assert_eq!(first, second);
    /// # assert!(first.iter().any(|x| *x != 0.0));
    /// assert_eq!(again.position(), console.position());
    /// # Ok(())
    /// # }
    /// ```
    ///
    /// # Errors
    ///
    /// 1 to 6 for the file; [`RECORD`](Refusal::RECORD) where the words are not 616 or no session's on this instrument;
    /// [`WORK`](Refusal::WORK) where the work memory has another length than the instrument's.
    ///
    /// # Panics
    ///
    /// As [`open`](Console::open).
    pub fn restore(file: &[u8], words: &[u64], work: &[f64]) -> Result<Console, Refusal> {
        let sizes = sizes_of(file)?;
        Console::of(file, sizes, words, work.to_vec())
    }

    /// Renders as many samples as `out` has; gives the number of forces, which stand first in `trace`, and the contact samples
    /// up to the position after it.
    ///
    /// ```
    /// # fn main() -> Result<(), Box<dyn std::error::Error>> {
    /// # use gingerfile::{Console, Event};
    /// let mut console = Console::open(&std::fs::read("piano")?)?;
    /// console.insert(0, Event::NoteOn { key: 60, velocity: 3.0 })?;
    /// let (mut out, mut trace) = ([0.0; 441], [0.0; 441]);
    /// let played = console.play(&mut out, &mut trace)?;
    /// let in_contact = trace[..played.forces].iter().filter(|force| **force > 0.0);
    /// assert_eq!(in_contact.count() as u64, played.contact_samples);
    /// # assert!(played.contact_samples > 0);
    /// # Ok(())
    /// # }
    /// ```
    ///
    /// # Errors
    ///
    /// [`TRACE`](Refusal::TRACE) and [`PAST_END`](Refusal::PAST_END).
    pub fn play(&mut self, out: &mut [f64], trace: &mut [f64]) -> Result<Played, Refusal> {
        let Console { file, words, work, scratch, .. } = self;
        let scratch = &mut unset_scratch()[..*scratch];
        library!(gingerfile_play, [file], [words, work, scratch, out, trace]).played()
    }

    /// Keeps the state at the position now; changes nothing where that is kept already.
    ///
    /// # Errors
    ///
    /// [`CUES_FULL`](Refusal::CUES_FULL).
    pub fn cue(&mut self) -> Result<(), Refusal> {
        let Console { file, words, work, .. } = self;
        library!(gingerfile_cue, [file], [words, work]).accepted()?;
        Ok(())
    }

    /// To position p, from the nearest below it of 0, the kept cues and the position now; gives the number of samples that
    /// were replayed.
    ///
    /// ```
    /// # fn main() -> Result<(), gingerfile::Refusal> {
    /// # use gingerfile::{Console, Event};
    /// # let mut console = Console::open(&std::fs::read("piano").unwrap())?;
    /// # console.insert(1_000, Event::NoteOn { key: 60, velocity: 3.0 })?;
    /// # let (mut out, mut trace) = ([0.0; 1_000], [0.0; 1_000]);
    /// console.play(&mut out, &mut trace)?;
    /// console.cue()?;
    /// console.play(&mut out, &mut trace)?;
    /// let count = console.contact_samples();
    ///
    /// // back behind the strike, and the count with it; nothing is replayed
    /// assert_eq!(console.go(1_000)?, 0);
    /// assert_eq!(console.contact_samples(), 0);
    /// console.play(&mut out, &mut trace)?;
    /// assert_eq!(console.contact_samples(), count);
    /// # assert!(count > 0);
    /// # Ok(())
    /// # }
    /// ```
    ///
    /// # Errors
    ///
    /// [`PAST_END`](Refusal::PAST_END) and [`REPLAY`](Refusal::REPLAY).
    pub fn go(&mut self, p: u64) -> Result<u64, Refusal> {
        let Console { file, words, work, scratch, .. } = self;
        let scratch = &mut unset_scratch()[..*scratch];
        Ok(library!(gingerfile_go, [file], [words, work, scratch], p).accepted()?.value)
    }

    /// Places an event after all of earlier position, and at its own position after those of its kind and of the kinds that act
    /// before it: so a key that is let go and struck at one position sounds, whichever was added first. Cues above it are
    /// dropped, and a position above it goes back to the nearest cue, else to 0.
    ///
    /// ```
    /// # fn main() -> Result<(), Box<dyn std::error::Error>> {
    /// # use gingerfile::{Console, Event};
    /// let mut console = Console::open(&std::fs::read("piano")?)?;
    /// let (strike, release) = (Event::NoteOn { key: 60, velocity: 3.0 }, Event::NoteOff { key: 60 });
    /// console.insert(480, strike)?;
    /// console.insert(480, release)?;
    /// assert!(console.events().eq([(480, release), (480, strike)]));
    /// # Ok(())
    /// # }
    /// ```
    ///
    /// # Errors
    ///
    /// [`PAST_END`](Refusal::PAST_END), [`SCORE_FULL`](Refusal::SCORE_FULL) and [`VELOCITY`](Refusal::VELOCITY).
    pub fn insert(&mut self, position: u64, event: Event) -> Result<Edited, Refusal> {
        let (kind, key, velocity) = event.numbers();
        let Console { file, words, work, .. } = self;
        library!(gingerfile_insert, [file], [words, work], position, kind, key, velocity).edited()
    }

    /// Removes the event at an index of [`events`](Console::events); cues and position as by an insert.
    ///
    /// # Errors
    ///
    /// [`NO_EVENT`](Refusal::NO_EVENT).
    pub fn remove(&mut self, index: usize) -> Result<Edited, Refusal> {
        let Console { file, words, work, .. } = self;
        library!(gingerfile_remove, [file], [words, work], index).edited()
    }

    /// Each key's energy now, as the library gives them.
    ///
    /// # Errors
    ///
    /// None, since the session is one that the library accepts.
    pub fn key_energies(&self) -> Result<KeyEnergies, Refusal> {
        energies_of(&self.file, &self.words[..], &self.work)
    }

    /// Each key's number and its energy now, in the file's order, in memory of its own.
    ///
    /// # Errors
    ///
    /// None, as of [`key_energies`](Console::key_energies).
    pub fn energies(&self) -> Result<Vec<(u8, f64)>, Refusal> {
        let KeyEnergies { count, energies, keys, .. } = self.key_energies()?;
        Ok(keys.into_iter().zip(energies).take(count).collect())
    }

    /// The instrument's file.
    pub fn file(&self) -> &[u8] {
        &self.file
    }

    /// Samples a second.
    pub fn fs(&self) -> f64 {
        self.fs
    }

    /// The position: the samples from the score's beginning to the next that is played.
    pub fn position(&self) -> u64 {
        self.words[T]
    }

    /// How many events the score has.
    pub fn event_count(&self) -> u64 {
        self.words[COUNT]
    }

    /// The score: each event with its position, in the order in which they act.
    pub fn events(&self) -> impl Iterator<Item = (u64, Event)> + '_ {
        let events = self.words[EVENTS..CUES].chunks(EVENT).take(self.words[COUNT] as usize);
        events.map(|word| (word[0], Event::of_words(word[1], word[2], word[3])))
    }

    /// The positions of the kept cues, in no order.
    pub fn cues(&self) -> impl Iterator<Item = u64> + '_ {
        self.words[CUES..PIANO].chunks(CUE).filter(|cue| cue[0] == 1).map(|cue| cue[1])
    }

    /// The count that titles follow: the samples up to the position on which a hammer was in contact, of all keys.
    pub fn contact_samples(&self) -> u64 {
        self.key_contacts().fold(0, |sum, (_, count)| sum.saturating_add(count))
    }

    /// Each key's number and its own contact samples up to the position, in the file's order: a sample in contact counts for
    /// the key that was struck.
    ///
    /// ```
    /// # fn main() -> Result<(), Box<dyn std::error::Error>> {
    /// # use gingerfile::{Console, Event};
    /// let mut console = Console::open(&std::fs::read("piano")?)?;
    /// console.insert(0, Event::NoteOn { key: 48, velocity: 3.0 })?;
    /// console.insert(2_000, Event::NoteOn { key: 60, velocity: 3.0 })?;
    /// console.go(4_000)?;
    ///
    /// // those of the keys below 60 alone
    /// let low: u64 = console.key_contacts().filter(|(key, _)| *key < 60).map(|(_, count)| count).sum();
    /// assert!(0 < low && low < console.contact_samples());
    /// # let struck: Vec<u8> = console.key_contacts().filter(|(_, count)| *count > 0).map(|(key, _)| key).collect();
    /// # assert_eq!(struck, [48, 60]);
    /// # Ok(())
    /// # }
    /// ```
    pub fn key_contacts(&self) -> impl Iterator<Item = (u8, u64)> + '_ {
        self.keys.iter().copied().zip(self.words[CONTACT_SAMPLES..].iter().copied())
    }

    /// The greatest force up to the position.
    pub fn peak_force(&self) -> f64 {
        f64::from_bits(self.words[PEAK_FORCE])
    }

    /// The session's words, to keep or to send.
    pub fn words(&self) -> &[u64] {
        &self.words[..]
    }

    /// Puts words back that were kept. What the strings hold stays: put [`work_mut`](Console::work_mut) back with them.
    ///
    /// # Errors
    ///
    /// [`RECORD`](Refusal::RECORD) where they are not 616, or no session's on this instrument; the session stays as it was.
    pub fn set_words(&mut self, words: &[u64]) -> Result<(), Refusal> {
        energies_of(&self.file, words, &self.work)?;
        self.words.copy_from_slice(words);
        Ok(())
    }

    /// Work memory, to keep beside the words: five parts of equal size, the strings' cells now in the first, the four cues'
    /// behind it.
    pub fn work(&self) -> &[f64] {
        &self.work
    }

    /// The same, to put back what was kept. Any floats are accepted.
    pub fn work_mut(&mut self) -> &mut [f64] {
        &mut self.work
    }
}

/// What a person asks of a session; not its memory.
impl fmt::Debug for Console {
    fn fmt(&self, f: &mut fmt::Formatter<'_>) -> fmt::Result {
        f.debug_struct("Console")
            .field("fs", &self.fs)
            .field("position", &self.position())
            .field("contact_samples", &self.contact_samples())
            .field("events", &self.events().collect::<Vec<_>>())
            .field("cues", &self.cues().collect::<Vec<_>>())
            .finish_non_exhaustive()
    }
}
