//! Refusals by number, with their words.

use std::error::Error;
use std::fmt;

/// Why a call was refused: a number from 1 to 20. A refused call has changed nothing.
///
/// Each number has a constant, which can stand in a pattern:
///
/// ```
/// # fn main() -> Result<(), gingerfile::Refusal> {
/// # let file = std::fs::read("piano").unwrap();
/// # let mut console = gingerfile::Console::open(&file)?;
/// use gingerfile::Refusal;
///
/// match console.remove(0) {
///     Err(Refusal::NO_EVENT) => println!("nothing to remove"),
///     other => println!("{other:?}"),
/// }
/// assert_eq!(Refusal::NO_EVENT.to_string(), "refused 14: no event has this index");
/// # Ok(())
/// # }
/// ```
#[derive(Clone, Copy, PartialEq, Eq, Hash)]
pub struct Refusal(u64);

macro_rules! refusals {
    ($($number:literal $name:ident $words:literal, $doc:literal;)*) => {
        impl Refusal {
            $(#[doc = concat!($doc, " (", stringify!($number), ").")]
            pub const $name: Refusal = Refusal($number);)*

            /// What the number means, in plain words.
            pub fn meaning(self) -> &'static str {
                match self.0 {
                    $($number => $words,)*
                    _ => "a number that this wrapper does not know",
                }
            }
        }
    };
}

refusals! {
    1 TABLE "the file is too short, or its number of sections is out of range", "The file has no room for its table, or its number of sections is out of range";
    2 CHAIN "the sections do not chain", "The file's sections do not follow each other without a gap";
    3 LENGTHS "a section has a wrong length", "A section of the file has a wrong length, or a key's number of strings is out of range";
    4 FIELDS "a field is out of range", "A field of the file is out of range, NaN or infinite";
    5 TOO_MANY_STRINGS "more than 32 strings", "The file has more than 32 strings";
    6 KEY_TWICE "a key comes twice", "The file has two keys of one number";
    7 RECORD "the instrument or the session is wrong", "The words are no session's, or no session's on this instrument; for [`adjust`](crate::adjust), the keys and weights are none that the instrument can have";
    8 WORK "work memory is too short", "Work memory has another length than the instrument asks for";
    9 SCRATCH "scratch is too short", "Scratch is too short; a [`Console`](crate::Console) has enough";
    10 TRACE "the trace is shorter than the output", "The trace is shorter than the output";
    11 PAST_END "beyond the last position", "A position would lie above [`END`](crate::END), 9,007,199,254,740,992";
    12 SCORE_FULL "the score is full", "The score has 64 events";
    13 VELOCITY "the velocity is not from -100 to 100", "A velocity is NaN or outside −100 to 100";
    14 NO_EVENT "no event has this index", "The index has no event";
    15 CUES_FULL "four other cues are kept", "Four other cues are kept";
    16 REPLAY "more than 1000000 samples to replay", "A go would replay more than 1,000,000 samples";
    17 FACTOR "the factor is above 64, or the input longer than 1048576 samples", "The decimator's factor is above 64, or its input longer than 1,048,576 samples";
    18 TAPS "there are not 127 taps", "The decimator was not given 127 taps";
    19 OUTPUT "the output has a wrong length", "The decimator's output has another length than [`decimated_length`](crate::decimated_length) says";
    20 BYTES "the lent bytes are fewer than the file", "The bytes that are lent for an instrument's file are fewer than it has";
}

impl Refusal {
    /// The number, 1 to 20.
    pub fn number(self) -> u64 {
        self.0
    }

    /// What a call answered: a refusal's number, 0 for none.
    #[inline]
    pub(super) fn of(number: u64) -> Result<(), Refusal> {
        match number {
            0 => Ok(()),
            number => Err(Refusal(number)),
        }
    }
}

/// `refused NUMBER: WORDS`, as the program `rehearse` prints it.
impl fmt::Display for Refusal {
    fn fmt(&self, f: &mut fmt::Formatter<'_>) -> fmt::Result {
        write!(f, "refused {}: {}", self.0, self.meaning())
    }
}

impl fmt::Debug for Refusal {
    fn fmt(&self, f: &mut fmt::Formatter<'_>) -> fmt::Result {
        f.debug_tuple("Refusal").field(&self.0).field(&self.meaning()).finish()
    }
}

impl Error for Refusal {}
