//! A session at 0 with two strikes, and its samples played in a loop in Rattle.

use crate::grand::strikes;
use comparison::events::opened;
use comparison::exports::{self, Lent};
use comparison::gingerfile::Console;
use comparison::instrument::Instrument;

pub struct Plays {
    pub file: Vec<u8>,
    pub console: Console,
    /// The words of its session, before the first play.
    pub words: Vec<u64>,
    pub scratch: Vec<f64>,
    pub out: Vec<f64>,
    pub trace: Vec<f64>,
}

impl Plays {
    pub fn new(instrument: &Instrument, samples: usize) -> Plays {
        let console = opened(instrument, &strikes(2, samples)).unwrap();
        Plays {
            file: instrument.bytes(),
            words: console.words().to_vec(),
            console,
            scratch: vec![f64::NAN; instrument.string_count()],
            out: vec![0.0; samples],
            trace: vec![0.0; samples],
        }
    }

    pub fn ready(&mut self) {
        self.console.set_words(&self.words).expect("a session's words");
        self.console.work_mut().fill(0.0);
        self.scratch.fill(f64::NAN);
    }

    /// Plays of `block`, each over the one before; it gives the forces of the last, which stands first in the output.
    pub fn plays(&mut self, block: usize) -> u64 {
        let Plays { file, words, console, scratch, out, trace } = self;
        let blocks = (out.len() / block) as u64;
        let (out, trace) = (&mut out[..block], &mut trace[..block]);
        exports::plays(file, words, blocks, Lent { work: console.work_mut(), scratch, out, trace })
    }
}
