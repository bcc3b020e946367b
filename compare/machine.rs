//! Document 01, "The session": the plain machine, a score, a position and at most four cue positions; and the
//! standing score's render by the Rust, always one unbroken run from silence.

use comparison::events::in_order;
use comparison::instrument::Instrument;
use comparison::model::{inside, Event};
use std::collections::{BTreeSet, HashMap};

/// No position is above it.
pub const END: u64 = 9_007_199_254_740_992;
/// None was above this one before document 02's W8.
pub const FORMER_END: u64 = 2_000_000_000;
pub const MOST_EVENTS: usize = 64;
pub const MOST_CUES: usize = 4;
pub const MOST_REPLAYED: u64 = 1_000_000;

/// How many cells a call is lent.
#[derive(Clone, Copy)]
pub struct Lent {
    pub scratch: usize,
    pub trace: usize,
    pub work: usize,
}

/// An edit's answer.
#[derive(Clone, Copy, PartialEq, Debug)]
pub struct Edited {
    pub t: u64,
    pub dropped: usize,
}

#[derive(Clone)]
pub struct Machine {
    /// The end that refusal 11 tests.
    pub end: u64,
    pub strings: usize,
    cells: usize,
    pub score: Vec<(u64, Event)>,
    pub t: u64,
    pub cues: BTreeSet<u64>,
}

/// The first of the tests that a call fails, by its number; they are listed in document 01's order.
fn first_failed(tests: &[(u8, bool)]) -> Result<(), u8> {
    match tests.iter().find(|(_, failed)| *failed) {
        Some((number, _)) => Err(*number),
        None => Ok(()),
    }
}

fn velocity_is_wrong(event: &Event) -> bool {
    match event {
        Event::NoteOn { velocity, .. } => velocity.is_nan() || *velocity < -100.0 || *velocity > 100.0,
        _ => false,
    }
}

impl Machine {
    pub fn open(instrument: &Instrument, end: u64) -> Machine {
        let (strings, cells) = (instrument.string_count(), instrument.cells());
        Machine { end, strings, cells, score: Vec::new(), t: 0, cues: BTreeSet::new() }
    }

    fn work_is_short(&self, lent: &Lent) -> (u8, bool) {
        (8, lent.work < 5 * self.cells)
    }

    fn scratch_is_short(&self, lent: &Lent) -> (u8, bool) {
        (9, lent.scratch < self.strings)
    }

    pub fn play(&mut self, lent: &Lent, m: u64) -> Result<(), u8> {
        first_failed(&[
            self.work_is_short(lent),
            self.scratch_is_short(lent),
            (10, (lent.trace as u64) < m),
            (11, self.t + m > self.end),
        ])?;
        self.t += m;
        Ok(())
    }

    pub fn cue(&mut self, lent: &Lent) -> Result<(), u8> {
        let others = self.cues.iter().filter(|c| **c != self.t).count();
        first_failed(&[self.work_is_short(lent), (15, others >= MOST_CUES)])?;
        self.cues.insert(self.t);
        Ok(())
    }

    /// The greatest of 0 and the kept cues not above p.
    fn last_cue(&self, p: u64) -> u64 {
        self.cues.range(..=p).next_back().copied().unwrap_or(0)
    }

    pub fn go_start(&self, p: u64) -> u64 {
        if self.t <= p {
            self.t.max(self.last_cue(p))
        } else {
            self.last_cue(p)
        }
    }

    /// The number of samples replayed.
    pub fn go(&mut self, lent: &Lent, p: u64) -> Result<u64, u8> {
        let replayed = p - self.go_start(p);
        first_failed(&[
            self.work_is_short(lent),
            self.scratch_is_short(lent),
            (11, p > self.end),
            (16, replayed > MOST_REPLAYED),
        ])?;
        self.t = p;
        Ok(replayed)
    }

    fn edited(&mut self, q: u64) -> Edited {
        let before = self.cues.len();
        self.cues.retain(|c| *c <= q);
        if self.t > q {
            self.t = self.last_cue(q);
        }
        Edited { t: self.t, dropped: before - self.cues.len() }
    }

    pub fn insert(&mut self, lent: &Lent, q: u64, event: Event) -> Result<Edited, u8> {
        first_failed(&[
            self.work_is_short(lent),
            (11, q > self.end),
            (12, self.score.len() == MOST_EVENTS),
            (13, velocity_is_wrong(&event)),
        ])?;
        self.score.push((q, event));
        self.score = in_order(&self.score);
        Ok(self.edited(q))
    }

    pub fn remove(&mut self, lent: &Lent, index: u64) -> Result<Edited, u8> {
        first_failed(&[self.work_is_short(lent), (14, index >= self.score.len() as u64)])?;
        let (q, _) = self.score.remove(index as usize);
        Ok(self.edited(q))
    }

    pub fn energies(&self, lent: &Lent) -> Result<(), u8> {
        first_failed(&[self.work_is_short(lent)])
    }
}

/// What the unbroken render has counted when it has made its last sample.
#[derive(Clone)]
pub struct Mark {
    pub contact_samples: usize,
    /// Each key's own, in the file's order.
    pub key_contacts: Vec<usize>,
    pub peak_force: f64,
    pub forces: usize,
    pub energies: Vec<(u8, f64)>,
    /// All cells of the strings, as work memory has them.
    pub cells: Vec<f64>,
}

/// What a play gives: its samples and forces, and the Rust's contact samples at its end.
pub struct Played {
    pub samples: Vec<f64>,
    pub forces: Vec<f64>,
    pub contact_samples: usize,
}

/// The standing score's renders. Every one starts in silence at sample 0; marks are kept until the next edit.
pub struct Renders<'a> {
    instrument: &'a Instrument,
    /// Where sample 0 stands: the strings' lines begin at the cells of this position.
    base: u64,
    marks: HashMap<u64, Mark>,
}

impl<'a> Renders<'a> {
    pub fn new(instrument: &'a Instrument, base: u64) -> Renders<'a> {
        Renders { instrument, base, marks: HashMap::new() }
    }

    /// Another score stands from here on.
    pub fn edited(&mut self) {
        self.marks.clear();
    }

    /// Samples and forces of the first p samples.
    fn run(&mut self, score: &[(u64, Event)], p: u64) -> (Vec<f64>, Vec<f64>) {
        let events: Vec<(usize, Event)> = score.iter().map(|(q, event)| (*q as usize, event.clone())).collect();
        let mut piano = self.instrument.piano();
        inside::stand_at(&mut piano, self.base);
        let samples = piano.render(p as usize, &events);
        // document 02, W2: "the sum over keys is the Rust's contact_samples"
        assert_eq!(piano.key_contacts.iter().sum::<usize>(), piano.contact_samples, "the keys' counts at {p}");
        let mark = Mark {
            contact_samples: piano.contact_samples,
            key_contacts: piano.key_contacts.clone(),
            peak_force: piano.peak_force,
            forces: piano.force_trace.len(),
            energies: piano.key_energies(),
            cells: inside::part(&piano),
        };
        self.marks.insert(p, mark);
        (samples, piano.force_trace)
    }

    pub fn at(&mut self, score: &[(u64, Event)], p: u64) -> Mark {
        if !self.marks.contains_key(&p) {
            self.run(score, p);
        }
        self.marks[&p].clone()
    }

    /// The samples from t to t + m − 1, their forces, and the count at t + m.
    pub fn play(&mut self, score: &[(u64, Event)], t: u64, m: u64) -> Played {
        let before = self.at(score, t).forces;
        let (mut samples, mut forces) = self.run(score, t + m);
        let contact_samples = self.at(score, t + m).contact_samples;
        Played { samples: samples.split_off(t as usize), forces: forces.split_off(before), contact_samples }
    }
}
