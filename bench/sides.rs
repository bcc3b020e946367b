//! The Rust and the proved renderer on one score, each in silence before each turn.
#![allow(dead_code)]

use comparison::common::all_alike;
use comparison::events::{opened, published_event, timed_event};
use comparison::gingerfile::{Console, T};
use comparison::instrument::Instrument;
use comparison::model::Event;
use comparison::{published, timed};

/// All sides of one row.
pub struct Sides {
    instrument: Instrument,
    events: Vec<(usize, timed::Event)>,
    published_events: Vec<(usize, published::Event)>,
    rust: timed::Piano,
    published: published::Piano,
    /// What the Rust gave.
    rendered: Vec<f64>,
    console: Console,
    /// The session's words in silence, the score inserted.
    words: Vec<u64>,
    out: Vec<f64>,
    trace: Vec<f64>,
}

impl Sides {
    /// The proved side starts at t: its score is that much later.
    pub fn new(instrument: Instrument, samples: usize, events: Vec<(usize, Event)>, t: u64) -> Sides {
        let later: Vec<(usize, Event)> = events.iter().map(|(q, event)| (q + t as usize, event.clone())).collect();
        let console = opened(&instrument, &later).expect("the instrument and its score are accepted");
        let mut words = console.words().to_vec();
        words[T] = t;
        Sides {
            published_events: events.iter().map(|(q, event)| (*q, published_event(event))).collect(),
            events: events.iter().map(|(q, event)| (*q, timed_event(event))).collect(),
            rust: instrument.timed_piano(),
            published: instrument.published_piano(),
            rendered: Vec::new(),
            console,
            words,
            out: vec![0.0; samples],
            trace: vec![0.0; samples],
            instrument,
        }
    }

    pub fn ready(&mut self) {
        self.rust = self.instrument.timed_piano();
        self.published = self.instrument.published_piano();
        self.rendered = Vec::new();
        self.console.set_words(&self.words).expect("a session's words");
        self.console.work_mut().fill(0.0);
    }

    pub fn rust(&mut self) {
        self.rendered = self.rust.render(self.out.len(), &self.events);
    }

    pub fn published(&mut self) {
        self.rendered = self.published.render(self.out.len(), &self.published_events);
    }

    /// In plays of so many samples.
    pub fn rattle(&mut self, block: usize) {
        for (out, trace) in self.out.chunks_mut(block).zip(self.trace.chunks_mut(block)) {
            self.console.play(out, trace).expect("accepted");
        }
    }

    /// Both give the same, or there is nothing to time. It returns the share of samples in contact.
    pub fn checked(&mut self, what: &str) -> f64 {
        self.ready();
        self.rust();
        let samples = self.out.len();
        self.rattle(samples);
        assert!(all_alike(&self.rendered, &self.out), "{what}: the two sides differ");
        let contacts = self.rust.contact_samples;
        assert!(contacts as u64 == self.console.contact_samples(), "{what}: the contacts differ");
        contacts as f64 / samples as f64
    }
}
