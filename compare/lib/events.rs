//! The Rust's events as its published model and the library have them, their order in a session's score, and a session with
//! a score inserted.

use crate::gingerfile::{self, Console, Refusal};
use crate::instrument::Instrument;
use crate::model::Event;
use crate::{published, timed};

macro_rules! event_of {
    ($types:ident, $event:expr) => {
        match *$event {
            Event::NoteOn { key, velocity } => $types::Event::NoteOn { key, velocity },
            Event::NoteOff { key } => $types::Event::NoteOff { key },
            Event::Pedal(down) => $types::Event::Pedal(down),
            Event::HandDamp { key } => $types::Event::HandDamp { key },
        }
    };
}

pub fn timed_event(event: &Event) -> timed::Event {
    event_of!(timed, event)
}

pub fn published_event(event: &Event) -> published::Event {
    event_of!(published, event)
}

/// Document 02, W1: at one position a release acts first, then a hand damp, a pedal move and a strike.
pub fn rank(event: &Event) -> u8 {
    match event {
        Event::NoteOff { .. } => 0,
        Event::HandDamp { .. } => 1,
        Event::Pedal(_) => 2,
        Event::NoteOn { .. } => 3,
    }
}

/// The score that inserting these events in their order gives: by position and rank, those of one kind as they were added.
pub fn in_order<P: Copy + Ord>(events: &[(P, Event)]) -> Vec<(P, Event)> {
    let mut score = events.to_vec();
    score.sort_by_key(|(position, event)| (*position, rank(event)));
    score
}

/// A session on the instrument, with the events inserted in their order.
pub fn opened(instrument: &Instrument, events: &[(usize, Event)]) -> Result<Console, Refusal> {
    let mut console = Console::open(&instrument.bytes())?;
    for (position, event) in events {
        console.insert(*position as u64, event_of!(gingerfile, event))?;
    }
    Ok(console)
}
