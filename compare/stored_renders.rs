//! A sample of the Rust's renders as lines, for the program test_render: `instrument` (the file's length and bytes),
//! `event` (position, kind, key, velocity), and after them `block` with every sample and force, or `run` with a digest
//! of them; both with the whole state behind the block. Every word is sixteen hexadecimal digits.

use comparison::instrument::Instrument;
use comparison::model::{inside, Event, Piano};

fn line(kind: &str, words: &[u64]) -> String {
    words.iter().fold(kind.to_string(), |line, word| format!("{line} {word:016x}"))
}

fn bits(x: f64) -> u64 {
    match x {
        x if x == 0.0 => 0,
        x if x.is_nan() => 0x7ff8_0000_0000_0000,
        x => x.to_bits(),
    }
}

/// Each turn can be undone, so two lists that differ in one cell have different digests.
fn digest(cells: &[f64]) -> u64 {
    cells.iter().fold(0, |h: u64, x| h.rotate_left(7).wrapping_add(bits(*x)))
}

fn file_line(file: &[u8]) -> String {
    let mut words = vec![file.len() as u64];
    words.extend(file.chunks(8).map(|bytes| bytes.iter().rev().fold(0, |word, b| word << 8 | *b as u64)));
    line("instrument", &words)
}

fn event_line((position, event): &(usize, Event)) -> String {
    let words = match event {
        Event::NoteOn { key, velocity } => [0, *key as u64, bits(*velocity)],
        Event::NoteOff { key } => [1, *key as u64, 0],
        Event::Pedal(down) => [2, *down as u64, 0],
        Event::HandDamp { key } => [3, *key as u64, 0],
    };
    line("event", &[*position as u64, words[0], words[1], words[2]])
}

/// One bit a key, the first key's the highest of sixteen.
fn mask(flags: impl Iterator<Item = bool>) -> u64 {
    flags.enumerate().fold(0, |mask, (i, flag)| mask | (flag as u64) << (15 - i))
}

/// The Rust's own contact_samples, peak_force, the hammer's four, pedal, held, hand_damped; damper_r and contact samples of each
/// key, 0 past the last; a digest of the cells.
fn state(piano: &Piano) -> Vec<u64> {
    let keys = inside::keys(piano);
    let (flies, key, y_h, v_h) = inside::hammer(piano).map_or((0, 0, 0.0, 0.0), |(k, y, v)| (1, k as u64, y, v));
    let mut words = vec![piano.contact_samples as u64, bits(piano.peak_force), flies, key, bits(y_h), bits(v_h)];
    words.push(inside::pedal(piano) as u64);
    words.push(mask(keys.iter().map(|(held, _, _)| *held)));
    words.push(mask(keys.iter().map(|(_, hand_damped, _)| *hand_damped)));
    words.extend((0..16).map(|i| keys.get(i).map_or(0, |(_, _, r)| bits(*r))));
    words.extend((0..16).map(|i| piano.key_contacts.get(i).map_or(0, |n| *n as u64)));
    words.push(digest(&inside::part(piano)));
    words
}

/// A render cut into blocks, each with every sample or with a digest of them.
pub fn lines(instrument: &Instrument, events: &[(usize, Event)], blocks: &[(usize, bool)]) -> Vec<String> {
    let mut lines = vec![file_line(&instrument.bytes())];
    lines.extend(events.iter().map(event_line));
    let (mut t, mut forces) = (0, 0);
    for &(length, digested) in blocks {
        let mut piano = instrument.piano();
        let samples = piano.render(t + length, events);
        let (out, pushed) = (&samples[t..], &piano.force_trace[forces..]);
        let mut words = vec![length as u64, pushed.len() as u64];
        words.extend(state(&piano));
        if digested {
            words.extend([digest(out), digest(pushed)]);
            lines.push(line("run", &words));
        } else {
            words.extend(out.iter().chain(pushed).map(|x| bits(*x)));
            lines.push(line("block", &words));
        }
        t += length;
        forces = piano.force_trace.len();
    }
    lines
}
