//! Compares the proved renderer with the Rust: random instruments and scores, every sample and force, and after each
//! block the sum of contact samples, the whole state with each key's own, what is kept of it at cues, and the keys'
//! energies, bit for bit, zeros and NaNs alike; the same state after a step back to each cue; energies of random cells too.
//! The proved side plays a session of the library gingerfile, cut into blocks at random places; the Rust renders from
//! silence in one run. With a file's name it also writes a sample of the Rust's renders there.

mod stored_renders;

use comparison::common::{alike, all_alike, Random};
use comparison::events::{in_order, opened};
use comparison::felts::Felts;
use comparison::gingerfile::{Console, Played, PIANO};
use comparison::instrument::Instrument;
use comparison::instruments::{self, pick, Size};
use comparison::model::{inside, Event, Piano};
use std::collections::BTreeMap;
use std::process::exit;

struct Kind {
    name: &'static str,
    renders: u64,
    /// The most samples of a render.
    samples: u64,
    /// How many further renders are stored where a sample is asked for.
    stored: u64,
    instrument: fn(&mut Random) -> Instrument,
}

const KINDS: [Kind; 6] = [
    Kind {
        name: "ordinary",
        renders: 500,
        samples: 1_200,
        stored: 14,
        instrument: |r| instruments::ordinary(r, Size::Small),
    },
    Kind {
        name: "one string, n = 4",
        renders: 60,
        samples: 1_200,
        stored: 4,
        instrument: |r| instruments::ordinary(r, Size::Least),
    },
    Kind {
        name: "large, to 66 stages",
        renders: 120,
        samples: 500,
        stored: 3,
        instrument: |r| instruments::ordinary(r, Size::Large),
    },
    Kind { name: "wild", renders: 400, samples: 1_600, stored: 10, instrument: |r| instruments::wild(r, Size::Small) },
    Kind {
        name: "wild and large",
        renders: 60,
        samples: 900,
        stored: 2,
        instrument: |r| instruments::wild(r, Size::Large),
    },
    Kind { name: "lossless", renders: 30, samples: 20_000, stored: 2, instrument: instruments::lossless },
];

// ---- scores

fn velocity(random: &mut Random) -> f64 {
    match random.below(10) {
        0 => pick(random, &[0.0, -0.0, 100.0, -100.0]),
        1 => pick(random, &[f64::from_bits(1), 1e-300, -1e-12]),
        2 => random.between(-100.0, 100.0),
        3 => -random.between(0.0, 5.0),
        _ => random.between(0.5, 7.0),
    }
}

fn event(random: &mut Random, keys: &[u8]) -> Event {
    let key = if random.below(12) == 0 { random.below(256) as u8 } else { pick(random, keys) };
    match random.below(12) {
        0 | 1 => Event::NoteOff { key },
        2 | 3 => Event::Pedal(random.below(2) == 0),
        4 => Event::HandDamp { key },
        _ => Event::NoteOn { key, velocity: velocity(random) },
    }
}

/// The most events of a session's score.
const MOST_EVENTS: usize = 64;

/// Two keys beside each other are struck near the start, so that both have contact samples.
fn strikes_of_two(random: &mut Random, keys: &[u8]) -> [(usize, Event); 2] {
    let (first, q) = (random.below(keys.len() as u64 - 1) as usize, random.below(8) as usize);
    [0, 1].map(|i| (q + 4 * i, Event::NoteOn { key: keys[first + i], velocity: random.between(0.5, 7.0) }))
}

/// Positions that do not fall, many of them equal, with kinds in any order; a few lie past the render's end. In every other
/// score two keys are struck near the start, where there are two.
fn score(random: &mut Random, keys: &[u8], samples: u64) -> Vec<(usize, Event)> {
    let count = if random.below(10) == 0 { MOST_EVENTS as u64 } else { 1 + random.below(12) };
    let span = pick(random, &[1, 40, samples / 2 + 1, samples + 10]);
    let mut positions: Vec<usize> = (0..count).map(|_| random.below(span) as usize).collect();
    positions.sort();
    let mut score: Vec<(usize, Event)> = positions.into_iter().map(|q| (q, event(random, keys))).collect();
    if keys.len() > 1 && random.below(2) == 0 {
        score.truncate(MOST_EVENTS - 2);
        score.extend(strikes_of_two(random, keys));
        score.sort_by_key(|(q, _)| *q);
    }
    score
}

/// Lengths of blocks, of 0 and 1 too, that sum to the render's.
fn blocks(random: &mut Random, samples: u64) -> Vec<usize> {
    let mut left = samples;
    let mut blocks = Vec::new();
    while left > 0 {
        let length = match random.below(8) {
            0 => random.below(2),
            1 => left,
            _ => random.below(left / 2 + 2),
        };
        blocks.push(length.min(left) as usize);
        left -= length.min(left);
    }
    blocks
}

// ---- what was compared

/// One of so many renders at least must have two keys with contact samples, and one of as many a kept cue with them.
const ONE_COUNTED_IN: u64 = 3;

#[derive(Default)]
struct Counts {
    renders: BTreeMap<&'static str, u64>,
    felts: Felts,
    blocks: u64,
    samples: u64,
    sounding: u64,
    infinite: u64,
    forces: u64,
    contacts: u64,
    cells: u64,
    energies: u64,
    loud: u64,
    infinite_energies: u64,
    /// Sums of contact samples, keys' own counts, kept cues in the words, and steps back to them.
    sums: u64,
    key_counts: u64,
    cues: u64,
    steps_back: u64,
    /// Renders with two keys that have contact samples, and those that have them at a kept cue.
    counted: [u64; 2],
}

impl Counts {
    /// A block that does not differ: its samples, its forces with the sum beside them, its cells.
    fn block(&mut self, out: &[f64], forces: &[f64], cells: usize) {
        self.blocks += 1;
        self.samples += out.len() as u64;
        self.sounding += out.iter().filter(|x| **x != 0.0).count() as u64;
        self.infinite += out.iter().filter(|x| !x.is_finite()).count() as u64;
        self.forces += forces.len() as u64;
        self.contacts += forces.iter().filter(|x| **x > 0.0).count() as u64;
        self.sums += 1;
        self.cells += cells as u64;
    }

    fn report(&self) {
        for (kind, count) in &self.renders {
            println!("renders  {kind:<24} {count:>9}");
        }
        self.felts.report();
        println!("blocks   {} with their states, {} cells", self.blocks, self.cells);
        println!("samples  {} compared, {} not zero, {} infinite or NaN", self.samples, self.sounding, self.infinite);
        println!("forces   {} compared, {} above zero", self.forces, self.contacts);
        println!(
            "energies {} compared, {} finite and not zero, {} infinite or NaN",
            self.energies, self.loud, self.infinite_energies
        );
        let (sums, key_counts, [several, at_cues]) = (self.sums, self.key_counts, self.counted);
        println!("contacts {sums} sums and {key_counts} counts of keys compared");
        println!("         {several} renders have two keys or more with a count above zero, {at_cues} at a kept cue");
        println!("cues     {} in the words compared, {} gone back to", self.cues, self.steps_back);
    }

    /// Whether enough renders, and cues of renders, have counts of two keys, and enough felts quarters.
    fn enough(&self) -> bool {
        let few = self.counted.iter().any(|renders| ONE_COUNTED_IN * renders < self.renders.values().sum());
        if few {
            println!("too few counts of two keys: one render in {ONE_COUNTED_IN} is wanted");
        }
        self.felts.enough() && !few
    }
}

/// The energies of the cells in work memory against those of the Rust whose lines hold them.
fn energies_differ(counts: &mut Counts, rust: &Piano, console: &Console) -> Option<String> {
    let expected = rust.key_energies();
    let found = match console.key_energies() {
        Ok(found) => found,
        Err(refusal) => return Some(format!("energies: {refusal}")),
    };
    let mut pairs: Vec<(u8, f64)> = found.keys.into_iter().zip(found.energies).collect();
    let past = pairs.split_off(found.count);
    if !past.iter().all(|(key, energy)| *key == 0 && energy.to_bits() == 0) {
        return Some("energies past the last key".to_string());
    }
    counts.energies += pairs.len() as u64;
    counts.loud += pairs.iter().filter(|(_, energy)| *energy != 0.0 && energy.is_finite()).count() as u64;
    counts.infinite_energies += pairs.iter().filter(|(_, energy)| !energy.is_finite()).count() as u64;
    let same =
        expected.len() == pairs.len() && expected.iter().zip(&pairs).all(|((k, x), (l, y))| k == l && alike(*x, *y));
    (!same).then(|| format!("energies: the Rust has {expected:?}, the proved ones are {pairs:?}"))
}

/// Cells of one kind: any bit pattern, edges, ordinary numbers, or numbers whose sums round.
fn random_cells(random: &mut Random, count: usize) -> Vec<f64> {
    let kind = random.below(4);
    let cell = |random: &mut Random| match kind {
        0 => random.any(),
        1 => random.edge(),
        2 => random.between(-1.0, 1.0),
        _ => random.magnitude(-12.0, 12.0),
    };
    (0..count).map(|_| cell(random)).collect()
}

/// The energies of random cells.
fn random_energies_differ(counts: &mut Counts, instrument: &Instrument, cells: &[f64]) -> Option<String> {
    let mut piano = instrument.piano();
    inside::set_lines(&mut piano, cells);
    let mut console = match Console::open(&instrument.bytes()) {
        Ok(console) => console,
        Err(refusal) => return Some(refusal.to_string()),
    };
    console.work_mut()[..cells.len()].copy_from_slice(cells);
    energies_differ(counts, &piano, &console)
}

/// The sum of counts of keys; what stands in words is not trusted to have one.
fn sum_of(counts: &[u64]) -> Option<u64> {
    counts.iter().try_fold(0u64, |sum, count| sum.checked_add(*count))
}

/// A piano's words against the Rust, and what differs: held, hand_damped, damper_r and contact samples of each key, pedal,
/// whether a hammer flies, its key, y_h and v_h, peak_force.
fn piano_differs(counts: &mut Counts, rust: &Piano, words: &[u64]) -> Option<String> {
    let keys = inside::keys(rust);
    let float = |i: usize| f64::from_bits(words[i]);
    let hammers = match inside::hammer(rust) {
        None => words[65] == 0,
        Some((key, y, v)) => words[65] == 1 && key as u64 == words[66] && alike(y, float(67)) && alike(v, float(68)),
    };
    let of_keys = |same: &dyn Fn(usize, &(bool, bool, f64)) -> bool| keys.iter().enumerate().all(|(i, k)| same(i, k));
    let (contacts, past) = words[48..64].split_at(keys.len());
    let own: Vec<u64> = rust.key_contacts.iter().map(|n| *n as u64).collect();
    counts.sums += 1;
    counts.key_counts += contacts.len() as u64;
    let checks = [
        ("contact_samples", sum_of(contacts) == Some(rust.contact_samples as u64)),
        ("a key's contact samples", contacts == own),
        ("contact samples past the last key", past.iter().all(|n| *n == 0)),
        ("peak_force", alike(rust.peak_force, float(69))),
        ("damper_r", of_keys(&|i, (_, _, r)| alike(*r, float(32 + i)))),
        ("held", of_keys(&|i, (held, _, _)| *held as u64 == words[i])),
        ("hand_damped", of_keys(&|i, (_, damped, _)| *damped as u64 == words[16 + i])),
        ("pedal", inside::pedal(rust) as u64 == words[64]),
        ("hammer", hammers),
    ];
    checks.iter().find(|(_, same)| !same).map(|(what, _)| what.to_string())
}

/// The whole state, in words and work memory, and the energies.
fn state_differs(counts: &mut Counts, rust: &Piano, console: &Console) -> Option<String> {
    let cells = inside::part(rust);
    piano_differs(counts, rust, &console.words()[PIANO..])
        .or_else(|| (!all_alike(&cells, &console.work()[..cells.len()])).then(|| "cells".to_string()))
        .or_else(|| energies_differ(counts, rust, console))
}

// ---- cues

/// Where `gingerfile.h` has the cues, and how many words each is: 1 where it is kept, its position, its piano.
const CUES: usize = 258;
const CUE: usize = 72;
const MOST_CUES: usize = 4;

/// A position that is kept, and the Rust there.
struct Kept {
    position: usize,
    rust: Piano,
}

/// The cues in the words: what each holds must be the Rust's at its own position.
fn cues_differ(counts: &mut Counts, kept: &[Kept], words: &[u64]) -> Option<String> {
    let cues: Vec<&[u64]> = words[CUES..PIANO].chunks(CUE).filter(|cue| cue[0] == 1).collect();
    if cues.len() != kept.len() {
        return Some(format!("{} cues, and {} were kept", cues.len(), kept.len()));
    }
    kept.iter().find_map(|Kept { position, rust }| {
        counts.cues += 1;
        let Some(cue) = cues.iter().find(|cue| cue[1] == *position as u64) else {
            return Some(format!("no cue at {position}"));
        };
        piano_differs(counts, rust, &cue[2..]).map(|what| format!("cue at {position}: {what}"))
    })
}

/// Back to each cue, the last first: nothing is replayed, and all is as the Rust has it there.
fn steps_back_differ(counts: &mut Counts, kept: &[Kept], console: &mut Console) -> Option<String> {
    kept.iter().rev().find_map(|Kept { position, rust }| {
        counts.steps_back += 1;
        match console.go(*position as u64) {
            Ok(0) => state_differs(counts, rust, console).map(|what| format!("back at {position}: {what}")),
            other => Some(format!("go {position}: {other:?}, and a cue is kept there")),
        }
    })
}

fn has_two_counted(rust: &Piano) -> bool {
    rust.key_contacts.iter().filter(|n| **n > 0).count() > 1
}

// ---- one render

/// What stands in cells that no one may write.
const UNTOUCHED: f64 = 4242.0;

fn first_difference(what: &str, rust: &[f64], rattle: &[f64]) -> Option<String> {
    let at = (0..rust.len()).find(|i| !alike(rust[*i], rattle[*i]))?;
    Some(format!("{what} {at}: the Rust has {:e}, the proved renderer {:e}", rust[at], rattle[at]))
}

/// A block's samples and forces, and the cells of the trace behind those.
fn sound_differs(samples: &[f64], pushed: &[f64], out: &[f64], trace: &[f64]) -> Option<String> {
    let untouched = vec![UNTOUCHED; trace.len() - pushed.len()];
    first_difference("sample", samples, out)
        .or_else(|| first_difference("force", pushed, trace))
        .or_else(|| first_difference("trace", &untouched, &trace[pushed.len()..]))
}

/// Each block on the proved side, with the events inserted as they were drawn, then the Rust's unbroken render of their score
/// up to the block's end. Behind every other block a cue is kept, while there is room for one.
fn differs(
    counts: &mut Counts,
    instrument: &Instrument,
    events: &[(usize, Event)],
    blocks: &[usize],
) -> Option<String> {
    let mut console = match opened(instrument, events) {
        Ok(console) => console,
        Err(refusal) => return Some(refusal.to_string()),
    };
    let score = in_order(events);
    let cells = instrument.cells();
    let (mut t, mut forces) = (0, 0);
    let mut kept: Vec<Kept> = Vec::new();
    let (mut counted, mut in_contact) = (false, false);
    for (i, &length) in blocks.iter().enumerate() {
        let (mut out, mut trace) = (vec![UNTOUCHED; length], vec![UNTOUCHED; length + 1]);
        let found = match console.play(&mut out, &mut trace) {
            Ok(found) => found,
            Err(refusal) => return Some(format!("block of {length} from {t}: {refusal}")),
        };
        let mut rust = instrument.piano();
        let samples = rust.render(t + length, &score);
        let pushed = &rust.force_trace[forces..];
        let expected = Played { forces: pushed.len(), contact_samples: rust.contact_samples as u64 };
        let difference = if found == expected {
            sound_differs(&samples[t..], pushed, &out, &trace)
                .or_else(|| state_differs(counts, &rust, &console))
                .or_else(|| cues_differ(counts, &kept, console.words()))
        } else {
            Some(format!("{found:?}, and the Rust has {expected:?}"))
        };
        if let Some(difference) = difference {
            return Some(format!("block of {length} from {t}: {difference}"));
        }
        counts.block(&out, pushed, cells);
        t += length;
        forces = rust.force_trace.len();
        counted |= has_two_counted(&rust);
        in_contact |= rust.contact_samples > 0;
        if i % 2 == 0 && kept.len() < MOST_CUES && kept.last().map_or(true, |last| last.position < t) {
            if let Err(refusal) = console.cue() {
                return Some(format!("cue at {t}: {refusal}"));
            }
            kept.push(Kept { position: t, rust });
        }
    }
    counts.felts.add(instrument.common.h, in_contact);
    counts.counted[0] += counted as u64;
    counts.counted[1] += kept.iter().any(|cue| has_two_counted(&cue.rust)) as u64;
    steps_back_differ(counts, &kept, &mut console)
}

/// Two short blocks with every sample, then up to three long ones with digests.
fn stored_blocks(random: &mut Random, samples: u64) -> Vec<(usize, bool)> {
    let mut blocks = vec![(1 + random.below(24) as usize, false), (random.below(40) as usize, false)];
    blocks.extend((0..1 + random.below(3)).map(|_| (random.below(samples.min(4_096)) as usize, true)));
    blocks
}

/// The stored renders are drawn apart from those that are compared.
fn store(file: &str) {
    let mut lines = Vec::new();
    for (k, kind) in KINDS.iter().enumerate() {
        for turn in 0..kind.stored {
            let mut random = Random::new((k as u64 + 1) << 40 | turn);
            let instrument = (kind.instrument)(&mut random);
            let keys: Vec<u8> = instrument.keys.iter().map(|key| key.key).collect();
            let span = 1 + random.below(kind.samples.min(1_000));
            let events = score(&mut random, &keys, span);
            let blocks = stored_blocks(&mut random, kind.samples);
            lines.extend(stored_renders::lines(&instrument, &events, &blocks));
        }
    }
    std::fs::write(file, lines.join("\n") + "\n").unwrap_or_else(|e| panic!("{file}: {e}"));
}

fn main() {
    if let Some(file) = std::env::args().nth(1) {
        store(&file);
    }
    let mut counts = Counts::default();
    for (k, kind) in KINDS.iter().enumerate() {
        for turn in 0..kind.renders {
            let mut random = Random::new((k as u64 + 1) << 32 | turn);
            let instrument = (kind.instrument)(&mut random);
            let samples = 1 + random.below(kind.samples);
            let keys: Vec<u8> = instrument.keys.iter().map(|key| key.key).collect();
            let events = score(&mut random, &keys, samples);
            let blocks = blocks(&mut random, samples);
            let cells = random_cells(&mut random, instrument.cells());
            if let Some(difference) = differs(&mut counts, &instrument, &events, &blocks)
                .or_else(|| random_energies_differ(&mut counts, &instrument, &cells))
            {
                println!("render {turn} of kind `{}`, blocks {blocks:?}, events {events:?}", kind.name);
                println!("{difference}");
                exit(1);
            }
            *counts.renders.entry(kind.name).or_insert(0) += 1;
        }
    }
    counts.report();
    println!("no render differs");
    exit(if counts.enough() { 0 } else { 1 });
}
