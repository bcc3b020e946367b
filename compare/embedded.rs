//! The instrument that `rehearse` has inside: eight keys of a piano, designed by the Rust's own designer and tuned to
//! equal temperament at 440 Hz.
//! `embedded MODULE FILE` writes it as a Rattle module of byte strings and as an instrument file, renders each key and
//! prints its pitch, loudness and decay.

#[allow(dead_code)]
#[path = "../target/compare/analysis.rs"]
mod analysis;
#[allow(dead_code)]
#[path = "../target/compare/designer.rs"]
mod designer;
#[allow(dead_code)]
#[path = "../target/compare/fft.rs"]
mod fft;

use comparison::design::LoopDesign;
use comparison::instrument::{Common, Instrument, Key, KEY, STRING};
use comparison::model::Event;
use designer::DesignTargets;
use std::process::exit;

const FS: f64 = 44_100.0;

/// Impedance, mass and stiffness of a real string and hammer, all divided by this: the same motion, at a useful
/// loudness.
const QUIETER: f64 = 128.0;

/// A key as it is designed: its strings' inharmonicity (0: no dispersion), and the seconds to −60 dB of its
/// fundamental and of its partials near 6 kHz.
struct Plan {
    key: u8,
    strings: usize,
    inharmonicity: f64,
    decay: [f64; 2],
}

const fn plan(key: u8, strings: usize, inharmonicity: f64, decay: [f64; 2]) -> Plan {
    Plan { key, strings, inharmonicity, decay }
}

const PLANS: [Plan; 8] = [
    plan(36, 2, 8e-5, [12.0, 0.6]),
    plan(43, 2, 9e-5, [11.0, 0.6]),
    plan(48, 3, 1.2e-4, [10.0, 0.6]),
    plan(55, 3, 2e-4, [9.0, 0.6]),
    plan(60, 3, 0.0, [8.0, 0.7]),
    plan(64, 3, 0.0, [7.0, 0.7]),
    plan(67, 3, 0.0, [6.0, 0.7]),
    plan(72, 3, 0.0, [5.0, 0.7]),
];

/// How many cents each of a key's strings is out of tune.
fn detuning(strings: usize) -> &'static [f64] {
    if strings == 2 {
        &[-0.7, 0.7]
    } else {
        &[-1.1, 0.3, 0.8]
    }
}

fn frequency(key: u8) -> f64 {
    440.0 * 2f64.powf((key as f64 - 69.0) / 12.0)
}

fn base_design(plan: &Plan) -> designer::LoopDesign {
    let f0 = frequency(plan.key);
    let decay = vec![(f0, plan.decay[0]), (6_000.0, plan.decay[1])];
    let loss = designer::design_loss(FS, f0, &decay, 1.0);
    if plan.inharmonicity > 0.0 {
        return designer::design(&DesignTargets {
            fs: FS,
            f0,
            inharmonicity: plan.inharmonicity,
            decay,
            loss: Some(loss),
            bridge_reflection: 1.0,
            max_partials: 24,
            f_max: 5_000.0,
        });
    }
    designer::LoopDesign {
        n_total: 0,
        f0,
        fs: FS,
        frac: 0.0,
        thiran_a: 0.0,
        ap_count: 0,
        ap_a: 0.0,
        loss_g: loss.0,
        loss_c: loss.1,
        rms_cents: 0.0,
        max_cents: 0.0,
        fitted_partials: 0,
    }
}

fn string(base: &designer::LoopDesign, f0: f64) -> LoopDesign {
    let d = designer::retune(base, FS, f0);
    LoopDesign {
        n_total: d.n_total,
        ap_count: d.ap_count,
        phi: d.filter_delay(FS, f0),
        thiran_a: d.thiran_a,
        ap_a: d.ap_a,
        loss_g: d.loss_g,
        loss_c: d.loss_c,
    }
}

fn key(plan: &Plan) -> Key {
    let f0 = frequency(plan.key);
    let base = base_design(plan);
    let tuned = |cents: &f64| string(&base, f0 * 2f64.powf(cents / 1200.0));
    Key {
        key: plan.key,
        has_damper: true,
        weight: 0.3,
        damper_scale: (261.63 / f0).min(4.0),
        strike_ratio: 0.12,
        damper_ratio: 0.135,
        strings: detuning(plan.strings).iter().map(tuned).collect(),
    }
}

fn instrument() -> Instrument {
    let common = Common {
        fs: FS,
        z: 2.5 / QUIETER,
        mass: 0.009 / QUIETER,
        stiffness: 6e9 / QUIETER,
        eps: 0.1,
        tau: 2e-5,
        yz: 0.0012,
        rho: 1.0,
        ramp_s: 0.06,
        h: 5,
    };
    Instrument { common, keys: PLANS.iter().map(key).collect() }
}

// ---- what it sounds like

fn decibel(x: f64) -> f64 {
    20.0 * x.log10()
}

/// Prints what a key, struck and held for four seconds, then released for one, gives.
fn measure(instrument: &Instrument, key: &Key) {
    let (held, all) = ((4.0 * FS) as usize, (5.0 * FS) as usize);
    let events = [(0, Event::NoteOn { key: key.key, velocity: 3.0 }), (held, Event::NoteOff { key: key.key })];
    let mut piano = instrument.piano();
    let samples = piano.render(all, &events);
    let f0 = frequency(key.key);
    let analysis = analysis::analyze(&samples[..held], FS, f0, 8, 5_000.0);
    let cents = 1200.0 * (analysis.f0 / f0).log2();
    let peak = samples.iter().fold(0.0f64, |most, x| most.max(x.abs()));
    let level = |from: f64, to: f64| decibel(analysis::rms(&samples, FS, from, to));
    let first = level(0.05, 0.25);
    let contact_ms = 1000.0 * piano.contact_samples as f64 / FS;
    println!(
        "key {} {f0:7.2} Hz: {cents:+.2} cents, B {:.1e}, peak {peak:.3}, contact {contact_ms:.1} ms, after 1 s {:.1} dB, 2 s {:.1} dB, 3.8 s {:.1} dB, 0.5 s behind the release {:.1} dB",
        key.key,
        analysis.inharmonicity,
        level(0.9, 1.1) - first,
        level(1.9, 2.1) - first,
        level(3.6, 4.0) - first,
        level(4.4, 4.6) - first,
    );
}

// ---- the module

/// A row of the byte string.
fn row(bytes: &[u8]) -> String {
    let digits: String = bytes.iter().map(|b| format!("\\x{b:02x}")).collect();
    format!("        {digits}")
}

/// A section's rows: its first bytes, and then each string's.
fn rows(section: &[u8], head: usize) -> Vec<String> {
    let (first, rest) = section.split_at(head);
    std::iter::once(first).chain(rest.chunks(STRING)).map(row).collect()
}

fn module(instrument: &Instrument) -> String {
    let bytes = instrument.bytes();
    let sections = instrument.sections();
    let table = &bytes[..bytes.len() - sections.concat().len()];
    let mut lines = rows(table, STRING);
    lines.extend(rows(&sections[0], 40));
    lines.extend(sections[1..].iter().flat_map(|section| rows(section, KEY)));
    format!(
        "// The instrument that `rehearse` has inside, as its file would have it. Written by compare/embedded.\n\n\
         // The whole file: the pairs of offset and length; the common section; each key, its own numbers first, then each of its strings.\n\
         pub fn instrument() -> &'static [u8] {{\n    b\"\\\n{}\"\n}}\n",
        lines.join("\\\n")
    )
}

fn main() {
    let arguments: Vec<String> = std::env::args().skip(1).collect();
    let [module_path, file_path] = arguments.as_slice() else {
        eprintln!("usage: embedded MODULE FILE");
        exit(1)
    };
    let instrument = instrument();
    for key in &instrument.keys {
        measure(&instrument, key);
    }
    let bytes = instrument.bytes();
    println!("{} bytes, {} strings, {} cells of a part", bytes.len(), instrument.string_count(), instrument.cells());
    for (path, content) in [(module_path, module(&instrument).into_bytes()), (file_path, bytes)] {
        std::fs::write(path, content).unwrap_or_else(|e| {
            eprintln!("embedded: {path}: {e}");
            exit(1)
        });
    }
}
