//! The benches' instruments: a hammer and strings of a grand at 48 kHz; and strikes of it.
#![allow(dead_code)]

use comparison::design::LoopDesign;
use comparison::instrument::{Common, Instrument, Key};
use comparison::model::Event;
use comparison::power::exponent_of;

/// The first key.
pub const KEY: u8 = 40;

/// Strikes of the first key, evenly apart in so many samples.
pub fn strikes(count: usize, samples: usize) -> Vec<(usize, Event)> {
    (0..count).map(|i| (i * samples / count, Event::NoteOn { key: KEY, velocity: 3.0 })).collect()
}

pub fn instrument(h: u32, keys: usize, strings: usize, ap_count: usize) -> Instrument {
    let common = Common {
        fs: 48_000.0,
        z: 7.5,
        mass: 0.009,
        stiffness: 10f64.powf(4.0 + 1.5 * exponent_of(h)),
        eps: 0.1,
        tau: 2e-5,
        yz: 0.001_2,
        rho: 1.0,
        ramp_s: 0.02,
        h,
    };
    let string = |i: usize| LoopDesign {
        n_total: 100 + i,
        ap_count,
        phi: 3.0,
        thiran_a: 0.1,
        ap_a: -0.6,
        loss_g: 0.998,
        loss_c: 0.1,
    };
    let key = |k: usize| Key {
        key: KEY + k as u8,
        has_damper: true,
        weight: 0.3,
        damper_scale: 1.0,
        strike_ratio: 0.12,
        damper_ratio: 0.3,
        strings: (0..strings).map(|i| string(3 * k + i)).collect(),
    };
    Instrument { common, keys: (0..keys).map(key).collect() }
}
