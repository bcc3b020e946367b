//! The decimator's times beside the patched Rust's, at the factors 2, 4 and 64. Both sides get the same signal and
//! taps, and their outputs are held to be alike.

mod measure;

use comparison::common::{all_alike, Random};
use comparison::{gingerfile, model};
use measure::{measure, report, Measured};
use std::process::exit;

const FACTORS: [usize; 3] = [2, 4, 64];

const SAMPLES: usize = 100_000;

const MOST: f64 = 1.05;

/// The Rust makes its output's memory, and so does the library's wrapper.
fn proved(x: &[f64], taps: &[f64], factor: usize) -> Vec<f64> {
    gingerfile::decimate(x, taps, factor).expect("accepted")
}

fn row(factor: usize) -> Measured {
    let mut random = Random::new(factor as u64);
    let mut draw = |count: usize| (0..count).map(|_| random.between(-1.0, 1.0)).collect::<Vec<f64>>();
    let (x, taps) = (draw(SAMPLES), draw(127));
    assert!(all_alike(&model::decimate(&x, &taps, factor), &proved(&x, &taps, factor)), "outputs differ");
    measure(
        &format!("decimate by {factor}, an output"),
        Some(MOST),
        SAMPLES.div_ceil(factor),
        &mut (x, taps),
        |_| (),
        |(x, taps)| model::decimate(x, taps, factor),
        |(x, taps)| proved(x, taps, factor),
    )
}

fn main() {
    let rows: Vec<Measured> = FACTORS.iter().map(|factor| row(*factor)).collect();
    if !report(&rows) {
        exit(1);
    }
}
