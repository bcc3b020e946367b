//! Plays through the embedded library's wrapper beside the same plays made in a loop in Rattle, where file and session are
//! read once: the same samples in the same blocks.

mod grand;
mod measure;
mod plays;

use grand::instrument;
use measure::{measure, report_sides, Measured};
use plays::Plays;

/// Through the library.
fn embedded(played: &mut Plays, block: usize) -> u64 {
    let Plays { console, out, trace, .. } = played;
    let mut forces = 0;
    for _ in 0..out.len() / block {
        forces = console.play(&mut out[..block], &mut trace[..block]).unwrap().forces;
    }
    forces as u64
}

/// Both give the same, or there is nothing to time.
fn check(played: &mut Plays, block: usize) {
    let bits = |out: &[f64]| -> Vec<u64> { out[..block].iter().map(|x| x.to_bits()).collect() };
    played.ready();
    let forces = played.plays(block);
    let samples = bits(&played.out);
    played.ready();
    assert_eq!(embedded(played, block), forces, "the forces differ");
    assert_eq!(bits(&played.out), samples, "the samples differ");
}

fn rows_of(rows: &mut Vec<Measured>, name: &str, played: &mut Plays, least: usize) {
    let samples = played.out.len();
    for block in [64, 256, 1_024] {
        check(played, block);
        let target = (block >= least).then_some(1.1);
        let what = format!("{name}: plays of {block}");
        let (rattle, library) = (|p: &mut Plays| p.plays(block), |p: &mut Plays| embedded(p, block));
        rows.push(measure(&what, target, samples, played, Plays::ready, rattle, library));
    }
}

fn main() {
    let mut rows = Vec::new();
    rows_of(&mut rows, "3 strings", &mut Plays::new(&instrument(4, 1, 3, 0), 4_096), 256);
    rows_of(&mut rows, "12 strings", &mut Plays::new(&instrument(4, 4, 3, 0), 4_096), 256);
    rows_of(&mut rows, "32 strings, 20 stages", &mut Plays::new(&instrument(4, 16, 2, 20), 1_024), 64);
    std::process::exit(if report_sides(["from Rattle", "embedded"], &rows) { 0 } else { 1 });
}
