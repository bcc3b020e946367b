//! The renderer's times beside the Rust's, a sample: with the power of document 01 on the Rust's side, which the
//! targets are for, and with `powf` as published. Both sides start in silence and get the same score.

mod grand;
mod measure;
mod sides;

use comparison::gingerfile::END;
use grand::{instrument, strikes};
use measure::{measure, report, Measured};
use sides::Sides;

struct Setup {
    name: &'static str,
    keys: usize,
    strings: usize,
    ap_count: usize,
    /// Of one turn: short, since others may use the machine meanwhile.
    samples: usize,
    strikes: usize,
    /// The largest ratios for an even and for an odd h, where they are set.
    targets: Option<[f64; 2]>,
}

const SETUPS: [Setup; 6] = [
    Setup {
        name: "3 strings",
        keys: 1,
        strings: 3,
        ap_count: 0,
        samples: 2_048,
        strikes: 2,
        targets: Some([0.6, 0.5]),
    },
    Setup {
        name: "32 strings, 20 stages",
        keys: 16,
        strings: 2,
        ap_count: 20,
        samples: 256,
        strikes: 1,
        targets: Some([0.7, 0.6]),
    },
    Setup {
        name: "32 strings, 66 stages",
        keys: 16,
        strings: 2,
        ap_count: 66,
        samples: 256,
        strikes: 1,
        targets: Some([0.55, 0.55]),
    },
    Setup {
        name: "3 strings, 66 stages",
        keys: 1,
        strings: 3,
        ap_count: 66,
        samples: 1_024,
        strikes: 2,
        targets: None,
    },
    Setup {
        name: "22 strings, 12 stages",
        keys: 11,
        strings: 2,
        ap_count: 12,
        samples: 256,
        strikes: 1,
        targets: None,
    },
    Setup { name: "32 strings, no stages", keys: 16, strings: 2, ap_count: 0, samples: 512, strikes: 1, targets: None },
];

fn rows_of(rows: &mut Vec<Measured>, setup: &Setup) {
    for h in [4, 5] {
        let samples = setup.samples;
        let instrument = instrument(h, setup.keys, setup.strings, setup.ap_count);
        let mut sides = Sides::new(instrument, samples, strikes(setup.strikes, samples), 0);
        let share = sides.checked(setup.name);
        let what = format!("{}, h = {h}, {:.0} % in contact", setup.name, 100.0 * share);
        let target = setup.targets.map(|t| t[h as usize % 2]);
        rows.push(measure(&what, target, samples, &mut sides, Sides::ready, Sides::rust, |s| s.rattle(samples)));
        let beside = format!("{what}, Rust with powf");
        rows.push(measure(&beside, None, samples, &mut sides, Sides::ready, Sides::published, |s| s.rattle(samples)));
    }
}

/// Short blocks, and the last positions that there are, where the left side is the proved one too, at position 0: a
/// sample takes no longer there.
fn others(rows: &mut Vec<Measured>, setup: &Setup) {
    let (name, samples) = (setup.name, setup.samples);
    let late = END - samples as u64;
    let made = |t| {
        Sides::new(
            instrument(4, setup.keys, setup.strings, setup.ap_count),
            samples,
            strikes(setup.strikes, samples),
            t,
        )
    };
    let (mut sides, what) = (made(0), format!("{name}, h = 4, blocks of 64"));
    rows.push(measure(&what, None, samples, &mut sides, Sides::ready, Sides::rust, |s| s.rattle(64)));
    let what = format!("{name}, h = 4, proved from position 0 and to the end, from {late}");
    let mut both = (made(0), made(late));
    both.1.checked(&what);
    rows.push(measure(
        &what,
        Some(1.05),
        samples,
        &mut both,
        |(early, late)| {
            early.ready();
            late.ready();
        },
        |(early, _)| early.rattle(samples),
        |(_, late)| late.rattle(samples),
    ));
}

fn main() {
    let mut rows = Vec::new();
    for setup in &SETUPS {
        rows_of(&mut rows, setup);
    }
    for setup in &SETUPS[..2] {
        others(&mut rows, setup);
    }
    std::process::exit(if report(&rows) { 0 } else { 1 });
}
