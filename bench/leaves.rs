//! The leaves' times beside the Rust's: the root beside the processor's, the force and the filters beside the
//! patched model.rs. Both sides get the same inputs, and their answers are held to be alike.

mod measure;

use comparison::common::{alike, all_alike, Random};
use comparison::design::LoopDesign;
use comparison::exports;
use comparison::model::inside::{self, Filters};
use comparison::power::{exponent_of, QUARTERS};
use measure::{measure, report, Measured};
use std::hint::black_box;

/// Both sides' numbers, the inputs put back before each turn.
struct Block {
    inputs: Vec<f64>,
    values: Vec<f64>,
}

impl Block {
    fn new(inputs: Vec<f64>) -> Block {
        Block { values: inputs.clone(), inputs }
    }

    fn ready(&mut self) {
        self.values.copy_from_slice(&self.inputs);
    }

    /// What a side makes of the inputs.
    fn answers(&mut self, side: impl Fn(&mut Block)) -> Vec<f64> {
        self.ready();
        side(self);
        self.values.clone()
    }

    /// Measures two sides that change the values in place, once they are seen to give the same.
    fn sweep(
        mut self,
        what: &str,
        target: Option<f64>,
        rust: impl Fn(&mut Block),
        rattle: impl Fn(&mut Block),
    ) -> Measured {
        let same = all_alike(&self.answers(&rust), &self.answers(&rattle));
        assert!(same, "{what}: the two sides differ");
        let calls = self.inputs.len();
        measure(what, target, calls, &mut self, Block::ready, rust, rattle)
    }
}

// ---- root

#[inline(never)]
fn rust_root_chain(x: &[f64]) -> f64 {
    let mut v = 0.0;
    for x in x {
        v = f64::sqrt(x + (v - v));
    }
    v
}

#[inline(never)]
fn rust_root_sweep(x: &mut [f64]) {
    for x in x {
        *x = x.sqrt();
    }
}

fn roots(rows: &mut Vec<Measured>, kind: &str, inputs: Vec<f64>, target: Option<f64>) {
    let calls = inputs.len();
    let rust = |x: &mut Vec<f64>| rust_root_chain(black_box(x));
    let rattle = |x: &mut Vec<f64>| exports::root_chain(x);
    let mut chained = inputs.clone();
    assert!(alike(rust(&mut chained), rattle(&mut chained)), "root, chain, {kind}: the two sides differ");
    rows.push(measure(&format!("root, chain, {kind}"), target, calls, &mut chained, |_| (), rust, rattle));
    rows.push(Block::new(inputs).sweep(
        &format!("root, sweep, {kind}"),
        None,
        |b| rust_root_sweep(black_box(&mut b.values)),
        |b| exports::root_sweep(&mut b.values),
    ));
}

// ---- the contact force

/// Of a string with z = 7.5 at 48 kHz.
const C1: f64 = 1.0 / 48_000.0 / (2.0 * 7.5);

/// How many inputs are drawn: the processor learns a few hundred by heart.
const DRAWN: usize = 4_096;

/// The exponent in a row's name: halves h or quarters e, as its word has it.
fn exponent_name(word: u32) -> String {
    match word.checked_sub(QUARTERS) {
        Some(e) => format!("e = {e}"),
        None => format!("h = {word}"),
    }
}

fn force_row(what: &str, target: f64, stiffness: f64, word: u32, c1: f64, inputs: Vec<f64>) -> Measured {
    Block::new(inputs).sweep(
        &format!("contact_force, {}{what}", exponent_name(word)),
        Some(target),
        |b| inside::force_sweep(stiffness, word, 0.0, c1, &mut b.values),
        |b| exports::force_sweep(stiffness, word, 0.0, c1, &mut b.values),
    )
}

/// Quarters that take the root of a root: 7 takes the root too.
const ROOTS_OF_ROOTS: [u32; 3] = [QUARTERS + 5, QUARTERS + 7, QUARTERS + 9];

/// A hammer in contact with a string.
fn forces(rows: &mut Vec<Measured>, random: &mut Random) {
    let targets = (2..=10).map(|h| (h, 0.6)).chain(ROOTS_OF_ROOTS.map(|e| (e, 1.0)));
    for (word, target) in targets {
        let inputs = (0..DRAWN).map(|_| random.magnitude(-5.0, -3.0)).collect();
        let stiffness = 10f64.powf(4.0 + 1.5 * exponent_of(word));
        rows.push(force_row("", target, stiffness, word, C1, inputs));
    }
}

/// The worst case: a stiff felt and a string that gives way, compressed by more than 10^15, where what is left of c0 is
/// below its last digit. Both guesses miss there, and the felt's own halvings follow.
fn missed_forces(rows: &mut Vec<Measured>, random: &mut Random) {
    let (stiffness, c1) = (1e12, 1.0);
    for word in [3, 4, 9, 10, QUARTERS + 7] {
        let misses = |c0: &f64| exports::leaf_force_trials(stiffness, word, 0.0, *c0, c1) == 3;
        let drawn = (0..100 * DRAWN).map(|_| random.magnitude(15.0, 25.0));
        let inputs: Vec<f64> = drawn.filter(misses).take(DRAWN).collect();
        assert!(inputs.len() == DRAWN, "too few arguments that miss both guesses for {}", exponent_name(word));
        rows.push(force_row(", both guesses miss", 2.3, stiffness, word, c1, inputs));
    }
}

// ---- the filters

/// One string's filters on both sides, and a block of input.
struct Strings {
    rust: Filters,
    cells: Vec<f64>,
    block: Block,
}

fn filters(rows: &mut Vec<Measured>, random: &mut Random) {
    let design =
        LoopDesign { n_total: 4, ap_count: 66, phi: 0.0, thiran_a: 0.3, ap_a: -0.6, loss_g: 0.995, loss_c: 0.1 };
    let inputs: Vec<f64> = (0..256).map(|_| random.between(-1.0, 1.0)).collect();
    let calls = inputs.len();
    let string = |cells: usize| Strings {
        rust: Filters::new(&design),
        cells: vec![0.0; cells],
        block: Block::new(inputs.clone()),
    };
    let row_runs: [(&str, Option<f64>, fn(&mut Filters, &mut [f64])); 2] = [
        ("row of 66 stages", Some(1.05), Filters::row_run),
        ("row of 66 stages, Rust on a copy of the row", None, Filters::copied_row_run),
    ];
    for (what, target, rust) in row_runs {
        let mut row = string(132);
        rows.push(measure(
            what,
            target,
            calls,
            &mut row,
            |s| s.block.ready(),
            |s| rust(&mut s.rust, &mut s.block.values),
            |s| exports::row_run(&mut s.cells, design.ap_a, &mut s.block.values),
        ));
        assert!(all_alike(&row.rust.row_cells(), &row.cells), "{what}: the two sides differ");
    }
    let mut whole = string(135);
    rows.push(measure(
        "loop_filter with 66 stages",
        None,
        calls,
        &mut whole,
        |s| s.block.ready(),
        |s| s.rust.loop_run(&mut s.block.values),
        |s| {
            for x in &mut s.block.values {
                *x = exports::loop_filter(&mut s.cells, &design, *x);
            }
        },
    ));
    assert!(all_alike(&whole.rust.cells(), &whole.cells), "loop_filter: the two sides differ");
}

fn main() {
    let mut random = Random::new(20);
    let mut rows = Vec::new();
    let normal = (0..4096).map(|_| random.magnitude(-300.0, 300.0)).collect();
    let subnormal = (0..4096).map(|_| f64::from_bits((random.bits() >> 12 >> random.below(40)) + 1)).collect();
    roots(&mut rows, "normal numbers", normal, Some(4.0));
    roots(&mut rows, "subnormal numbers", subnormal, None);
    forces(&mut rows, &mut random);
    missed_forces(&mut rows, &mut random);
    filters(&mut rows, &mut random);
    std::process::exit(if report(&rows) { 0 } else { 1 });
}
