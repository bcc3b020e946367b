//! Compares each proved leaf with the Rust: the root with the processor's, the power with documents 01's and 02's, and
//! the rest with the patched model.rs. With a file's name it also writes a sample of the answers there.

use comparison::common::{alike, all_alike, edges, word, Random, Tally};
use comparison::design::LoopDesign;
use comparison::exports::{self, *};
use comparison::model::inside::{self, Filters};
use comparison::power::{felt_words, power, QUARTERS};

// ---- root

/// Zeros are compared by their bits: either zero gives itself.
fn root_of(tally: &mut Tally, x: f64) {
    let (rust, rattle) = (x.sqrt(), leaf_root(x));
    let agree = word(rust) == word(rattle);
    tally.answer(agree, &[word(x)], &[word(rust)], &[word(rattle)]);
}

/// x and two floats on either side of it.
fn root_around(tally: &mut Tally, x: f64) {
    for step in -2..=2 {
        root_of(tally, f64::from_bits(x.to_bits().wrapping_add_signed(step)));
    }
}

/// The floats next to the square of the middle between two neighbours, significand and 2^-52 apart: there the
/// root is nearest to a tie. The square has up to 108 digits, of which 53 are kept.
fn root_at_tie(tally: &mut Tally, significand: u64, exponent: i32) {
    let middle = 2 * significand as u128 + 1;
    let square = middle * middle;
    let dropped = 128 - square.leading_zeros() - 53;
    let kept = (square >> dropped) as u64;
    for x in kept - 1..=kept + 2 {
        root_of(tally, x as f64 * 2f64.powi(dropped as i32 - 106 + 2 * exponent));
    }
}

fn roots(stride: u64) -> Tally {
    let mut tally = Tally::new("root", stride);
    let mut random = Random::new(1);
    for &x in edges() {
        root_of(&mut tally, x);
        tally.keep(&[word(x)], &[word(x.sqrt())]);
    }
    for _ in 0..400_000 {
        root_of(&mut tally, random.any());
    }
    for field in 0..2047u64 {
        for fraction in [0, 1, 2, (1 << 52) - 1] {
            root_of(&mut tally, f64::from_bits(field << 52 | fraction));
        }
        for _ in 0..100 {
            root_of(&mut tally, f64::from_bits(field << 52 | random.bits() >> 12));
        }
    }
    for zeros in 12..64 {
        for _ in 0..1_000 {
            let fraction = (1 << 63 | random.bits()) >> zeros;
            root_of(&mut tally, f64::from_bits(fraction));
        }
    }
    for power in 0..2098u64 {
        let bits = if power < 52 { 1 << power } else { (power - 51) << 52 };
        root_around(&mut tally, f64::from_bits(bits));
    }
    for _ in 0..40_000 {
        let short = (random.below(1 << 27) + 1) as f64 * 2f64.powi(random.below(960) as i32 - 500);
        root_around(&mut tally, short * short);
        let long = f64::from_bits((523 + random.below(1000)) << 52 | random.bits() >> 12);
        root_around(&mut tally, long * long);
    }
    for _ in 0..60_000 {
        root_at_tie(&mut tally, 1 << 52 | random.bits() >> 12, random.below(1000) as i32 - 500);
    }
    for near in 0..500 {
        root_at_tie(&mut tally, (1 << 52) + near, 0);
        root_at_tie(&mut tally, (1 << 53) - 1 - near, 0);
    }
    tally
}

// ---- power, and the float operations

fn power_of(tally: &mut Tally, x: f64, exponent: u32) {
    let (rust, rattle) = (power(x, exponent), leaf_power(x, exponent));
    tally.answer(alike(rust, rattle), &[word(x), exponent as u64], &[word(rust)], &[word(rattle)]);
}

/// Every edge, any pattern, and ordinary sizes.
fn on_numbers(random: &mut Random, mut f: impl FnMut(f64)) {
    edges().iter().for_each(|x| f(*x));
    for _ in 0..10_000 {
        f(random.any());
        f(random.magnitude(-30.0, 30.0));
    }
}

/// The words of instruments, those beside them, and some that are far from any.
fn powers(stride: u64) -> Tally {
    let mut tally = Tally::new("power", stride);
    let mut random = Random::new(2);
    for exponent in (0..=12).chain(QUARTERS..=QUARTERS + 22) {
        on_numbers(&mut random, |x| power_of(&mut tally, x, exponent));
    }
    for exponent in [13, 14, 31, 64, 65, 255, 317, 318, 319, 320, 512, 1000, 1001] {
        for _ in 0..500 {
            power_of(&mut tally, random.between(0.9, 1.1), exponent);
            power_of(&mut tally, random.edge(), exponent);
        }
    }
    for exponent in [QUARTERS + 5, QUARTERS + 7] {
        for &x in edges() {
            tally.keep(&[word(x), exponent as u64], &[word(power(x, exponent))]);
        }
    }
    tally
}

/// Quarters 2h beside halves h, bit for bit but for NaNs: the proved power of either, and the Rust's of the halves.
fn powers_of_both() -> Tally {
    let mut tally = Tally::new("power, both", 0);
    let mut random = Random::new(15);
    for h in 0..=12 {
        on_numbers(&mut random, |x| {
            let rust = word(power(x, h));
            let rattle = [h, QUARTERS + 2 * h].map(|exponent| word(leaf_power(x, exponent)));
            tally.answer(rattle == [rust; 2], &[word(x), h as u64], &[rust], &rattle);
        });
    }
    tally
}

/// All pairs of edges, then random pairs.
fn on_pairs(seed: u64, mut f: impl FnMut(f64, f64)) {
    let mut random = Random::new(seed);
    for &a in edges() {
        for &b in edges() {
            f(a, b);
        }
    }
    for _ in 0..50_000 {
        f(random.any(), random.any());
        f(random.tame_or_wild(-10.0, 10.0), random.tame_or_wild(-10.0, 10.0));
    }
}

fn minima(stride: u64) -> Tally {
    let mut tally = Tally::new("min", stride);
    on_pairs(3, |a, b| tally.float(&[a, b], a.min(b), leaf_min(a, b)));
    tally
}

fn maxima(stride: u64) -> Tally {
    let mut tally = Tally::new("max", stride);
    on_pairs(4, |a, b| tally.float(&[a, b], a.max(b), leaf_max(a, b)));
    tally
}

/// Where the Rust's clamp does not panic: its ends are in order, and neither is NaN.
fn clamps(stride: u64) -> Tally {
    let mut tally = Tally::new("clamp", stride);
    let mut random = Random::new(5);
    on_pairs(6, |lo, hi| {
        if lo <= hi {
            for x in [random.edge(), random.tame_or_wild(-10.0, 10.0), lo, hi] {
                tally.float(&[x, lo, hi], x.clamp(lo, hi), leaf_clamp(x, lo, hi));
            }
        }
    });
    tally
}

fn positive_parts(stride: u64) -> Tally {
    let mut tally = Tally::new("positive_part", stride);
    on_pairs(7, |x, _| tally.float(&[x], x.max(0.0), leaf_positive_part(x)));
    tally
}

fn rounded(tally: &mut Tally, x: f64) {
    let (rust, rattle) = (x.round() as usize as u64, leaf_round_away(x));
    tally.answer(rust == rattle, &[word(x)], &[rust], &[rattle]);
}

fn roundings(stride: u64) -> Tally {
    let mut tally = Tally::new("round_away", stride);
    let mut random = Random::new(8);
    for &x in edges() {
        rounded(&mut tally, x);
    }
    for whole in 0..20_000u64 {
        let tie = whole as f64 + 0.5;
        for x in [tie, tie.next_down(), tie.next_up(), whole as f64, -tie] {
            rounded(&mut tally, x);
        }
    }
    for _ in 0..50_000 {
        rounded(&mut tally, random.any());
        rounded(&mut tally, random.between(0.0, 4096.0));
        let tie = (random.bits() >> 12 >> random.below(52)) as f64 + 0.5;
        rounded(&mut tally, tie);
        rounded(&mut tally, tie.next_down());
        rounded(&mut tally, random.magnitude(15.0, 20.5));
    }
    tally
}

// ---- the contact force

/// One hammer on one string. The force does not depend on eps, mass and tau, which the Rust is not given.
struct Contact {
    stiffness: f64,
    exponent: u32,
    eps_r: f64,
    c0: f64,
    c1: f64,
}

const HALF_MAX: f64 = f64::MAX / 2.0;

/// What was compared, and what document 02, W6, says of it.
struct Forces {
    random: Random,
    answers: Tally,
    bounds: Tally,
    /// How many are c0 / c1 itself and above 0, and how many lie past it where it is above half the largest f64.
    at_bound: u64,
    past: u64,
}

impl Forces {
    fn compare(&mut self, c: Contact) {
        let [eps, mass, tau] = [self.random.any(), self.random.any(), self.random.any()];
        let rust = inside::contact_force(c.stiffness, c.exponent, c.eps_r, c.c0, c.c1);
        let rattle = leaf_contact_force(c.stiffness, c.exponent, eps, mass, tau, c.eps_r, c.c0, c.c1);
        self.answers.answer(alike(rust, rattle), &given(&c), &[word(rust)], &[word(rattle)]);
        self.hold(&c, rattle);
    }

    /// For c0 and c1 finite and above 0, with c0 / c1 at most half the largest f64, the force lies from 0 to c0 / c1.
    fn hold(&mut self, c: &Contact, force: f64) {
        let bound = c.c0 / c.c1;
        if ![c.c0, c.c1].iter().all(|x| *x > 0.0 && x.is_finite()) {
            return;
        }
        if bound <= HALF_MAX {
            self.bounds.answer((0.0..=bound).contains(&force), &given(c), &[word(bound)], &[word(force)]);
            self.at_bound += u64::from(force == bound && force > 0.0);
        } else {
            self.past += u64::from(force > bound);
        }
    }
}

fn given(c: &Contact) -> [u64; 5] {
    [word(c.stiffness), c.exponent as u64, word(c.eps_r), word(c.c0), word(c.c1)]
}

/// Felt and string as the instruments have them.
fn ordinary(random: &mut Random, exponent: u32) -> Contact {
    let c0 = random.magnitude(-7.0, -2.0);
    let stiffness = random.magnitude(3.0, 13.0);
    let eps_r = random.between(0.0, 1.2) * random.below(2) as f64 * power(c0, exponent);
    Contact { stiffness, exponent, eps_r, c0, c1: random.magnitude(-8.0, -3.0) }
}

/// Pairs c0 and c1 whose quotient is at or beside half the largest f64, and pairs of which one is subnormal or the
/// quotient is, or is rounded to 0 or to infinity.
fn quotients() -> Vec<(f64, f64)> {
    let tiny = f64::from_bits(1);
    let mut pairs = vec![(1.0, f64::MAX), (f64::MAX, f64::MAX), (f64::MAX, 1.0), (f64::MAX, tiny)];
    for c1 in [tiny, 2f64.powi(-1030), 2f64.powi(-60), 0.5, 1.0, 2.0] {
        let c0 = HALF_MAX * c1;
        pairs.extend([c0.next_down(), c0, c0.next_up()].map(|c0| (c0, c1)));
    }
    for c0 in [1, 2, 3, 0x000f_ffff_ffff_ffff].map(f64::from_bits) {
        pairs.extend([tiny, 3.0 * tiny, 0.5, 1.0, 1.5, 2.0, 3.0, f64::MAX].map(|c1| (c0, c1)));
    }
    pairs
}

/// Felts and memories of every kind on `quotients`; the forces of a felt of infinite stiffness are kept, one in three.
fn forces_at_their_bounds(forces: &mut Forces) {
    let kinds = [f64::NAN, f64::INFINITY, f64::MAX, 1e9, 1.0, f64::from_bits(1), 0.0];
    let signed = || kinds.into_iter().flat_map(|x| [x, -x]);
    for exponent in felt_words().chain([0, 1, 11, 255, 256, 259, 277, 512]) {
        for (c0, c1) in quotients() {
            for stiffness in signed() {
                for eps_r in signed() {
                    forces.compare(Contact { stiffness, exponent, eps_r, c0, c1 });
                }
            }
        }
    }
    for (c0, c1) in quotients().into_iter().step_by(3) {
        let c = Contact { stiffness: f64::INFINITY, exponent: 5, eps_r: 0.0, c0, c1 };
        forces.answers.keep(&given(&c), &[word(inside::contact_force(c.stiffness, c.exponent, c.eps_r, c0, c1))]);
    }
}

/// Of every word of an instrument ordinary contacts and wild ones; of other words ordinary ones.
fn random_forces(forces: &mut Forces) {
    for exponent in felt_words() {
        for turn in 0..8_000 {
            let random = &mut forces.random;
            let mut c = ordinary(random, exponent);
            match turn % 8 {
                0 => c.c0 = -c.c0,
                1 => c.stiffness = random.magnitude(13.0, 300.0),
                2 => c.c1 = 0.0,
                _ => (),
            }
            forces.compare(c);
        }
        for _ in 0..6_000 {
            let random = &mut forces.random;
            let c = Contact {
                stiffness: random.tame_or_wild(0.0, 1e15),
                exponent,
                eps_r: random.tame_or_wild(0.0, 1.0),
                c0: random.tame_or_wild(0.0, 2.0),
                c1: random.tame_or_wild(0.0, 1.0),
            };
            forces.compare(c);
            let random = &mut forces.random;
            let [stiffness, eps_r, c0, c1] = [random.any(), random.edge(), random.any(), random.edge()];
            forces.compare(Contact { stiffness, exponent, eps_r, c0: c0.abs(), c1 });
        }
    }
    for exponent in [0, 1, 11, 12, 13, 40, 255, 256, 259, 277, 278, 279, 512] {
        for _ in 0..500 {
            let c = ordinary(&mut forces.random, exponent);
            forces.compare(c);
        }
    }
}

fn forces(stride: u64) -> [Tally; 2] {
    let mut forces = Forces {
        random: Random::new(9),
        answers: Tally::new("contact_force", stride),
        bounds: Tally::new("force, bound", 0),
        at_bound: 0,
        past: 0,
    };
    random_forces(&mut forces);
    forces_at_their_bounds(&mut forces);
    let (at_bound, past) = (forces.at_bound, forces.past);
    println!("{at_bound} forces above 0 are c0 / c1, {past} are past it where it is above half the largest f64");
    assert!(at_bound > 0 && past > 0, "the bound was not tried where it is reached, or not where it does not hold");
    [forces.answers, forces.bounds]
}

// ---- the cuts

fn cut(tally: &mut Tally, n: usize, phi: f64, strike_ratio: f64, damper_ratio: f64) {
    let design = LoopDesign { n_total: n, phi, ..LoopDesign::default() };
    let rust = inside::cuts(&design, strike_ratio, damper_ratio);
    let mut rattle = [0; 3];
    leaf_cut_string(n, phi, strike_ratio, damper_ratio, &mut rattle);
    let given = [n as u64, word(phi), word(strike_ratio), word(damper_ratio)];
    let words = |lengths: [usize; 3]| lengths.map(|length| length as u64);
    tally.answer(rust == rattle, &given, &words(rust), &words(rattle));
}

fn cuts(stride: u64) -> Tally {
    let mut tally = Tally::new("cuts", stride);
    let mut random = Random::new(10);
    for n in 0..=12 {
        for phi in [0.0, 1.0, 3.5, 4096.0] {
            for strike in 0..=8 {
                for damper in 0..=8 {
                    cut(&mut tally, n, phi, strike as f64 / 8.0, damper as f64 / 8.0);
                }
            }
        }
    }
    for _ in 0..40_000 {
        let n = random.below(2_001) as usize;
        let phi = random.between(0.0, 4096.0) * random.below(2) as f64;
        let (strike, damper) = (random.between(0.0, 1.0), random.between(0.0, 1.0));
        cut(&mut tally, n, phi, strike, damper);
        cut(&mut tally, random.below(8) as usize, phi, strike, damper);
        let wild = [random.tame_or_wild(0.0, 4096.0), random.tame_or_wild(0.0, 1.0), random.tame_or_wild(0.0, 1.0)];
        cut(&mut tally, n, wild[0], wild[1], wild[2]);
    }
    // beyond what a file may hold; the Rust's lines are then long
    for _ in 0..200 {
        let n = random.below(1_000_000) as usize;
        cut(&mut tally, n, random.any(), random.tame_or_wild(0.0, 1.0), random.tame_or_wild(0.0, 1.0));
    }
    tally
}

// ---- the filters

/// What stands on either side of the lent cells, and must stand there afterwards.
const OUTSIDE: u64 = 0x4242_4242_4242_4242;

/// Cells lent from the middle of a longer array.
struct Lent {
    all: Vec<f64>,
    count: usize,
}

impl Lent {
    fn new(cells: &[f64]) -> Lent {
        let outside = [f64::from_bits(OUTSIDE); 4];
        Lent { all: [&outside, cells, &outside].concat(), count: cells.len() }
    }

    fn cells_mut(&mut self) -> &mut [f64] {
        &mut self.all[4..4 + self.count]
    }

    fn cells(&self) -> &[f64] {
        &self.all[4..4 + self.count]
    }

    fn outside_kept(&self) -> bool {
        self.all[..4].iter().chain(&self.all[4 + self.count..]).all(|x| x.to_bits() == OUTSIDE)
    }
}

/// What a filter is given and gives, as words: coefficients and input, then the cells; the output, then the cells.
fn filter_words(numbers: &[f64], cells: &[f64]) -> Vec<u64> {
    numbers.iter().chain(cells).map(|x| word(*x)).collect()
}

/// Steps of a filter on both sides, each on the cells that the one before left. Either side gives its output for an
/// input, the Rust's its cells too.
fn steps(
    tally: &mut Tally,
    random: &mut Random,
    count: usize,
    lent: &mut Lent,
    coefficients: &[f64],
    mut rust: impl FnMut(f64) -> (f64, Vec<f64>),
    rattle: impl Fn(&mut [f64], f64) -> f64,
) {
    for _ in 0..count {
        let [x] = filter_numbers(random);
        let given = filter_words(&[coefficients, &[x]].concat(), lent.cells());
        let found = rattle(lent.cells_mut(), x);
        let (expected, expected_cells) = rust(x);
        let cells = lent.cells();
        let agree = alike(expected, found) && all_alike(&expected_cells, cells) && lent.outside_kept();
        tally.answer(agree, &given, &filter_words(&[expected], &expected_cells), &filter_words(&[found], cells));
    }
}

/// Coefficients and cells: tame in seven turns of eight.
fn filter_numbers<const N: usize>(random: &mut Random) -> [f64; N] {
    let wild = random.below(8) == 0;
    std::array::from_fn(|_| if wild { random.tame_or_wild(-1.0, 1.0) } else { random.between(-1.0, 1.0) })
}

fn filter_cells(random: &mut Random, count: usize) -> Vec<f64> {
    let scale = [0.0, 1.0, 1.0, 1e-300, 1e300][random.below(5) as usize];
    (0..count).map(|_| scale * random.between(-1.0, 1.0)).collect()
}

fn allpasses(stride: u64) -> Tally {
    let mut tally = Tally::new("allpass", stride);
    let mut random = Random::new(11);
    for _ in 0..4_000 {
        let [a] = filter_numbers(&mut random);
        let mut lent = Lent::new(&filter_cells(&mut random, 2));
        let mut rust = Filters::new(&LoopDesign { n_total: 4, thiran_a: a, ..LoopDesign::default() });
        rust.set_thiran(lent.cells());
        let side = |x| (rust.thiran(x), rust.thiran_cells().to_vec());
        steps(&mut tally, &mut random, 25, &mut lent, &[a], side, |cells, x| exports::allpass(cells, a, x));
    }
    tally
}

/// An odd last cell belongs to no stage: it stays as it was.
fn rows(stride: u64) -> Tally {
    let mut tally = Tally::new("dispersion", stride);
    let mut random = Random::new(12);
    for count in (0..=132).step_by(2).chain([1, 3, 7, 131, 133]) {
        for _ in 0..25 {
            let [a] = filter_numbers(&mut random);
            let mut lent = Lent::new(&filter_cells(&mut random, count));
            let design = LoopDesign { n_total: 4, ap_count: count / 2, ap_a: a, ..LoopDesign::default() };
            let mut rust = Filters::new(&design);
            rust.set_row(lent.cells());
            let odd = lent.cells()[count / 2 * 2..].to_vec();
            let side = |x| (rust.row(x), [rust.row_cells(), odd.clone()].concat());
            steps(&mut tally, &mut random, 20, &mut lent, &[a], side, |cells, x| exports::dispersion(cells, a, x));
        }
    }
    tally
}

/// Rows of every number of stages, cut behind each: the proved row on either part, the first part's output fed to the
/// second, beside the Rust's on the whole.
fn cut_rows() -> Tally {
    let mut tally = Tally::new("dispersion, cut", 0);
    let mut random = Random::new(14);
    for ap_count in 0..=66 {
        for cut in 0..=ap_count {
            let [a] = filter_numbers(&mut random);
            let mut lent = Lent::new(&filter_cells(&mut random, 2 * ap_count));
            let mut rust = Filters::new(&LoopDesign { n_total: 4, ap_count, ap_a: a, ..LoopDesign::default() });
            rust.set_row(lent.cells());
            let side = |x| (rust.row(x), rust.row_cells());
            let rattle = |cells: &mut [f64], x| {
                let (first, second) = cells.split_at_mut(2 * cut);
                let v = exports::dispersion(first, a, x);
                exports::dispersion(second, a, v)
            };
            steps(&mut tally, &mut random, 20, &mut lent, &[a], side, rattle);
        }
    }
    tally
}

fn loop_filters(stride: u64) -> Tally {
    let mut tally = Tally::new("loop_filter", stride);
    let mut random = Random::new(13);
    for ap_count in 0..=66 {
        for _ in 0..25 {
            let coefficients = filter_numbers(&mut random);
            let [thiran_a, ap_a, loss_g, loss_c] = coefficients;
            let count = 2 * ap_count + 3;
            let mut lent = Lent::new(&filter_cells(&mut random, count));
            let design = LoopDesign { n_total: 4, ap_count, phi: 0.0, thiran_a, ap_a, loss_g, loss_c };
            let mut rust = Filters::new(&design);
            rust.set_thiran(&lent.cells()[..2]);
            rust.set_row(&lent.cells()[2..count - 1]);
            rust.set_loss(lent.cells()[count - 1]);
            let side = |x| (rust.loop_filter(x), rust.cells());
            let rattle = |cells: &mut [f64], x| exports::loop_filter(cells, &design, x);
            steps(&mut tally, &mut random, 20, &mut lent, &coefficients, side, rattle);
        }
    }
    tally
}

fn main() {
    let sample = std::env::args().nth(1);
    let stride = |one_in: u64| if sample.is_some() { one_in } else { 0 };
    let [forces, bounds] = forces(stride(2_150));
    let tallies = [
        roots(stride(1_700)),
        powers(stride(2_300)),
        powers_of_both(),
        minima(stride(1_000)),
        maxima(stride(1_000)),
        clamps(stride(1_500)),
        positive_parts(stride(2_000)),
        roundings(stride(2_000)),
        forces,
        bounds,
        cuts(stride(500)),
        allpasses(stride(800)),
        rows(stride(3_000)),
        cut_rows(),
        loop_filters(stride(2_900)),
    ];
    if let Some(file) = sample {
        let lines: Vec<&str> = tallies.iter().flat_map(|t| &t.kept).map(String::as_str).collect();
        std::fs::write(&file, lines.join("\n") + "\n").unwrap_or_else(|e| panic!("{file}: {e}"));
    }
    let differing = tallies.iter().filter(|t| !t.report()).count();
    std::process::exit(if differing == 0 { 0 } else { 1 });
}
