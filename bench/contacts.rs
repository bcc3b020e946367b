//! How often contact_force's guesses miss: the arguments of every contact are logged in renders of the Rust, and the
//! proved search is asked how it found each force.

mod grand;

use comparison::common::Random;
use comparison::contacts;
use comparison::exports::leaf_force_trials;
use comparison::instrument::Instrument;
use comparison::instruments::{self, pick, Size};
use comparison::logged::Event;
use comparison::power::{felt_words, power};

/// The calls of each way to a force: 0 no force, 1 the first guess, 2 the second, 3 neither.
#[derive(Default)]
struct Ways([u64; 4]);

impl Ways {
    fn count(&mut self) {
        for [stiffness, p, eps_r, c0, c1] in contacts::taken() {
            let way = leaf_force_trials(stiffness, p as u32, eps_r, c0, c1);
            self.0[way as usize] += 1;
        }
    }

    /// Of the calls that have a force to find.
    fn missed(&self) -> f64 {
        self.0[3] as f64 / (self.0[1] + self.0[2] + self.0[3]).max(1) as f64
    }
}

/// Strikes of random keys, some 200 samples apart.
fn strikes(random: &mut Random, instrument: &Instrument, samples: usize) -> Vec<(usize, Event)> {
    let keys: Vec<u8> = instrument.keys.iter().map(|k| k.key).collect();
    let mut events = Vec::new();
    let mut at = 0;
    while at < samples {
        events.push((at, Event::NoteOn { key: pick(random, &keys), velocity: random.between(0.2, 6.0) }));
        at += 100 + random.below(200) as usize;
    }
    events
}

struct Kind {
    name: &'static str,
    renders: usize,
    samples: usize,
    /// Whether the target is for it.
    held: bool,
    instrument: fn(&mut Random, usize) -> Instrument,
}

const KINDS: [Kind; 4] = [
    Kind {
        name: "the benches' grand, each exponent",
        renders: 26,
        samples: 20_000,
        held: true,
        instrument: |_, i| grand::instrument(felt_words().nth(i).unwrap(), 1, 3, 0),
    },
    Kind {
        name: "ordinary instruments",
        renders: 400,
        samples: 2_000,
        held: true,
        instrument: |random, _| instruments::ordinary(random, Size::Small),
    },
    Kind {
        name: "large ordinary instruments",
        renders: 40,
        samples: 1_000,
        held: true,
        instrument: |random, _| instruments::ordinary(random, Size::Large),
    },
    Kind {
        name: "every number at an end of its range, or not",
        renders: 400,
        samples: 1_000,
        held: false,
        instrument: |random, _| instruments::wild(random, Size::Small),
    },
];

/// Prints a row; false where more calls miss than may.
fn report(what: &str, ways: &Ways, held: bool) -> bool {
    let [_, first, second, neither] = ways.0;
    let missed = ways.missed();
    let met = !held || missed <= 0.001;
    let verdict = match (held, met) {
        (false, _) => "–",
        (true, true) => "at most 1 in 1,000: met",
        (true, false) => "at most 1 in 1,000: MISSED",
    };
    let calls = first + second + neither;
    println!("| {what} | {calls} | {first} | {second} | {neither} ({:.4} %) | {verdict} |", 100.0 * missed);
    met
}

/// Arguments of every size that a piano may have, the memory 0, below the power, or of any size.
fn drawn(random: &mut Random) -> Ways {
    let words: Vec<u32> = felt_words().collect();
    for _ in 0..1_000_000 {
        let word = pick(random, &words);
        let (stiffness, c0, c1) =
            (random.magnitude(-3.0, 15.0), random.magnitude(-6.0, 1.0), random.magnitude(-12.0, 1.0));
        let eps_r = match random.below(3) {
            0 => 0.0,
            1 => power(c0, word) * random.between(0.0, 1.0),
            _ => random.magnitude(-6.0, 1.0),
        };
        contacts::log(stiffness, f64::from(word), eps_r, c0, c1);
    }
    let mut ways = Ways::default();
    ways.count();
    ways
}

fn main() {
    let mut random = Random::new(50);
    let mut met = true;
    println!("| arguments | calls with a force | first guess | second | neither | target |");
    println!("|---|---:|---:|---:|---:|---|");
    for kind in &KINDS {
        let mut ways = Ways::default();
        for i in 0..kind.renders {
            let instrument = (kind.instrument)(&mut random, i);
            let events = strikes(&mut random, &instrument, kind.samples);
            instrument.logged_piano().render(kind.samples, &events);
            ways.count();
        }
        met &= report(&format!("{} renders, {}", kind.renders, kind.name), &ways, kind.held);
    }
    met &= report("1,000,000 drawn, stiffness to 10^15, c0 and c1 to 10", &drawn(&mut random), true);
    std::process::exit(if met { 0 } else { 1 });
}
