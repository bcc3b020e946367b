//! Random instruments for the comparisons: ordinary ones, that strike, ring and damp; wild ones, that blow up; and
//! files that each refusal from 1 to 6 is for.

use crate::common::Random;
use crate::design::LoopDesign;
use crate::instrument::{chained, Common, Instrument, Key, COMMON_RANGES, KEY, KEY_RANGES, STRING, STRING_RANGES};
use crate::power::{exponent_of, quarter_words};

/// How large an instrument is.
#[derive(Clone, Copy, PartialEq, Debug)]
pub enum Size {
    /// One string, n = 4: the cheapest sample there is.
    Least,
    /// A few short strings.
    Small,
    /// Two strings a key, or rows of 66 stages, or long strings.
    Large,
}

pub fn pick<T: Clone>(random: &mut Random, from: &[T]) -> T {
    from[random.below(from.len() as u64) as usize].clone()
}

fn chance(random: &mut Random, one_in: u64) -> bool {
    random.below(one_in) == 0
}

/// A felt's exponent as a word: one in two counts quarters, and of those one in two is no number of halves.
fn felt_word(random: &mut Random) -> u32 {
    if chance(random, 2) {
        return 2 + random.below(9) as u32;
    }
    let between = chance(random, 2);
    let words: Vec<u32> = quarter_words().filter(|word| (word % 2 == 1) == between).collect();
    pick(random, &words)
}

/// A felt and a string as a piano has them, the stiffness by the exponent, so that contacts last some samples.
fn ordinary_common(random: &mut Random) -> Common {
    let h = felt_word(random);
    let p = exponent_of(h);
    Common {
        fs: pick(random, &[8_000.0, 22_050.0, 44_100.0, 48_000.0, 96_000.5, 352_800.0]),
        z: random.between(0.5, 10.0),
        mass: random.between(0.004, 0.02),
        stiffness: if chance(random, 12) { 0.0 } else { random.magnitude(2.5 + 1.5 * p, 4.5 + 1.5 * p) },
        eps: pick(random, &[0.0, 0.1, 0.3, 0.9]),
        tau: if chance(random, 4) { 0.0 } else { random.magnitude(-6.0, -2.0) },
        yz: random.magnitude(-4.0, -0.5),
        rho: random.between(0.0, 2.0),
        ramp_s: if chance(random, 4) { 0.0 } else { random.magnitude(-4.0, -2.0) },
        h,
    }
}

fn ordinary_key(random: &mut Random) -> Key {
    let strike_ratio = random.between(0.05, 0.3);
    Key {
        key: 0,
        has_damper: !chance(random, 5),
        weight: random.between(0.0, 1.0),
        damper_scale: random.between(0.0, 4.0),
        strike_ratio,
        damper_ratio: strike_ratio + random.between(0.0, 0.6),
        strings: Vec::new(),
    }
}

fn ordinary_string(random: &mut Random) -> LoopDesign {
    LoopDesign {
        n_total: 4 + random.below(40) as usize,
        ap_count: pick(random, &[0, 0, 1, 2, 5]),
        phi: random.between(0.0, 12.0),
        thiran_a: random.between(-0.5, 0.5),
        ap_a: random.between(-0.8, 0.0),
        loss_g: random.between(0.9, 1.0),
        loss_c: random.between(0.0, 0.4),
    }
}

/// In one draw of `one_in`, one of the range's ends takes the place of x.
fn end(random: &mut Random, one_in: u64, x: &mut f64, ends: [f64; 2]) {
    if chance(random, one_in) {
        *x = pick(random, &ends);
    }
}

/// The ends of the ranges, each with a fair chance: what a technician would never build.
fn to_the_ends(random: &mut Random, instrument: &mut Instrument) {
    let least = 2f64.powi(-20);
    let below_one = 1f64.next_down();
    let c = &mut instrument.common;
    end(random, 3, &mut c.fs, [1_000.0, 400_000.0]);
    end(random, 3, &mut c.z, [least, 1_000.0]);
    end(random, 3, &mut c.mass, [least, 1_000.0]);
    end(random, 2, &mut c.stiffness, [1e15, 1e15]);
    end(random, 3, &mut c.eps, [0.0, 1.0]);
    end(random, 3, &mut c.tau, [0.0, 1.0]);
    end(random, 2, &mut c.yz, [0.0, 1.0]);
    end(random, 3, &mut c.rho, [0.0, 1_000.0]);
    end(random, 3, &mut c.ramp_s, [0.0, 100.0]);
    for k in &mut instrument.keys {
        end(random, 2, &mut k.weight, [0.0, 100.0]);
        end(random, 3, &mut k.damper_scale, [0.0, 1_000.0]);
        end(random, 3, &mut k.strike_ratio, [0.0, 1.0]);
        end(random, 3, &mut k.damper_ratio, [0.0, 1.0]);
        for s in &mut k.strings {
            if chance(random, 2) {
                s.n_total = 4;
            }
            end(random, 3, &mut s.phi, [0.0, 4_096.0]);
            end(random, 3, &mut s.thiran_a, [-below_one, below_one]);
            end(random, 3, &mut s.ap_a, [-below_one, below_one]);
            end(random, 2, &mut s.loss_g, [0.0, 2.0]);
            end(random, 3, &mut s.loss_c, [-0.0, below_one]);
        }
    }
}

/// Weights and gains that multiply what the strings hold many times over in each turn.
fn to_blow_up(random: &mut Random, instrument: &mut Instrument) {
    instrument.common.yz = 1.0;
    for k in &mut instrument.keys {
        k.weight = 100.0;
        for s in &mut k.strings {
            s.n_total = 4 + random.below(3) as usize;
            s.loss_g = 2.0;
            s.loss_c = 0.0;
        }
    }
}

/// How many keys, and how many strings each has.
fn layout(random: &mut Random, size: Size) -> Vec<usize> {
    match size {
        Size::Least => vec![1],
        Size::Small => (0..1 + random.below(4)).map(|_| 1 + random.below(3) as usize).collect(),
        Size::Large => pick(random, &[vec![2; 16], vec![3, 3, 2], vec![1; 16], [vec![3; 10], vec![2]].concat()]),
    }
}

fn enlarge(random: &mut Random, string: &mut LoopDesign) {
    match random.below(3) {
        0 => string.ap_count = 66,
        1 => string.n_total = pick(random, &[100, 500, 1_999, 2_000]),
        _ => string.ap_count = random.below(67) as usize,
    }
}

/// Key numbers in no order, none twice; both ends of a byte are among them now and then.
fn key_numbers(random: &mut Random, count: usize) -> Vec<u8> {
    let mut numbers = Vec::new();
    while numbers.len() < count {
        let number = if chance(random, 6) { pick(random, &[0, 255]) } else { random.below(256) as u8 };
        if !numbers.contains(&number) {
            numbers.push(number);
        }
    }
    numbers
}

pub fn ordinary(random: &mut Random, size: Size) -> Instrument {
    let layout = layout(random, size);
    let numbers = key_numbers(random, layout.len());
    let common = ordinary_common(random);
    let mut keys = Vec::new();
    for (count, number) in layout.iter().zip(numbers) {
        let mut key = Key { key: number, ..ordinary_key(random) };
        for _ in 0..*count {
            let mut string = ordinary_string(random);
            match size {
                Size::Least => (string.n_total, string.ap_count) = (4, 0),
                Size::Small => (),
                Size::Large => enlarge(random, &mut string),
            }
            key.strings.push(string);
        }
        keys.push(key);
    }
    Instrument { common, keys }
}

/// One string that rings for ever, so that something sounds after a million samples.
pub fn lossless(random: &mut Random) -> Instrument {
    let mut instrument = ordinary(random, Size::Least);
    instrument.common.yz = 0.0;
    instrument.keys[0].has_damper = false;
    let string = &mut instrument.keys[0].strings[0];
    (string.loss_g, string.loss_c) = (1.0, 0.0);
    instrument
}

pub fn wild(random: &mut Random, size: Size) -> Instrument {
    let mut instrument = ordinary(random, size);
    to_the_ends(random, &mut instrument);
    if chance(random, 2) {
        to_blow_up(random, &mut instrument);
    }
    instrument
}

// ---- files to refuse

fn put_u32(bytes: &mut [u8], at: usize, n: u32) {
    bytes[at..at + 4].copy_from_slice(&n.to_le_bytes());
}

fn put_f64(bytes: &mut [u8], at: usize, x: f64) {
    bytes[at..at + 8].copy_from_slice(&x.to_le_bytes());
}

/// A number just outside a range, or no number at all.
fn outside(random: &mut Random, (least, most): (f64, f64)) -> f64 {
    pick(random, &[least.next_down(), most.next_up(), f64::NAN, -f64::NAN, f64::INFINITY, f64::NEG_INFINITY, 1e300])
}

fn spoil_common(random: &mut Random, common: &mut [u8]) {
    match random.below(10) as usize {
        9 => put_u32(common, 72, pick(random, &[0, 1, 11, 255, 256 + 3, 256 + 21, 512 + 5, u32::MAX])),
        i => put_f64(common, 8 * i, outside(random, COMMON_RANGES[i])),
    }
}

fn spoil_key(random: &mut Random, section: &mut [u8]) {
    let string = KEY + STRING * random.below(section[2] as u64) as usize;
    match random.below(13) as usize {
        0 => section[1] = pick(random, &[2, 3, 255]),
        1 => section[3] = pick(random, &[1, 255]),
        2 => section[string..string + 2].copy_from_slice(&pick(random, &[0u16, 3, 2_001, 65_535]).to_le_bytes()),
        3 => section[string + 2..string + 4].copy_from_slice(&pick(random, &[67u16, 65_535]).to_le_bytes()),
        i @ 4..=7 => put_f64(section, 4 + 8 * (i - 4), outside(random, KEY_RANGES[i - 4])),
        i => put_f64(section, string + 4 + 8 * (i - 8), outside(random, STRING_RANGES[i - 8])),
    }
}

/// A section other than the first, in a small file.
fn key_place(random: &mut Random, sections: &[Vec<u8>]) -> usize {
    1 + random.below(sections.len() as u64 - 1) as usize
}

fn spoil_table(random: &mut Random, file: &mut Vec<u8>) {
    let pairs = 2 * u32::from_le_bytes(file[..4].try_into().unwrap()) as u64;
    match random.below(4) {
        0 => {
            file.push(0);
        }
        1 => {
            file.pop();
        }
        _ => {
            let at = 4 + 4 * random.below(pairs) as usize;
            let old = u32::from_le_bytes(file[at..at + 4].try_into().unwrap());
            put_u32(file, at, pick(random, &[old + 1, old.wrapping_sub(1), 0xffff_fff0]));
        }
    }
}

/// A file with one thing wrong at least, which refusal `number` is for.
pub fn refused_file(random: &mut Random, number: u8) -> Vec<u8> {
    let mut instrument = ordinary(random, Size::Small);
    match number {
        5 => {
            let key = Key { strings: vec![ordinary_string(random); 3], ..ordinary_key(random) };
            instrument.keys = vec![key; 11];
        }
        6 => {
            let again = pick(random, &instrument.keys);
            instrument.keys.push(again);
        }
        _ => (),
    }
    let mut sections = instrument.sections();
    match number {
        3 => {
            let place = random.below(sections.len() as u64) as usize;
            let s = pick(random, &[0, 4, 255]);
            match random.below(4) {
                0 => sections[place].push(0),
                1 => {
                    sections[place].pop();
                }
                2 => sections[place].clear(),
                _ => {
                    let place = key_place(random, &sections);
                    sections[place][2] = s;
                }
            }
        }
        4 if chance(random, 2) => spoil_common(random, &mut sections[0]),
        4 => {
            let place = key_place(random, &sections);
            spoil_key(random, &mut sections[place]);
        }
        _ => (),
    }
    let mut file = chained(&sections);
    match number {
        1 => match random.below(3) {
            0 => file.truncate(random.below(4) as usize),
            1 => file.truncate(4 + 8 * sections.len() - 1),
            _ => put_u32(&mut file, 0, pick(random, &[0, 1, 18, u32::MAX])),
        },
        2 => spoil_table(random, &mut file),
        _ => (),
    }
    file
}
