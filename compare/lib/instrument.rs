//! Document 01, "Instrument file", in ordinary Rust: a reader with refusals 1 to 6, a writer, and the Rust's pianos made
//! of what was read. It is written from the document and shares nothing with the proved reader.

use crate::design::LoopDesign;
use crate::power::exponent_of;
use crate::{logged, model, published, timed};

#[derive(Clone, Default)]
pub struct Common {
    pub fs: f64,
    pub z: f64,
    pub mass: f64,
    pub stiffness: f64,
    pub eps: f64,
    pub tau: f64,
    pub yz: f64,
    pub rho: f64,
    pub ramp_s: f64,
    /// The felt's exponent, as a word: halves, or 256 and quarters.
    pub h: u32,
}

#[derive(Clone, Default)]
pub struct Key {
    pub key: u8,
    pub has_damper: bool,
    pub weight: f64,
    pub damper_scale: f64,
    pub strike_ratio: f64,
    pub damper_ratio: f64,
    pub strings: Vec<LoopDesign>,
}

#[derive(Clone, Default)]
pub struct Instrument {
    pub common: Common,
    pub keys: Vec<Key>,
}

const COMMON: usize = 76;
/// The bytes of a key before its strings, and of a string.
pub const KEY: usize = 36;
pub const STRING: usize = 44;

const LEAST: f64 = 1.0 / 1_048_576.0;
/// The greatest number below 1.
const BELOW_ONE: f64 = 1.0 - f64::EPSILON / 2.0;

/// The ranges of the floats of a section, in the file's order. Both ends count.
pub const COMMON_RANGES: [(f64, f64); 9] = [
    (1_000.0, 400_000.0),
    (LEAST, 1_000.0),
    (LEAST, 1_000.0),
    (0.0, 1e15),
    (0.0, 1.0),
    (0.0, 1.0),
    (0.0, 1.0),
    (0.0, 1_000.0),
    (0.0, 100.0),
];
pub const KEY_RANGES: [(f64, f64); 4] = [(0.0, 100.0), (0.0, 1_000.0), (0.0, 1.0), (0.0, 1.0)];
pub const STRING_RANGES: [(f64, f64); 5] =
    [(0.0, 4_096.0), (-BELOW_ONE, BELOW_ONE), (-BELOW_ONE, BELOW_ONE), (0.0, 2.0), (0.0, BELOW_ONE)];

fn u16_at(bytes: &[u8], at: usize) -> u16 {
    u16::from_le_bytes(bytes[at..at + 2].try_into().unwrap())
}

fn u32_at(bytes: &[u8], at: usize) -> u32 {
    u32::from_le_bytes(bytes[at..at + 4].try_into().unwrap())
}

fn f64_at(bytes: &[u8], at: usize) -> f64 {
    f64::from_le_bytes(bytes[at..at + 8].try_into().unwrap())
}

/// Refusals 1 and 2: the table, and how its pairs chain.
fn sections(file: &[u8]) -> Result<Vec<&[u8]>, u8> {
    if file.len() < 4 {
        return Err(1);
    }
    let count = u32_at(file, 0) as usize;
    if !(2..=17).contains(&count) || file.len() < 4 + 8 * count {
        return Err(1);
    }
    let mut end = 4 + 8 * count as u64;
    let mut sections = Vec::new();
    for i in 0..count {
        let [offset, length] = [4, 8].map(|field| u32_at(file, 8 * i + field) as u64);
        if offset != end || offset + length > file.len() as u64 {
            return Err(2);
        }
        end = offset + length;
        sections.push(&file[offset as usize..end as usize]);
    }
    if end != file.len() as u64 {
        return Err(2);
    }
    Ok(sections)
}

/// Refusal 3 of a key's section: where it is too short to hold s, its length is no 36 + 44s.
fn has_key_length(section: &[u8]) -> bool {
    section.len() > 2 && (1..=3).contains(&section[2]) && section.len() == KEY + STRING * section[2] as usize
}

/// The floats that stand from a byte on, where all are in their ranges: refusal 4. NaN is in none.
fn floats_in<const N: usize>(bytes: &[u8], at: usize, ranges: &[(f64, f64); N]) -> Result<[f64; N], u8> {
    let floats: [f64; N] = std::array::from_fn(|i| f64_at(bytes, at + 8 * i));
    let good = floats.iter().zip(ranges).all(|(x, (least, most))| least <= x && x <= most);
    good.then_some(floats).ok_or(4)
}

fn read_common(section: &[u8]) -> Result<Common, u8> {
    let [fs, z, mass, stiffness, eps, tau, yz, rho, ramp_s] = floats_in(section, 0, &COMMON_RANGES)?;
    let h = u32_at(section, 72);
    let good = (2..=10).contains(&h) || (256 + 4..=256 + 20).contains(&h);
    good.then_some(Common { fs, z, mass, stiffness, eps, tau, yz, rho, ramp_s, h }).ok_or(4)
}

fn read_string(bytes: &[u8]) -> Result<LoopDesign, u8> {
    let [phi, thiran_a, ap_a, loss_g, loss_c] = floats_in(bytes, 4, &STRING_RANGES)?;
    let [n_total, ap_count] = [0, 2].map(|at| u16_at(bytes, at) as usize);
    let good = (4..=2_000).contains(&n_total) && ap_count <= 66;
    good.then_some(LoopDesign { n_total, ap_count, phi, thiran_a, ap_a, loss_g, loss_c }).ok_or(4)
}

fn read_key(section: &[u8]) -> Result<Key, u8> {
    let [weight, damper_scale, strike_ratio, damper_ratio] = floats_in(section, 4, &KEY_RANGES)?;
    let strings: Result<Vec<LoopDesign>, u8> = section[KEY..].chunks_exact(STRING).map(read_string).collect();
    let (key, has_damper, strings) = (section[0], section[1] == 1, strings?);
    let good = section[1] <= 1 && section[3] == 0;
    good.then_some(Key { key, has_damper, weight, damper_scale, strike_ratio, damper_ratio, strings }).ok_or(4)
}

/// The instrument, or the refusal's number. Each refusal is tested over the whole file ahead of the next.
pub fn read(file: &[u8]) -> Result<Instrument, u8> {
    let sections = sections(file)?;
    let (common, keys) = sections.split_first().unwrap();
    if common.len() != COMMON || !keys.iter().all(|section| has_key_length(section)) {
        return Err(3);
    }
    let common = read_common(common)?;
    let keys: Result<Vec<Key>, u8> = keys.iter().map(|section| read_key(section)).collect();
    let instrument = Instrument { common, keys: keys? };
    if instrument.string_count() > 32 {
        return Err(5);
    }
    let twice = |i: usize| instrument.keys[..i].iter().any(|k| k.key == instrument.keys[i].key);
    if (0..instrument.keys.len()).any(twice) {
        return Err(6);
    }
    Ok(instrument)
}

fn put(bytes: &mut Vec<u8>, floats: &[f64]) {
    bytes.extend(floats.iter().flat_map(|x| x.to_le_bytes()));
}

fn key_section(key: &Key) -> Vec<u8> {
    let mut bytes = vec![key.key, key.has_damper as u8, key.strings.len() as u8, 0];
    put(&mut bytes, &[key.weight, key.damper_scale, key.strike_ratio, key.damper_ratio]);
    for s in &key.strings {
        bytes.extend((s.n_total as u16).to_le_bytes());
        bytes.extend((s.ap_count as u16).to_le_bytes());
        put(&mut bytes, &[s.phi, s.thiran_a, s.ap_a, s.loss_g, s.loss_c]);
    }
    bytes
}

/// A file of these sections, its table chained as it should be.
pub fn chained(sections: &[Vec<u8>]) -> Vec<u8> {
    let mut file = (sections.len() as u32).to_le_bytes().to_vec();
    let mut offset = 4 + 8 * sections.len();
    for section in sections {
        file.extend((offset as u32).to_le_bytes());
        file.extend((section.len() as u32).to_le_bytes());
        offset += section.len();
    }
    file.extend(sections.concat());
    file
}

/// An instrument as one of the Rust's models takes it: each model has types of its own. Its exponent is made of the word:
/// the word itself, or for `powf` the number that it names.
macro_rules! piano_of {
    ($model:ident, $instrument:expr, $exponent:expr) => {{
        let c = &$instrument.common;
        let exponent = $exponent(c.h);
        let hammer = $model::Hammer { mass: c.mass, stiffness: c.stiffness, exponent, eps: c.eps, tau: c.tau };
        let strings = |k: &Key| {
            let Key { key, has_damper, weight, damper_scale, strike_ratio, damper_ratio, strings } = k;
            $model::KeyStrings::new(*key, *weight, *has_damper, *damper_scale, strings, *strike_ratio, *damper_ratio)
        };
        let damper = $model::Damper { rho: c.rho, ramp_s: c.ramp_s };
        $model::Piano::new(c.fs, c.z, c.yz, hammer, damper, $instrument.keys.iter().map(strings).collect())
    }};
}

impl Instrument {
    /// S.
    pub fn string_count(&self) -> usize {
        self.keys.iter().map(|key| key.strings.len()).sum()
    }

    /// W: the cells of one part of work memory.
    pub fn cells(&self) -> usize {
        let strings = self.keys.iter().flat_map(|key| &key.strings);
        strings.map(|s| 2 * s.n_total + 2 * s.ap_count + 5).sum()
    }

    pub fn sections(&self) -> Vec<Vec<u8>> {
        let c = &self.common;
        let mut common = Vec::new();
        put(&mut common, &[c.fs, c.z, c.mass, c.stiffness, c.eps, c.tau, c.yz, c.rho, c.ramp_s]);
        common.extend(c.h.to_le_bytes());
        std::iter::once(common).chain(self.keys.iter().map(key_section)).collect()
    }

    pub fn bytes(&self) -> Vec<u8> {
        chained(&self.sections())
    }

    /// The Rust's piano, in silence.
    pub fn piano(&self) -> model::Piano {
        piano_of!(model, self, f64::from)
    }

    /// The same without a count for each key.
    pub fn timed_piano(&self) -> timed::Piano {
        piano_of!(timed, self, f64::from)
    }

    /// The same with its own powf.
    pub fn published_piano(&self) -> published::Piano {
        piano_of!(published, self, exponent_of)
    }

    /// The same that logs its contacts.
    pub fn logged_piano(&self) -> logged::Piano {
        piano_of!(logged, self, f64::from)
    }
}
