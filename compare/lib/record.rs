//! The instrument's record as it crosses, and the same laid flat, as the comparisons set and compare it.

// ---- the proved structs: the fields of the crates hammer, instrument_fields and instrument, in their order

#[repr(C)]
#[derive(Clone, Copy)]
struct Hammer {
    stiffness: f64,
    exponent: u32,
    eps: f64,
    mass: f64,
    tau: f64,
}

#[repr(C)]
#[derive(Clone, Copy)]
struct Damper {
    rho: f64,
    ramp_s: f64,
}

#[repr(C)]
#[derive(Clone, Copy)]
struct Common {
    fs: f64,
    z: f64,
    hammer: Hammer,
    yz: f64,
    damper: Damper,
}

#[repr(C)]
#[derive(Clone, Copy)]
struct KeyDesign {
    key: u8,
    has_damper: bool,
    strings: usize,
    weight: f64,
    damper_scale: f64,
    strike_ratio: f64,
    damper_ratio: f64,
}

#[repr(C)]
#[derive(Clone, Copy)]
struct LoopDesign {
    n: usize,
    ap_count: usize,
    phi: f64,
    thiran_a: f64,
    ap_a: f64,
    loss_g: f64,
    loss_c: f64,
}

/// The proved `Instrument`.
#[repr(C)]
#[derive(Clone, Copy)]
pub struct Crossing {
    common: Common,
    key_count: usize,
    string_count: usize,
    keys: [KeyDesign; 16],
    strings: [LoopDesign; 32],
}

/// What the proved reader gives: the refusal's number, 0 for none; the record; W and 5W.
#[repr(C)]
pub struct Reading {
    pub refusal: u32,
    instrument: Crossing,
    part_cells: usize,
    work_cells: usize,
}

// ---- laid flat

/// Whole numbers (how many keys and strings, the exponent, three a key, two a string, W, 5W) and floats (nine common ones,
/// four a key, five a string, in the file's order), unused places too.
#[derive(Clone)]
pub struct Record {
    pub numbers: [u64; 117],
    pub floats: [f64; 233],
}

impl Record {
    pub const ZEROS: Record = Record { numbers: [0; 117], floats: [0.0; 233] };

    fn sizes<const N: usize>(&self, at: usize) -> [usize; N] {
        std::array::from_fn(|i| self.numbers[at + i] as usize)
    }

    fn floats<const N: usize>(&self, at: usize) -> [f64; N] {
        std::array::from_fn(|i| self.floats[at + i])
    }

    fn common(&self) -> Common {
        let [fs, z, mass, stiffness, eps, tau, yz, rho, ramp_s] = self.floats(0);
        let hammer = Hammer { stiffness, exponent: self.numbers[2] as u32, eps, mass, tau };
        Common { fs, z, hammer, yz, damper: Damper { rho, ramp_s } }
    }

    fn key(&self, i: usize) -> KeyDesign {
        let [key, has_damper, strings] = self.sizes(3 + 3 * i);
        let [weight, damper_scale, strike_ratio, damper_ratio] = self.floats(9 + 4 * i);
        let (key, has_damper) = (key as u8, has_damper == 1);
        KeyDesign { key, has_damper, strings, weight, damper_scale, strike_ratio, damper_ratio }
    }

    fn string(&self, j: usize) -> LoopDesign {
        let [n, ap_count] = self.sizes(51 + 2 * j);
        let [phi, thiran_a, ap_a, loss_g, loss_c] = self.floats(73 + 5 * j);
        LoopDesign { n, ap_count, phi, thiran_a, ap_a, loss_g, loss_c }
    }

    pub fn crossing(&self) -> Crossing {
        let [key_count, string_count] = self.sizes(0);
        let (keys, strings) = (std::array::from_fn(|i| self.key(i)), std::array::from_fn(|j| self.string(j)));
        Crossing { common: self.common(), key_count, string_count, keys, strings }
    }
}

impl Common {
    fn floats(&self) -> [f64; 9] {
        let Common { fs, z, hammer, yz, damper } = *self;
        let Hammer { stiffness, exponent: _, eps, mass, tau } = hammer;
        [fs, z, mass, stiffness, eps, tau, yz, damper.rho, damper.ramp_s]
    }
}

impl Reading {
    pub fn record(&self) -> Record {
        let Crossing { common, key_count, string_count, keys, strings } = &self.instrument;
        let mut numbers = vec![*key_count as u64, *string_count as u64, common.hammer.exponent as u64];
        let mut floats = common.floats().to_vec();
        for k in keys {
            numbers.extend([k.key as u64, k.has_damper as u64, k.strings as u64]);
            floats.extend([k.weight, k.damper_scale, k.strike_ratio, k.damper_ratio]);
        }
        for s in strings {
            numbers.extend([s.n as u64, s.ap_count as u64]);
            floats.extend([s.phi, s.thiran_a, s.ap_a, s.loss_g, s.loss_c]);
        }
        numbers.extend([self.part_cells as u64, self.work_cells as u64]);
        Record { numbers: numbers.try_into().unwrap(), floats: floats.try_into().unwrap() }
    }
}
