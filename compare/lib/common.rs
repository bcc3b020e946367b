//! What every comparison shares: numbers drawn from a fixed seed, edge values, equality of floats as the demands
//! have it, and the count of what was compared.

/// A generator by Vigna's splitmix64: the same numbers in every run.
pub struct Random(u64);

impl Random {
    pub fn new(seed: u64) -> Random {
        Random(seed)
    }

    pub fn bits(&mut self) -> u64 {
        self.0 = self.0.wrapping_add(0x9e37_79b9_7f4a_7c15);
        let mut z = self.0;
        z = (z ^ (z >> 30)).wrapping_mul(0xbf58_476d_1ce4_e5b9);
        z = (z ^ (z >> 27)).wrapping_mul(0x94d0_49bb_1331_11eb);
        z ^ (z >> 31)
    }

    /// A whole number from 0 to n − 1.
    pub fn below(&mut self, n: u64) -> u64 {
        self.bits() % n
    }

    /// A float from lo to hi.
    pub fn between(&mut self, lo: f64, hi: f64) -> f64 {
        lo + (hi - lo) * ((self.bits() >> 11) as f64 / (1u64 << 53) as f64)
    }

    /// A float of any order of magnitude from 10^lo to 10^hi.
    pub fn magnitude(&mut self, lo: f64, hi: f64) -> f64 {
        10f64.powf(self.between(lo, hi))
    }

    /// A float of any bit pattern.
    pub fn any(&mut self) -> f64 {
        f64::from_bits(self.bits())
    }

    pub fn edge(&mut self) -> f64 {
        let edges = edges();
        edges[self.below(edges.len() as u64) as usize]
    }

    /// Mostly from lo to hi, else an edge or any pattern.
    pub fn tame_or_wild(&mut self, lo: f64, hi: f64) -> f64 {
        match self.below(8) {
            0 => self.edge(),
            1 => self.any(),
            _ => self.between(lo, hi),
        }
    }
}

const ONE: u64 = 0x3ff0_0000_0000_0000;

/// Zeros, infinities, NaN, the ends of the normal and subnormal numbers, halves and whole numbers, and the
/// neighbours of each, of both signs.
pub fn edges() -> &'static [f64] {
    static EDGES: std::sync::OnceLock<Vec<f64>> = std::sync::OnceLock::new();
    EDGES.get_or_init(|| {
        let middles = [
            0x0000_0000_0000_0002, // subnormal
            0x0008_0000_0000_0000,
            0x0010_0000_0000_0000, // the smallest normal number
            0x2000_0000_0000_0000,
            ONE - (1 << 53), // 0.25
            ONE - (1 << 52),
            ONE,
            ONE + (1 << 51), // 1.5
            ONE + (1 << 52),
            4f64.to_bits(),
            2.5f64.to_bits(),
            10f64.to_bits(),
            2f64.powi(52).to_bits(),
            2f64.powi(53).to_bits(),
            2f64.powi(62).to_bits(),
            2f64.powi(63).to_bits(),
            2f64.powi(64).to_bits(),
            0x5fe0_0000_0000_0000,
            0x7fe0_0000_0000_0000,
            f64::MAX.to_bits() - 1,
        ];
        let mut all = vec![f64::INFINITY, f64::NAN, 0.0, f64::from_bits(1)];
        for middle in middles {
            all.extend([middle - 1, middle, middle + 1].map(f64::from_bits));
        }
        let below: Vec<f64> = all.iter().map(|x| -x).collect();
        all.extend(below);
        all
    })
}

/// Demand 2: both zeros and all NaNs count alike.
pub fn alike(a: f64, b: f64) -> bool {
    a == b || (a.is_nan() && b.is_nan())
}

pub fn all_alike(a: &[f64], b: &[f64]) -> bool {
    a.len() == b.len() && a.iter().zip(b).all(|(x, y)| alike(*x, *y))
}

/// A word of the stored sample: every NaN is written as one pattern.
pub fn word(x: f64) -> u64 {
    if x.is_nan() {
        f64::NAN.to_bits() & !(1 << 63)
    } else {
        x.to_bits()
    }
}

/// How many answers of one kind were compared, how many differ, and a sample of them.
pub struct Tally {
    kind: &'static str,
    compared: u64,
    differ: u64,
    /// One answer in `stride` is kept, and every edge; 0 keeps none.
    stride: u64,
    pub kept: Vec<String>,
}

impl Tally {
    pub fn new(kind: &'static str, stride: u64) -> Tally {
        Tally { kind, compared: 0, differ: 0, stride, kept: Vec::new() }
    }

    /// One answer: whether the two sides agree, what both were given, and what each gave. The sample stores what
    /// the Rust gave.
    pub fn answer(&mut self, agree: bool, given: &[u64], rust: &[u64], rattle: &[u64]) {
        self.compared += 1;
        if !agree {
            self.differ += 1;
            if self.differ <= 10 {
                println!("{} differs: given{}, Rust{}, Rattle{}", self.kind, words(given), words(rust), words(rattle));
            }
        }
        if self.stride > 0 && self.compared % self.stride == 0 {
            self.keep(given, rust);
        }
    }

    /// Puts an answer into the sample.
    pub fn keep(&mut self, given: &[u64], rust: &[u64]) {
        if self.stride > 0 {
            self.kept.push(format!("{}{}{}", self.kind, words(given), words(rust)));
        }
    }

    /// One float for some floats.
    pub fn float(&mut self, given: &[f64], rust: f64, rattle: f64) {
        let given: Vec<u64> = given.iter().map(|x| word(*x)).collect();
        self.answer(alike(rust, rattle), &given, &[word(rust)], &[word(rattle)]);
    }

    /// Prints the count; true where nothing differs.
    pub fn report(&self) -> bool {
        println!("{:<16} {:>9} compared, {} differ", self.kind, self.compared, self.differ);
        self.differ == 0
    }
}

fn words(words: &[u64]) -> String {
    words.iter().map(|w| format!(" {w:016x}")).collect()
}
