//! Documents 01, "Power and root", and 02, W5: the power that takes the place of `powf`, with the processor's root.

pub trait PowerOfWord {
    /// The power that a felt's word names; the Rust's exponent, a float, carries the word.
    fn power_of_word(self, word: f64) -> f64;
}

impl PowerOfWord for f64 {
    #[inline(always)]
    fn power_of_word(self, word: f64) -> f64 {
        power(self, word as u32)
    }
}

/// Words from here on count quarters, those below it halves.
pub const QUARTERS: u32 = 256;

/// The words of instruments: halves from 2 to 10, quarters from 4 to 20.
pub fn felt_words() -> impl Iterator<Item = u32> {
    (2..=10).chain(quarter_words())
}

pub fn quarter_words() -> impl Iterator<Item = u32> {
    (4..=20).map(|quarters| QUARTERS + quarters)
}

pub fn is_in_quarters(word: u32) -> bool {
    word >= QUARTERS
}

/// The exponent that a word names, as `powf` takes it.
pub fn exponent_of(word: u32) -> f64 {
    if is_in_quarters(word) {
        (word - QUARTERS) as f64 / 4.0
    } else {
        word as f64 / 2.0
    }
}

/// NaN gives NaN; other x not above 0 give +0.
#[inline(always)]
pub fn power(x: f64, word: u32) -> f64 {
    if x > 0.0 {
        if is_in_quarters(word) {
            quarters(x, word - QUARTERS)
        } else {
            halves(x, word)
        }
    } else if x.is_nan() {
        f64::NAN
    } else {
        0.0
    }
}

/// For x above 0 the power of h half-steps is x for h = 2, x × root(x) for h = 3, and for h above 3 the power of
/// h − 2 half-steps, times x.
#[inline(always)]
fn halves(x: f64, h: u32) -> f64 {
    let odd = h % 2 == 1 && h > 2;
    let mut steps = if odd { 3 } else { 2 };
    let mut product = if odd { x * x.sqrt() } else { x };
    while steps < h {
        product *= x;
        steps += 2;
    }
    product
}

/// For x above 0 the power is x for e = 4, x × root(root(x)) for 5, x × root(x) for 6, (x × root(x)) × root(root(x)) for
/// 7, and above that the power of e − 4, times x.
#[inline(always)]
fn quarters(x: f64, e: u32) -> f64 {
    let mut steps = if e > 4 { 4 + e % 4 } else { 4 };
    let mut product = match steps {
        4 => x,
        5 => x * x.sqrt().sqrt(),
        6 => x * x.sqrt(),
        _ => (x * x.sqrt()) * x.sqrt().sqrt(),
    };
    while steps < e {
        product *= x;
        steps += 4;
    }
    product
}
