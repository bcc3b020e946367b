//! Compares the proved reader of instrument files, refusal 7's test of a record and the writer with ordinary Rust, on
//! generated files and records, bit for bit, unused places too; every accepted file is written back. `instrument data FOLDER`
//! writes the files that the program test_instrument reads, and beside FOLDER what it must say of them.

mod writer;

use comparison::design::LoopDesign;
use comparison::instrument::{chained, read, Common, Instrument, Key, COMMON_RANGES, KEY_RANGES, STRING_RANGES};
use comparison::power::felt_words;
use comparison::record::Record;
use std::collections::BTreeMap;
use std::process::exit;
use writer::{answer, file_of, Writings};

/// The files that the program test_instrument reads, by their folder.
const STORED: &str = "crates/test_instrument/data";

/// A generator by Vigna's xorshift64*, by which the stored files were drawn.
struct Rng(u64);
impl Rng {
    fn next(&mut self) -> u64 {
        self.0 ^= self.0 >> 12;
        self.0 ^= self.0 << 25;
        self.0 ^= self.0 >> 27;
        self.0.wrapping_mul(0x2545F4914F6CDD1D)
    }
    fn below(&mut self, n: usize) -> usize {
        (self.next() % n as u64) as usize
    }
    fn unit(&mut self) -> f64 {
        (self.next() >> 11) as f64 / (1u64 << 53) as f64
    }
    /// In the range, often at an end or next to it.
    fn within(&mut self, (low, high): (f64, f64)) -> f64 {
        match self.below(8) {
            0 => low,
            1 => high,
            2 => low.next_up(),
            3 => high.next_down(),
            4 if low == 0.0 => -0.0,
            _ => low + (high - low) * self.unit(),
        }
    }
}

// ---- a record and the instrument that it is of

fn record_of(instrument: &Instrument) -> Record {
    let mut r = Record::ZEROS;
    let c = &instrument.common;
    let cells = instrument.cells() as u64;
    r.numbers[..3].copy_from_slice(&[instrument.keys.len() as u64, instrument.string_count() as u64, c.h as u64]);
    r.numbers[115..].copy_from_slice(&[cells, 5 * cells]);
    r.floats[..9].copy_from_slice(&[c.fs, c.z, c.mass, c.stiffness, c.eps, c.tau, c.yz, c.rho, c.ramp_s]);
    for (i, k) in instrument.keys.iter().enumerate() {
        let numbers = [k.key as u64, k.has_damper as u64, k.strings.len() as u64];
        r.numbers[3 + 3 * i..][..3].copy_from_slice(&numbers);
        r.floats[9 + 4 * i..][..4].copy_from_slice(&[k.weight, k.damper_scale, k.strike_ratio, k.damper_ratio]);
    }
    for (j, s) in instrument.keys.iter().flat_map(|k| &k.strings).enumerate() {
        r.numbers[51 + 2 * j..][..2].copy_from_slice(&[s.n_total as u64, s.ap_count as u64]);
        r.floats[73 + 5 * j..][..5].copy_from_slice(&[s.phi, s.thiran_a, s.ap_a, s.loss_g, s.loss_c]);
    }
    r
}

fn string_at(r: &Record, j: usize) -> LoopDesign {
    let [n_total, ap_count] = [r.numbers[51 + 2 * j], r.numbers[52 + 2 * j]].map(|n| n as usize);
    let [phi, thiran_a, ap_a, loss_g, loss_c] = std::array::from_fn(|k| r.floats[73 + 5 * j + k]);
    LoopDesign { n_total, ap_count, phi, thiran_a, ap_a, loss_g, loss_c }
}

/// The instrument in a record's used places; none where it has more keys than places.
fn instrument_of(r: &Record) -> Option<Instrument> {
    let [fs, z, mass, stiffness, eps, tau, yz, rho, ramp_s] = std::array::from_fn(|k| r.floats[k]);
    let common = Common { fs, z, mass, stiffness, eps, tau, yz, rho, ramp_s, h: r.numbers[2] as u32 };
    let mut strings = (0..32).map(|j| string_at(r, j));
    let mut key = |i: usize| {
        let [weight, damper_scale, strike_ratio, damper_ratio] = std::array::from_fn(|k| r.floats[9 + 4 * i + k]);
        let (key, has_damper) = (r.numbers[3 + 3 * i] as u8, r.numbers[4 + 3 * i] == 1);
        let strings = strings.by_ref().take(r.numbers[5 + 3 * i] as usize).collect();
        Key { key, has_damper, weight, damper_scale, strike_ratio, damper_ratio, strings }
    };
    let count = r.numbers[0] as usize;
    (count <= 16).then(|| Instrument { common, keys: (0..count).map(&mut key).collect() })
}

fn same(a: &Record, b: &Record) -> bool {
    let bits = |r: &Record| r.floats.map(f64::to_bits);
    a.numbers[..115] == b.numbers[..115] && bits(a) == bits(b)
}

/// Refusal 7's test: whether some accepted file gives the record. The file of its used places would have to.
fn is_given(r: &Record) -> bool {
    let given = instrument_of(r).and_then(|instrument| read(&instrument.bytes()).ok());
    given.is_some_and(|instrument| same(&record_of(&instrument), r))
}

/// The sections of the file of a record that passes.
fn sections(r: &Record) -> Vec<Vec<u8>> {
    instrument_of(r).unwrap().sections()
}

// ---- generated files and records

/// A random record that passes, with the string counts given.
fn record(rng: &mut Rng, counts: &[u64]) -> Record {
    let mut r = Record::ZEROS;
    r.numbers[0] = counts.len() as u64;
    r.numbers[1] = counts.iter().sum();
    // two words in three are of quarters
    let words: Vec<u32> = felt_words().collect();
    r.numbers[2] = words[rng.below(words.len())] as u64;
    for k in 0..9 {
        r.floats[k] = rng.within(COMMON_RANGES[k]);
    }
    let first = rng.below(256);
    let step = 1 + 2 * rng.below(64);
    for (i, &s) in counts.iter().enumerate() {
        r.numbers[3 + 3 * i] = ((first + step * i) % 256) as u64;
        r.numbers[4 + 3 * i] = rng.below(2) as u64;
        r.numbers[5 + 3 * i] = s;
        for k in 0..4 {
            r.floats[9 + 4 * i + k] = rng.within(KEY_RANGES[k]);
        }
    }
    for j in 0..(r.numbers[1] as usize).min(32) {
        r.numbers[51 + 2 * j] = [4, 2000, 4 + rng.below(1997) as u64][rng.below(3)];
        r.numbers[52 + 2 * j] = [0, 66, rng.below(67) as u64][rng.below(3)];
        for k in 0..5 {
            r.floats[73 + 5 * j + k] = rng.within(STRING_RANGES[k]);
        }
    }
    r
}

/// Random string counts of `keys` keys, at most `most` strings in all.
fn counts(rng: &mut Rng, keys: usize, most: u64) -> Vec<u64> {
    let mut left = most - keys as u64;
    (0..keys)
        .map(|_| {
            let more = (rng.below(3) as u64).min(left);
            left -= more;
            1 + more
        })
        .collect()
}

fn any_record(rng: &mut Rng) -> Record {
    let keys = 1 + rng.below(16);
    let c = counts(rng, keys, 32);
    record(rng, &c)
}

/// The sections of a file of more strings than 32.
fn crowded(rng: &mut Rng, total: u64) -> Vec<Vec<u8>> {
    let c: Vec<u64> = (0..16).map(|i| 1 + (total - 16) / 16 + if i < (total - 16) % 16 { 1 } else { 0 }).collect();
    let few: Vec<u64> = c.iter().map(|_| 1).collect();
    let mut out = sections(&record(rng, &few));
    for (i, &s) in c.iter().enumerate() {
        let one = out[i + 1][36..80].to_vec();
        out[i + 1][2] = s as u8;
        for _ in 1..s {
            out[i + 1].extend(&one);
        }
    }
    out
}

/// At, beside and beyond the ends of the halves and of the quarters; the last but one are right in their low bits alone.
const EXPONENTS: [u32; 22] =
    [0, 1, 2, 3, 9, 10, 11, 255, 256, 258, 259, 260, 261, 262, 275, 276, 277, 512, 517, 65_538, 65_796, u32::MAX];

const SPECIAL: [f64; 8] = [f64::NAN, -f64::NAN, f64::INFINITY, f64::NEG_INFINITY, 0.0, -0.0, 5e-324, -5e-324];

/// Values at and beyond each end of a range.
fn edges((low, high): (f64, f64)) -> Vec<f64> {
    let mut v = vec![
        low,
        low.next_up(),
        low.next_down(),
        high,
        high.next_up(),
        high.next_down(),
        low - 1.0,
        high + 1.0,
        high * 2.0,
    ];
    v.extend(SPECIAL);
    v
}

/// Where float k of the file's field lists stands: (section, byte, edges). Nine common ones, four of a key, five of a string.
fn float_places(rng: &mut Rng, s: &[Vec<u8>]) -> Vec<(usize, usize, Vec<f64>)> {
    let mut v = Vec::new();
    for k in 0..9 {
        v.push((0, 8 * k, edges(COMMON_RANGES[k])));
    }
    let key = 1 + rng.below(s.len() - 1);
    for k in 0..4 {
        v.push((key, 4 + 8 * k, edges(KEY_RANGES[k])));
    }
    let at = 36 + 44 * rng.below(s[key][2] as usize);
    let ends = [(0.0, 4096.0), (-1.0, 1.0), (-1.0, 1.0), (0.0, 2.0), (0.0, 1.0)];
    for k in 0..5 {
        v.push((key, at + 4 + 8 * k, edges(ends[k])));
    }
    v
}

fn put(b: &mut [u8], at: usize, bytes: &[u8]) {
    b[at..at + bytes.len()].copy_from_slice(bytes);
}

/// One random fault in the sections or, after packing, in the table.
fn spoil(rng: &mut Rng, s: &mut Vec<Vec<u8>>, table: &mut Vec<(usize, u32)>) {
    let key = 1 + rng.below(s.len() - 1);
    match rng.below(9) {
        0 => table.push((4 * rng.below(1 + 2 * s.len()), rng.next() as u32)),
        1 => table.push((0, [0, 1, 18, 255, u32::MAX][rng.below(5)])),
        2 => {
            let n = rng.below(s[key].len() + 1);
            s[key].truncate(n);
        }
        3 if s[key].len() > 2 => s[key][2] = [0, 4, 255, 2][rng.below(4)],
        4 if s[key].len() > 3 => s[key][[1, 3][rng.below(2)]] = [1, 2, 255][rng.below(3)],
        5 => {
            let low = [0.0, 0.0, -1.0, 1000.0][rng.below(4)];
            let values = edges((low, [1.0, 2.0, 100.0, 1000.0, 4096.0, 400000.0][rng.below(6)]));
            let x = values[rng.below(values.len())];
            let (section, at) = match rng.below(3) {
                0 => (0, 8 * rng.below(9)),
                1 => (key, 4 + 8 * rng.below(4)),
                _ => (key, 40 + 8 * rng.below(5)),
            };
            if at + 8 <= s[section].len() {
                put(&mut s[section], at, &x.to_le_bytes());
            }
        }
        6 if s.len() > 2 && s[1].len() > 0 && s[key].len() > 0 => s[key][0] = s[1][0],
        7 => {
            let b = s[key].clone();
            if s.len() < 17 {
                s.push(b);
            }
        }
        _ => {
            let n = s[0].len();
            s[0].resize([0, 75, 77, 76, n][rng.below(5)], 0);
        }
    }
}

fn spoiled(rng: &mut Rng, faults: usize, base: Vec<Vec<u8>>) -> Vec<u8> {
    let mut s = base;
    let mut table = Vec::new();
    for _ in 0..faults {
        spoil(rng, &mut s, &mut table);
    }
    let mut f = chained(&s);
    for (at, word) in table {
        if at + 4 <= f.len() {
            put(&mut f, at, &word.to_le_bytes());
        }
    }
    f
}

struct Run {
    files: usize,
    kinds: BTreeMap<&'static str, usize>,
    answers: [usize; 7],
    writings: Writings,
}

impl Run {
    fn file(&mut self, kind: &'static str, f: &[u8]) -> u32 {
        let given = read(f);
        let (want, r) = match &given {
            Ok(instrument) => (0, record_of(instrument)),
            Err(number) => (*number as u32, Record::ZEROS),
        };
        let (got, found) = Record::read(f);
        if got != want || !same(&found, &r) || found.numbers[115..] != r.numbers[115..] {
            println!("DIFFERENT on a file of kind '{kind}': {got} for {want}, {} bytes: {:02x?}", f.len(), f);
            exit(1);
        }
        if given.is_ok_and(|instrument| !is_given(&r) || instrument.bytes() != f) {
            println!("the Rust side disagrees with itself on kind '{kind}'");
            exit(1);
        }
        if want == 0 {
            self.writings.back(&found, f);
        }
        self.files += 1;
        *self.kinds.entry(kind).or_insert(0) += 1;
        self.answers[want as usize] += 1;
        want
    }
}

fn files(rng: &mut Rng) -> Run {
    let mut run =
        Run { files: 0, kinds: BTreeMap::new(), answers: [0; 7], writings: Writings::new(0x5851F42D4C957F2D) };
    for _ in 0..3000 {
        let r = any_record(rng);
        run.file("random instrument", &chained(&sections(&r)));
    }
    for _ in 0..12 {
        let base = sections(&any_record(rng));
        for (section, at, values) in float_places(rng, &base) {
            for x in values {
                let mut s = base.clone();
                put(&mut s[section], at, &x.to_le_bytes());
                run.file("float at an end, beyond it or special", &chained(&s));
            }
        }
    }
    for _ in 0..40 {
        let base = sections(&any_record(rng));
        let key = 1 + rng.below(base.len() - 1);
        let at = 36 + 44 * rng.below(base[key][2] as usize);
        let words: [(usize, &[u64]); 2] = [(at, &[0, 3, 4, 2000, 2001, 65535]), (at + 2, &[0, 66, 67, 65535])];
        for (p, values) in words {
            for &x in values {
                let mut s = base.clone();
                put(&mut s[key], p, &(x as u16).to_le_bytes());
                run.file("n or ap_count at an end or beyond it", &chained(&s));
            }
        }
        for h in EXPONENTS {
            let mut s = base.clone();
            put(&mut s[0], 72, &h.to_le_bytes());
            run.file("exponent at an end or beyond it", &chained(&s));
        }
        for p in 0..4 {
            for x in [0u8, 1, 2, 3, 4, 127, 255] {
                let mut s = base.clone();
                s[key][p] = x;
                run.file("a key's first four bytes", &chained(&s));
            }
        }
    }
    for c in [vec![1u64], vec![2, 1, 3], vec![2; 16]] {
        let f = chained(&sections(&record(rng, &c)));
        for n in 0..f.len() {
            run.file("truncated", &f[..n]);
        }
        let mut g = f.clone();
        g.push(0);
        run.file("one byte too long", &g);
        let times = if f.len() < 1000 { 4 } else { 1 };
        for p in 0..f.len() {
            for _ in 0..times {
                let mut g = f.clone();
                g[p] ^= 1 + rng.below(255) as u8;
                run.file("one byte damaged", &g);
            }
        }
    }
    for k in 0..300 {
        let c = vec![2u64; 16];
        run.file("32 strings", &chained(&sections(&record(rng, &c))));
        let total = if k % 3 == 0 { 33 } else { 33 + rng.below(16) as u64 };
        let mut s = crowded(rng, total);
        run.file("33 strings and more", &chained(&s));
        if rng.below(2) == 0 {
            put(&mut s[16], 36 + 4, &5000.0f64.to_le_bytes());
            run.file("33 strings and a bad field in the last key", &chained(&s));
        } else {
            s[16][0] = s[1][0];
            run.file("33 strings and two equal keys", &chained(&s));
        }
    }
    for _ in 0..400 {
        let keys = 2 + rng.below(15);
        let c = counts(rng, keys, 32);
        let mut s = sections(&record(rng, &c));
        let (a, b) = (1 + rng.below(keys), 1 + rng.below(keys));
        s[a][0] = s[b][0];
        run.file("a key number set to another's", &chained(&s));
    }
    for _ in 0..400 {
        // a chain that is right modulo 2^32 only: an offset moved, and the lengths beside it made to match by wrapping
        let mut f = chained(&sections(&any_record(rng)));
        let d = f[0] as usize;
        let i = rng.below(d);
        let old = u32::from_le_bytes(f[4 + 8 * i..8 + 8 * i].try_into().unwrap());
        let new = rng.next() as u32;
        let len = u32::from_le_bytes(f[8 + 8 * i..12 + 8 * i].try_into().unwrap());
        if i > 0 && rng.below(4) > 0 {
            put(&mut f, 4 + 8 * i, &new.to_le_bytes());
            put(&mut f, 8 + 8 * i, &len.wrapping_add(old).wrapping_sub(new).to_le_bytes());
            let before = u32::from_le_bytes(f[8 * i..4 + 8 * i].try_into().unwrap());
            put(&mut f, 8 * i, &before.wrapping_add(new).wrapping_sub(old).to_le_bytes());
        } else {
            put(&mut f, 8 + 8 * i, &len.wrapping_sub(old.wrapping_add(len)).to_le_bytes());
        }
        run.file("a chain that wraps", &f);
    }
    for _ in 0..600 {
        // sections cut to a few bytes, in the middle or at the end of the file
        let keys = 1 + rng.below(5);
        let c = counts(rng, keys, 32.min(3 * keys as u64));
        let mut s = sections(&record(rng, &c));
        let key = 1 + rng.below(s.len() - 1);
        let n = [0, 1, 2, 3, 4, 35, 36, 79][rng.below(8)];
        s[key].truncate(n);
        if rng.below(2) == 0 && key + 1 < s.len() && s[key + 1].len() > 2 {
            s[key + 1][rng.below(3)] = 1 + rng.below(3) as u8;
        }
        run.file("a section cut short", &chained(&s));
    }
    for _ in 0..6000 {
        let base = if rng.below(4) == 0 { crowded(rng, 33) } else { sections(&any_record(rng)) };
        let faults = 1 + rng.below(4);
        let f = spoiled(rng, faults, base);
        run.file("faults together", &f);
    }
    for _ in 0..500 {
        let n = rng.below(300);
        let mut f: Vec<u8> = (0..n).map(|_| rng.next() as u8).collect();
        if n >= 4 && rng.below(2) == 0 {
            put(&mut f, 0, &(rng.below(20) as u32).to_le_bytes());
        }
        run.file("random bytes", &f);
    }
    for name in std::fs::read_to_string(STORED.to_string() + "/../args").unwrap().lines() {
        // one is not there
        if let Ok(f) = std::fs::read(format!("{STORED}/{name}")) {
            run.file("stored", &f);
        }
    }
    run
}

/// Sets some fields of a record to anything.
fn set_to_anything(rng: &mut Rng, r: &mut Record) {
    for _ in 0..rng.below(3) {
        match rng.below(8) {
            0 => {
                let numbers = [0, 1, 2, 10, 11, 16, 17, 32, 33, 259, 260, 276, 277, u64::MAX];
                r.numbers[rng.below(3)] = numbers[rng.below(numbers.len())];
            }
            1 => r.numbers[3 + rng.below(48)] = [0, 1, 2, 3, 4, 255, u64::MAX][rng.below(7)],
            2 => r.numbers[51 + rng.below(64)] = [0, 3, 4, 66, 67, 2000, 2001, u64::MAX][rng.below(8)],
            3 => {
                let e = edges((0.0, [1.0, 2.0, 100.0, 1000.0, 4096.0, 1e15, 400000.0][rng.below(7)]));
                r.floats[rng.below(233)] = e[rng.below(e.len())];
            }
            4 => r.floats[rng.below(233)] = SPECIAL[rng.below(8)],
            5 => {
                let (a, b) = (rng.below(16), rng.below(16));
                r.numbers[3 + 3 * a] = r.numbers[3 + 3 * b];
            }
            6 => {
                let a = 2 * rng.below(32);
                r.numbers[51 + a] = 4 + rng.below(1997) as u64;
            }
            _ => r.floats[73 + rng.below(160)] = rng.unit(),
        }
    }
    // has_damper crosses as 1 or not 1, the key as a byte, the exponent as a u32
    for i in 0..16 {
        r.numbers[3 + 3 * i] %= 256;
        r.numbers[4 + 3 * i] = (r.numbers[4 + 3 * i] == 1) as u64;
    }
    r.numbers[2] &= 0xffff_ffff;
}

/// Refusal 7 on records with fields set to anything.
fn records(rng: &mut Rng) -> [usize; 2] {
    let mut seen = [0; 2];
    for _ in 0..40000 {
        let mut r = any_record(rng);
        set_to_anything(rng, &mut r);
        let (want, got) = (is_given(&r), r.is_given());
        if got != want {
            println!("DIFFERENT on a record: {got} for {want}: {:?} {:?}", r.numbers, r.floats);
            exit(1);
        }
        seen[!want as usize] += 1;
    }
    seen
}

fn compare() {
    let mut rng = Rng(0x9E3779B97F4A7C15);
    let mut run = files(&mut rng);
    for (kind, n) in &run.kinds {
        println!("{n:6}  {kind}");
    }
    println!("{} files compared, bit for bit: accepted {}", run.files, run.answers[0]);
    for k in 1..7 {
        println!("refusal {k}: {}", run.answers[k]);
    }
    let seen = records(&mut rng);
    println!("{} records tested: passed {}, refused 7 {}", seen[0] + seen[1], seen[0], seen[1]);
    writer::compare(&mut rng, &mut run.writings);
    let mut enough = run.writings.report();
    enough &= run.files >= 20000 && run.answers.iter().all(|&n| n >= 200) && seen.iter().all(|&n| n >= 200);
    enough &= run.kinds["stored"] >= 22;
    println!("{}", if enough { "no difference" } else { "TOO FEW of some kind" });
    if !enough {
        exit(1);
    }
}

/// The worked example of docs/FORMAT.md: one key of one string.
fn example() -> Instrument {
    let common = Common {
        fs: 48_000.0,
        z: 0.5,
        mass: 0.25,
        stiffness: 1_000_000.0,
        eps: 0.5,
        tau: 0.001953125,
        yz: 0.0,
        rho: 2.0,
        ramp_s: 0.125,
        h: 5,
    };
    let string =
        LoopDesign { n_total: 100, ap_count: 4, phi: 2.5, thiran_a: 0.25, ap_a: -0.5, loss_g: 1.0, loss_c: 0.125 };
    let key = Key {
        key: 60,
        has_damper: true,
        weight: 1.0,
        damper_scale: 1.5,
        strike_ratio: 0.125,
        damper_ratio: 0.0625,
        strings: vec![string],
    };
    Instrument { common, keys: vec![key] }
}

fn data(dir: &str) {
    let mut rng = Rng(7);
    let mut lines = BTreeMap::new();
    let mut save = |name: &str, f: &[u8]| {
        std::fs::write(format!("{dir}/{name}"), f).unwrap();
        lines.insert(name.to_string(), said(name, f));
    };
    save("example", &example().bytes());
    let full = sections(&record(&mut rng, &[2; 16]));
    save("full", &chained(&full));
    let three = sections(&record(&mut rng, &[1, 3, 2]));
    save("three_keys", &chained(&three));
    save("empty", &[]);
    save("cut", &chained(&three)[..200]);
    let mut s = three.clone();
    s.truncate(1);
    save("no_key", &chained(&s));
    let mut f = chained(&three);
    put(&mut f, 12, &98u32.to_le_bytes());
    save("gap", &f);
    let mut s = three.clone();
    s[3].truncate(0);
    save("empty_section", &chained(&s));
    let mut s = three.clone();
    s[2][2] = 2;
    save("wrong_count", &chained(&s));
    let mut s = three.clone();
    put(&mut s[3], 36 + 44 + 36, &1.0f64.to_le_bytes());
    save("loss_c_of_one", &chained(&s));
    let mut s = three.clone();
    put(&mut s[0], 0, &f64::NAN.to_le_bytes());
    save("nan", &chained(&s));
    let mut s = three.clone();
    put(&mut s[1], 4, &(-0.0f64).to_le_bytes());
    save("minus_zero", &chained(&s));
    let mut s = three.clone();
    s[1][3] = 1;
    save("fourth_byte", &chained(&s));
    // the felt's exponent beyond halves, at and beyond the ends of quarters, and 1.5 in both
    for h in [3u32, 262, 260, 276, 11, 259, 277] {
        let mut s = three.clone();
        put(&mut s[0], 72, &h.to_le_bytes());
        save(&format!("exponent_{h}"), &chained(&s));
    }
    save("thirty_three", &chained(&crowded(&mut rng, 33)));
    let mut s = three.clone();
    s[3][0] = s[1][0];
    save("key_twice", &chained(&s));
    // what the program must write for its arguments, by the ordinary reader and writer
    let args = std::fs::read_to_string(format!("{dir}/../args")).unwrap();
    let told = |name: &str| lines.get(name).cloned().unwrap_or(format!("{name}: not there\n"));
    let out: String = args.lines().map(told).collect();
    std::fs::write(format!("{dir}/../stdout"), out).unwrap();
}

/// What is said of a file: its refusal, or what it gives, and how it is written back.
fn said(name: &str, f: &[u8]) -> String {
    match read(f) {
        Ok(instrument) => {
            let (keys, strings, cells) = (instrument.keys.len(), instrument.string_count(), instrument.cells());
            let counts = format!("keys {keys}, strings S = {strings}, cells W = {cells}, work memory {}", 5 * cells);
            format!("{name}: {counts}, {}", said_back(name, &record_of(&instrument), f))
        }
        Err(n) => {
            let words = [
                "too short, or D out of range",
                "the pairs do not chain",
                "a section's length or string count",
                "a field out of range, or the zero byte",
                "more than 32 strings",
                "a key number comes twice",
            ];
            format!("{name}: refused {n}: {}\n", words[n as usize - 1])
        }
    }
}

/// A file written back into more bytes than any has; then into one fewer than it has, and with the last key's place spoiled.
fn said_back(name: &str, r: &Record, f: &[u8]) -> String {
    let mut other = r.clone();
    other.floats[9 + 4 * 15] = -1.0;
    let (right, wrong) = (file_of(r), file_of(&other));
    let (_, written) = answer(right.as_deref(), 2201);
    assert_eq!(written, f, "the Rust side disagrees with itself on '{name}'");
    let refused = |what: &str, file: &Option<Vec<u8>>, length: usize| {
        let (number, _) = answer(file.as_deref(), length);
        format!("{name}, {what}: refused {number}, untouched\n")
    };
    let lines = [
        format!("written {}, same\n", written.len()),
        refused("one byte short", &right, f.len() - 1),
        refused("a place spoiled", &wrong, 2201),
        refused("both", &wrong, f.len() - 1),
    ];
    lines.concat()
}

fn main() {
    let args: Vec<String> = std::env::args().skip(1).collect();
    match args.first().map(String::as_str) {
        Some("data") => data(&args[1]),
        _ => compare(),
    }
}
