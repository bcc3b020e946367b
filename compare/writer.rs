//! The proved writer beside an ordinary one: records of every kind, each into lent bytes of many lengths. Compared are the
//! refusal's number, the length, every lent byte and those around them.

use super::{any_record, instrument_of, is_given, put, record, set_to_anything, Rng};
use comparison::instrument::{COMMON_RANGES, KEY_RANGES, STRING_RANGES};
use comparison::record::Record;
use std::collections::BTreeMap;
use std::process::exit;

/// How many bytes on either side of the lent ones are compared too.
const AROUND: usize = 64;

/// What may come of a writing.
const OUTCOMES: [&str; 4] = ["written", "7", "7, few", "20"];

/// Which of them come of the records of a kind: those that a file gives, those that none gives, and either.
const GIVEN: [bool; 4] = [true, false, false, true];
const NOT_GIVEN: [bool; 4] = [false, true, true, false];
const EITHER: [bool; 4] = [true; 4];

/// The kinds of records, and what must have come of each, so often at least; nothing else may.
const KINDS: [(&str, [bool; 4]); 15] = [
    (FROM_FILE, GIVEN),
    (EVERY_LENGTH, GIVEN),
    (RANDOM, GIVEN),
    (ANYTHING, EITHER),
    (MINUS_ZERO, EITHER),
    (AT_END, GIVEN),
    (PAST_END, NOT_GIVEN),
    (NO_NUMBER, NOT_GIVEN),
    (WHOLE_AT_END, GIVEN),
    (WHOLE_PAST_END, NOT_GIVEN),
    (WRONG_COUNT, NOT_GIVEN),
    (WRONG_STRINGS, NOT_GIVEN),
    (KEY_TWICE, NOT_GIVEN),
    (UNUSED, NOT_GIVEN),
    (UNUSED_MINUS_ZERO, NOT_GIVEN),
];
const OFTEN: usize = 50;

pub const FROM_FILE: &str = "read from an accepted file, and written back";
const EVERY_LENGTH: &str = "every size, into every length";
const RANDOM: &str = "random";
const ANYTHING: &str = "fields set to anything";
const MINUS_ZERO: &str = "-0 in a used place";
const AT_END: &str = "a float at an end of its range";
const PAST_END: &str = "a float past an end of its range";
const NO_NUMBER: &str = "a float that is NaN or infinite";
const WHOLE_AT_END: &str = "n, ap_count or exponent at an end";
const WHOLE_PAST_END: &str = "n, ap_count or exponent past an end";
const WRONG_COUNT: &str = "a wrong number of keys or strings";
const WRONG_STRINGS: &str = "a key with a wrong number of strings";
const KEY_TWICE: &str = "a key twice";
const UNUSED: &str = "an unused place that is not zero";
const UNUSED_MINUS_ZERO: &str = "-0 in an unused place";

// ---- the ordinary writer

/// The file of a record, where some accepted file gives the record.
pub fn file_of(r: &Record) -> Option<Vec<u8>> {
    is_given(r).then(|| instrument_of(r).unwrap().bytes())
}

/// What the writer answers for so many lent bytes, and what it writes.
pub fn answer(file: Option<&[u8]>, length: usize) -> (u32, &[u8]) {
    match file {
        None => (7, &[]),
        Some(file) if length < file.len() => (20, &[]),
        Some(file) => (0, file),
    }
}

// ---- one writing beside the other

/// The writings, counted.
pub struct Writings {
    rng: Rng,
    /// Parts of it are lent, so that each writing finds other bytes.
    noise: Vec<u8>,
    records: usize,
    outcomes: BTreeMap<&'static str, [usize; 4]>,
}

impl Writings {
    pub fn new(seed: u64) -> Writings {
        let mut rng = Rng(seed);
        let noise = (0..8_192).flat_map(|_| rng.next().to_le_bytes()).collect();
        Writings { rng, noise, records: 0, outcomes: BTreeMap::new() }
    }

    /// A record and its file into so many bytes; `need` is how many the file has, or that of a like record where there is none.
    fn write(&mut self, kind: &'static str, r: &Record, file: Option<&[u8]>, need: usize, length: usize) {
        let size = length + 2 * AROUND;
        let from = self.rng.below(self.noise.len() - size);
        let mut bytes = self.noise[from..from + size].to_vec();
        let mut wanted = bytes.clone();
        let (refusal, written) = answer(file, length);
        put(&mut wanted, AROUND, written);
        let got = r.write(&mut bytes[AROUND..AROUND + length]);
        if got != (refusal, written.len()) || bytes != wanted {
            let at = bytes.iter().zip(&wanted).position(|(a, b)| a != b).map(|at| at as isize - AROUND as isize);
            println!("DIFFERENT on a record, {kind}, into {length} bytes: {got:?} for {:?}", (refusal, written.len()));
            println!("first byte that differs: {at:?}; {:?} {:?}", r.numbers, r.floats);
            exit(1);
        }
        let outcome = match refusal {
            0 => 0,
            7 => 1 + (length < need) as usize,
            _ => 3,
        };
        self.outcomes.entry(kind).or_default()[outcome] += 1;
    }

    /// A record into bytes of many lengths, around the one that it or a like record needs.
    fn record(&mut self, kind: &'static str, r: &Record, need: usize) {
        let file = file_of(r);
        let some = [need, need, 2_000].map(|n| self.rng.below(n));
        for length in [0, need - 1, need, need + 1, some[0], some[1], need + 2 + some[2]] {
            self.write(kind, r, file.as_deref(), need, length);
        }
        self.records += 1;
    }

    /// What was read from an accepted file is written as the same bytes.
    pub fn back(&mut self, r: &Record, file: &[u8]) {
        let more = self.rng.below(9);
        for length in [file.len() - 1, file.len() + more] {
            self.write(FROM_FILE, r, Some(file), file.len(), length);
        }
        self.records += 1;
    }

    /// Prints what was compared; true where every kind has come often enough, with its outcomes and no others.
    pub fn report(&self) -> bool {
        println!("{:>9}{:>9}{:>9}{:>9}  records", OUTCOMES[0], OUTCOMES[1], OUTCOMES[2], OUTCOMES[3]);
        let mut enough = self.records >= 20_000;
        for (kind, wanted) in KINDS {
            let seen = self.outcomes.get(kind).copied().unwrap_or_default();
            let good = seen.iter().zip(wanted).all(|(n, wanted)| if wanted { *n >= OFTEN } else { *n == 0 });
            let [written, refused, few, short] = seen;
            let verdict = if good { "" } else { ": NOT AS WANTED" };
            println!("{written:9}{refused:9}{few:9}{short:9}  {kind}{verdict}");
            enough &= good;
        }
        let all: usize = self.outcomes.values().flatten().sum();
        println!("{} records written, into {all} lent slices of bytes, compared byte for byte", self.records);
        enough
    }
}

// ---- records

/// A record that passes, and all that are like it but for one thing.
struct Variants<'a> {
    base: &'a Record,
    records: Vec<(&'static str, Record)>,
}

impl Variants<'_> {
    /// A float set to each of these.
    fn floats(&mut self, kind: &'static str, at: usize, values: &[f64]) {
        for x in values {
            let mut r = self.base.clone();
            r.floats[at] = *x;
            self.records.push((kind, r));
        }
    }

    /// A whole number set to each of these.
    fn numbers(&mut self, kind: &'static str, at: usize, values: &[u64]) {
        for x in values {
            let mut r = self.base.clone();
            r.numbers[at] = *x;
            self.records.push((kind, r));
        }
    }
}

/// The range of a record's float, and whether its place is used.
fn float_place(r: &Record, at: usize) -> ((f64, f64), bool) {
    let [keys, strings] = [r.numbers[0], r.numbers[1]].map(|n| n as usize);
    match at {
        0..=8 => (COMMON_RANGES[at], true),
        9..=72 => (KEY_RANGES[(at - 9) % 4], (at - 9) / 4 < keys),
        _ => (STRING_RANGES[(at - 73) % 5], (at - 73) / 5 < strings),
    }
}

/// Each float in turn at and past the ends of its range, NaN, infinite and -0; in an unused place anything but zero.
fn set_floats(variants: &mut Variants) {
    for at in 0..variants.base.floats.len() {
        let ((low, high), used) = float_place(variants.base, at);
        if used {
            variants.floats(MINUS_ZERO, at, &[-0.0]);
            variants.floats(AT_END, at, &[low, high]);
            variants.floats(PAST_END, at, &[low.next_down(), high.next_up(), low - 1.0, high + 1.0]);
            variants.floats(NO_NUMBER, at, &[f64::NAN, -f64::NAN, f64::INFINITY, f64::NEG_INFINITY]);
        } else {
            variants.floats(UNUSED_MINUS_ZERO, at, &[-0.0]);
            variants.floats(UNUSED, at, &[1.0, -1.0, 5e-324, f64::NAN]);
        }
    }
}

/// How many keys and strings there are, and the exponent. Among them are numbers that are right in their low bits.
fn set_counts(variants: &mut Variants) {
    let [keys, strings] = [variants.base.numbers[0], variants.base.numbers[1]];
    variants.numbers(WRONG_COUNT, 0, &[0, 17, 16 + keys, keys - 1, keys + 1, keys + (1 << 32), u64::MAX]);
    variants.numbers(WRONG_COUNT, 1, &[0, 33, 32 + strings, strings - 1, strings + 1, strings + (1 << 32), u64::MAX]);
    variants.numbers(WHOLE_AT_END, 2, &[2, 10, 256 + 4, 256 + 20]);
    variants.numbers(WHOLE_PAST_END, 2, &[0, 1, 11, 255, 256 + 3, 256 + 21, 512 + 5, 65_536 + 5, u32::MAX as u64]);
}

/// The number of each key and of its strings.
fn set_keys(variants: &mut Variants) {
    let base = variants.base;
    for i in 0..base.numbers[0] as usize {
        let at = 3 + 3 * i;
        let strings = base.numbers[at + 2];
        variants.numbers(WRONG_STRINGS, at + 2, &[0, 4, strings + 1, strings - 1, strings + 256, u64::MAX]);
        for j in (3..at).step_by(3) {
            variants.numbers(KEY_TWICE, at, &[base.numbers[j]]);
            // as many strings in all, where a sum wraps
            let mut r = base.clone();
            r.numbers[at + 2] = u64::MAX;
            r.numbers[j + 2] += strings + 1;
            variants.records.push((WRONG_STRINGS, r));
        }
    }
}

/// n and ap_count of each string.
fn set_strings(variants: &mut Variants) {
    for j in 0..variants.base.numbers[1] as usize {
        let (n, stages) = (51 + 2 * j, 52 + 2 * j);
        variants.numbers(WHOLE_AT_END, n, &[4, 2_000]);
        variants.numbers(WHOLE_PAST_END, n, &[0, 3, 2_001, 65_536 + 100, u64::MAX]);
        variants.numbers(WHOLE_AT_END, stages, &[0, 66]);
        variants.numbers(WHOLE_PAST_END, stages, &[67, 65_536, u64::MAX]);
    }
}

/// Whole numbers in the places past the last key and the last string; has_damper is 0 or 1.
fn set_unused(variants: &mut Variants) {
    let [keys, strings] = [variants.base.numbers[0], variants.base.numbers[1]].map(|n| n as usize);
    for at in (3 + 3 * keys..51).step_by(3) {
        variants.numbers(UNUSED, at, &[1, 255]);
        variants.numbers(UNUSED, at + 1, &[1]);
        variants.numbers(UNUSED, at + 2, &[1, 256, u64::MAX]);
    }
    for at in 51 + 2 * strings..115 {
        variants.numbers(UNUSED, at, &[1, 65_536, u64::MAX]);
    }
}

/// String counts of so many keys, so many in all.
fn counts_of(rng: &mut Rng, keys: usize, strings: usize) -> Vec<u64> {
    let mut counts = vec![1; keys];
    while counts.iter().sum::<u64>() < strings as u64 {
        let key = rng.below(keys);
        counts[key] = (counts[key] + 1).min(3);
    }
    counts
}

// ---- the comparison

/// A record of each number of keys and strings, into every length from 0 to one more than it needs.
fn every_length(rng: &mut Rng, writings: &mut Writings) {
    for keys in 1..=16 {
        for strings in keys..=(3 * keys).min(32) {
            let counts = counts_of(rng, keys, strings);
            let r = record(rng, &counts);
            let file = file_of(&r).unwrap();
            for length in 0..=file.len() + 1 {
                writings.write(EVERY_LENGTH, &r, Some(&file), file.len(), length);
            }
            writings.records += 1;
        }
    }
}

pub fn compare(rng: &mut Rng, writings: &mut Writings) {
    every_length(rng, writings);
    for counts in [vec![1], vec![2; 16], vec![1; 16], vec![3, 1], vec![1, 2, 3], vec![3; 10]] {
        let base = record(rng, &counts);
        let need = file_of(&base).unwrap().len();
        let mut variants = Variants { base: &base, records: Vec::new() };
        for set in [set_floats, set_counts, set_keys, set_strings, set_unused] {
            set(&mut variants);
        }
        for (kind, r) in variants.records {
            writings.record(kind, &r, need);
        }
    }
    for _ in 0..4_000 {
        let mut r = any_record(rng);
        let need = file_of(&r).unwrap().len();
        writings.record(RANDOM, &r, need);
        set_to_anything(rng, &mut r);
        writings.record(ANYTHING, &r, need);
    }
}
