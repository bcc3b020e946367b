//! Compares the proved decimator with the Rust's, whose taps are lent in place of its sines: every factor from 0 to 64,
//! signals and taps of many kinds, every output bit for bit, zeros and NaNs alike; then the refusals 17, 18 and 19 in
//! their order. Cells around the output, and on refusal the output itself, must stay as they were. Then the program
//! `decimate`, which goes through a file in blocks: `decimate PROGRAM FOLDER` runs it on files in FOLDER.

mod wave_files;

use comparison::common::{alike, Random};
use comparison::gingerfile::{decimate_into, Refusal};
use comparison::model;
use comparison::waves::{float_bytes, floats, wave, HEADER};
use std::collections::BTreeMap;
use std::process::exit;
use wave_files::{cluttered, Program};

const TAPS: usize = 127;

/// The longest input.
const MOST: usize = 1_048_576;

/// "copies for 0 or 1 into an output of the input's length; otherwise output holds length/factor rounded up"
fn output_length(length: usize, factor: usize) -> usize {
    if factor <= 1 {
        length
    } else {
        length.div_ceil(factor)
    }
}

/// 17 to 19, in their order.
fn refusal_of(length: usize, tap_count: usize, factor: usize, room: usize) -> u64 {
    if factor > 64 || length > MOST {
        17
    } else if tap_count != TAPS {
        18
    } else if room != output_length(length, factor) {
        19
    } else {
        0
    }
}

/// An output in the middle of cells that no one may write.
struct Output(Vec<f64>);

const FENCE: usize = 130;

const UNTOUCHED: f64 = 4242.0;

impl Output {
    fn new(length: usize) -> Output {
        Output(vec![UNTOUCHED; length + 2 * FENCE])
    }

    fn cells(&self) -> &[f64] {
        &self.0[FENCE..self.0.len() - FENCE]
    }

    /// Gives the refusal's number, 0 for none.
    fn decimate(&mut self, x: &[f64], taps: &[f64], factor: usize) -> u64 {
        let end = self.0.len() - FENCE;
        decimate_into(x, taps, factor, &mut self.0[FENCE..end]).map_or_else(Refusal::number, |()| 0)
    }

    /// Whether the cells around the output are as they were.
    fn is_fenced(&self) -> bool {
        let end = self.0.len() - FENCE;
        self.0[..FENCE].iter().chain(&self.0[end..]).all(|cell| *cell == UNTOUCHED)
    }

    fn is_untouched(&self) -> bool {
        self.cells().iter().all(|cell| *cell == UNTOUCHED)
    }
}

// ---- signals and taps

/// Lengths at which the taps reach past one end, both or none.
const LENGTHS: [usize; 20] = [0, 1, 2, 3, 31, 62, 63, 64, 65, 66, 100, 125, 126, 127, 128, 129, 130, 189, 190, 254];

const KINDS: [&str; 6] =
    ["ordinary", "of any magnitude", "edges", "any bit patterns", "mostly ordinary", "zeros and ones"];

fn number(random: &mut Random, kind: usize) -> f64 {
    match kind {
        0 => random.between(-1.0, 1.0),
        1 => random.magnitude(-300.0, 150.0),
        2 => random.edge(),
        3 => random.any(),
        4 if random.below(200) == 0 => random.edge(),
        4 => random.between(-1.0, 1.0),
        _ => [0.0, -0.0, 1.0, -1.0, f64::from_bits(1)][random.below(5) as usize],
    }
}

fn numbers(random: &mut Random, kind: usize, count: usize) -> Vec<f64> {
    (0..count).map(|_| number(random, kind)).collect()
}

#[derive(Default)]
struct Counts {
    signals: BTreeMap<&'static str, u64>,
    samples: u64,
    outputs: u64,
    sounding: u64,
    infinite: u64,
    refused: BTreeMap<u64, u64>,
    untouched: u64,
    files: u64,
    file_outputs: u64,
    complaints: u64,
}

fn fail(what: String) -> ! {
    println!("{what}");
    exit(1)
}

/// A call that is accepted.
fn compare(counts: &mut Counts, x: &[f64], taps: &[f64], factor: usize) {
    let rust = model::decimate(x, taps, factor);
    let mut output = Output::new(rust.len());
    let given = format!("factor {factor}, {} samples", x.len());
    let number = output.decimate(x, taps, factor);
    if number != 0 {
        fail(format!("{given}: refused with {number}"));
    }
    if let Some(at) = (0..rust.len()).find(|i| !alike(rust[*i], output.cells()[*i])) {
        fail(format!("{given}: output {at} is {:e}, and the Rust has {:e}", output.cells()[at], rust[at]));
    }
    if !output.is_fenced() {
        fail(format!("{given}: a cell outside the output has changed"));
    }
    counts.samples += x.len() as u64;
    counts.outputs += rust.len() as u64;
    counts.sounding += rust.iter().filter(|y| **y != 0.0 && y.is_finite()).count() as u64;
    counts.infinite += rust.iter().filter(|y| !y.is_finite()).count() as u64;
}

/// Document 01's row: 5 finite inputs by 2, with the only nonzero tap 1 at index 63, give the inputs 0, 2 and 4.
fn row(random: &mut Random) {
    let mut taps = [0.0; TAPS];
    taps[63] = 1.0;
    for _ in 0..1_000 {
        let x: Vec<f64> = (0..5).map(|_| random.magnitude(-300.0, 300.0) * random.between(-1.0, 1.0)).collect();
        let mut output = Output::new(3);
        if output.decimate(&x, &taps, 2) != 0 || output.cells() != [x[0], x[2], x[4]] {
            fail(format!("row: {x:?} gives {:?}", output.cells()));
        }
    }
}

fn accepted(counts: &mut Counts) {
    let mut random = Random::new(0x6465_6369);
    row(&mut random);
    for factor in 0..=64 {
        for kind in 0..KINDS.len() {
            let lengths =
                LENGTHS.iter().copied().chain((0..8).map(|_| random.below(4_000) as usize)).collect::<Vec<_>>();
            for length in lengths {
                let tap_kind = [0, kind, random.below(6) as usize][random.below(3) as usize];
                let x = numbers(&mut random, kind, length);
                let taps = numbers(&mut random, tap_kind, TAPS);
                compare(counts, &x, &taps, factor);
                *counts.signals.entry(KINDS[kind]).or_insert(0) += 1;
            }
        }
    }
    let x = numbers(&mut random, 4, MOST);
    let taps = numbers(&mut random, 0, TAPS);
    for factor in [0, 1, 2, 3, 63, 64] {
        compare(counts, &x, &taps, factor);
        *counts.signals.entry("of 1,048,576 samples").or_insert(0) += 1;
    }
}

/// Every combination of factor, input, taps and output that refuses, and what number comes first.
fn refused(counts: &mut Counts) {
    let signal = vec![0.5; MOST + 2];
    let taps = vec![0.25; TAPS + 1];
    for factor in (0..=64).chain([65, 66, 100, 127, 1 << 20, 1 << 40, usize::MAX]) {
        for length in [0, 1, 63, 128, 1_000, MOST, MOST + 1, MOST + 2] {
            let right = output_length(length, factor);
            for tap_count in [0, 1, 126, 127, 128] {
                for room in [0, right.saturating_sub(1), right, right + 1] {
                    let expected = refusal_of(length, tap_count, factor, room);
                    if expected == 0 {
                        continue;
                    }
                    let mut output = Output::new(room);
                    let number = output.decimate(&signal[..length], &taps[..tap_count], factor);
                    let given = format!("factor {factor}, {length} samples, {tap_count} taps, output {room}");
                    if number != expected {
                        fail(format!("{given}: answer {number}, not {expected}"));
                    }
                    if !output.is_fenced() || !output.is_untouched() {
                        fail(format!("{given}: a cell has changed"));
                    }
                    *counts.refused.entry(number).or_insert(0) += 1;
                    counts.untouched += room as u64;
                }
            }
        }
    }
}

// ---- the program

/// Lengths at which a block of the program's begins, ends or is just missed.
fn file_lengths(random: &mut Random, factor: usize) -> Vec<usize> {
    let block = 63 * factor.max(1);
    let mut lengths = vec![0, 1, 62, 63, 64, 65, 127, 128, 1_000 + random.below(9_000) as usize];
    for seam in [block, 2 * block, 3 * block] {
        lengths.extend([seam - 63, seam - 1, seam, seam + 1, seam + 63, seam + 64, seam + 65]);
    }
    lengths
}

fn file_differs(counts: &mut Counts, program: &Program, x: &[f64], taps: &[f64], factor: usize, rate: u32) {
    program.put("in.wav", &if x.len() % 2 == 0 { wave(rate, x) } else { cluttered(rate, x) });
    program.put("taps", &float_bytes(taps));
    let run = program.run("in.wav", "taps", &factor.to_string());
    let rust = model::decimate(x, taps, factor);
    let rounded = if factor <= 1 { rate } else { (rate as f64 / factor as f64).round() as u32 };
    let said = format!("{} samples at {rate} Hz, factor {factor}: {} samples at {rounded} Hz\n", x.len(), rust.len());
    let given = format!("program: factor {factor}, {} samples at {rate} Hz", x.len());
    if run.said != said || !run.complained.is_empty() {
        fail(format!("{given}: it says {:?} and complains {:?}", run.said, run.complained));
    }
    let expected = wave(rounded, &rust);
    let same_header = |output: &Vec<u8>| output.len() == expected.len() && output[..HEADER] == expected[..HEADER];
    let Some(output) = run.output.filter(same_header) else {
        fail(format!("{given}: another file"));
    };
    // zeros count alike, so the samples are compared as numbers
    let found = floats(&output[HEADER..]);
    if let Some(at) = (0..rust.len()).find(|i| !alike(rust[*i], found[*i])) {
        fail(format!("{given}: output {at} is {:e}, and the Rust has {:e}", found[at], rust[at]));
    }
    counts.files += 1;
    counts.file_outputs += rust.len() as u64;
}

fn program(counts: &mut Counts, program: &Program) {
    let mut random = Random::new(0x7761_7665);
    for factor in [0, 1, 2, 3, 5, 31, 32, 33, 62, 63, 64] {
        for length in file_lengths(&mut random, factor) {
            let kind = random.below(6) as usize;
            let (x, taps) = (numbers(&mut random, kind, length), numbers(&mut random, 0, TAPS));
            let rate = [8_000, 44_100, 96_000, 1 + random.below(400_000) as u32][random.below(4) as usize];
            file_differs(counts, program, &x, &taps, factor, rate);
        }
    }
    let (x, taps) = (numbers(&mut random, 4, MOST), numbers(&mut random, 0, TAPS));
    for factor in [1, 2, 64] {
        file_differs(counts, program, &x, &taps, factor, 44_100);
    }
}

/// What the program refuses: it names the file or the word, says what is wrong, and writes no output.
fn complaints(counts: &mut Counts, program: &Program) {
    program.put("good.wav", &wave(44_100, &[0.5; 5]));
    program.put("taps", &[0; 8 * TAPS]);
    program.put("few", &[0; 8 * TAPS - 8]);
    program.put("many", &[0; 8 * TAPS + 1]);
    let mut cases = vec![
        ("missing.wav", "taps", "2", "missing.wav", "No such file"),
        ("good.wav", "missing", "2", "missing", "No such file"),
        ("good.wav", "few", "2", "few", "refused 18"),
        ("good.wav", "many", "2", "many", "refused 18"),
        ("good.wav", "taps", "65", "65", "refused 17"),
        ("good.wav", "taps", "18446744073709551618", "18446744073709551618", "refused 17"),
        ("good.wav", "taps", "two", "two", "no whole number"),
        ("good.wav", "taps", "-2", "-2", "no whole number"),
        ("good.wav", "taps", "", "FACTOR", "no whole number"),
        ("out.wav", "taps", "2", "out.wav", "No such file"),
    ];
    let broken = wave_files::broken();
    for (name, bytes, words) in &broken {
        program.put(name, bytes);
        cases.push((name, "taps", "2", name, words));
    }
    for (input, taps, factor, named, words) in cases {
        let run = program.run(input, taps, factor);
        let clear = run.complained.starts_with(&format!("decimate: {named}: ")) && run.complained.contains(words);
        if !clear || !run.said.is_empty() || run.output.is_some() {
            fail(format!(
                "decimate {input} {taps} {factor}: it says {:?} and complains {:?}",
                run.said, run.complained
            ));
        }
        counts.complaints += 1;
    }
}

fn main() {
    let arguments: Vec<String> = std::env::args().skip(1).collect();
    let [path, folder] = arguments.as_slice() else {
        fail("usage: decimate PROGRAM FOLDER".to_string());
    };
    let path = std::fs::canonicalize(path).unwrap_or_else(|e| fail(format!("{path}: {e}")));
    let files = Program { path, folder: folder.into() };
    let mut counts = Counts::default();
    accepted(&mut counts);
    refused(&mut counts);
    program(&mut counts, &files);
    complaints(&mut counts, &files);
    for (kind, count) in &counts.signals {
        println!("signals  {kind:<24} {count:>9}");
    }
    println!("samples  {} in, every factor from 0 to 64", counts.samples);
    println!(
        "outputs  {} compared, {} finite and not zero, {} infinite or NaN",
        counts.outputs, counts.sounding, counts.infinite
    );
    for (number, count) in &counts.refused {
        println!("refused  with {number:<19} {count:>9}");
    }
    println!("untouched {} output cells of refused calls", counts.untouched);
    println!("files    {} through the program, {} outputs compared", counts.files, counts.file_outputs);
    println!("files    {} refused, each with its reason", counts.complaints);
    println!("no signal differs");
}
