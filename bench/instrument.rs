//! The time of reading a full instrument, 16 keys and 32 strings, from a lent slice into the record, and of writing it from
//! the record into a lent slice, beside the comparison's own reader and writer in ordinary Rust.

mod grand;
mod measure;

use comparison::exports::{reads, writes};
use comparison::instrument::read;
use comparison::record::Record;
use measure::{measure, report, Measured};
use std::hint::black_box;
use std::process::exit;

/// Calls in a turn.
const TIMES: usize = 200;

/// Nanoseconds of a reading.
const MOST: f64 = 20_000.0;

fn reading(file: &[u8]) -> Measured {
    let rust = |file: &mut Vec<u8>| {
        for _ in 0..TIMES {
            black_box(read(black_box(file))).expect("accepted");
        }
    };
    let rattle = |file: &mut Vec<u8>| {
        for _ in 0..TIMES {
            black_box(reads(black_box(file)));
        }
    };
    let what = format!("reading a full instrument of {} bytes", file.len());
    measure(&what, None, TIMES, &mut file.to_vec(), |_| (), rust, rattle)
}

/// Both sides start from their own record of the file, and must give it back.
fn writing(file: &[u8]) -> Measured {
    let instrument = read(file).expect("accepted");
    let record = Record::read(file).1.crossing();
    let mut bytes = vec![0; file.len()];
    let rust = |_: &mut Vec<u8>| {
        for _ in 0..TIMES {
            black_box(black_box(&instrument).bytes());
        }
    };
    let rattle = |bytes: &mut Vec<u8>| {
        for _ in 0..TIMES {
            black_box(writes(black_box(&record), black_box(bytes)));
        }
    };
    let what = format!("writing a full instrument of {} bytes", file.len());
    let row = measure(&what, None, TIMES, &mut bytes, |bytes| bytes.fill(0), rust, rattle);
    assert!(instrument.bytes() == file && bytes == file, "what was written is another file");
    row
}

fn told(what: &str, met: bool) -> bool {
    println!("{what}: {}", if met { "met" } else { "MISSED" });
    met
}

fn main() {
    let file = grand::instrument(5, 16, 2, 20).bytes();
    let (reading, writing) = (reading(&file), writing(&file));
    let [read, written] = [&reading, &writing].map(|row| row.rattle());
    report(&[reading, writing]);
    let met = [
        told(&format!("a reading under {MOST} ns"), read < MOST),
        told(&format!("a writing in at most the time of a reading, {:.2} of it", written / read), written <= read),
    ];
    exit(if met.contains(&false) { 1 } else { 0 });
}
