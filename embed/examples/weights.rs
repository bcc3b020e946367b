//! Weights of an instrument: `weights INSTRUMENT OUT [KEY WEIGHT]..`, in this folder
//! `cargo run --example weights -- piano ../target/lighter 60 0.05`. It writes the instrument with those weights to OUT, and tells
//! for each of those keys how the others ring along when it is struck, before and after.

use gingerfile::{adjust, Console, Event, Refusal};
use std::error::Error;
use std::fs::{read, write};

/// The energy of all other keys, a second after a key was struck with the dampers up.
fn ringing(file: &[u8], key: u8) -> Result<f64, Refusal> {
    let mut console = Console::open(file)?;
    console.insert(0, Event::Pedal(true))?;
    console.insert(0, Event::NoteOn { key, velocity: 3.0 })?;
    console.go(console.fs() as u64)?;
    Ok(console.energies()?.iter().filter(|(other, _)| *other != key).map(|(_, energy)| energy).sum())
}

/// The pairs that the words name.
fn pairs(words: &[String]) -> Result<Vec<(u8, f64)>, Box<dyn Error>> {
    words.chunks(2).map(|pair| Ok((pair[0].parse()?, pair[1].parse()?))).collect()
}

fn main() -> Result<(), Box<dyn Error>> {
    let words: Vec<String> = std::env::args().skip(1).collect();
    if words.len() < 2 || words.len() % 2 != 0 {
        return Err("usage: weights INSTRUMENT OUT [KEY WEIGHT]..".into());
    }
    let (file, pairs) = (read(&words[0])?, pairs(&words[2..])?);
    let other = adjust(&file, &pairs)?;
    write(&words[1], &other)?;
    println!("{} bytes, the weights of {} keys set", other.len(), pairs.len());
    for (key, weight) in pairs {
        let [before, after] = [ringing(&file, key)?, ringing(&other, key)?];
        println!("key {key} at weight {weight}: the others ring with {before:.3e} before, {after:.3e} after");
    }
    Ok(())
}

/// A key without weight moves no other; with more weight it moves them more.
#[test]
fn others_ring_by_weight() {
    let piano = include_bytes!("../piano");
    let at = |weight: f64| ringing(&adjust(piano, &[(60, weight)]).unwrap(), 60).unwrap();
    assert!(ringing(piano, 60).unwrap() > 0.0);
    assert_eq!(at(0.0), 0.0);
    assert!(at(0.1) > 0.0 && at(0.2) > at(0.1), "{} and {}", at(0.1), at(0.2));
}
