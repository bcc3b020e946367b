//! A phrase with a cue, a step back and an edit: `phrase INSTRUMENT OUT.wav`, in this folder
//! `cargo run --example phrase -- piano ../target/phrase.wav`. It plays an instrument that has the keys 48 to 72 of `piano`.

use gingerfile::{decimate, Console, Event, Refusal};
use std::error::Error;
use std::fs::{read, write};

const BLOCK: usize = 256;

/// Plays `count` samples in blocks, as an audio callback would; gives them and the number of forces.
fn play(console: &mut Console, count: u64) -> Result<(Vec<f64>, usize), Refusal> {
    let mut out = vec![0.0; count as usize];
    let mut trace = [0.0; BLOCK];
    let mut forces = 0;
    for block in out.chunks_mut(BLOCK) {
        forces += console.play(block, &mut trace)?.forces;
    }
    Ok((out, forces))
}

/// The phrase's samples, and samples a second.
fn phrase(file: &[u8]) -> Result<(Vec<f64>, f64), Refusal> {
    let mut console = Console::open(file)?;
    let beat = (0.4 * console.fs()) as u64;
    console.insert(0, Event::NoteOn { key: 48, velocity: 2.0 })?;
    for (number, key) in (0..).zip([60, 64, 67, 72, 67, 64, 60]) {
        console.insert(number * beat, Event::NoteOn { key, velocity: 3.0 })?;
        console.insert(number * beat + beat * 3 / 4, Event::NoteOff { key })?;
    }
    let (mut samples, forces) = play(&mut console, 4 * beat)?;
    println!("four beats: {} samples, {forces} forces, {} contact samples", samples.len(), console.contact_samples());
    let struck = console.key_contacts().filter(|(_, count)| *count > 0);
    let counts: Vec<String> = struck.map(|(key, count)| format!("{count} for key {key}")).collect();
    println!("of them {}", counts.join(", "));

    // A cue after four beats; two beats on, and back to a little after the cue.
    console.cue()?;
    let (first, _) = play(&mut console, 2 * beat)?;
    let counts: Vec<(u8, u64)> = console.key_contacts().collect();
    let replayed = console.go(4 * beat + 441)?;
    let (again, _) = play(&mut console, 2 * beat - 441)?;
    let bits = |samples: &[f64]| -> Vec<u64> { samples.iter().map(|x| x.to_bits()).collect() };
    assert_eq!(bits(&first[441..]), bits(&again), "a step back plays the same");
    assert!(console.key_contacts().eq(counts), "and counts the same for each key");
    println!(
        "a step back: {replayed} samples replayed from the cue, the next {} and each key's count, {} in all, are the same",
        again.len(),
        console.contact_samples()
    );

    // An edit of the sixth strike takes the piano back to the cue.
    let index = console.events().position(|(q, event)| q == 5 * beat && matches!(event, Event::NoteOn { .. }));
    let edited = console.remove(index.expect("the strike is in the score"))?;
    assert_eq!((edited.t, edited.dropped), (4 * beat, 0));
    println!("an edit: at {} again, {} cues dropped", edited.t, edited.dropped);
    samples.extend(play(&mut console, 5 * beat)?.0);

    // Half as many samples, of the means of neighbours.
    let mut taps = [0.0; 127];
    taps[63] = 0.5;
    taps[64] = 0.5;
    println!("decimated by 2: {} samples of {}", decimate(&samples, &taps, 2)?.len(), samples.len());
    Ok((samples, console.fs()))
}

/// Mono, 64-bit floats.
fn wav(samples: &[f64], fs: f64) -> Vec<u8> {
    let (rate, bytes) = (fs.round() as u32, 8 * samples.len() as u32);
    let mut file = b"RIFF".to_vec();
    file.extend((36 + bytes).to_le_bytes());
    file.extend(b"WAVEfmt \x10\0\0\0\x03\0\x01\0");
    file.extend(rate.to_le_bytes());
    file.extend((8 * rate).to_le_bytes());
    file.extend(b"\x08\0\x40\0data");
    file.extend(bytes.to_le_bytes());
    file.extend(samples.iter().flat_map(|x| x.to_le_bytes()));
    file
}

fn main() -> Result<(), Box<dyn Error>> {
    let words: Vec<String> = std::env::args().skip(1).collect();
    if let [instrument, out] = words.as_slice() {
        let (samples, fs) = phrase(&read(instrument)?)?;
        write(out, wav(&samples, fs))?;
        return Ok(());
    }
    Err("usage: phrase INSTRUMENT OUT.wav".into())
}

#[test]
fn plays() {
    let (samples, fs) = phrase(include_bytes!("../piano")).unwrap();
    assert_eq!((samples.len(), fs), (9 * 17_640, 44_100.0));
    let peak = samples.iter().fold(0f64, |most, x| most.max(x.abs()));
    assert!((0.01..1.0).contains(&peak), "as loud as a WAV has it: {peak}");
}
