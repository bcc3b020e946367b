//! Instruments for the tests, and plays of them.
#![allow(dead_code)]

use gingerfile::{Console, Refusal};

/// The instrument of the examples.
pub const PIANO: &[u8] = include_bytes!("../../piano");

/// How an instrument's strings are.
pub struct Strings {
    pub keys: u8,
    /// A key.
    pub strings: u8,
    pub n: u16,
    pub stages: u16,
    /// What is left of a wave after each turn.
    pub gain: f64,
}

/// The largest instrument there is.
pub const LARGEST: Strings = Strings { keys: 16, strings: 2, n: 2_000, stages: 66, gain: 0.998 };
/// One short string.
pub const LEAST: Strings = Strings { keys: 1, strings: 1, n: 4, stages: 0, gain: 0.998 };
/// The first key.
pub const KEY: u8 = 40;

fn floats(numbers: &[f64]) -> Vec<u8> {
    numbers.iter().flat_map(|x| x.to_le_bytes()).collect()
}

/// A file as docs/FORMAT.md has it: the table, the common section, a section a key.
pub fn instrument(like: &Strings) -> Vec<u8> {
    let mut common = floats(&[48_000.0, 7.5, 0.009, 1e7, 0.1, 2e-5, 0.001_2, 1.0, 0.02]);
    common.extend(5u32.to_le_bytes());
    let mut string = [like.n.to_le_bytes(), like.stages.to_le_bytes()].concat();
    string.extend(floats(&[3.0, 0.1, -0.6, like.gain, 0.1]));
    let key = |k: u8| {
        let mut section = vec![KEY + k, 1, like.strings, 0];
        section.extend(floats(&[0.3, 1.0, 0.12, 0.3]));
        section.extend(string.repeat(like.strings as usize));
        section
    };
    let sections: Vec<Vec<u8>> = std::iter::once(common).chain((0..like.keys).map(key)).collect();
    let mut file = (sections.len() as u32).to_le_bytes().to_vec();
    let mut offset = 4 + 8 * sections.len();
    for section in &sections {
        file.extend((offset as u32).to_le_bytes());
        file.extend((section.len() as u32).to_le_bytes());
        offset += section.len();
    }
    file.extend(sections.concat());
    file
}

/// Files that are no instrument's, each with the number that refuses it: one for each number.
pub fn refused_files() -> [(Vec<u8>, u64); 6] {
    let changed = |at: usize, bytes: &[u8]| {
        let mut file = PIANO.to_vec();
        file[at..at + bytes.len()].copy_from_slice(bytes);
        file
    };
    // the table of eight keys ends at 76, the common section at 152, where key 36 begins
    [
        (vec![], 1),
        (PIANO[..PIANO.len() - 1].to_vec(), 2),
        (changed(152 + 2, &[4]), 3),
        (changed(76, &f64::NAN.to_le_bytes()), 4),
        (instrument(&Strings { keys: 11, strings: 3, ..LEAST }), 5),
        (changed(152, &[43]), 6),
    ]
}

/// The bits of samples and forces, so that signs of zeros and NaNs count.
pub fn bits(floats: &[f64]) -> Vec<u64> {
    floats.iter().map(|x| x.to_bits()).collect()
}

/// What a play of `count` gives: the bits of its samples and of its forces, the contact samples that it tells, and each key's
/// behind it.
#[derive(Debug, PartialEq)]
pub struct Played {
    pub samples: Vec<u64>,
    pub forces: Vec<u64>,
    pub contacts: u64,
    pub key_contacts: Vec<u64>,
}

/// Each key's contact samples, in the file's order.
pub fn key_contacts(console: &Console) -> Vec<u64> {
    console.key_contacts().map(|(_, count)| count).collect()
}

/// Plays `count`; the sum that the play tells is that of its keys.
pub fn play(console: &mut Console, count: usize) -> Result<Played, Refusal> {
    let (mut out, mut trace) = (vec![0.0; count], vec![0.0; count]);
    let gingerfile::Played { forces, contact_samples } = console.play(&mut out, &mut trace)?;
    let key_contacts = key_contacts(console);
    assert_eq!(contact_samples, key_contacts.iter().sum());
    assert_eq!(contact_samples, console.contact_samples());
    Ok(Played { samples: bits(&out), forces: bits(&trace[..forces]), contacts: contact_samples, key_contacts })
}
