//! Mono WAV files of 64-bit floats, as the programs read and write them.

use crate::common::word;

/// The bytes before the samples.
pub const HEADER: usize = 58;

pub fn chunk(name: &[u8; 4], body: &[u8]) -> Vec<u8> {
    let mut bytes = name.to_vec();
    bytes.extend((body.len() as u32).to_le_bytes());
    bytes.extend(body);
    bytes.resize(bytes.len() + body.len() % 2, 0);
    bytes
}

/// The chunk that says what the samples are.
pub fn format(tag: u16, channels: u16, rate: u32, bits: u16) -> Vec<u8> {
    let mut body = tag.to_le_bytes().to_vec();
    body.extend(channels.to_le_bytes());
    body.extend(rate.to_le_bytes());
    body.extend((8 * rate).to_le_bytes());
    body.extend(8u16.to_le_bytes());
    body.extend(bits.to_le_bytes());
    body.extend(0u16.to_le_bytes()); // no more fields
    chunk(b"fmt ", &body)
}

/// Every NaN as one pattern.
pub fn float_bytes(numbers: &[f64]) -> Vec<u8> {
    numbers.iter().flat_map(|x| word(*x).to_le_bytes()).collect()
}

pub fn floats(bytes: &[u8]) -> Vec<f64> {
    bytes.chunks_exact(8).map(|b| f64::from_le_bytes(b.try_into().unwrap())).collect()
}

/// A file of chunks.
pub fn riff(chunks: &[Vec<u8>]) -> Vec<u8> {
    chunk(b"RIFF", &[b"WAVE".to_vec(), chunks.concat()].concat())
}

/// The file that the programs write: format 3, floats.
pub fn wave(rate: u32, samples: &[f64]) -> Vec<u8> {
    let count = (samples.len() as u32).to_le_bytes();
    riff(&[format(3, 1, rate, 64), chunk(b"fact", &count), chunk(b"data", &float_bytes(samples))])
}
