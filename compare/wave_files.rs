//! Files for the program `decimate`, good and broken, and its runs on them.

use comparison::waves::{chunk, float_bytes, format, riff};
use std::fs;
use std::path::{Path, PathBuf};
use std::process::Command;

/// A file with other chunks before, between and after the samples.
pub fn cluttered(rate: u32, samples: &[f64]) -> Vec<u8> {
    riff(&[
        chunk(b"LIST", &[7; 5]),
        format(3, 1, rate, 64),
        chunk(b"JUNK", &[9; 70_001]),
        chunk(b"data", &float_bytes(samples)),
        chunk(b"note", b"after"),
    ])
}

/// Files that are none for the program, and words of what it says of each.
pub fn broken() -> Vec<(&'static str, Vec<u8>, &'static str)> {
    let data = chunk(b"data", &[0; 40]);
    let long = chunk(b"data", &vec![0; 8 * 1_048_577]);
    let mono = format(3, 1, 44_100, 64);
    let mut cut = riff(&[mono.clone(), data.clone()]);
    cut.truncate(cut.len() - 1);
    vec![
        ("empty", Vec::new(), "not a RIFF/WAVE file"),
        ("text", b"a line of text, and no signal".to_vec(), "not a RIFF/WAVE file"),
        ("whole_numbers", riff(&[format(1, 1, 44_100, 64), data.clone()]), "not of format 3"),
        ("stereo", riff(&[format(3, 2, 44_100, 64), data.clone()]), "not of format 3"),
        ("narrow", riff(&[format(3, 1, 44_100, 32), data.clone()]), "not of format 3"),
        ("unformatted", riff(&[data.clone(), mono.clone()]), "before its format"),
        ("no_data", riff(&[mono.clone()]), "no data chunk"),
        ("odd", riff(&[mono.clone(), chunk(b"data", &[0; 12])]), "no whole number of samples"),
        ("cut", cut, "cut short"),
        ("long", riff(&[mono, long]), "refused 17"),
    ]
}

/// What a run of the program gave; the output's bytes where it wrote any.
pub struct Run {
    pub said: String,
    pub complained: String,
    pub output: Option<Vec<u8>>,
}

pub struct Program {
    pub path: PathBuf,
    pub folder: PathBuf,
}

impl Program {
    pub fn put(&self, name: &str, bytes: &[u8]) {
        fs::write(self.folder.join(name), bytes).unwrap_or_else(|e| panic!("{name}: {e}"));
    }

    /// `decimate INPUT TAPS FACTOR out.wav` in the folder.
    pub fn run(&self, input: &str, taps: &str, factor: &str) -> Run {
        let output: &Path = &self.folder.join("out.wav");
        let _ = fs::remove_file(output);
        let arguments = [input, taps, factor, "out.wav"];
        let ran = Command::new(&self.path).args(arguments).current_dir(&self.folder).output();
        let ran = ran.unwrap_or_else(|e| panic!("{}: {e}", self.path.display()));
        Run {
            said: String::from_utf8_lossy(&ran.stdout).into_owned(),
            complained: String::from_utf8_lossy(&ran.stderr).into_owned(),
            output: fs::read(output).ok(),
        }
    }
}
