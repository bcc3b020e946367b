//! The session's calls beside what they are made of: plays beside the renderer alone, a cue and an edit that restores
//! one beside a copy of one part, a go beside a play of the same samples. All sides are proved but the copy.

mod grand;
mod measure;
mod plays;

use comparison::common::all_alike;
use comparison::exports::{self, Lent};
use comparison::gingerfile::Console;
use comparison::instrument::Instrument;
use grand::instrument;
use measure::{measure, report_sides, Measured};
use plays::Plays;

struct Sides {
    played: Plays,
    cells: usize,
    /// The words of a session at 150 that keeps a cue at 100.
    cued: Vec<u64>,
}

impl Sides {
    fn new(instrument: &Instrument, samples: usize) -> Sides {
        let mut cued = Console::open(&instrument.bytes()).unwrap();
        cued.go(100).unwrap();
        cued.cue().unwrap();
        cued.go(150).unwrap();
        let played = Plays::new(instrument, samples);
        Sides { played, cells: instrument.cells(), cued: cued.words().to_vec() }
    }

    fn ready(&mut self) {
        self.played.ready();
    }

    /// The renderer alone, all samples in one block.
    fn render(&mut self) -> u64 {
        let Plays { file, words, console, scratch, out, trace } = &mut self.played;
        exports::render(file, words, Lent { work: console.work_mut(), scratch, out, trace })
    }

    /// One play and one go of all samples, through the library.
    fn play(&mut self) -> u64 {
        let Plays { console, out, trace, .. } = &mut self.played;
        console.play(out, trace).unwrap().forces as u64
    }

    fn go(&mut self) -> u64 {
        self.played.console.go(self.played.out.len() as u64).unwrap()
    }

    fn cue(&mut self, times: u64) -> u64 {
        let Plays { file, words, console, .. } = &mut self.played;
        exports::cues(file, words, times, console.work_mut())
    }

    fn edit(&mut self, times: u64) -> u64 {
        let Plays { file, console, .. } = &mut self.played;
        exports::inserts(file, &self.cued, 120, times, console.work_mut())
    }

    /// A copy of one part over another, as often.
    fn copy(&mut self, times: u64) -> u64 {
        let (now, cues) = self.played.console.work_mut().split_at_mut(self.cells);
        for _ in 0..times {
            std::hint::black_box(&mut cues[..now.len()]).copy_from_slice(std::hint::black_box(now));
        }
        0
    }

    /// Plays and the renderer give the same last block and count of forces; a go, an edit and a cue are accepted.
    fn checked(&mut self) {
        self.ready();
        let forces = self.render();
        let rendered = self.played.out.clone();
        self.ready();
        let samples = rendered.len();
        assert_eq!(self.played.plays(samples), forces, "the forces differ");
        assert!(all_alike(&rendered, &self.played.out), "the samples differ");
        self.ready();
        assert_eq!(self.go(), samples as u64, "the go was refused");
        assert_eq!(self.edit(1), 100, "the edit did not restore the cue");
        assert_eq!(self.cue(1), 0, "the cue was refused");
    }
}

const TIMES: u64 = 2_000;

fn rows_of(rows: &mut Vec<Measured>, name: &str, sides: &mut Sides, least: usize) {
    sides.checked();
    let samples = sides.played.out.len();
    for block in [64, 256, 1_024] {
        let target = (block >= least).then_some(1.15);
        let what = format!("{name}: plays of {block}, beside the renderer alone");
        rows.push(measure(&what, target, samples, sides, Sides::ready, Sides::render, |s| s.played.plays(block)));
    }
    let what = format!("{name}: go, beside a play of the same samples");
    rows.push(measure(&what, Some(1.05), samples, sides, Sides::ready, Sides::play, Sides::go));
    let calls = TIMES as usize;
    let what = format!("{name}: cue, beside a copy of one part ({} cells)", sides.cells);
    rows.push(measure(&what, Some(2.0), calls, sides, |_| (), |s| s.copy(TIMES), |s| s.cue(TIMES)));
    let what = format!("{name}: edit that restores a cue, beside a copy of one part");
    rows.push(measure(&what, Some(2.0), calls, sides, |_| (), |s| s.copy(TIMES), |s| s.edit(TIMES)));
}

fn main() {
    let mut rows = Vec::new();
    rows_of(&mut rows, "3 strings", &mut Sides::new(&instrument(4, 1, 3, 0), 4_096), 256);
    rows_of(&mut rows, "32 strings, 20 stages", &mut Sides::new(&instrument(4, 16, 2, 20), 1_024), 64);
    std::process::exit(if report_sides(["beside", "call"], &rows) { 0 } else { 1 });
}
