//! The Rust renderer's private items, for the comparison and the bench. This is a child module of the patched
//! model.rs, so it sees them.

use super::{Allpass, Delay, Piano, StringWg};
use crate::design::LoopDesign;

pub fn contact_force(stiffness: f64, word: u32, eps_r: f64, c0: f64, c1: f64) -> f64 {
    Piano::contact_force(stiffness, f64::from(word), eps_r, c0, c1)
}

/// Each c0 gives way to its force.
#[inline(never)]
pub fn force_sweep(stiffness: f64, word: u32, eps_r: f64, c1: f64, c0: &mut [f64]) {
    for c0 in c0 {
        *c0 = contact_force(stiffness, word, eps_r, *c0, c1);
    }
}

/// The lengths of the three pairs of lines, as `StringWg::new` makes them; each pair must agree.
pub fn cuts(design: &LoopDesign, strike_ratio: f64, damper_ratio: f64) -> [usize; 3] {
    let s = StringWg::new(design, strike_ratio, damper_ratio);
    let right = [s.a_r.buf.len(), s.b_r.buf.len(), s.c_r.buf.len()];
    let left = [s.a_l.buf.len(), s.b_l.buf.len(), s.c_l.buf.len()];
    assert_eq!(right, left, "the lines of one section differ in length");
    right
}

/// The filters of one string, with their cells in document 01's order: Thiran x1, y1, each dispersion stage's,
/// loss_y1.
pub struct Filters(StringWg);

impl Filters {
    pub fn new(design: &LoopDesign) -> Filters {
        Filters(StringWg::new(design, 0.25, 0.75))
    }

    pub fn cells(&self) -> Vec<f64> {
        let mut cells = vec![self.0.thiran.x1, self.0.thiran.y1];
        cells.extend(self.row_cells());
        cells.push(self.0.loss_y1);
        cells
    }

    pub fn row_cells(&self) -> Vec<f64> {
        self.0.dispersion.iter().flat_map(|stage| [stage.x1, stage.y1]).collect()
    }

    pub fn thiran_cells(&self) -> [f64; 2] {
        [self.0.thiran.x1, self.0.thiran.y1]
    }

    pub fn set_thiran(&mut self, cells: &[f64]) {
        set_stage(&mut self.0.thiran, cells);
    }

    pub fn set_row(&mut self, cells: &[f64]) {
        for (stage, pair) in self.0.dispersion.iter_mut().zip(cells.chunks_exact(2)) {
            set_stage(stage, pair);
        }
    }

    pub fn set_loss(&mut self, y1: f64) {
        self.0.loss_y1 = y1;
    }

    #[inline(always)]
    pub fn thiran(&mut self, x: f64) -> f64 {
        self.0.thiran.process(x)
    }

    /// The row alone, as `loop_filter` runs it.
    #[inline(always)]
    pub fn row(&mut self, x: f64) -> f64 {
        run_stages(&mut self.0.dispersion, x)
    }

    #[inline(always)]
    pub fn loop_filter(&mut self, x: f64) -> f64 {
        self.0.loop_filter(x)
    }

    /// Each input of a block gives way to the row's output.
    #[inline(never)]
    pub fn row_run(&mut self, block: &mut [f64]) {
        for x in block {
            *x = self.row(*x);
        }
    }

    /// The same with the loop filter's.
    #[inline(never)]
    pub fn loop_run(&mut self, block: &mut [f64]) {
        for x in block {
            *x = self.loop_filter(*x);
        }
    }

    /// The row's outputs again, each from a copy of the row that is then put back: what a copy would cost.
    #[inline(never)]
    pub fn copied_row_run(&mut self, block: &mut [f64]) {
        let mut copy: Vec<Allpass> = self.0.dispersion.iter().map(copy_of).collect();
        for x in block {
            copy_stages(&self.0.dispersion, &mut copy);
            *x = run_stages(&mut copy, *x);
            copy_stages(&copy, &mut self.0.dispersion);
        }
    }
}

#[inline(always)]
fn run_stages(stages: &mut [Allpass], x: f64) -> f64 {
    let mut v = x;
    for ap in stages {
        v = ap.process(v);
    }
    v
}

fn copy_of(stage: &Allpass) -> Allpass {
    Allpass { a: stage.a, x1: stage.x1, y1: stage.y1 }
}

fn copy_stages(from: &[Allpass], to: &mut [Allpass]) {
    for (from, to) in from.iter().zip(to) {
        *to = copy_of(from);
    }
}

fn set_stage(stage: &mut Allpass, cells: &[f64]) {
    stage.x1 = cells[0];
    stage.y1 = cells[1];
}

// ---- the piano's state

/// The hammer's key, y_h and v_h, where one flies.
pub fn hammer(piano: &Piano) -> Option<(usize, f64, f64)> {
    piano.hammer_state.as_ref().map(|h| (h.key_index, h.y_h, h.v_h))
}

/// Each key's held, hand_damped and damper_r.
pub fn keys(piano: &Piano) -> Vec<(bool, bool, f64)> {
    piano.keys.iter().map(|k| (k.held, k.hand_damped, k.damper_r)).collect()
}

pub fn pedal(piano: &Piano) -> bool {
    piano.pedal
}

/// All cells in document 01's order, string by string: the six lines, the filters' cells, y_s, memory. A line's
/// write of number j, from 0, stands in its cell j modulo its length, as in the part of work memory.
pub fn part(piano: &Piano) -> Vec<f64> {
    let mut cells = Vec::new();
    for s in piano.keys.iter().flat_map(|k| &k.strings) {
        let lines: [&Delay; 6] = [&s.a_r, &s.a_l, &s.b_r, &s.b_l, &s.c_r, &s.c_l];
        cells.extend(lines.iter().flat_map(|line| &line.buf));
        cells.extend([s.thiran.x1, s.thiran.y1]);
        cells.extend(s.dispersion.iter().flat_map(|stage| [stage.x1, stage.y1]));
        cells.extend([s.loss_y1, s.y_s, s.memory]);
    }
    cells
}

/// Every line begins at the cell that it has reached at position t: a silent piano that has stood there all the while.
pub fn stand_at(piano: &mut Piano, t: u64) {
    for s in piano.keys.iter_mut().flat_map(|k| &mut k.strings) {
        for line in [&mut s.a_r, &mut s.a_l, &mut s.b_r, &mut s.b_l, &mut s.c_r, &mut s.c_l] {
            line.idx = (t % line.buf.len() as u64) as usize;
        }
    }
}

/// The lines get the cells that stand for them in a part of work memory.
pub fn set_lines(piano: &mut Piano, part: &[f64]) {
    let mut at = 0;
    for s in piano.keys.iter_mut().flat_map(|k| &mut k.strings) {
        for line in [&mut s.a_r, &mut s.a_l, &mut s.b_r, &mut s.b_l, &mut s.c_r, &mut s.c_l] {
            let length = line.buf.len();
            line.buf.copy_from_slice(&part[at..at + length]);
            at += length;
        }
        at += 2 * s.dispersion.len() + 5;
    }
}
