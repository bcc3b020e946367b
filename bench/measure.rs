//! Two sides timed in turns, so that both meet the same machine; the best of many turns counts.
#![allow(dead_code)]

use std::hint::black_box;
use std::time::Instant;

/// Turns of each side; others may use the machine meanwhile, so many short ones.
const TURNS: usize = 400;

pub struct Measured {
    what: String,
    rust: f64,
    rattle: f64,
    /// The largest ratio allowed, where one is set.
    target: Option<f64>,
}

fn seconds<A>(side: impl FnOnce() -> A) -> f64 {
    let start = Instant::now();
    black_box(side());
    start.elapsed().as_secs_f64()
}

/// Nanoseconds for each of `calls` calls that one turn of a side makes. `ready` runs before each turn and is not
/// timed.
pub fn measure<S, A>(
    what: &str,
    target: Option<f64>,
    calls: usize,
    state: &mut S,
    ready: impl Fn(&mut S),
    rust: impl Fn(&mut S) -> A,
    rattle: impl Fn(&mut S) -> A,
) -> Measured {
    let mut best = [f64::INFINITY; 2];
    for _ in 0..TURNS {
        ready(state);
        best[0] = best[0].min(seconds(|| rust(state)));
        ready(state);
        best[1] = best[1].min(seconds(|| rattle(state)));
    }
    let [rust, rattle] = best.map(|s| s * 1e9 / calls as f64);
    Measured { what: what.to_string(), rust, rattle, target }
}

impl Measured {
    /// Nanoseconds of the proved side.
    pub fn rattle(&self) -> f64 {
        self.rattle
    }

    fn ratio(&self) -> f64 {
        self.rattle / self.rust
    }

    fn missed(&self) -> bool {
        self.target.is_some_and(|most| self.ratio() > most)
    }

    fn verdict(&self) -> String {
        match self.target {
            None => "–".to_string(),
            Some(most) => format!("at most {most:.2}: {}", if self.missed() { "MISSED" } else { "met" }),
        }
    }
}

/// Prints the table; true where every target is met.
pub fn report(rows: &[Measured]) -> bool {
    report_sides(["Rust", "Rattle"], rows)
}

/// The same where the sides are others.
pub fn report_sides(sides: [&str; 2], rows: &[Measured]) -> bool {
    println!("| what | {}, ns | {}, ns | ratio | target |", sides[0], sides[1]);
    println!("|---|---:|---:|---:|---|");
    for row in rows {
        println!("| {} | {:.1} | {:.1} | {:.2} | {} |", row.what, row.rust, row.rattle, row.ratio(), row.verdict());
    }
    !rows.iter().any(Measured::missed)
}
