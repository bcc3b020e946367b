//! How the time of a sample grows with the strings, their stages and the contact of the hammer, beside the Rust; what one
//! more string, stage or contact costs; and how many strings play in real time on this machine.

mod grand;
mod measure;
mod sides;

use comparison::model::Event;
use grand::{instrument, KEY};
use measure::{measure, Measured};
use sides::Sides;

const SAMPLES: usize = 512;

/// Keys of up to three strings, so many in all; h = 5, the dearer kind. With contact a heavy hammer stays on the first
/// key's strings throughout.
fn row(strings: usize, stages: usize, contact: bool) -> (Measured, f64) {
    let mut made = instrument(5, strings.div_ceil(3).min(16), 3, stages);
    let mut left = strings;
    for key in &mut made.keys {
        key.strings.truncate(left.min(3));
        left -= key.strings.len();
    }
    made.common.mass = 1_000.0;
    let strike = (0, Event::NoteOn { key: KEY, velocity: 3.0 });
    let plural = if strings == 1 { "" } else { "s" };
    let what = format!("{strings} string{plural}, {stages} stages{}", if contact { ", in contact" } else { "" });
    let mut sides = Sides::new(made, SAMPLES, if contact { vec![strike] } else { Vec::new() }, 0);
    let share = sides.checked(&what);
    (measure(&what, None, SAMPLES, &mut sides, Sides::ready, Sides::rust, |s| s.rattle(SAMPLES)), share)
}

fn main() {
    let mut rows = Vec::new();
    for stages in [0, 20, 66] {
        for strings in [1, 3, 8, 16, 32] {
            rows.push(row(strings, stages, false).0);
        }
    }
    for strings in [1, 2, 3] {
        let (measured, share) = row(strings, 0, true);
        assert!(share > 0.95, "{strings} strings: {share} in contact");
        rows.push(measured);
    }
    measure::report(&rows);
    let proved = |i: usize| rows[i].rattle();
    let string = (proved(4) - proved(1)) / 29.0;
    let stage = (proved(14) - proved(4)) / (32.0 * 66.0);
    let contact = (proved(17) - proved(1)) / 3.0;
    println!();
    println!("| what | ns |");
    println!("|---|---:|");
    println!("| 3 strings, no stages, no contact | {:.1} |", proved(1));
    println!("| each string more | {string:.1} |");
    println!("| each stage of a string, in fours | {stage:.2} |");
    println!("| each string in contact | {contact:.0} |");
    println!();
    for (rate, stages) in [(44_100.0, 66), (352_800.0, 0), (352_800.0, 20), (352_800.0, 66)] {
        let fits = |strings: &usize| row(*strings, stages, true).0.rattle() < 1e9 / rate;
        let most = (1..=32).rev().find(fits).unwrap_or(0);
        println!("{most} strings of {stages} stages play in real time at {rate} samples a second, a key of three in contact.");
    }
}
