//! A host may flush subnormal numbers, round otherwise or trap: the wrapper's calls give what they give without.

mod common;

use common::{bits, instrument, Strings, KEY};
use gingerfile::{adjust, decimate, Console, Event, Refusal, LONGEST_FILE};
use std::arch::asm;

const STANDARD: u32 = 0x1f80;
const FLUSH: u32 = STANDARD | 0x8000;
const DENORMALS_ARE_ZEROS: u32 = STANDARD | 0x0040;
const DOWN: u32 = STANDARD | 0x2000;
const UP: u32 = STANDARD | 0x4000;
const TO_ZERO: u32 = STANDARD | 0x6000;
/// Every exception traps.
const TRAPS: u32 = 0;

#[inline(never)]
fn control() -> u32 {
    let mut word = 0u32;
    unsafe { asm!("stmxcsr [{}]", in(reg) &mut word) };
    word
}

#[inline(never)]
fn set_control(word: u32) {
    unsafe { asm!("ldmxcsr [{}]", in(reg) &word) };
}

/// Makes a call with MXCSR set; what the call gives, and MXCSR as the call left it.
fn under<A>(word: u32, call: impl FnOnce() -> A) -> (A, u32) {
    set_control(word);
    let answer = call();
    let left = control();
    set_control(STANDARD);
    (answer, left)
}

/// Strings that lose three quarters of what they hold in each turn, so that a strike is below 2^-1022 within the play.
const SHORT: Strings = Strings { keys: 2, strings: 2, n: 4, stages: 1, gain: 0.25 };
const SAMPLES: usize = 24_000;

/// All that the calls give: samples, forces, counts, words and cells, and a file.
#[derive(PartialEq)]
struct Given {
    samples: Vec<u64>,
    forces: Vec<u64>,
    words: Vec<u64>,
    cells: Vec<u64>,
    energies: Vec<u64>,
    decimated: Vec<u64>,
    adjusted: Vec<u8>,
}

fn opened() -> Result<Console, Refusal> {
    let mut console = Console::open(&instrument(&SHORT))?;
    console.insert(0, Event::NoteOn { key: KEY, velocity: 3.0 })?;
    console.insert(12_000, Event::NoteOn { key: KEY + 1, velocity: 1e-320 })?;
    Ok(console)
}

/// Every call of the wrapper.
fn all_calls() -> Result<Given, Refusal> {
    let mut console = opened()?;
    let (mut out, mut trace) = (vec![0.0; SAMPLES], vec![0.0; SAMPLES]);
    let forces = console.play(&mut out, &mut trace)?.forces;
    console.cue()?;
    console.go(12_100)?;
    console.remove(1)?;
    let energies: Vec<f64> = console.energies()?.iter().map(|(_, energy)| *energy).collect();
    let kept = Console::restore(console.file(), console.words(), console.work())?;
    console.set_words(kept.words())?;
    // a subnormal weight stands in the file, and one below 0 is no zero
    let adjusted = adjust(console.file(), &[(KEY, 1e-320)])?;
    assert_eq!(adjust(console.file(), &[(KEY, -1e-320)]), Err(Refusal::RECORD));
    let mut taps = [1e-3; 127];
    taps[0] = 1e-310;
    Ok(Given {
        samples: bits(&out),
        forces: bits(&trace[..forces]),
        words: console.words().to_vec(),
        cells: bits(console.work()),
        energies: bits(&energies),
        decimated: bits(&decimate(&out, &taps, 2)?),
        adjusted,
    })
}

#[test]
fn calls_give_the_same_under_any_control_word() {
    let given = all_calls().unwrap();
    let subnormal = |x: &&u64| f64::from_bits(**x).is_subnormal();
    assert!(given.samples.iter().filter(subnormal).count() > 100, "the play has subnormal samples");
    assert!(given.forces.len() > 3);
    for word in [FLUSH, DENORMALS_ARE_ZEROS, FLUSH | DENORMALS_ARE_ZEROS, DOWN, UP, TO_ZERO, TRAPS] {
        let (others, left) = under(word, all_calls);
        assert!(others.unwrap() == given, "under {word:#06x} the calls give something else");
        assert_eq!(left, word, "the host's control word is put back");
    }
}

/// The flags below 0x40 tell what happened, and are no one's setting.
#[test]
fn a_standard_control_word_stays() {
    let (given, left) = under(STANDARD, all_calls);
    assert!(given.is_ok());
    assert_eq!(left & !0x3f, STANDARD);
}

// ---- what the calls would give if nothing were set: otherwise the tests above could not fail

#[repr(C)]
struct Report {
    refusal: u64,
    value: u64,
    dropped: u64,
    contacts: u64,
}

#[rustfmt::skip]
extern "C" {
    fn gingerfile_play(
        file: *const u8, file_length: usize, words: *mut u64, words_length: usize, work: *mut f64, work_length: usize,
        scratch: *mut f64, scratch_length: usize, out: *mut f64, out_length: usize, trace: *mut f64, trace_length: usize,
    ) -> Report;
    fn gingerfile_adjust(
        file: *const u8, file_length: usize, keys: *const u8, keys_length: usize, weights: *const f64, weights_length: usize,
        out: *mut u8, out_length: usize,
    ) -> Report;
}

/// The refusal of the library's own adjust, for a subnormal weight below 0.
fn bare_adjust() -> u64 {
    let (file, mut out) = (instrument(&SHORT), [0; LONGEST_FILE]);
    unsafe { gingerfile_adjust(file.as_ptr(), file.len(), &KEY, 1, &-1e-320, 1, out.as_mut_ptr(), out.len()).refusal }
}

/// The samples of the library's own play.
fn bare_play() -> Vec<u64> {
    let console = opened().unwrap();
    let (file, mut words, mut work) = (console.file().to_vec(), console.words().to_vec(), console.work().to_vec());
    let strings = usize::from(SHORT.keys) * usize::from(SHORT.strings);
    let (mut scratch, mut out, mut trace) = (vec![f64::NAN; strings], vec![0.0; SAMPLES], vec![0.0; SAMPLES]);
    let report = unsafe {
        gingerfile_play(
            file.as_ptr(),
            file.len(),
            words.as_mut_ptr(),
            words.len(),
            work.as_mut_ptr(),
            work.len(),
            scratch.as_mut_ptr(),
            scratch.len(),
            out.as_mut_ptr(),
            out.len(),
            trace.as_mut_ptr(),
            trace.len(),
        )
    };
    assert_eq!((report.refusal, report.dropped), (0, 0));
    assert!(report.value > 0 && report.contacts > 0);
    bits(&out)
}

#[test]
fn the_bare_library_would_give_something_else() {
    let given = bare_play();
    assert!(given == all_calls().unwrap().samples);
    for word in [FLUSH, DENORMALS_ARE_ZEROS, DOWN, UP, TO_ZERO] {
        assert!(under(word, bare_play).0 != given, "{word:#06x} makes no difference to the bare library");
    }
    assert_eq!((bare_adjust(), under(DENORMALS_ARE_ZEROS, bare_adjust).0), (7, 0));
}
