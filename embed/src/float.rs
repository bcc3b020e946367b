//! How floats are computed. The proofs speak of IEEE 754 rounded to nearest, with subnormal numbers; audio hosts often have
//! the processor flush those to zero. The library computes with SSE2 alone, so that MXCSR decides.

use std::arch::asm;

#[cfg(not(target_arch = "x86_64"))]
compile_error!("libgingerfile.a is machine code for x86-64");

/// MXCSR as a program is started with: to nearest, nothing flushed to zero, no exception that traps.
const STANDARD: u32 = 0x1f80;
/// Its bits that decide: flush to zero 0x8000, rounding 0x6000, masks of the exceptions 0x1f80, denormals are zeros 0x40. The
/// six below only tell what happened.
const DECIDES: u32 = 0xffc0;

#[inline]
fn control() -> u32 {
    let mut word = 0u32;
    // SAFETY: writes the four bytes that it is given.
    unsafe { asm!("stmxcsr [{}]", in(reg) &mut word, options(nostack, preserves_flags)) };
    word
}

#[inline]
fn set_control(word: u32) {
    // SAFETY: reads the four bytes that it is given. The word is the standard one, which Rust asks for, or the one that the host
    // had set before it came here.
    unsafe { asm!("ldmxcsr [{}]", in(reg) &word, options(nostack)) };
}

/// Puts the host's control word back.
struct Host(u32);

impl Drop for Host {
    #[inline]
    fn drop(&mut self) {
        set_control(self.0);
    }
}

/// Makes a call with floats computed as the proofs have them, whatever the host has set.
#[inline]
pub fn standard<A>(call: impl FnOnce() -> A) -> A {
    let word = control();
    if word & DECIDES == STANDARD {
        return call();
    }
    let _host = Host(word);
    set_control(STANDARD);
    call()
}

#[cfg(test)]
mod tests {
    use super::*;
    use std::time::Instant;

    fn nanoseconds(call: impl Fn(u32) -> u32) -> f64 {
        const CALLS: u32 = 1_000_000;
        let turn = || {
            let (start, mut last) = (Instant::now(), 0);
            for i in 0..CALLS {
                // each waits for the one before
                last = call(last ^ i);
            }
            assert!(last < u32::MAX);
            start.elapsed().as_secs_f64() * 1e9 / f64::from(CALLS)
        };
        (0..50).map(|_| turn()).fold(f64::INFINITY, f64::min)
    }

    #[inline(never)]
    fn nothing(x: u32) -> u32 {
        x & 0xff
    }

    /// `cargo test --release --lib -- --ignored --nocapture`
    #[test]
    #[ignore = "prints a time"]
    fn cost() {
        let bare = nanoseconds(nothing);
        let costs = [STANDARD, STANDARD | 0x8040].map(|word| {
            set_control(word);
            let cost = nanoseconds(|x| standard(|| nothing(x)));
            set_control(STANDARD);
            cost - bare
        });
        println!("{:.1} ns a call, {:.1} where the host flushes subnormal numbers", costs[0], costs[1]);
    }
}
