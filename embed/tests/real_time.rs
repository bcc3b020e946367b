//! What an audio callback may call allocates nothing and frees nothing.

mod common;

use common::PIANO;
use gingerfile::{adjust_into, decimate_into, Console, Event, Refusal, LONGEST_FILE};
use std::alloc::{GlobalAlloc, Layout, System};
use std::cell::Cell;

thread_local! {
    static TURNS: Cell<u64> = const { Cell::new(0) };
}

/// The system's allocator, with a count of its turns on each thread.
struct Counting;

unsafe impl GlobalAlloc for Counting {
    unsafe fn alloc(&self, layout: Layout) -> *mut u8 {
        TURNS.with(|turns| turns.set(turns.get() + 1));
        System.alloc(layout)
    }

    unsafe fn dealloc(&self, pointer: *mut u8, layout: Layout) {
        TURNS.with(|turns| turns.set(turns.get() + 1));
        System.dealloc(pointer, layout)
    }
}

#[global_allocator]
static ALLOCATOR: Counting = Counting;

fn turns<A>(call: impl FnOnce() -> A) -> u64 {
    let before = TURNS.with(Cell::get);
    let answer = call();
    let after = TURNS.with(Cell::get);
    drop(answer);
    after - before
}

#[test]
fn calls_of_a_callback_allocate_nothing() {
    let mut console = Console::open(PIANO).unwrap();
    let (mut out, mut trace) = ([0.0; 256], [0.0; 256]);
    let words = console.words().to_vec();
    let work = console.work().to_vec();
    let mut file = [0; LONGEST_FILE];
    let mut callback = || -> Result<usize, Refusal> {
        console.insert(10, Event::NoteOn { key: 60, velocity: 3.0 })?;
        console.insert(300, Event::Pedal(true))?;
        let played = console.play(&mut out, &mut trace)?;
        assert_eq!(console.key_contacts().map(|(_, count)| count).sum::<u64>(), played.contact_samples);
        assert_eq!(console.contact_samples(), played.contact_samples);
        console.cue()?;
        console.go(400)?;
        console.remove(1)?;
        console.key_energies()?;
        assert_eq!(console.remove(9), Err(Refusal::NO_EVENT));
        assert_eq!((console.events().count(), console.cues().count()), (1, 1));
        decimate_into(&out, &[0.5; 127], 2, &mut trace[..128])?;
        assert_eq!(adjust_into(console.file(), &[60, 64], &[0.5, 0.25], &mut file)?, PIANO.len());
        assert_eq!(adjust_into(console.file(), &[61], &[0.5], &mut file), Err(Refusal::RECORD));
        console.set_words(&words)?;
        console.work_mut().copy_from_slice(&work);
        Ok(played.forces)
    };
    let mut forces = Ok(0);
    assert_eq!(turns(|| forces = callback()), 0);
    assert!(forces.unwrap() > 0);
    assert!(turns(|| console.clone()) > 0, "the count counts");
}
