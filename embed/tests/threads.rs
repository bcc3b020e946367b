//! Any number of threads, each with a session of its own, on stacks no larger than the wrapper asks for.

mod common;

use common::{instrument, play, Played, KEY, LARGEST, LEAST, PIANO};
use gingerfile::{adjust, decimate, Console, Event, Refusal};
use std::thread::Builder;

/// What a host is told to give a thread that makes the calls.
const THREAD: usize = 65_536;

/// Every call, on a key in contact.
fn rehearse(file: &[u8], key: u8) -> Result<[Played; 2], Refusal> {
    let mut console = Console::open(file)?;
    console.insert(0, Event::NoteOn { key, velocity: 3.0 })?;
    let first = play(&mut console, 300)?;
    console.cue()?;
    console.insert(350, Event::NoteOff { key })?;
    console.go(400)?;
    console.remove(1)?;
    console.energies()?;
    let mut console = Console::restore(file, console.words(), console.work())?;
    let words = console.words().to_vec();
    console.set_words(&words)?;
    let second = play(&mut console.clone(), 300)?;
    decimate(&[1.0; 300], &[1.0; 127], 2)?;
    assert_ne!(adjust(file, &[(key, 0.5)])?, file);
    Ok([first, second])
}

#[test]
fn a_console_may_go_to_another_thread() {
    fn goes<A: Send + Sync + Clone + 'static>() {}
    goes::<Console>();
    goes::<Refusal>();
}

#[test]
fn sessions_on_threads_do_not_meet() {
    let alone = rehearse(PIANO, 60).unwrap();
    assert!(alone[0].contacts > 10);
    let threads: Vec<_> = (0..8).map(|_| std::thread::spawn(|| rehearse(PIANO, 60).unwrap())).collect();
    for thread in threads {
        assert_eq!(thread.join().unwrap(), alone);
    }
}

/// A stack that is too small ends the whole test program.
#[test]
fn small_threads_have_room_for_every_call() {
    for like in [LARGEST, LEAST] {
        let file = instrument(&like);
        let thread = Builder::new().stack_size(THREAD).spawn(move || rehearse(&file, KEY).unwrap()).unwrap();
        assert!(thread.join().unwrap()[0].contacts > 0);
    }
}
