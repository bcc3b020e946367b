//! A session is kept in files by one process, and taken up by another: samples, forces and counts are those of one that was
//! never broken. The processes are this test program, started anew with what it is to do in its environment.

mod common;

use common::{play, Played, PIANO};
use gingerfile::{Console, Event, Refusal};
use std::env;
use std::fs::{create_dir_all, read, remove_dir_all, write};
use std::path::{Path, PathBuf};
use std::process::Command;

/// What names the folder to a process that is started.
const FOLDER: &str = "GINGERFILE_RESTART_FOLDER";

/// Plays into the middle of a contact, with a cue behind it.
fn before() -> Result<Console, Refusal> {
    let mut console = Console::open(PIANO)?;
    for (number, key) in (0..).zip([60, 64, 67, 72]) {
        console.insert(4_000 * number, Event::NoteOn { key, velocity: 3.0 })?;
        console.insert(4_000 * number + 3_000, Event::NoteOff { key })?;
    }
    console.insert(100, Event::Pedal(true))?;
    console.insert(9_000, Event::Pedal(false))?;
    play(&mut console, 6_000)?;
    console.cue()?;
    play(&mut console, 2_020)?;
    Ok(console)
}

/// Plays on, goes back to the cue, and plays on; then an edit behind the cue.
fn after(console: &mut Console) -> Result<[Played; 3], Refusal> {
    let on = play(console, 3_000)?;
    assert_eq!(console.go(6_000)?, 0, "the cue is still kept");
    let back = play(console, 5_000)?;
    console.remove(console.event_count() as usize - 1)?;
    let edited = play(console, 12_000)?;
    Ok([on, back, edited])
}

fn numbers(bytes: Vec<u8>) -> impl Iterator<Item = u64> {
    let word = |bytes: &[u8]| u64::from_le_bytes([0, 1, 2, 3, 4, 5, 6, 7].map(|i| bytes[i]));
    bytes.chunks_exact(8).map(word).collect::<Vec<_>>().into_iter()
}

fn bytes(numbers: impl Iterator<Item = u64>) -> Vec<u8> {
    numbers.flat_map(u64::to_le_bytes).collect()
}

/// Words and work memory as a host keeps them: beside the instrument's file, eight bytes a number.
fn keep(folder: &Path, console: &Console) {
    write(folder.join("piano"), console.file()).unwrap();
    write(folder.join("words"), bytes(console.words().iter().copied())).unwrap();
    write(folder.join("work"), bytes(console.work().iter().map(|x| x.to_bits()))).unwrap();
}

fn kept(folder: &Path) -> Result<Console, Refusal> {
    let words: Vec<u64> = numbers(read(folder.join("words")).unwrap()).collect();
    let work: Vec<f64> = numbers(read(folder.join("work")).unwrap()).map(f64::from_bits).collect();
    Console::restore(&read(folder.join("piano")).unwrap(), &words, &work)
}

/// What was played, in a file: each play's lengths and its numbers, each key's count among them.
fn tell(folder: &Path, plays: &[Played]) {
    let told = plays.iter().flat_map(|played| {
        let lengths = [played.samples.len() as u64, played.forces.len() as u64, played.contacts];
        let numbers = [&played.samples[..], &played.forces, &played.key_contacts].concat();
        lengths.into_iter().chain(numbers)
    });
    write(folder.join("played"), bytes(told)).unwrap();
}

fn folder() -> Option<PathBuf> {
    env::var_os(FOLDER).map(PathBuf::from)
}

/// The first process.
#[test]
#[ignore = "started by a_session_outlives_its_process"]
fn first_process() {
    if let Some(folder) = folder() {
        keep(&folder, &before().unwrap());
    }
}

/// The second one.
#[test]
#[ignore = "started by a_session_outlives_its_process"]
fn second_process() {
    if let Some(folder) = folder() {
        tell(&folder, &after(&mut kept(&folder).unwrap()).unwrap());
    }
}

fn process(name: &str, folder: &Path) {
    let program = env::current_exe().unwrap();
    let done = Command::new(program).args(["--exact", name, "--ignored"]).env(FOLDER, folder).output().unwrap();
    assert!(done.status.success(), "{name}: {}", String::from_utf8_lossy(&done.stdout));
}

#[test]
fn a_session_outlives_its_process() {
    let folder = Path::new(env!("CARGO_TARGET_TMPDIR")).join(format!("restart-{}", std::process::id()));
    create_dir_all(&folder).unwrap();
    process("first_process", &folder);
    process("second_process", &folder);
    let told = read(folder.join("played")).unwrap();

    let unbroken = after(&mut before().unwrap()).unwrap();
    assert!(unbroken.iter().all(|played| played.contacts > 100), "something is counted");
    let counted = |played: &Played| played.key_contacts.iter().filter(|count| **count > 0).count();
    assert!(unbroken.iter().all(|played| counted(played) > 1), "for two keys or more");
    assert!(unbroken.iter().all(|played| !played.forces.is_empty()), "a hammer flies in each");
    tell(&folder, &unbroken);
    assert!(told == read(folder.join("played")).unwrap(), "the second process played something else");
    remove_dir_all(&folder).unwrap();
}
