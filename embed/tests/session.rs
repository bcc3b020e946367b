//! The calls and what they refuse, through the wrapper.

mod common;

use common::{bits, instrument, key_contacts, play, refused_files, Played, Strings, KEY, LEAST, PIANO};
use gingerfile::{decimate, decimate_into, decimated_length, Console, Edited, Event, Refusal};
use gingerfile::{CONTACT_SAMPLES, END, PIANO as NOW, T, WORDS};

/// Where `gingerfile.h` has the events and the cues, and how many words each is.
const EVENTS: usize = 2;
const EVENT: usize = 4;
const CUES: usize = 258;
const CUE: usize = 72;
/// In the words of a cue: its position, and the first of its keys' contact samples.
const CUE_POSITION: usize = 1;
const CUE_CONTACT_SAMPLES: usize = 2 + (CONTACT_SAMPLES - NOW);
/// How many keys a session has words for, and how many the piano has.
const MOST_KEYS: usize = 16;
const KEYS: usize = 8;

const STRIKE: Event = Event::NoteOn { key: 60, velocity: 3.0 };

/// A score of every kind of event, played past a cue.
fn rehearsed() -> Console {
    let mut console = Console::open(PIANO).unwrap();
    console.insert(0, STRIKE).unwrap();
    console.insert(2_000, Event::NoteOff { key: 60 }).unwrap();
    console.insert(50, Event::Pedal(true)).unwrap();
    console.insert(3_000, Event::HandDamp { key: 64 }).unwrap();
    console.insert(1_000, Event::NoteOn { key: 64, velocity: 2.5 }).unwrap();
    play(&mut console, 900).unwrap();
    console.cue().unwrap();
    play(&mut console, 110).unwrap();
    console
}

/// A call that is refused as `refusal` has changed nothing.
fn refused<A: std::fmt::Debug>(
    console: &mut Console,
    refusal: Refusal,
    call: impl FnOnce(&mut Console) -> Result<A, Refusal>,
) {
    let before = (console.words().to_vec(), bits(console.work()));
    assert_eq!(call(console).map(|_| ()), Err(refusal));
    assert_eq!((console.words().to_vec(), bits(console.work())), before, "{refusal} has changed the session");
}

#[test]
fn files_are_refused_by_number() {
    let refusal = |file: &[u8]| Console::open(file).map(|_| ()).map_err(Refusal::number);
    assert_eq!(refusal(PIANO), Ok(()));
    for (file, number) in refused_files() {
        assert_eq!(refusal(&file), Err(number));
    }
}

/// The piano, which has 5 halves behind the common section's floats, with another exponent.
fn with_exponent(word: u32) -> Vec<u8> {
    let at = 76 + 72;
    assert_eq!(PIANO[at..at + 4], 5u32.to_le_bytes());
    [&PIANO[..at], &word.to_le_bytes(), &PIANO[at + 4..]].concat()
}

/// What a strike of a piano sounds like, a cue and a step back to it among it, and the session's words behind it.
fn strike_of(file: &[u8]) -> (Vec<Played>, Vec<u64>) {
    let mut console = Console::open(file).unwrap();
    console.insert(0, STRIKE).unwrap();
    let mut played = vec![play(&mut console, 300).unwrap()];
    console.cue().unwrap();
    played.push(play(&mut console, 700).unwrap());
    console.go(300).unwrap();
    played.push(play(&mut console, 700).unwrap());
    assert_eq!(played[1], played[2]);
    (played, console.words().to_vec())
}

#[test]
fn ten_quarters_are_five_halves() {
    let halves = strike_of(PIANO);
    assert!(halves.0[0].contacts > 0);
    assert_eq!(strike_of(&with_exponent(256 + 10)), halves);
    for quarters in (4..=20).filter(|quarters| *quarters != 10) {
        assert_ne!(strike_of(&with_exponent(256 + quarters)).0[0], halves.0[0], "{quarters} quarters");
    }
}

#[test]
fn exponents_are_halves_from_2_to_10_and_quarters_from_4_to_20() {
    for word in (0..=600).chain([65_536 + 5, 65_536 + 263, u32::MAX]) {
        let taken = (2..=10).contains(&word) || (260..=276).contains(&word);
        let opened = Console::open(&with_exponent(word)).map(|_| ()).map_err(Refusal::number);
        assert_eq!(opened, if taken { Ok(()) } else { Err(4) }, "the word {word}");
    }
}

#[test]
fn calls_are_refused_by_number_and_change_nothing() {
    let mut console = rehearsed();
    let (mut out, mut trace) = ([7.0; 10], [8.0; 9]);
    refused(&mut console, Refusal::TRACE, |c| c.play(&mut out, &mut trace));
    assert_eq!((out, trace), ([7.0; 10], [8.0; 9]));
    for past in [END + 1, u64::MAX] {
        refused(&mut console, Refusal::PAST_END, |c| c.go(past));
        refused(&mut console, Refusal::PAST_END, |c| c.insert(past, STRIKE));
    }
    refused(&mut console, Refusal::REPLAY, |c| c.go(END));
    refused(&mut console, Refusal::REPLAY, |c| c.go(1_010 + 1_000_001));
    refused(&mut console, Refusal::NO_EVENT, |c| c.remove(5));
    for velocity in [100.5, -100.5, f64::NAN] {
        refused(&mut console, Refusal::VELOCITY, |c| c.insert(2_000, Event::NoteOn { key: 60, velocity }));
    }
    for _ in 0..3 {
        play(&mut console, 1).unwrap();
        console.cue().unwrap();
    }
    console.cue().expect("a cue that is kept already");
    play(&mut console, 1).unwrap();
    refused(&mut console, Refusal::CUES_FULL, |c| c.cue());
    while console.event_count() < 64 {
        console.insert(5_000, STRIKE).unwrap();
    }
    refused(&mut console, Refusal::SCORE_FULL, |c| c.insert(5_000, STRIKE));
}

#[test]
fn a_session_tells_its_score_cues_and_counts() {
    let mut console = rehearsed();
    let score = [
        (0, STRIKE),
        (50, Event::Pedal(true)),
        (1_000, Event::NoteOn { key: 64, velocity: 2.5 }),
        (2_000, Event::NoteOff { key: 60 }),
        (3_000, Event::HandDamp { key: 64 }),
    ];
    assert_eq!(console.events().collect::<Vec<_>>(), score);
    assert_eq!(console.cues().collect::<Vec<_>>(), [900]);
    assert_eq!((console.position(), console.event_count(), console.fs()), (1_010, 5, 44_100.0));
    assert!(console.contact_samples() > 0 && console.peak_force() > 0.0);
    assert_eq!(console.file(), PIANO);
    let keys: Vec<u8> = console.energies().unwrap().iter().map(|(key, _)| *key).collect();
    assert_eq!(keys, [36, 43, 48, 55, 60, 64, 67, 72]);
    let said = format!("{console:?}");
    assert!(said.contains("position: 1010") && said.contains("cues: [900]") && said.len() < 1_000, "{said}");

    assert_eq!(console.remove(2).unwrap(), Edited { t: 900, dropped: 0 });
    assert_eq!(console.events().map(|(q, _)| q).collect::<Vec<_>>(), [0, 50, 2_000, 3_000]);
    assert_eq!(console.insert(20, Event::Pedal(false)).unwrap(), Edited { t: 0, dropped: 1 });
    assert_eq!((console.cues().count(), console.contact_samples(), console.peak_force()), (0, 0, 0.0));
}

/// Where a kind stands among the events of its position.
fn rank(event: &Event) -> usize {
    match event {
        Event::NoteOff { .. } => 0,
        Event::HandDamp { .. } => 1,
        Event::Pedal(_) => 2,
        Event::NoteOn { .. } => 3,
    }
}

/// 64 events at eight positions: the score is what sorting them by position and kind gives, those of one kind in the order of
/// adding.
#[test]
fn events_of_one_position_stand_by_their_kinds() {
    for turn in 0u64..40 {
        let mut console = Console::open(PIANO).unwrap();
        let mut sorted = Vec::new();
        let mut bits = turn;
        for i in 0..64u8 {
            bits = bits.wrapping_mul(6_364_136_223_846_793_005).wrapping_add(1_442_695_040_888_963_407);
            let position = bits >> 33 & 3 | (bits >> 40 & 1) << 30;
            let event = match bits >> 50 & 3 {
                0 => Event::NoteOn { key: i, velocity: 1.0 },
                1 => Event::NoteOff { key: i },
                2 => Event::Pedal(bits >> 60 & 1 == 1),
                _ => Event::HandDamp { key: i },
            };
            console.insert(position, event).unwrap();
            sorted.push((position, event));
        }
        sorted.sort_by_key(|(position, event)| (*position, rank(event)));
        assert_eq!(console.events().collect::<Vec<_>>(), sorted);
    }
}

/// A note that is struck again where it is let go: it sounds, whichever of the two is added first.
#[test]
fn a_repeated_note_is_not_muted() {
    let again = Event::NoteOn { key: 60, velocity: 2.0 };
    let release = Event::NoteOff { key: 60 };
    let played = |first: Event, second: Event| {
        let mut console = Console::open(PIANO).unwrap();
        console.insert(0, STRIKE).unwrap();
        console.insert(6_000, first).unwrap();
        console.insert(6_000, second).unwrap();
        assert_eq!(console.events().collect::<Vec<_>>(), [(0, STRIKE), (6_000, release), (6_000, again)]);
        console.go(6_000).unwrap();
        let out = play(&mut console, 20_000).unwrap();
        let energy = console.energies().unwrap()[4];
        (out, energy)
    };
    let (release_first, (key, energy)) = played(release, again);
    assert_eq!(played(again, release), (release_first, (key, energy)));

    let mut muted = Console::open(PIANO).unwrap();
    muted.insert(0, STRIKE).unwrap();
    muted.insert(6_000, again).unwrap();
    muted.insert(6_001, release).unwrap();
    muted.go(26_000).unwrap();
    let (_, damped) = muted.energies().unwrap()[4];
    assert!(key == 60 && energy > 100.0 * damped, "{energy} beside {damped}");
}

/// Kept words whose events break the order are no session's; with the two events changed about they are.
#[test]
fn words_that_break_the_order_are_refused() {
    let mut console = rehearsed();
    console.insert(2_000, Event::NoteOn { key: 60, velocity: 2.0 }).unwrap();
    let kept = console.words().to_vec();
    let at = EVENTS + 3 * EVENT;
    let kinds = |words: &[u64]| [words[at + 1], words[at + EVENT + 1]];
    assert_eq!(kinds(&kept), [1, 0], "a release, then a strike");
    let mut changed = kept.clone();
    changed[at..at + 2 * EVENT].rotate_left(EVENT);
    assert_eq!(kinds(&changed), [0, 1]);
    refused(&mut console, Refusal::RECORD, |c| c.set_words(&changed));
    assert_eq!(Console::restore(PIANO, &changed, console.work()).map(|_| ()), Err(Refusal::RECORD));
    // as a strike at 2,000 and a release one sample later they pass, and so do those that were kept
    changed[at + EVENT] += 1;
    console.set_words(&changed).unwrap();
    console.set_words(&kept).unwrap();
}

#[test]
fn words_of_another_length_are_refused() {
    let mut console = rehearsed();
    let mut long = console.words().to_vec();
    long.push(0);
    // 541 were those of a version that had one count for all keys
    for words in [&[][..], &long[..541], &long[..WORDS - 1], &long] {
        refused(&mut console, Refusal::RECORD, |c| c.set_words(words));
        assert_eq!(Console::restore(PIANO, words, console.work()).map(|_| ()), Err(Refusal::RECORD));
    }
    assert_eq!(console.position(), 1_010);
    let words = console.words().to_vec();
    console.set_words(&words).expect("its own words");
}

/// Each word in turn all ones: refused, but for those that decide nothing, past the score's end, in slots that keep no cue and
/// past the last key.
/// In the words of a piano: the dampers, the contact samples, whether a hammer flies, its key, place and speed, and the peak force.
const DAMPERS: usize = 32;
const COUNTS: usize = CONTACT_SAMPLES - NOW;
const FLIES: usize = 65;
const PEAK: usize = 69;
/// Where the first cue has its piano.
const CUE_PIANO: usize = CUES + 2;

/// The piano that word `i` belongs to, the one now or that of a cue which is kept, and the word's place in it.
fn in_piano(words: &[u64], i: usize) -> Option<(&[u64], usize)> {
    if i < CUES {
        return None;
    }
    if i >= NOW {
        return Some((&words[NOW..], i - NOW));
    }
    let (cue, word) = (CUES + (i - CUES) / CUE * CUE, (i - CUES) % CUE);
    (words[cue] == 1 && word >= 2).then(|| (&words[cue + 2..], word - 2))
}

/// Whether word `i` counts for nothing: events past the number of events, the velocity of an event that is not a strike, a cue that is
/// not kept, the words of a hammer that does not fly, counts past the last key.
fn is_unused(words: &[u64], i: usize) -> bool {
    if let Some((piano, at)) = in_piano(words, i) {
        return COUNTS + KEYS <= at && at < COUNTS + MOST_KEYS || FLIES < at && at < PEAK && piano[FLIES] == 0;
    }
    if (EVENTS..CUES).contains(&i) {
        let (event, word) = ((i - EVENTS) / EVENT, (i - EVENTS) % EVENT);
        return words[1] <= event as u64 || word == 3 && words[EVENTS + EVENT * event + 1] != 0;
    }
    i >= CUES && (i - CUES) % CUE != 0 && words[CUES + (i - CUES) / CUE * CUE] == 0
}

/// Whether word `i` is a float of a state that is held.
fn is_float(words: &[u64], i: usize) -> bool {
    in_piano(words, i).is_some_and(|(_, at)| (DAMPERS..COUNTS).contains(&at) || (FLIES + 2..=PEAK).contains(&at))
}

#[test]
fn words_of_no_session_are_refused() {
    let mut console = rehearsed();
    let kept = console.words().to_vec();
    for i in 0..WORDS {
        let mut words = kept.clone();
        words[i] = u64::MAX;
        let answer = console.set_words(&words);
        let right = is_unused(&kept, i) || is_float(&kept, i);
        assert_eq!(answer, if right { Ok(()) } else { Err(Refusal::RECORD) }, "word {i}");
        console.set_words(&kept).unwrap();
        assert_eq!(console.words(), kept);
    }
}

/// Flags are 0 or 1, in the piano and in a kept cue.
#[test]
fn flags_of_two_are_refused() {
    let mut console = rehearsed();
    let kept = console.words().to_vec();
    assert_eq!(kept[CUES], 1, "the first cue is kept");
    for piano in [CUE_PIANO, NOW] {
        for flag in (0..DAMPERS).chain([FLIES - 1, FLIES]) {
            let mut words = kept.clone();
            words[piano + flag] = 2;
            refused(&mut console, Refusal::RECORD, |c| c.set_words(&words));
        }
    }
    let mut words = kept;
    words[CUES] = 2;
    refused(&mut console, Refusal::RECORD, |c| c.set_words(&words));
}

/// "Floats of the state may hold anything": every pattern of a NaN is the one NaN, in the piano and in a kept cue.
#[test]
fn every_nan_is_read_as_nan() {
    let played_with = |nan: u64| {
        let mut console = rehearsed();
        let kept = console.words().to_vec();
        let mut words = kept.clone();
        assert_eq!((words[CUES], words[NOW + FLIES]), (1, 1), "a cue is kept, and a hammer flies");
        for i in (0..WORDS).filter(|&i| is_float(&kept, i)) {
            words[i] = nan;
        }
        console.set_words(&words).unwrap();
        assert_eq!(console.words(), words, "words are kept as they were put in");
        let mut out = [0.0; 64];
        let mut trace = [0.0; 64];
        let played = console.play(&mut out, &mut trace).unwrap();
        let now = console.words().to_vec();
        let went = console.go(950).unwrap();
        (played, bits(&out), bits(&trace), now, went, console.words().to_vec(), bits(console.work()))
    };
    let one = played_with(f64::NAN.to_bits());
    for nan in [0xfff8_0000_0000_0000, 0x7ff0_0000_0000_0001, 0xfff0_0000_0000_0001, u64::MAX] {
        assert!(f64::from_bits(nan).is_nan());
        assert_eq!(played_with(nan), one, "{nan:x}");
    }
}

/// What counts for nothing decides nothing.
#[test]
fn places_that_count_for_nothing_decide_nothing() {
    let mut console = rehearsed();
    let kept = console.words().to_vec();
    let mut words = kept.clone();
    for i in (0..WORDS).filter(|&i| is_unused(&kept, i)) {
        words[i] = 0x0123_4567_89ab_cdef;
    }
    let mut other = console.clone();
    other.set_words(&words).unwrap();
    for p in [1_200, 905, 2_500] {
        assert_eq!(other.go(p), console.go(p));
        assert_eq!(bits(other.work()), bits(console.work()));
        let (new, right) = (other.words(), console.words());
        for i in (0..WORDS).filter(|&i| !is_unused(right, i)) {
            assert_eq!(new[i], right[i], "word {i} at {p}");
        }
    }
}

// ---- a count for each key

/// Three keys struck, and a cue at 900, ahead of the third strike.
fn counted() -> Console {
    let mut console = Console::open(PIANO).unwrap();
    for (position, key) in [(0, 60), (500, 64), (1_000, 48)] {
        console.insert(position, Event::NoteOn { key, velocity: 3.0 }).unwrap();
    }
    play(&mut console, 900).unwrap();
    console.cue().unwrap();
    play(&mut console, 1_100).unwrap();
    console
}

/// A sample in contact counts for the struck key: each count is that of the forces above zero while its hammer flies.
#[test]
fn each_key_has_a_count_of_its_own() {
    let mut console = Console::open(PIANO).unwrap();
    let mut counts = vec![0; KEYS];
    for (position, key, index) in [(0, 60, 4), (700, 64, 5), (1_400, 48, 2), (2_100, 60, 4)] {
        console.insert(position, Event::NoteOn { key, velocity: 3.0 }).unwrap();
        let played = play(&mut console, 700).unwrap();
        counts[index] += played.forces.iter().filter(|force| f64::from_bits(**force) > 0.0).count() as u64;
        assert_eq!(played.key_contacts, counts);
        assert_eq!(played.contacts, counts.iter().sum::<u64>());
        let numbered: Vec<(u8, u64)> =
            [36, 43, 48, 55, 60, 64, 67, 72].into_iter().zip(counts.iter().copied()).collect();
        assert_eq!(console.key_contacts().collect::<Vec<_>>(), numbered);
    }
    assert!([2, 4, 5].iter().all(|i| counts[*i] > 10) && counts[4] > counts[5], "{counts:?}");
}

#[test]
fn a_step_back_brings_each_count_back() {
    let mut console = counted();
    let now = key_contacts(&console);
    assert!([2, 4, 5].iter().all(|i| now[*i] > 10), "{now:?}");
    assert_eq!(console.go(900), Ok(0));
    let at_cue = key_contacts(&console);
    assert_eq!((at_cue[2], at_cue[4], at_cue[5]), (0, now[4], now[5]));
    assert_eq!(console.contact_samples(), now[4] + now[5]);
    // where the second strike is still to act nothing is kept: the first is replayed from silence
    assert_eq!(console.go(500), Ok(500));
    assert_eq!((console.contact_samples(), key_contacts(&console)[4]), (now[4], now[4]));
    // an edit between cue and third strike takes the piano back to the cue
    console.go(2_000).unwrap();
    assert_eq!(key_contacts(&console), now);
    assert_eq!(console.insert(950, Event::NoteOn { key: 72, velocity: 2.0 }).unwrap(), Edited { t: 900, dropped: 0 });
    assert_eq!(key_contacts(&console), at_cue);
    assert_eq!(console.insert(10, Event::Pedal(true)).unwrap(), Edited { t: 0, dropped: 1 });
    assert_eq!(key_contacts(&console), [0; KEYS]);
}

/// The words with other counts from `at` on, by the key's index.
fn with_counts(words: &[u64], at: usize, counts: &[(usize, u64)]) -> Vec<u64> {
    let mut changed = words.to_vec();
    changed[at..at + KEYS].fill(0);
    for (key, count) in counts {
        changed[at + key] = *count;
    }
    changed
}

/// Counts of keys and whether their sum is at most the position.
fn sums(position: u64) -> [(Vec<(usize, u64)>, bool); 9] {
    let half = 1 << 63;
    [
        (vec![], true),
        (vec![(0, position)], true),
        (vec![(7, position)], true),
        (vec![(0, position - 30), (3, 10), (7, 20)], true),
        (vec![(0, position - 30), (3, 10), (7, 21)], false),
        (vec![(7, position + 1)], false),
        (vec![(2, half), (5, half)], false), // 0, where a sum of 64 bits wraps
        (vec![(0, 1), (7, u64::MAX)], false),
        ((0..KEYS).map(|key| (key, u64::MAX)).collect(), false),
    ]
}

/// Both ways in accept the words, or refuse them as 7.
fn tried(console: &mut Console, words: &[u64], accepted: bool) {
    let restored = Console::restore(PIANO, words, console.work()).map(|_| ());
    if accepted {
        assert_eq!(restored, Ok(()));
        let before = console.words().to_vec();
        console.set_words(words).unwrap();
        assert_eq!(console.words(), words);
        console.set_words(&before).unwrap();
    } else {
        assert_eq!(restored, Err(Refusal::RECORD));
        refused(console, Refusal::RECORD, |c| c.set_words(words));
    }
}

#[test]
fn counts_whose_sum_passes_the_position_are_refused() {
    let mut console = counted();
    let words = console.words().to_vec();
    assert_eq!(words[T], 2_000);
    for (counts, accepted) in sums(2_000) {
        tried(&mut console, &with_counts(&words, CONTACT_SAMPLES, &counts), accepted);
    }
}

/// The sum of a kept cue is held to its own position, below t or above it.
#[test]
fn counts_of_a_cue_are_held_to_its_own_position() {
    let mut console = Console::open(PIANO).unwrap();
    play(&mut console, 100).unwrap();
    console.cue().unwrap();
    play(&mut console, 100).unwrap();
    let words = console.words().to_vec();
    assert_eq!((words[T], words[CUES], words[CUES + CUE_POSITION]), (200, 1, 100));
    let at = CUES + CUE_CONTACT_SAMPLES;
    tried(&mut console, &with_counts(&words, at, &[(3, 100), (4, 50)]), false);
    for (counts, accepted) in sums(100) {
        tried(&mut console, &with_counts(&words, at, &counts), accepted);
    }
    // a slot that keeps no cue may hold anything
    let free = CUES + CUE + CUE_CONTACT_SAMPLES;
    for (counts, _) in sums(100) {
        tried(&mut console, &with_counts(&words, free, &counts), true);
    }

    console.go(50).unwrap();
    let words = console.words().to_vec();
    assert_eq!(words[T], 50);
    tried(&mut console, &with_counts(&words, at, &[(3, 60), (4, 40)]), true);
    tried(&mut console, &with_counts(&words, at, &[(3, 61), (4, 40)]), false);
}

/// Counts that are handed in are counted on from, each for its own key.
#[test]
fn counts_that_are_handed_in_go_on() {
    let mut console = counted();
    let words = with_counts(console.words(), CONTACT_SAMPLES, &[(0, 7), (5, 300)]);
    console.set_words(&words).unwrap();
    console.insert(2_000, Event::NoteOn { key: 64, velocity: 3.0 }).unwrap();
    let played = play(&mut console, 700).unwrap();
    assert!(played.key_contacts[5] > 300 && played.contacts > 307);
    assert_eq!(played.key_contacts, [7, 0, 0, 0, 0, played.contacts - 7, 0, 0]);
}

/// What the calls answer from a session on; a play of no samples tells the counts.
fn answers(console: &mut Console) -> Result<(Vec<Played>, [u64; 2], [Edited; 2]), Refusal> {
    let mut played = vec![play(console, 400)?];
    console.cue()?;
    played.push(play(console, 300)?);
    let back = console.go(2_400)?;
    played.push(play(console, 0)?);
    let first = console.go(900)?;
    played.push(play(console, 0)?);
    let edited = [console.insert(1_500, STRIKE)?, console.remove(0)?];
    played.push(play(console, 1_600)?);
    Ok((played, [back, first], edited))
}

/// The places past the last key, of the piano now and of a kept cue: any numbers are accepted there and no answer changes. A
/// play leaves them, and a cue keeps them.
#[test]
fn counts_past_the_last_key_decide_nothing() {
    let mut console = counted();
    let (words, work) = (console.words().to_vec(), console.work().to_vec());
    let mut changed = words.clone();
    for at in [CONTACT_SAMPLES, CUES + CUE_CONTACT_SAMPLES] {
        changed[at + KEYS..at + MOST_KEYS].fill(u64::MAX);
    }
    tried(&mut console, &changed, true);
    let mut other = Console::restore(PIANO, &changed, &work).unwrap();
    assert_eq!(other.contact_samples(), console.contact_samples());
    assert!(other.key_contacts().eq(console.key_contacts()));
    let past = |console: &Console| console.words()[CONTACT_SAMPLES + KEYS..CONTACT_SAMPLES + MOST_KEYS].to_vec();
    let mut stepped = other.clone();
    play(&mut stepped, 100).unwrap();
    assert_eq!(past(&stepped), [u64::MAX; MOST_KEYS - KEYS]);
    assert_eq!(stepped.go(900), Ok(0));
    assert_eq!(past(&stepped), [u64::MAX; MOST_KEYS - KEYS]);
    assert_eq!(answers(&mut other).unwrap(), answers(&mut console).unwrap());
}

/// An instrument of 16 keys has no place past the last: each key has its count, and all of them are in the sum.
#[test]
fn sixteen_keys_have_sixteen_counts() {
    let like = Strings { keys: 16, n: 40, ..LEAST };
    let mut console = Console::open(&instrument(&like)).unwrap();
    for k in 0..16 {
        console.insert(100 * k as u64, Event::NoteOn { key: KEY + k, velocity: 1.0 + k as f64 / 8.0 }).unwrap();
    }
    let played = play(&mut console, 1_700).unwrap();
    assert_eq!(console.key_contacts().map(|(key, _)| key).collect::<Vec<_>>(), (KEY..KEY + 16).collect::<Vec<_>>());
    assert!(played.key_contacts.len() == MOST_KEYS && played.key_contacts.iter().all(|count| *count > 0));
    let mut words = console.words().to_vec();
    words[CONTACT_SAMPLES + 15] += 1_700 - played.contacts;
    console.set_words(&words).unwrap();
    words[CONTACT_SAMPLES + 15] += 1;
    refused(&mut console, Refusal::RECORD, |c| c.set_words(&words));
}

#[test]
fn zero_words_are_a_session_in_silence() {
    let mut opened = Console::open(PIANO).unwrap();
    let cells = opened.work().len();
    let mut zeros = Console::restore(PIANO, &[0; WORDS], &vec![0.0; cells]).unwrap();
    for console in [&mut opened, &mut zeros] {
        console.insert(10, STRIKE).unwrap();
    }
    assert_eq!(play(&mut opened, 2_000), play(&mut zeros, 2_000));

    // with a work memory that is not silent they are not the session that was opened
    let mut loud = Console::restore(PIANO, &[0; WORDS], &vec![0.5; cells]).unwrap();
    assert!(play(&mut loud, 100).unwrap().samples.iter().any(|x| *x != 0));
}

#[test]
fn what_is_restored_is_tested() {
    let mut console = rehearsed();
    let (words, work) = (console.words().to_vec(), console.work().to_vec());
    let restored = |file: &[u8], words: &[u64], work: &[f64]| Console::restore(file, words, work).map(|_| ());
    assert_eq!(restored(&PIANO[1..], &words, &work), Err(Refusal::TABLE));
    assert_eq!(restored(PIANO, &words, &work[1..]), Err(Refusal::WORK));
    assert_eq!(restored(PIANO, &words, &[&work[..], &[0.0]].concat()), Err(Refusal::WORK));
    // a hammer flies on the sixth key: no session of an instrument with one key
    assert_eq!((words[NOW + 65], words[NOW + 66]), (1, 5));
    assert_eq!(restored(&instrument(&LEAST), &words, &work), Err(Refusal::RECORD));
    for (t, answer) in [(END, Ok(())), (END + 1, Err(Refusal::RECORD)), (u64::MAX, Err(Refusal::RECORD))] {
        let mut later = words.clone();
        later[T] = t;
        assert_eq!(restored(PIANO, &later, &work), answer, "t {t}");
    }

    let mut again = Console::restore(PIANO, &words, &work).unwrap();
    assert_eq!(play(&mut again, 3_000), play(&mut console, 3_000));
    assert_eq!(again.go(900), Ok(0));
    console.go(900).unwrap();
    assert_eq!(play(&mut again, 3_000), play(&mut console, 3_000));
}

/// Handed in at a position: in silence, with a cue there and a strike a little later.
fn silent_at(base: u64) -> Console {
    let mut console = Console::open(PIANO).unwrap();
    let mut words = console.words().to_vec();
    words[T] = base;
    console.set_words(&words).unwrap();
    console.cue().unwrap();
    console.insert(base + 10, STRIKE).unwrap();
    console
}

#[test]
fn a_session_plays_to_the_last_position() {
    let base = END - 1_000;
    let (mut near, mut far) = (silent_at(0), silent_at(base));
    for console in [&mut near, &mut far] {
        console.play(&mut [0.0; 600], &mut [0.0; 600]).unwrap();
        console.cue().unwrap();
    }
    assert_eq!((far.position(), far.contact_samples()), (END - 400, near.contact_samples()));
    assert_eq!(far.cues().collect::<Vec<u64>>(), [base, END - 400]);
    assert_eq!(far.events().collect::<Vec<(u64, Event)>>(), [(base + 10, STRIKE)]);
    refused(&mut far, Refusal::PAST_END, |c| play(c, 401));
    assert_eq!(play(&mut far, 400), play(&mut near, 400));
    assert_eq!(far.position(), END);
    refused(&mut far, Refusal::PAST_END, |c| play(c, 1));
    refused(&mut far, Refusal::PAST_END, |c| c.go(END + 1));
    refused(&mut far, Refusal::PAST_END, |c| c.insert(END + 1, STRIKE));
    assert_eq!(far.go(END - 100), Ok(300));
    assert_eq!(near.go(900), Ok(300));
    assert_eq!(play(&mut far, 100), play(&mut near, 100));
    assert_eq!(far.insert(END, STRIKE), Ok(Edited { t: END, dropped: 0 }));
    assert_eq!(far.insert(END - 500, STRIKE), Ok(Edited { t: base, dropped: 1 }));
    assert_eq!(far.contact_samples(), 0);
}

/// A count of all samples up to the position, near the end, grows by those in contact.
#[test]
fn counts_are_of_64_bits() {
    let mut few = silent_at(END - 1_000);
    let mut words = few.words().to_vec();
    words[CONTACT_SAMPLES] = END - 1_000;
    let mut many = Console::restore(PIANO, &words, few.work()).unwrap();
    let of_few = few.play(&mut [0.0; 1_000], &mut [0.0; 1_000]).unwrap();
    let of_many = many.play(&mut [0.0; 1_000], &mut [0.0; 1_000]).unwrap();
    assert!(of_few.contact_samples > 0);
    assert_eq!(of_many.contact_samples, END - 1_000 + of_few.contact_samples);
    assert_eq!(many.contact_samples(), of_many.contact_samples);
    words[CONTACT_SAMPLES] += 1;
    assert_eq!(Console::restore(PIANO, &words, many.work()).map(|_| ()), Err(Refusal::RECORD));
}

/// In place, without memory of its own.
#[test]
fn words_and_work_memory_are_put_back() {
    let mut console = rehearsed();
    let (words, work) = (console.words().to_vec(), console.work().to_vec());
    let first = play(&mut console, 2_500).unwrap();
    console.insert(10, STRIKE).unwrap();
    console.set_words(&words).unwrap();
    console.work_mut().copy_from_slice(&work);
    assert_eq!(play(&mut console, 2_500).unwrap(), first);
}

#[test]
fn a_clone_is_a_session_of_its_own() {
    let mut console = rehearsed();
    let mut other = console.clone();
    other.insert(1_100, Event::NoteOn { key: 72, velocity: 4.0 }).unwrap();
    let (first, second) = (play(&mut console, 2_000).unwrap(), play(&mut other, 2_000).unwrap());
    assert_eq!(first.samples[..50], second.samples[..50]);
    assert_ne!(first.samples, second.samples);
    assert_eq!((console.event_count(), other.event_count()), (5, 6));
}

#[test]
fn the_decimator_refuses_by_number() {
    let (x, taps) = ([1.0; 1_000], [0.25; 127]);
    assert_eq!(decimate(&x, &taps, 65), Err(Refusal::FACTOR));
    assert_eq!(decimate(&vec![0.0; 1_048_577], &taps, 2), Err(Refusal::FACTOR));
    assert_eq!(decimate(&x, &taps[1..], 2), Err(Refusal::TAPS));
    let mut out = [9.0; 333];
    assert_eq!(decimated_length(1_000, 3), 334);
    assert_eq!(decimate_into(&x, &taps, 3, &mut out), Err(Refusal::OUTPUT));
    assert_eq!(out, [9.0; 333]);
    assert_eq!(decimate(&x, &taps, 1).unwrap(), x);
    assert_eq!(decimate(&x, &taps, 3).unwrap()[100], 127.0 * 0.25);
}
