//! Weights are set in an instrument's file, and nothing else is.

mod common;

use common::{instrument, play, refused_files, LARGEST, LEAST, PIANO};
use gingerfile::{adjust, adjust_into, Console, Event, Refusal, LONGEST_FILE};

/// What every byte holds that is lent.
const LENT: u8 = 0xa5;

const GOOD: [f64; 7] = [0.0, -0.0, 5e-324, 0.3, 1.0, 99.999_999_999_999_99, 100.0];
const BAD: [f64; 6] = [f64::NAN, -5e-324, -1.0, 100.000_000_000_000_01, f64::INFINITY, f64::NEG_INFINITY];

/// The keys' numbers, and where the weight of each stands in a file, as docs/FORMAT.md has it.
fn places(file: &[u8]) -> Vec<(u8, usize)> {
    let word = |at: usize| u32::from_le_bytes([0, 1, 2, 3].map(|i| file[at + i])) as usize;
    (1..word(0)).map(|index| word(4 + 8 * index)).map(|section| (file[section], section + 4)).collect()
}

/// The file with weights put in by hand.
fn by_hand(file: &[u8], pairs: &[(u8, f64)]) -> Vec<u8> {
    let mut other = file.to_vec();
    for (key, weight) in pairs {
        let (_, at) = places(file).into_iter().find(|(number, _)| number == key).expect("the key is there");
        other[at..at + 8].copy_from_slice(&weight.to_le_bytes());
    }
    other
}

fn files() -> [Vec<u8>; 3] {
    [PIANO.to_vec(), instrument(&LARGEST), instrument(&LEAST)]
}

#[test]
fn a_weight_is_set_and_nothing_else() {
    for file in files() {
        assert_eq!(adjust(&file, &[]).unwrap(), file);
        for (key, _) in places(&file) {
            for weight in GOOD {
                assert_eq!(adjust(&file, &[(key, weight)]).unwrap(), by_hand(&file, &[(key, weight)]));
            }
        }
    }
}

/// Of all keys at a time, in the file's order and against it; one by one they give the same.
#[test]
fn weights_are_set_in_any_order() {
    for file in files() {
        let mut pairs: Vec<(u8, f64)> =
            places(&file).iter().zip(GOOD.iter().cycle()).map(|((key, _), x)| (*key, *x)).collect();
        let all = by_hand(&file, &pairs);
        assert_eq!(adjust(&file, &pairs).unwrap(), all);
        pairs.reverse();
        assert_eq!(adjust(&file, &pairs).unwrap(), all);
        assert_eq!(pairs.iter().fold(file, |file, pair| adjust(&file, &[*pair]).unwrap()), all);
    }
}

#[test]
fn minus_zero_is_kept() {
    let (key, at) = places(PIANO)[4];
    let other = adjust(PIANO, &[(key, -0.0)]).unwrap();
    assert_eq!(other[at..at + 8], [0, 0, 0, 0, 0, 0, 0, 0x80]);
    assert_eq!(adjust(&other, &[]).unwrap(), other, "and read and written again");
    assert_eq!(adjust(PIANO, &[(key, 0.0)]).unwrap()[at..at + 8], [0; 8]);
}

/// Weights before it decide nothing, not even whether the call is refused.
#[test]
fn of_a_key_named_twice_the_later_weight_stands() {
    let only = by_hand(PIANO, &[(60, 0.5), (64, 0.25)]);
    assert_eq!(adjust(PIANO, &[(60, 0.75), (64, 0.25), (60, 0.5)]).unwrap(), only);
    assert_eq!(adjust(PIANO, &[(60, f64::NAN), (64, 0.25), (60, 0.5)]).unwrap(), only);
    assert_eq!(adjust(PIANO, &[(60, 0.5), (64, 0.25), (60, f64::NAN)]), Err(Refusal::RECORD));
    let many: Vec<(u8, f64)> = (0..1_000).map(|i| (60, f64::from(i) / 10.0)).collect();
    assert_eq!(adjust(PIANO, &many).unwrap(), by_hand(PIANO, &[(60, 99.9)]));
}

#[test]
fn bytes_beyond_the_file_stay() {
    for file in files() {
        let (key, _) = places(&file)[0];
        let other = by_hand(&file, &[(key, 0.5)]);
        for more in [0, 1, 7, 8, 3_000] {
            let mut out = vec![LENT; file.len() + more];
            assert_eq!(adjust_into(&file, &[key], &[0.5], &mut out), Ok(file.len()));
            assert_eq!(out, [&other[..], &vec![LENT; more]].concat());
        }
    }
    assert_eq!(instrument(&LARGEST).len(), LONGEST_FILE);
}

/// A call that is refused has written nothing, however many bytes it is lent.
fn refused(refusal: Refusal, file: &[u8], keys: &[u8], weights: &[f64], lengths: &[usize]) {
    for length in lengths {
        let mut out = vec![LENT; *length];
        assert_eq!(adjust_into(file, keys, weights, &mut out), Err(refusal), "{keys:?} {weights:?} into {length}");
        assert_eq!(out, vec![LENT; *length], "{refusal} has written");
    }
}

#[test]
fn keys_and_weights_are_refused() {
    for file in files() {
        let n = file.len();
        let lengths = [0, 1, n - 1, n, n + 9];
        let keys: Vec<u8> = places(&file).iter().map(|(key, _)| *key).collect();
        let (first, last) = (keys[0], keys[keys.len() - 1]);
        let refused = |keys: &[u8], weights: &[f64]| refused(Refusal::RECORD, &file, keys, weights, &lengths);
        for weight in BAD {
            keys.iter().for_each(|key| refused(&[*key], &[weight]));
            let mut weights = vec![1.0; keys.len()];
            weights[keys.len() - 1] = weight;
            refused(&keys, &weights);
        }
        for key in (0..=255).filter(|key| !keys.contains(key)) {
            refused(&[key], &[1.0]);
            refused(&[first, key, last], &[1.0, 1.0, 1.0]);
        }
        refused(&[first], &[]);
        refused(&[], &[1.0]);
        refused(&[first, last], &[1.0]);
        refused(&[first], &[1.0, 1.0]);
    }
}

/// Every length below the file's.
#[test]
fn bytes_that_are_too_few_are_refused() {
    for file in files() {
        let lengths: Vec<usize> = (0..file.len()).collect();
        let (key, _) = places(&file)[0];
        refused(Refusal::BYTES, &file, &[key], &[0.5], &lengths);
        refused(Refusal::BYTES, &file, &[], &[], &lengths);
    }
    assert_eq!(Refusal::BYTES.to_string(), "refused 20: the lent bytes are fewer than the file");
}

/// Whatever else is wrong.
#[test]
fn a_file_is_refused_ahead_of_keys_and_bytes() {
    for (file, number) in refused_files() {
        for (keys, weights) in [(&[60][..], &[0.5][..]), (&[61], &[f64::NAN]), (&[60], &[])] {
            let mut out = [LENT; 40];
            assert_eq!(adjust_into(&file, keys, weights, &mut out).map_err(Refusal::number), Err(number));
            assert_eq!(out, [LENT; 40]);
        }
    }
}

/// The new file is an instrument's like any other, and sounds by its weights.
#[test]
fn an_adjusted_instrument_is_played() {
    let played = |file: &[u8]| {
        let mut console = Console::open(file).unwrap();
        assert_eq!(console.file(), file);
        console.insert(0, Event::Pedal(true)).unwrap();
        console.insert(0, Event::NoteOn { key: 60, velocity: 3.0 }).unwrap();
        let samples = play(&mut console, 4_000).unwrap().samples;
        let energies = console.energies().unwrap();
        (samples, energies.into_iter().filter(|(key, _)| *key != 60).map(|(_, energy)| energy).sum::<f64>())
    };
    let (samples, others) = played(PIANO);
    assert!(others > 0.0, "the other keys ring along");
    assert_eq!(played(&adjust(PIANO, &[]).unwrap()), (samples.clone(), others));
    let (alone, silent) = played(&adjust(PIANO, &[(60, 0.0)]).unwrap());
    assert_eq!(silent, 0.0, "a key without weight moves no other");
    assert_ne!(alone, samples);
}
