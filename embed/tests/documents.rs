//! What stands twice in the repository is the same in both places.

mod common;

use gingerfile::{Console, Refusal, CONTACT_SAMPLES, END, LONGEST_FILE, PIANO, STACK, T, WORDS};
use std::error::Error;
use std::fs::read_to_string;

/// A file of the repository, by its path from this package.
fn file(path: &str) -> String {
    read_to_string(format!("{}/{path}", env!("CARGO_MANIFEST_DIR"))).expect(path)
}

fn refusal(call: Result<Console, Refusal>) -> Refusal {
    call.expect_err("refused")
}

#[test]
fn a_refusal_has_the_words_of_the_program() {
    let source = file("../crates/refusal/src/lib.rt");
    let words = source.split("fn words").nth(1).unwrap().split("impl fmt::Display").next().unwrap();
    let words: Vec<&str> = words.split('"').skip(1).step_by(2).collect();
    let refusals = [
        Refusal::TABLE,
        Refusal::CHAIN,
        Refusal::LENGTHS,
        Refusal::FIELDS,
        Refusal::TOO_MANY_STRINGS,
        Refusal::KEY_TWICE,
        Refusal::RECORD,
        Refusal::WORK,
        Refusal::SCRATCH,
        Refusal::TRACE,
        Refusal::PAST_END,
        Refusal::SCORE_FULL,
        Refusal::VELOCITY,
        Refusal::NO_EVENT,
        Refusal::CUES_FULL,
        Refusal::REPLAY,
        Refusal::FACTOR,
        Refusal::TAPS,
        Refusal::OUTPUT,
        Refusal::BYTES,
    ];
    assert_eq!(words.len(), refusals.len());
    for (number, refusal) in (1..).zip(refusals) {
        assert_eq!(refusal.number(), number);
        assert_eq!(refusal.to_string(), format!("refused {number}: {}", refusal.meaning()));
        // the program answers no other
        if number <= 16 {
            assert_eq!(refusal.meaning(), words[number as usize - 1], "refusal {number}");
        }
    }
}

#[test]
fn a_refusal_is_an_error() {
    let error: Box<dyn Error + Send + Sync> = refusal(Console::open(&[])).into();
    assert_eq!(error.to_string(), "refused 1: the file is too short, or its number of sections is out of range");
    assert_eq!(format!("{:?}", Refusal::TAPS), "Refusal(18, \"there are not 127 taps\")");
}

#[test]
fn the_header_has_the_same_numbers() {
    let header = file("gingerfile.h");
    let number = |name: &str| -> usize {
        let rest = header.split(&format!("{name} = ")).nth(1).unwrap_or_else(|| panic!("the header has no {name}"));
        rest.split(|c: char| !c.is_ascii_digit()).next().unwrap().parse().unwrap()
    };
    let names = ["WORDS", "T", "PIANO", "CONTACT_SAMPLES", "STACK", "LONGEST_FILE"];
    let numbers = names.map(|name| number(&format!("GINGERFILE_{name}")));
    assert_eq!(numbers, [WORDS, T, PIANO, CONTACT_SAMPLES, STACK, LONGEST_FILE]);
}

/// The end of all positions: the header's, the wrapper's, the code's and the definition's.
#[test]
fn the_end_is_one_number() {
    let number = |path: &str, before: &str| -> u64 {
        let text = file(path);
        let rest = text.split(before).nth(1).unwrap_or_else(|| panic!("{path} has no {before}"));
        rest.split(|c: char| !c.is_ascii_digit()).next().unwrap().parse().unwrap()
    };
    let places = [
        ("gingerfile.h", "#define GINGERFILE_END UINT64_C("),
        ("../crates/score_edits/src/lib.rt", "pub const END: u64 = "),
        ("../crates/positions/specs/Positions.antt", "\nend = "),
    ];
    assert_eq!(places.map(|(path, before)| number(path, before)), [END; 3]);
}

/// `piano` is the instrument that the program `rehearse` has inside, as a file.
#[test]
fn the_piano_is_that_of_rehearse() {
    let source = file("../crates/embedded/src/piano.rt");
    let bytes: Vec<u8> = source.split("\\x").skip(1).map(|x| u8::from_str_radix(&x[..2], 16).unwrap()).collect();
    assert_eq!(bytes, common::PIANO, "write embed/piano again, from the bytes of crates/embedded/src/piano.rt");
}
