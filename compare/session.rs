//! Compares the program `rehearse` with the plain machine over the Rust renderer, through its own files:
//! `session PROGRAM FOLDER [--store SAMPLE]` runs PROGRAM on random lists of calls in FOLDER, and holds every answer,
//! sample and force to the reference's. SAMPLE gets some of the lists with what they must give.

mod answers;
mod console;
mod lists;
#[allow(dead_code)]
mod machine;

use answers::{floats_differ, lines_alike, numbered, refusal_in};
use comparison::common::{word, Random};
use comparison::felts::Felts;
use comparison::waves::{floats, wave, HEADER};
use comparison::{instrument, instruments};
use console::Answer;
use lists::{List, Theme, Ties};
use std::collections::BTreeMap;
use std::fmt::Write as _;
use std::fs;
use std::path::{Path, PathBuf};
use std::process::{exit, Command, Stdio};

/// How many lists of each theme, and how many of them go into the stored sample.
const LISTS: [(Theme, u64, usize); 7] = [
    (Theme::Mixed, 1_000, 32),
    (Theme::Wild, 500, 16),
    (Theme::Edits, 400, 24),
    (Theme::Full, 150, 4),
    (Theme::Lent, 250, 8),
    (Theme::Far, 24, 1),
    (Theme::Large, 60, 3),
];

/// How many refused files of each number from 1 to 6; the first of each goes into the stored sample.
const REFUSED_FILES: u64 = 40;

/// How often each refusal from 8 to 16 must come.
const EACH_REFUSAL: u64 = 100;

/// How often play and go must each be accepted with a scratch cell for each string, and refused for one fewer.
const EACH_SCRATCH: u64 = 100;

/// One of so many lists at least must have events of different kinds at one position, and one of as many an event that
/// went ahead of one that was added before it.
const ONE_TIED_IN: u64 = 3;

/// One of so many lists at least must have two keys with contact samples where their counts are compared, one of as many a kept
/// cue with such counts, and one of as many a step back to a kept cue that changes a key's count.
const ONE_COUNTED_IN: u64 = 3;

/// A stored list has no more samples.
const STORED_SAMPLES: usize = 5_000;

fn fail(message: String) -> ! {
    eprintln!("session: {message}");
    exit(1)
}

/// What the program has made of one list.
struct Made {
    answers: String,
    wav: Option<Vec<u8>>,
    forces: Option<Vec<u8>>,
}

struct Rehearse {
    program: PathBuf,
    folder: PathBuf,
}

impl Rehearse {
    fn path(&self, name: &str) -> PathBuf {
        self.folder.join(name)
    }

    fn write(&self, name: &str, bytes: &[u8]) {
        let path = self.path(name);
        fs::write(&path, bytes).unwrap_or_else(|e| fail(format!("{}: {e}", path.display())));
    }

    /// The script goes in by a file or by standard input; the forces are asked for or not.
    fn run(&self, instrument: &[u8], script: &str, by_input: bool, with_forces: bool) -> Made {
        self.write("instrument", instrument);
        self.write("script", script.as_bytes());
        let [wav, forces] = ["out.wav", "forces"].map(|name| self.path(name));
        for old in [&wav, &forces] {
            let _ = fs::remove_file(old);
        }
        let mut command = Command::new(&self.program);
        command.arg(self.path("instrument"));
        if by_input {
            let input = fs::File::open(self.path("script")).unwrap_or_else(|e| fail(format!("script: {e}")));
            command.arg("-").stdin(input);
        } else {
            command.arg(self.path("script")).stdin(Stdio::null());
        }
        command.arg(&wav);
        if with_forces {
            command.arg(&forces);
        }
        let output = command.stderr(Stdio::null()).output();
        let output = output.unwrap_or_else(|e| fail(format!("{}: {e}", self.program.display())));
        let answers = String::from_utf8_lossy(&output.stdout).into_owned();
        Made { answers, wav: fs::read(&wav).ok(), forces: fs::read(&forces).ok() }
    }

    /// A list that differs stays where it can be looked at.
    fn keep(&self, made: &Made) {
        self.write("stdout", made.answers.as_bytes());
        println!("the instrument, the script and what the program made of them are in {}", self.folder.display());
    }
}

// ---- a whole list

/// Every line that a program printed, beside the reference's.
fn answers_differ(reference: &[Answer], program: &str) -> Option<String> {
    let program: Vec<&str> = program.split_terminator('\n').collect();
    for (i, answer) in reference.iter().enumerate() {
        match program.get(i) {
            Some(line) if lines_alike(&answer.text, line) => (),
            Some(line) => return Some(format!("answer {i}: `{}`, and the program says `{line}`", answer.text)),
            None => return Some(format!("answer {i}: `{}`, and the program says nothing", answer.text)),
        }
    }
    program.get(reference.len()).map(|line| format!("the program says more: `{line}`"))
}

/// A file of floats beside the reference's.
fn file_differs(what: &str, reference: &[f64], bytes: &[u8]) -> Option<String> {
    if bytes.len() % 8 != 0 {
        return Some(format!("{what}: {} bytes are no whole number of floats", bytes.len()));
    }
    floats_differ(what, reference, &floats(bytes))
}

fn wav_differs(fs: f64, samples: &[f64], wav: Option<&[u8]>) -> Option<String> {
    let Some(wav) = wav else {
        return Some("the program wrote no WAV file".to_string());
    };
    let written = wave(fs.round() as u32, samples);
    let header = &written[..HEADER];
    if wav.len() < HEADER || &wav[..HEADER] != header {
        let head = &wav[..wav.len().min(HEADER)];
        return Some(format!("the WAV's header: the reference has {header:02x?}, the program {head:02x?}"));
    }
    file_differs("sample", samples, &wav[HEADER..])
}

/// What was compared, by kind.
#[derive(Default)]
struct Counts {
    lists: BTreeMap<String, u64>,
    answers: BTreeMap<String, u64>,
    refusals: BTreeMap<u8, u64>,
    samples: u64,
    wild_samples: u64,
    sounding: u64,
    forces: u64,
    contacts: u64,
    /// Lists with a tie, those in which an event went ahead by its kind, and those in which that is heard.
    tied: [u64; 3],
    /// Sums of contact samples, keys' own counts, and kept cues that were gone back to.
    sums: u64,
    key_counts: u64,
    cues: u64,
    /// Lists with two keys that have contact samples, those that have them at a kept cue, and those in which a step back to
    /// one changes a key's count.
    counted: [u64; 3],
    /// Plays and goes that were accepted with a scratch cell for each string, and that were refused for one fewer.
    scratch: [u64; 4],
    felts: Felts,
}

/// The kind under which files that are refused are counted.
const REFUSED_FILE: &str = "refused file";

fn add<K: Ord>(counts: &mut BTreeMap<K, u64>, kind: K) {
    *counts.entry(kind).or_insert(0) += 1;
}

impl Counts {
    fn answer(&mut self, call: &str, answer: &Answer) {
        let kind = match refusal_in(&answer.text) {
            Some(number) => {
                add(&mut self.refusals, number);
                format!("{call} refused {number}")
            }
            None if answer.text.starts_with("bad line") => "bad line".to_string(),
            None => {
                self.sums += matches!(call, "play" | "state") as u64;
                call.to_string()
            }
        };
        add(&mut self.answers, kind);
        self.samples += answer.samples.len() as u64;
        self.wild_samples += answer.samples.iter().filter(|x| !x.is_finite()).count() as u64;
        self.sounding += answer.samples.iter().filter(|x| **x != 0.0).count() as u64;
        self.forces += answer.forces.len() as u64;
        self.contacts += answer.forces.iter().filter(|x| **x > 0.0).count() as u64;
        self.key_counts += answer.key_contacts.len() as u64;
        self.scratch(call, answer);
    }

    fn scratch(&mut self, call: &str, answer: &Answer) {
        let refusal = refusal_in(&answer.text);
        let kinds = [("play", 0, None), ("go", 0, None), ("play", -1, Some(9)), ("go", -1, Some(9))];
        for (count, kind) in self.scratch.iter_mut().zip(kinds) {
            *count += (kind == (call, answer.spare, refusal)) as u64;
        }
    }

    /// The counts of a whole list, whose last answers are those of its kept cues: a go and a state each.
    fn contact_samples(&mut self, answers: &[Answer], cues: usize) {
        let told: Vec<&[usize]> = answers.iter().map(|a| &a.key_contacts[..]).filter(|keys| !keys.is_empty()).collect();
        let (_, at_cues) = told.split_at(told.len() - cues);
        let several = |told: &[&[usize]]| told.iter().any(|keys| keys.iter().filter(|n| **n > 0).count() > 1);
        let changed = told[told.len() - cues - 1..].windows(2).any(|pair| pair[0] != pair[1]);
        for (lists, has) in self.counted.iter_mut().zip([several(&told), several(at_cues), changed]) {
            *lists += has as u64;
        }
        self.cues += cues as u64;
    }

    fn ties(&mut self, ties: Ties) {
        for (lists, inserts) in self.tied.iter_mut().zip([ties.all, ties.ahead, ties.heard]) {
            *lists += (inserts > 0) as u64;
        }
    }

    /// The lists of calls, without the refused files.
    fn of_calls(&self) -> u64 {
        self.lists.iter().filter(|(theme, _)| *theme != REFUSED_FILE).map(|(_, count)| count).sum()
    }

    fn report(&self) {
        for (theme, count) in &self.lists {
            println!("lists    {theme:<24} {count:>9}");
        }
        for (kind, count) in &self.answers {
            println!("answers  {kind:<24} {count:>9}");
        }
        for (number, count) in &self.refusals {
            println!("refusal  {number:<24} {count:>9}");
        }
        let (samples, sounding, wild) = (self.samples, self.sounding, self.wild_samples);
        println!("samples  {samples} compared, {sounding} not zero, {wild} infinite or NaN");
        println!("forces   {} compared, {} above zero", self.forces, self.contacts);
        let (lists, [tied, ahead, heard]) = (self.of_calls(), self.tied);
        println!("ties     {tied} of {lists} lists have events of different kinds at one position");
        println!("         {ahead} with one that goes ahead of one added before it, {heard} for the key that this one strikes");
        let (sums, key_counts, [several, at_cues, changed]) = (self.sums, self.key_counts, self.counted);
        println!("contacts {sums} sums and {key_counts} counts of keys compared, {} kept cues gone back to", self.cues);
        println!("         {several} of {lists} lists have two keys or more with a count above zero, {at_cues} at a kept cue");
        println!("         {changed} with a step back to a kept cue that changes a key's count");
        let [plays, goes, short_plays, short_goes] = self.scratch;
        println!("scratch  {plays} plays and {goes} goes with a cell for each string, all of them NaN");
        println!("         {short_plays} plays and {short_goes} goes refused for one cell fewer");
        self.felts.report();
    }

    /// Whether so few lists have what one in `one_in` must have.
    fn few(&self, what: &str, lists: u64, one_in: u64) -> bool {
        let few = one_in * lists < self.of_calls();
        if few {
            println!("too few {what}: one list in {one_in} is wanted");
        }
        few
    }

    /// Whether each refusal from 8 to 16, scratch of just enough cells and of one fewer, ties, counts of two keys, and felts in
    /// quarters came often enough.
    fn enough(&self) -> bool {
        let ([tied, ahead, _], [several, at_cues, changed]) = (self.tied, self.counted);
        let few_ties = self.few("ties", tied.min(ahead), ONE_TIED_IN);
        let few_counts = self.few("counts of two keys", several.min(at_cues).min(changed), ONE_COUNTED_IN);
        let rare: Vec<u8> = (8..=16).filter(|n| self.refusals.get(n).copied().unwrap_or(0) < EACH_REFUSAL).collect();
        if !rare.is_empty() {
            println!("too few of the refusals {rare:?}: each is wanted {EACH_REFUSAL} times");
        }
        let few_scratch = self.scratch.iter().any(|count| *count < EACH_SCRATCH);
        if few_scratch {
            println!("too few calls at the least scratch: each kind is wanted {EACH_SCRATCH} times");
        }
        self.felts.enough() && rare.is_empty() && !few_ties && !few_counts && !few_scratch
    }
}

fn is_skipped(line: &str) -> bool {
    line.trim().is_empty() || line.starts_with('#')
}

/// The lines of a script that are answered, with their answers.
fn answered<'a>(list: &'a List, answers: &'a [Answer]) -> Vec<(&'a str, &'a Answer)> {
    let lines = list.script.lines().filter(|line| !is_skipped(line));
    lines.zip(&answers[1..]).collect()
}

/// The words that make a call's kind: `insert .. on` is an insert.
fn kind_of(line: &str) -> String {
    let words: Vec<&str> = line.split_whitespace().collect();
    match words.as_slice() {
        ["lend", what, ..] => format!("lend {what}"),
        ["insert", _, event, ..] => format!("insert {event}"),
        [call, ..] => call.to_string(),
        [] => String::new(),
    }
}

fn hexadecimal(bytes: &[u8]) -> String {
    bytes.iter().map(|b| format!("{b:02x}")).collect()
}

// ---- the stored sample

/// The sum that stands for floats in the sample: each changes it, and so does their order. Both zeros count alike.
fn sum(floats: &[f64]) -> u64 {
    floats.iter().fold(0, |sum: u64, x| {
        let bits = if *x == 0.0 { 0 } else { word(*x) };
        (sum.rotate_left(7) ^ bits).wrapping_add(0x9e37_79b9_7f4a_7c15)
    })
}

/// An answer as the sample has it: without the free words of a refusal or a bad line; behind a play the sums of its
/// samples and forces.
fn stored_answer(answer: &Answer) -> String {
    let text = format!("answer {}\n", numbered(&answer.text).unwrap_or(&answer.text));
    if answer.samples.is_empty() {
        text
    } else {
        format!("{text}sums {:016x} {:016x}\n", sum(&answer.samples), sum(&answer.forces))
    }
}

/// A list as the sample has it: the instrument, then each line of the script, with its answer where it has one.
fn stored(list: &List, answers: &[Answer]) -> String {
    let mut text = format!("instrument {}\n", hexadecimal(&list.instrument.bytes()));
    let mut answers = answers.iter();
    text.extend(answers.next().map(stored_answer));
    for line in list.script.lines() {
        let _ = writeln!(text, "line {line}");
        if !is_skipped(line) {
            text.extend(answers.next().map(stored_answer));
        }
    }
    text
}

fn stored_refusal(file: &[u8], number: u8) -> String {
    format!("instrument {}\nanswer refused {number}\n", hexadecimal(file))
}

fn few_samples(answers: &[Answer]) -> bool {
    answers.iter().map(|answer| answer.samples.len()).sum::<usize>() <= STORED_SAMPLES
}

// ---- all lists

struct Comparison {
    rehearse: Rehearse,
    counts: Counts,
    sample: Vec<String>,
}

impl Comparison {
    fn differs(&self, made: &Made, script: &str, difference: String) -> ! {
        println!("{script}");
        println!("{difference}");
        self.rehearse.keep(made);
        exit(1)
    }

    /// One list on both sides; where its blocks are short, what it gave as the sample has it.
    fn list(&mut self, theme: Theme, turn: u64) -> Option<String> {
        let mut random = Random::new((theme as u64 + 1) << 32 | turn);
        let list = lists::list(&mut random, theme, 0);
        let (by_input, with_forces) = (turn % 5 == 0, turn % 8 != 0);
        let answers = console::answers(&list.instrument, &list.script);
        let made = self.rehearse.run(&list.instrument.bytes(), &list.script, by_input, with_forces);
        let samples: Vec<f64> = answers.iter().flat_map(|answer| &answer.samples).copied().collect();
        let forces: Vec<f64> = answers.iter().flat_map(|answer| &answer.forces).copied().collect();
        let difference = answers_differ(&answers, &made.answers)
            .or_else(|| wav_differs(list.instrument.common.fs, &samples, made.wav.as_deref()))
            .or_else(|| match &made.forces {
                Some(bytes) => file_differs("force", &forces, bytes),
                None if with_forces => Some("the program wrote no forces".to_string()),
                None => None,
            });
        if let Some(difference) = difference {
            self.differs(&made, &format!("list {turn} of {theme:?}:\n{}", list.script), difference);
        }
        add(&mut self.counts.lists, format!("{theme:?}"));
        self.counts.ties(list.ties);
        self.counts.contact_samples(&answers, list.cues);
        self.counts.felts.add(list.instrument.common.h, forces.iter().any(|x| *x > 0.0));
        self.counts.answer("open", &answers[0]);
        for (line, answer) in answered(&list, &answers) {
            self.counts.answer(&kind_of(line), answer);
        }
        few_samples(&answers).then(|| stored(&list, &answers))
    }

    fn refused_file(&mut self, number: u8, turn: u64) {
        let mut random = Random::new((number as u64) << 40 | turn);
        let file = instruments::refused_file(&mut random, number);
        let Err(refusal) = instrument::read(&file) else {
            fail(format!("file {turn} for refusal {number} is accepted by the reference"));
        };
        let made = self.rehearse.run(&file, "state\n", false, true);
        let answer = Answer { text: console::refused(refusal), ..Answer::default() };
        if let Some(difference) = answers_differ(&[answer], &made.answers) {
            self.differs(&made, &format!("file {turn} for refusal {number}:"), difference);
        }
        add(&mut self.counts.lists, REFUSED_FILE.to_string());
        add(&mut self.counts.refusals, refusal);
        if turn == 0 {
            self.sample.push(stored_refusal(&file, refusal));
        }
    }
}

fn main() {
    let arguments: Vec<String> = std::env::args().skip(1).collect();
    let Some(([program, folder], options)) = arguments.split_first_chunk() else {
        fail("usage: session PROGRAM FOLDER [--store SAMPLE]".to_string());
    };
    let store = options.iter().position(|o| o == "--store").map(|i| options[i + 1].clone());
    let rehearse = Rehearse { program: Path::new(program).to_path_buf(), folder: Path::new(folder).to_path_buf() };
    let mut comparison = Comparison { rehearse, counts: Counts::default(), sample: Vec::new() };
    for (theme, count, most_stored) in LISTS {
        let short: Vec<String> = (0..count).filter_map(|turn| comparison.list(theme, turn)).collect();
        comparison.sample.extend(short.into_iter().take(most_stored));
    }
    for number in 1..=6 {
        for turn in 0..REFUSED_FILES {
            comparison.refused_file(number, turn);
        }
    }
    comparison.counts.report();
    println!("no list differs");
    if let Some(path) = store {
        let sample = comparison.sample.concat();
        fs::write(&path, &sample).unwrap_or_else(|e| fail(format!("{path}: {e}")));
        println!("{path} has {} lists, {} bytes", comparison.sample.len(), sample.len());
    }
    exit(if comparison.counts.enough() { 0 } else { 1 });
}
