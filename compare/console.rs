//! The program `rehearse` in ordinary Rust: a script's lines, and their answers by the plain machine and the Rust's
//! renders.

use crate::machine::{Edited, Lent, Machine, Played, Renders, END};
use comparison::instrument::Instrument;
use comparison::model::Event;

/// The program's own memory, which no `lend` exceeds.
pub const SCRATCH: u64 = 256;
pub const TRACE: u64 = 65_536;
pub const WORK: u64 = 662_000;
/// The longest play: the program's buffer of output.
pub const BLOCK: u64 = 65_536;

pub enum Call {
    Play(u64),
    Cue,
    Go(u64),
    Insert(u64, Event),
    Remove(u64),
    Energies,
    State,
    LendScratch(u64),
    LendTrace(u64),
    LendWork(u64),
}

/// A decimal of at most 64 bits: digits alone.
fn number(text: &str) -> Option<u64> {
    if text.bytes().all(|b| b.is_ascii_digit()) {
        text.parse().ok()
    } else {
        None
    }
}

fn at_most(text: &str, most: u64) -> Option<u64> {
    number(text).filter(|n| *n <= most)
}

fn key(text: &str) -> Option<u8> {
    at_most(text, 255).map(|n| n as u8)
}

/// `0x` and 16 hexadecimal digits, or a decimal of at most 15 digits with an optional sign and fraction. The
/// library's reading is rounded once, to the nearest.
fn velocity(text: &str) -> Option<f64> {
    if let Some(digits) = text.strip_prefix("0x") {
        let sixteen = digits.len() == 16 && digits.bytes().all(|b| b.is_ascii_hexdigit());
        return if sixteen { u64::from_str_radix(digits, 16).ok().map(f64::from_bits) } else { None };
    }
    let unsigned = text.strip_prefix(['+', '-']).unwrap_or(text);
    let (whole, fraction) = unsigned.split_once('.').unwrap_or((unsigned, ""));
    let digits = whole.len() + fraction.len();
    let decimal = [whole, fraction].iter().all(|part| part.bytes().all(|b| b.is_ascii_digit()));
    if decimal && (1..=15).contains(&digits) {
        text.parse().ok()
    } else {
        None
    }
}

fn event(words: &[&str]) -> Option<Event> {
    match words {
        ["on", k, v] => Some(Event::NoteOn { key: key(k)?, velocity: velocity(v)? }),
        ["off", k] => Some(Event::NoteOff { key: key(k)? }),
        ["pedal", "down"] => Some(Event::Pedal(true)),
        ["pedal", "up"] => Some(Event::Pedal(false)),
        ["hand", k] => Some(Event::HandDamp { key: key(k)? }),
        _ => None,
    }
}

/// None where the line is none of the program's.
pub fn call_of(words: &[&str]) -> Option<Call> {
    match words {
        ["play", m] => at_most(m, BLOCK).map(Call::Play),
        ["cue"] => Some(Call::Cue),
        ["go", p] => number(p).map(Call::Go),
        ["insert", q, event_words @ ..] => Some(Call::Insert(number(q)?, event(event_words)?)),
        ["remove", i] => number(i).map(Call::Remove),
        ["energies"] => Some(Call::Energies),
        ["state"] => Some(Call::State),
        ["lend", "scratch", n] => at_most(n, SCRATCH).map(Call::LendScratch),
        ["lend", "trace", n] => at_most(n, TRACE).map(Call::LendTrace),
        ["lend", "work", n] => at_most(n, WORK).map(Call::LendWork),
        _ => None,
    }
}

/// One line's answer, what it played, and each key's contact samples where it tells them.
#[derive(Default)]
pub struct Answer {
    pub text: String,
    pub samples: Vec<f64>,
    pub forces: Vec<f64>,
    pub key_contacts: Vec<usize>,
    /// Scratch cells lent beyond one for each string.
    pub spare: i64,
}

fn ok(text: String) -> Answer {
    Answer { text: format!("ok{text}"), ..Answer::default() }
}

fn edited(answer: Edited) -> Answer {
    ok(format!(" {} {}", answer.t, answer.dropped))
}

fn bits(x: f64) -> String {
    if x.is_nan() {
        "nan".to_string()
    } else {
        format!("{:016x}", x.to_bits())
    }
}

/// What the reference prints behind a refusal's number; the comparison leaves it aside.
fn words_of(refusal: u8) -> &'static str {
    match refusal {
        1 => "the file is too short, or its number of sections is out of range",
        2 => "the sections do not chain",
        3 => "a section has a wrong length",
        4 => "a field is out of range",
        5 => "more than 32 strings",
        6 => "a key comes twice",
        8 => "work memory is too short",
        9 => "scratch is too short",
        10 => "the trace is shorter than the output",
        11 => "beyond the last position",
        12 => "the score is full",
        13 => "the velocity is not from -100 to 100",
        14 => "no event has this index",
        15 => "four other cues are kept",
        16 => "more than 1000000 samples to replay",
        _ => "refused",
    }
}

pub fn refused(number: u8) -> String {
    format!("refused {number}: {}", words_of(number))
}

/// The program with an instrument: the session's plain machine, the renders, and what is lent.
pub struct Console<'a> {
    pub machine: Machine,
    pub renders: Renders<'a>,
    pub lent: Lent,
}

impl<'a> Console<'a> {
    /// It opens at `base`, which is position 0 in all that it is asked and answers; so its end is as much earlier.
    pub fn open(instrument: &'a Instrument, base: u64) -> Console<'a> {
        let lent = Lent { scratch: instrument.string_count(), trace: TRACE as usize, work: WORK as usize };
        Console { machine: Machine::open(instrument, END - base), renders: Renders::new(instrument, base), lent }
    }

    fn state(&mut self) -> Answer {
        let Machine { score, t, cues, .. } = &self.machine;
        let mark = self.renders.at(score, *t);
        let (contact, peak) = (mark.contact_samples, bits(mark.peak_force));
        let keys: String = mark.key_contacts.iter().map(|n| format!(" {n}")).collect();
        let cues: String = cues.iter().map(|c| format!(" {c}")).collect();
        let answer = ok(format!(" t {t} contact {contact} keys{keys} peak {peak} events {} cues{cues}", score.len()));
        Answer { key_contacts: mark.key_contacts, ..answer }
    }

    fn play(&mut self, m: u64) -> Result<Answer, u8> {
        let t = self.machine.t;
        self.machine.play(&self.lent, m)?;
        let Played { samples, forces, contact_samples } = self.renders.play(&self.machine.score, t, m);
        Ok(Answer { text: format!("ok {} {contact_samples}", forces.len()), samples, forces, ..Answer::default() })
    }

    fn energies(&mut self) -> Result<Answer, u8> {
        self.machine.energies(&self.lent)?;
        let mark = self.renders.at(&self.machine.score, self.machine.t);
        Ok(ok(mark.energies.iter().map(|(key, e)| format!(" {key}:{}", bits(*e))).collect()))
    }

    fn lend(place: &mut usize, cells: u64) -> Answer {
        *place = cells as usize;
        ok(String::new())
    }

    fn answer(&mut self, call: Call) -> Result<Answer, u8> {
        match call {
            Call::Play(m) => self.play(m),
            Call::Cue => self.machine.cue(&self.lent).map(|()| ok(String::new())),
            Call::Go(p) => self.machine.go(&self.lent, p).map(|n| ok(format!(" {n}"))),
            Call::Insert(q, event) => {
                let answer = self.machine.insert(&self.lent, q, event)?;
                self.renders.edited();
                Ok(edited(answer))
            }
            Call::Remove(i) => {
                let answer = self.machine.remove(&self.lent, i)?;
                self.renders.edited();
                Ok(edited(answer))
            }
            Call::Energies => self.energies(),
            Call::State => Ok(self.state()),
            Call::LendScratch(n) => Ok(Self::lend(&mut self.lent.scratch, n)),
            Call::LendTrace(n) => Ok(Self::lend(&mut self.lent.trace, n)),
            Call::LendWork(n) => Ok(Self::lend(&mut self.lent.work, n)),
        }
    }

    /// The answer to line `at` of the script, counted from 1; none to a blank line or a remark.
    pub fn line(&mut self, at: usize, line: &str) -> Option<Answer> {
        let words: Vec<&str> = line.split([' ', '\t']).filter(|word| !word.is_empty()).collect();
        if words.is_empty() || line.starts_with('#') {
            return None;
        }
        Some(match call_of(&words) {
            None => Answer { text: format!("bad line {at}: it is no call"), ..Answer::default() },
            Some(call) => {
                let refusal = |number| Answer { text: refused(number), ..Answer::default() };
                let spare = self.lent.scratch as i64 - self.machine.strings as i64;
                Answer { spare, ..self.answer(call).unwrap_or_else(refusal) }
            }
        })
    }
}

/// The first line of all, once the file is read.
pub fn opened(instrument: &Instrument) -> Answer {
    ok(format!(" {} {}", instrument.string_count(), instrument.cells()))
}

/// Every answer to a script, in order, the opening first.
pub fn answers(instrument: &Instrument, script: &str) -> Vec<Answer> {
    let mut console = Console::open(instrument, 0);
    let lines = script.lines().enumerate();
    let answers = lines.filter_map(|(i, line)| console.line(i + 1, line));
    std::iter::once(opened(instrument)).chain(answers).collect()
}
