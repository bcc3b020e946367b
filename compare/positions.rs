//! Compares the library with the plain machine over the Rust renderer where positions are large: at the last ones, where plays,
//! goes and inserts meet refusal 11, and across the end that there was before and the last position of 32 bits.
//!
//! No list of calls from opening comes there. So the record of a session in silence is handed in at such a position, its base, and
//! its first call keeps a cue there. The machine answers the same list from 0, with every position as much earlier, its end too, and
//! the Rust renders from 0, its lines at the cells that they have reached at the base. Neither steps back behind its first cue, so both
//! must give the same samples, forces, counts, cells, refusals, scores and cues.

mod answers;
#[allow(dead_code)]
mod console;
#[allow(dead_code)]
mod lists;
mod machine;

use answers::{floats_differ, lines_alike, refusal_in};
use comparison::calls::{self, Report};
use comparison::common::Random;
use comparison::gingerfile::{self, CONTACT_SAMPLES, PIANO, T, WORDS};
use comparison::instrument::Instrument;
use comparison::model::Event;
use console::{call_of, Answer, Call, Console};
use lists::{List, Theme};
use machine::{Lent, Machine, END, FORMER_END};
use std::process::exit;

// Where `gingerfile.h` has the rest of a session's words.
const COUNT: usize = 1;
const EVENTS: usize = 2;
const EVENT: usize = 4;
const CUES: usize = 258;
const CUE: usize = 72;
const PEAK_FORCE: usize = 615;

/// What stands in cells before a call; no sample or force has it.
const UNSET: f64 = -4.5e301;
/// Cells lent beyond those that a call may write.
const BEYOND: usize = 8;

/// An event's words behind its position: kind, key, a strike's velocity by its bits.
fn event_words(event: &Event) -> [u64; 3] {
    match *event {
        Event::NoteOn { key, velocity } => [0, key as u64, velocity.to_bits()],
        Event::NoteOff { key } => [1, key as u64, 0],
        Event::Pedal(down) => [2, down as u64, 0],
        Event::HandDamp { key } => [3, key as u64, 0],
    }
}

/// A session of the library, handed in at its base.
struct Handed {
    file: Vec<u8>,
    base: u64,
    keys: usize,
    words: Vec<u64>,
    work: Vec<f64>,
    /// 5W.
    cells: usize,
}

/// What a play is lent, and gets back.
struct Block {
    out: Vec<f64>,
    trace: Vec<f64>,
}

fn all_unset(cells: &[f64]) -> bool {
    cells.iter().all(|x| *x == UNSET)
}

fn bits_of(cells: &[f64]) -> Vec<u64> {
    cells.iter().map(|x| x.to_bits()).collect()
}

fn answer_of(text: String) -> Answer {
    Answer { text, ..Answer::default() }
}

impl Handed {
    /// In silence, with no events and no cues.
    fn at(instrument: &Instrument, base: u64) -> Handed {
        let (file, cells) = (instrument.bytes(), 5 * instrument.cells());
        let (mut words, mut work) = (vec![0; WORDS], vec![UNSET; cells + BEYOND]);
        let opened = calls::open(&file, &mut words, &mut work[..cells]);
        assert_eq!(opened.refusal, 0, "open");
        words[T] = base;
        Handed { file, base, keys: instrument.keys.len(), words, work, cells }
    }

    fn call(&mut self, call: &Call, lent: &Lent, block: &mut Block) -> Report {
        let Handed { file, base, words, work, .. } = self;
        let cells = lent.work.min(work.len());
        let work = &mut work[..cells];
        let mut scratch = vec![f64::NAN; lent.scratch];
        // what is beyond every position stays so
        let later = |p: u64| p.saturating_add(*base);
        match call {
            Call::Play(_) => calls::play(file, words, work, &mut scratch, &mut block.out, &mut block.trace),
            Call::Cue => calls::cue(file, words, work),
            Call::Go(p) => calls::go(file, words, work, &mut scratch, later(*p)),
            Call::Insert(q, event) => {
                let [kind, key, velocity] = event_words(event);
                calls::insert(file, words, work, later(*q), (kind, key, f64::from_bits(velocity)))
            }
            Call::Remove(index) => calls::remove(file, words, work, *index as usize),
            _ => Report { refusal: 0, value: 0, dropped: 0, contacts: 0 },
        }
    }

    /// The answer as the machine has it, with the samples and forces of a play. A refused call must leave every cell as it was,
    /// and an accepted one those past its own.
    fn answer(&mut self, call: &Call, lent: &Lent) -> Answer {
        let m = if let Call::Play(m) = call { *m as usize } else { 0 };
        let mut block = Block { out: vec![UNSET; m], trace: vec![UNSET; lent.trace.min(m + BEYOND)] };
        let before = (self.words.clone(), bits_of(&self.work));
        let Report { refusal, value, dropped, contacts } = self.call(call, lent, &mut block);
        let forces = if m > 0 && refusal == 0 { value as usize } else { 0 };
        assert!(all_unset(&self.work[self.cells..]), "a cell past the work memory is written");
        assert!(all_unset(&block.trace[forces..]), "a cell of the trace past the forces is written");
        if refusal != 0 {
            assert!(before == (self.words.clone(), bits_of(&self.work)), "a refused call has written");
            assert!(all_unset(&block.out), "a refused play has written");
            return answer_of(console::refused(refusal as u8));
        }
        let text = match call {
            Call::Play(_) => format!("ok {value} {contacts}"),
            Call::Go(_) => format!("ok {value}"),
            Call::Insert(..) | Call::Remove(_) => format!("ok {} {dropped}", value - self.base),
            Call::Energies => return answer_of(self.energies(lent)),
            Call::State => self.state(),
            _ => "ok".to_string(),
        };
        block.trace.truncate(forces);
        Answer { text, samples: block.out, forces: block.trace, ..Answer::default() }
    }

    /// By the wrapper, which takes no more than the cells that an instrument asks for.
    fn energies(&self, lent: &Lent) -> String {
        let cells = lent.work.min(self.cells);
        let restored = gingerfile::Console::restore(&self.file, &self.words, &self.work[..cells]);
        let energies = match restored.and_then(|console| console.key_energies()) {
            Ok(energies) => energies,
            Err(refusal) => return console::refused(refusal.number() as u8),
        };
        let keys = energies.keys.iter().zip(&energies.energies).take(energies.count);
        keys.fold("ok".to_string(), |text, (key, energy)| text + &format!(" {key}:{:016x}", energy.to_bits()))
    }

    fn cues(&self) -> Vec<u64> {
        let kept = self.words[CUES..PIANO].chunks(CUE).filter(|cue| cue[0] == 1);
        let mut positions: Vec<u64> = kept.map(|cue| cue[1] - self.base).collect();
        positions.sort();
        positions
    }

    fn state(&self) -> String {
        let counts = &self.words[CONTACT_SAMPLES..CONTACT_SAMPLES + self.keys];
        let (t, contact, peak) = (self.words[T] - self.base, counts.iter().sum::<u64>(), self.words[PEAK_FORCE]);
        let listed = |numbers: &[u64]| numbers.iter().fold(String::new(), |text, n| text + &format!(" {n}"));
        let (keys, cues, events) = (listed(counts), listed(&self.cues()), self.words[COUNT]);
        format!("ok t {t} contact {contact} keys{keys} peak {peak:016x} events {events} cues{cues}")
    }

    /// The standing score, position and cues beside the machine's.
    fn stands_as(&self, machine: &Machine) -> bool {
        let event = |(q, event): &(u64, Event)| {
            let [kind, key, velocity] = event_words(event);
            [self.base + q, kind, key, velocity]
        };
        let score: Vec<u64> = machine.score.iter().flat_map(event).collect();
        let cues: Vec<u64> = machine.cues.iter().copied().collect();
        let [t, count] = [self.words[T] - self.base, self.words[COUNT]];
        let events = &self.words[EVENTS..EVENTS + EVENT * machine.score.len()];
        (t, count as usize) == (machine.t, machine.score.len()) && events == score && self.cues() == cues
    }
}

// ---- what was compared

/// What each kind of call must come up at least.
const EACH: u64 = 50;

/// The kinds of calls that must come up, and whether a call on this machine is of each.
fn kinds(machine: &Machine, base: u64, call: &Call, refusal: Option<u8>) -> [(&'static str, bool); 12] {
    let (end, t, score) = (machine.end, machine.t, &machine.score);
    let across = |edge: u64, m: u64| base + t <= edge && edge < base + t + m;
    let (accepted, past_end) = (refusal.is_none(), refusal == Some(11));
    [
        ("play to the end", matches!(call, Call::Play(m) if accepted && *m > 0 && t + m == end)),
        ("play one sample past it: 11", matches!(call, Call::Play(m) if past_end && t + m == end + 1)),
        ("cue at the end", matches!(call, Call::Cue if accepted && t == end)),
        ("go to the end", matches!(call, Call::Go(p) if accepted && t < *p && *p == end)),
        ("go back from the end", matches!(call, Call::Go(p) if accepted && *p < t && t == end)),
        ("go to the position past it: 11", matches!(call, Call::Go(p) if past_end && *p == end + 1)),
        ("insert at the end", matches!(call, Call::Insert(q, _) if accepted && *q == end)),
        ("insert at the position past it: 11", matches!(call, Call::Insert(q, _) if past_end && *q == end + 1)),
        ("insert that steps back from the end", matches!(call, Call::Insert(q, _) if accepted && *q < t && t == end)),
        ("remove at the end", matches!(call, Call::Remove(i) if accepted && score[*i as usize].0 == end)),
        ("play across the former end", matches!(call, Call::Play(m) if accepted && across(FORMER_END, *m))),
        ("play across 32 bits", matches!(call, Call::Play(m) if accepted && across(u32::MAX as u64, *m))),
    ]
}

#[derive(Default)]
struct Counts {
    lists: u64,
    calls: u64,
    refusals: u64,
    samples: u64,
    sounding: u64,
    forces: u64,
    contacts: u64,
    cells: u64,
    kinds: Vec<(&'static str, u64)>,
}

impl Counts {
    fn call(&mut self, kinds: &[(&'static str, bool)], answer: &Answer) {
        self.calls += 1;
        self.refusals += refusal_in(&answer.text).is_some() as u64;
        self.samples += answer.samples.len() as u64;
        self.sounding += answer.samples.iter().filter(|x| **x != 0.0).count() as u64;
        self.forces += answer.forces.len() as u64;
        self.contacts += answer.forces.iter().filter(|x| **x > 0.0).count() as u64;
        self.kinds.resize(kinds.len(), ("", 0));
        for (count, (kind, is)) in self.kinds.iter_mut().zip(kinds) {
            *count = (kind, count.1 + *is as u64);
        }
    }

    fn report(&self) {
        println!(
            "lists    {} from a record handed in, {} calls, {} of them refused",
            self.lists, self.calls, self.refusals
        );
        println!("samples  {} compared, {} not zero", self.samples, self.sounding);
        println!("forces   {} compared, {} above zero; {} cells of strings", self.forces, self.contacts, self.cells);
        for (kind, count) in &self.kinds {
            println!("calls    {kind:<40} {count:>9}");
        }
    }

    fn enough(&self) -> bool {
        let rare: Vec<&str> = self.kinds.iter().filter(|(_, count)| *count < EACH).map(|(kind, _)| *kind).collect();
        if !rare.is_empty() {
            println!("too few of {rare:?}: each is wanted {EACH} times");
        }
        rare.is_empty()
    }
}

// ---- all lists

/// How many lists of each theme from records so far ahead of a position.
struct Place {
    what: &'static str,
    ahead_of: u64,
    samples: u64,
    lists: &'static [(Theme, u64)],
}

const PLACES: [Place; 6] = [
    Place {
        what: "1,000 samples ahead of the end",
        ahead_of: END,
        samples: 1_000,
        lists: &[
            (Theme::Mixed, 400),
            (Theme::Wild, 100),
            (Theme::Edits, 150),
            (Theme::Full, 40),
            (Theme::Lent, 100),
            (Theme::Large, 10),
        ],
    },
    Place {
        what: "100 samples ahead of the end",
        ahead_of: END,
        samples: 100,
        lists: &[(Theme::Mixed, 200), (Theme::Edits, 100), (Theme::Full, 20), (Theme::Lent, 50)],
    },
    Place {
        what: "at the end",
        ahead_of: END,
        samples: 0,
        lists: &[(Theme::Mixed, 40), (Theme::Edits, 20), (Theme::Lent, 20)],
    },
    Place {
        what: "a million and 500 samples ahead of the end",
        ahead_of: END,
        samples: 1_000_500,
        lists: &[(Theme::Far, 4)],
    },
    Place {
        what: "60 samples ahead of the former end",
        ahead_of: FORMER_END,
        samples: 60,
        lists: &[(Theme::Mixed, 100), (Theme::Edits, 50)],
    },
    Place {
        what: "60 samples ahead of the last position of 32 bits",
        ahead_of: u32::MAX as u64,
        samples: 60,
        lists: &[(Theme::Mixed, 100), (Theme::Edits, 50)],
    },
];

/// One list on both sides, line by line; gives the line at which they differ, and how.
fn list_differs(counts: &mut Counts, list: &List, base: u64) -> Option<String> {
    let mut handed = Handed::at(&list.instrument, base);
    let mut machine = Console::open(&list.instrument, base);
    for (i, line) in list.script.lines().enumerate() {
        let words: Vec<&str> = line.split_whitespace().collect();
        let Some(call) = call_of(&words).filter(|_| !line.starts_with('#')) else { continue };
        let (before, lent) = (machine.machine.clone(), machine.lent);
        let reference = machine.line(i + 1, line).expect("a call is answered");
        let given = handed.answer(&call, &lent);
        let said = || format!("`{}`, and the library says `{}`", reference.text, given.text);
        let Console { machine: standing, renders, .. } = &mut machine;
        let cells = renders.at(&standing.score, standing.t).cells;
        let difference = (!lines_alike(&reference.text, &given.text))
            .then(said)
            .or_else(|| floats_differ("sample", &reference.samples, &given.samples))
            .or_else(|| floats_differ("force", &reference.forces, &given.forces))
            .or_else(|| floats_differ("cell", &cells, &handed.work[..cells.len()]))
            .or_else(|| (!handed.stands_as(standing)).then(|| "the standing score, position or cues".to_string()));
        if let Some(difference) = difference {
            return Some(format!("line {}, `{line}`: {difference}", i + 1));
        }
        counts.cells += cells.len() as u64;
        counts.call(&kinds(&before, base, &call, refusal_in(&reference.text)), &reference);
    }
    counts.lists += 1;
    None
}

fn main() {
    let mut counts = Counts::default();
    for (p, place) in PLACES.iter().enumerate() {
        let base = place.ahead_of - place.samples;
        for (theme, turns) in place.lists {
            for turn in 0..*turns {
                let mut random = Random::new((p as u64 + 1) << 48 | (*theme as u64 + 1) << 32 | turn);
                let list = lists::list(&mut random, *theme, base);
                if let Some(difference) = list_differs(&mut counts, &list, base) {
                    println!(
                        "list {turn} of {theme:?} from {}, position {base}:\n{}{difference}",
                        place.what, list.script
                    );
                    exit(1);
                }
            }
        }
    }
    counts.report();
    println!("no list at large positions differs");
    exit(if counts.enough() { 0 } else { 1 });
}
