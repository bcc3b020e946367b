//! Random lists of calls for the program `rehearse`: an instrument and a script that goes to the edges of every
//! number, by what the plain machine holds at that line.

use crate::console::{Call, Console, BLOCK, SCRATCH, TRACE, WORK};
use crate::machine::{FORMER_END, MOST_EVENTS, MOST_REPLAYED};
use comparison::common::Random;
use comparison::events::rank;
use comparison::instrument::Instrument;
use comparison::instruments::{self, pick, Size};
use comparison::model::Event;

/// What a list is mostly made of.
#[derive(Clone, Copy, PartialEq, Eq, Debug)]
pub enum Theme {
    /// All calls on an ordinary instrument.
    Mixed,
    /// All calls on an instrument at the ends of its ranges.
    Wild,
    /// Edits at cues, at t and around them.
    Edits,
    /// A score of 64 events, and one more.
    Full,
    /// Lent lengths one short.
    Lent,
    /// Steps of a million samples, and one more; blocks of 65,536.
    Far,
    /// 16 keys, 32 strings, 66 stages, long lines.
    Large,
}

/// How often an event was inserted at the position of one of another kind.
#[derive(Clone, Copy, Default)]
pub struct Ties {
    pub all: u64,
    /// Ahead of one that was there, which acted first by the order of adding.
    pub ahead: u64,
    /// A strike and a release or a hand damp of its key: here the order is heard.
    pub heard: u64,
}

pub struct List {
    pub instrument: Instrument,
    pub script: String,
    pub ties: Ties,
    /// How many kept cues the last lines go back to, a go and a state each.
    pub cues: usize,
}

/// No list but those of theme Far and Large goes further: every answer takes a render from silence.
const NEAR: u64 = 4_000;

struct Writer<'a> {
    random: &'a mut Random,
    keys: Vec<u8>,
    strings: u64,
    cells: u64,
    /// It knows what every line does to the session; it renders nothing here.
    console: Console<'a>,
    script: String,
    ties: Ties,
}

impl Ties {
    fn add(&mut self, other: Ties) {
        self.all += other.all;
        self.ahead += other.ahead;
        self.heard += other.heard;
    }
}

/// What an insert of the event would add to the ties.
fn tied(score: &[(u64, Event)], q: u64, event: &Event) -> Ties {
    let others: Vec<&Event> = score.iter().filter(|(p, x)| *p == q && rank(x) != rank(event)).map(|(_, x)| x).collect();
    let ahead: Vec<&&Event> = others.iter().filter(|x| rank(x) > rank(event)).collect();
    let heard = ahead.iter().any(|x| matches!(x, Event::NoteOn { .. }) && key_of(x) == key_of(event));
    Ties { all: !others.is_empty() as u64, ahead: !ahead.is_empty() as u64, heard: heard as u64 }
}

/// The key that a strike, a release or a hand damp is for.
fn key_of(event: &Event) -> Option<u8> {
    match event {
        Event::NoteOn { key, .. } | Event::NoteOff { key } | Event::HandDamp { key } => Some(*key),
        Event::Pedal(_) => None,
    }
}

impl Writer<'_> {
    fn chance(&mut self, one_in: u64) -> bool {
        self.random.below(one_in) == 0
    }

    /// The line goes into the script, and its call to the machine.
    fn line(&mut self, line: String) {
        let words: Vec<&str> = line.split(' ').collect();
        if let Some(call) = crate::console::call_of(&words) {
            self.follow(call);
        }
        match self.random.below(40) {
            0 => self.script.push_str(&line.replace(' ', "\t ")),
            1 => self.script.push_str(&format!(" {line}\t")),
            _ => self.script.push_str(&line),
        }
        self.script.push('\n');
    }

    fn follow(&mut self, call: Call) {
        let Console { machine, lent, .. } = &mut self.console;
        let _ = match call {
            Call::Play(m) => machine.play(lent, m),
            Call::Cue => machine.cue(lent),
            Call::Go(p) => machine.go(lent, p).map(|_| ()),
            Call::Insert(q, event) => {
                let tied = tied(&machine.score, q, &event);
                machine.insert(lent, q, event).map(|_| self.ties.add(tied))
            }
            Call::Remove(i) => machine.remove(lent, i).map(|_| ()),
            Call::LendScratch(n) => Ok(lent.scratch = n as usize),
            Call::LendTrace(n) => Ok(lent.trace = n as usize),
            Call::LendWork(n) => Ok(lent.work = n as usize),
            Call::Energies | Call::State => Ok(()),
        };
    }

    // ---- numbers

    /// A position that something happens at, or the one beside it.
    fn place(&mut self) -> u64 {
        let machine = &self.console.machine;
        let mut places = vec![0, machine.t];
        places.extend(&machine.cues);
        places.extend(&machine.cues);
        places.extend(machine.score.iter().map(|(q, _)| *q).filter(|q| *q <= NEAR));
        let place = pick(self.random, &places);
        match self.random.below(4) {
            0 => place.saturating_sub(1),
            1 => place + 1,
            _ => place,
        }
    }

    fn beyond(&mut self) -> u64 {
        let end = self.console.machine.end;
        pick(self.random, &[end + 1, end + 2, 1 << 54, u64::MAX, u64::MAX - 1])
    }

    /// The last positions, the last of before and the next, and the first past 32 bits.
    fn late(&mut self) -> u64 {
        let end = self.console.machine.end;
        pick(self.random, &[end, end, end.saturating_sub(1), FORMER_END, FORMER_END + 1, u32::MAX as u64 + 1])
    }

    fn position(&mut self) -> u64 {
        let near = self.console.machine.t + 120;
        match self.random.below(12) {
            0 => self.random.below(near),
            1 => self.console.machine.t + self.random.below(60),
            2 => self.console.machine.t.saturating_sub(self.random.below(60)),
            3 => self.late(),
            4 => self.beyond(),
            _ => self.place(),
        }
    }

    /// Mostly short; where the end is near, also just to it, and one sample more.
    fn block(&mut self) -> u64 {
        let left = self.console.machine.end - self.console.machine.t;
        if left <= NEAR && self.chance(6) {
            return left + self.random.below(2);
        }
        match self.random.below(24) {
            0 | 1 => 0,
            2..=4 => 1,
            5 => self.random.below(1_200),
            6..=9 => 100 + self.random.below(200),
            _ => 2 + self.random.below(60),
        }
    }

    fn key(&mut self) -> u8 {
        if self.chance(10) {
            self.random.below(256) as u8
        } else {
            pick(self.random, &self.keys)
        }
    }

    fn velocity(&mut self) -> String {
        let hexadecimal = |x: f64| format!("0x{:016x}", x.to_bits());
        match self.random.below(20) {
            0 => pick(self.random, &["100", "-100", "100.0", "-100.000000000000"]).to_string(),
            1 => pick(self.random, &["100.000000000001", "-100.000000000001", "101", "-999999999999999"]).to_string(),
            2 => pick(self.random, &[100f64, -100.0].map(hexadecimal)),
            3 => pick(self.random, &[100f64.next_up(), (-100f64).next_down(), f64::MAX].map(hexadecimal)),
            4 => pick(self.random, &["0x7FF8000000000000", "0xfff8000000000000", "0x7ff0000000000001"]).to_string(),
            5 => pick(self.random, &[f64::INFINITY, f64::NEG_INFINITY].map(hexadecimal)),
            6 => pick(self.random, &["0", "-0", "0.0", "0.00000000000001"]).to_string(),
            7 => pick(self.random, &[0.0, -0.0, f64::from_bits(1), 1e-300].map(hexadecimal)),
            8 => format!("-{:.3}", self.random.between(0.0, 9.0)),
            9 => format!("+{:.12}", self.random.between(0.0, 99.0)),
            10 => hexadecimal(self.random.between(-100.0, 100.0)),
            _ => format!("{:.2}", self.random.between(0.3, 8.0)),
        }
    }

    // ---- lines

    /// An event of the kind that a rank names.
    fn insert_of(&mut self, q: u64, rank: u8, key: u8) {
        let line = match rank {
            0 => format!("insert {q} off {key}"),
            1 => format!("insert {q} hand {key}"),
            2 => format!("insert {q} pedal {}", pick(self.random, &["down", "up"])),
            _ => format!("insert {q} on {key} {}", self.velocity()),
        };
        self.line(line);
    }

    fn insert_at(&mut self, q: u64) {
        let key = self.key();
        let rank = pick(self.random, &[0, 0, 1, 2, 2, 3, 3, 3, 3, 3, 3, 3]);
        self.insert_of(q, rank, key);
    }

    /// An event beside one of another kind at its position, mostly for its key.
    fn tie(&mut self) {
        let score = &self.console.machine.score;
        let near: Vec<usize> = (0..score.len()).filter(|i| score[*i].0 <= NEAR).collect();
        if near.is_empty() {
            return self.insert();
        }
        let (q, event) = score[pick(self.random, &near)].clone();
        let others: Vec<u8> = (0..4).filter(|other| *other != rank(&event)).collect();
        let other = pick(self.random, &others);
        let key = match key_of(&event) {
            Some(key) if !self.chance(5) => key,
            _ => self.key(),
        };
        self.insert_of(q, other, key);
    }

    fn insert(&mut self) {
        let q = self.position();
        self.insert_at(q);
    }

    fn remove(&mut self) {
        let count = self.console.machine.score.len() as u64;
        let index = match self.random.below(8) {
            0 => count,
            1 => pick(self.random, &[count + 1, 64, 255, 1 << 32, u64::MAX]),
            2 => count.saturating_sub(1),
            _ => self.random.below(count.max(1)),
        };
        self.line(format!("remove {index}"));
    }

    /// A go that is refused, or stays near; where the end is near, also to it, and to the position past it.
    fn go(&mut self) {
        let end = self.console.machine.end;
        let p = match self.random.below(8) {
            0 => self.position(),
            1 if end <= NEAR => end + self.random.below(2),
            1 => self.over_a_million(),
            _ => self.place(),
        };
        let machine = &self.console.machine;
        let p = if p > NEAR && p <= end && p - machine.go_start(p) <= MOST_REPLAYED { NEAR } else { p };
        self.line(format!("go {p}"));
    }

    /// The first position that no go reaches from here.
    fn over_a_million(&mut self) -> u64 {
        let machine = &self.console.machine;
        let start = machine.cues.iter().copied().max().unwrap_or(0).max(machine.t);
        start + MOST_REPLAYED + 1 + self.random.below(3)
    }

    fn lend(&mut self) {
        let machine = &self.console.machine;
        let m = machine.t.min(TRACE);
        let (what, enough, most) = pick(
            self.random,
            &[("scratch", self.strings, SCRATCH), ("trace", m, TRACE), ("work", 5 * self.cells, WORK)],
        );
        let count = match self.random.below(10) {
            0 => 0,
            1 => most,
            2 => most + 1,
            3 | 4 => enough,
            _ => enough.saturating_sub(1),
        };
        self.line(format!("lend {what} {count}"));
    }

    /// One call with one lent length too short by a cell, or just long enough; then all is lent again.
    fn lend_for_one_call(&mut self) {
        let m = self.block();
        let short = self.random.below(4) > 0;
        let (what, enough, all) = pick(
            self.random,
            &[("scratch", self.strings, self.strings), ("trace", m, TRACE), ("work", 5 * self.cells, WORK)],
        );
        self.line(format!("lend {what} {}", enough.saturating_sub(short as u64)));
        if what == "trace" {
            self.line(format!("play {m}"));
        } else {
            self.call();
        }
        if !self.chance(4) {
            self.line(format!("lend {what} {all}"));
        }
    }

    fn bad(&mut self) {
        let lines = [
            "play",
            "play -1",
            "play x",
            "play 65537",
            "play 5 5",
            "cue 3",
            "go",
            "go 1.5",
            "go 18446744073709551616",
            "insert",
            "insert 5",
            "insert 5 on",
            "insert 5 on 60",
            "insert 5 on 256 1",
            "insert x on 60 1",
            "insert 5 on 60 1 1",
            "insert 5 on 60 1e1",
            "insert 5 on 60 nan",
            "insert 5 on 60 inf",
            "insert 5 on 60 1234567890.123456",
            "insert 5 on 60 0x123",
            "insert 5 on 60 --1",
            "insert 5 off",
            "insert 5 pedal",
            "insert 5 pedal sideways",
            "insert 5 hand",
            "insert 5 strike 60",
            "remove",
            "remove -1",
            "lend",
            "lend work",
            "lend memory 5",
            "lend scratch 257",
            "lend trace 65537",
            "lend work 662001",
            "jump 5",
            "Play 5",
            "state 1",
            "insert 5 on 60 0x40590000000000000",
            "insert 5 off 60 1",
            "remove 1 1",
        ];
        let line = pick(self.random, &lines);
        self.line(line.to_string());
    }

    fn remark(&mut self) {
        let line = pick(self.random, &["", "# a remark", "  ", "\t", "#play 5"]);
        self.script.push_str(line);
        self.script.push('\n');
    }

    fn call(&mut self) {
        match self.random.below(20) {
            0..=6 => {
                let m = self.block();
                self.line(format!("play {m}"));
            }
            7..=9 => self.line("cue".to_string()),
            10..=12 => self.go(),
            13..=15 => self.insert(),
            16..=17 => self.tie(),
            _ => self.remove(),
        }
    }

    fn state(&mut self) {
        self.line("state".to_string());
    }

    fn energies(&mut self) {
        if self.chance(4) {
            self.line("energies".to_string());
        }
    }

    // ---- lists

    /// Two notes or three from the start, so that something sounds, each of the next key in the file, so that two keys have
    /// contact samples; in every other list something at the same position as one, and in every other a play past them all.
    fn prelude(&mut self) {
        let first = self.random.below(self.keys.len() as u64) as usize;
        for i in 0..2 + self.random.below(2) as usize {
            let q = self.random.below(40);
            let key = self.keys[(first + i) % self.keys.len()];
            let velocity = self.random.between(1.0, 7.0);
            self.line(format!("insert {q} on {key} {velocity:.3}"));
        }
        if self.chance(2) {
            self.tie();
        }
        if self.chance(2) {
            let m = 40 + self.random.below(40);
            self.line(format!("play {m}"));
        }
    }

    fn mixed(&mut self) {
        for _ in 0..8 + self.random.below(24) {
            match self.random.below(24) {
                0 => self.lend(),
                1 => self.lend_for_one_call(),
                2 => self.bad(),
                3 => self.remark(),
                4..=8 => self.state(),
                _ => self.call(),
            }
            self.energies();
        }
    }

    /// The fastest loop takes some 450 samples to pass the largest number.
    fn blow_up(&mut self) {
        if self.chance(2) {
            self.line("cue".to_string());
            let m = 400 + self.random.below(800);
            self.line(format!("play {m}"));
        }
    }

    /// Cues at several positions, then edits at them; what each leaves is played on.
    fn edits(&mut self) {
        for _ in 0..3 + self.random.below(4) {
            let m = self.block();
            self.line(format!("play {m}"));
            self.line("cue".to_string());
        }
        for _ in 0..4 + self.random.below(8) {
            let q = self.place();
            match self.random.below(6) {
                0 | 1 => self.remove(),
                2 => self.tie(),
                _ => self.insert_at(q),
            }
            self.state();
            match self.random.below(3) {
                0 => self.go(),
                1 => self.line("cue".to_string()),
                _ => (),
            }
            let m = self.block();
            self.line(format!("play {m}"));
        }
    }

    /// The score is filled, then calls meet it full: a removal makes place for one event.
    fn full(&mut self) {
        let mut turns = 0;
        while self.console.machine.score.len() < MOST_EVENTS && turns < 200 {
            let q = self.random.below(400);
            self.insert_at(q);
            turns += 1;
        }
        for _ in 0..4 {
            self.insert();
            self.call();
            if self.chance(3) {
                self.remove();
            }
        }
        self.state();
        let m = self.block();
        self.line(format!("play {m}"));
    }

    fn lent(&mut self) {
        for _ in 0..6 + self.random.below(10) {
            self.lend_for_one_call();
            if self.chance(3) {
                self.state();
            }
        }
    }

    /// A go of exactly a million samples is accepted, one more is not; a cue on the way shortens the way back.
    fn far(&mut self) {
        let m = self.random.below(300);
        self.line(format!("play {m}"));
        if self.chance(2) {
            self.line("cue".to_string());
        }
        self.line(format!("go {}", m + MOST_REPLAYED + 1));
        let most = m + MOST_REPLAYED - self.random.below(2);
        self.line(format!("go {most}"));
        self.state();
        self.line("cue".to_string());
        self.line("play 40".to_string());
        let key = pick(self.random, &self.keys);
        let q = m + MOST_REPLAYED + pick(self.random, &[0, 10, 39, 40, 41]);
        self.line(format!("insert {q} on {key} 4"));
        self.line("state".to_string());
        self.line(format!("go {}", m + MOST_REPLAYED + 100));
        self.line("play 64".to_string());
        let back = pick(self.random, &[m, m + 1, MOST_REPLAYED, MOST_REPLAYED - 1, m + MOST_REPLAYED]);
        self.line(format!("go {back}"));
        self.line("play 16".to_string());
        if self.chance(4) {
            self.line(format!("play {BLOCK}"));
        }
        self.state();
    }

    fn large(&mut self) {
        for _ in 0..4 + self.random.below(6) {
            self.call();
            if self.chance(3) {
                self.state();
            }
        }
        if self.chance(8) {
            self.line("play 4096".to_string());
        }
    }

    /// All is lent again, so that the calls to come are accepted; a cue between two plays, so that one is kept.
    fn cue_between_plays(&mut self) {
        let (before, after) = (40 + self.random.below(40), 40 + self.random.below(40));
        let lines = [
            format!("lend scratch {}", self.strings),
            format!("lend trace {TRACE}"),
            format!("lend work {WORK}"),
            format!("play {before}"),
            "cue".to_string(),
            format!("play {after}"),
        ];
        for line in lines {
            self.line(line);
        }
        self.state();
    }

    /// Back to every kept cue, the last first, where the counts must be those of its own position; how many there are.
    fn back_to_cues(&mut self) -> usize {
        let cues: Vec<u64> = self.console.machine.cues.iter().rev().copied().collect();
        for p in &cues {
            self.line(format!("go {p}"));
            self.state();
        }
        cues.len()
    }
}

fn instrument_for(random: &mut Random, theme: Theme) -> Instrument {
    match theme {
        Theme::Wild if random.below(8) == 0 => instruments::wild(random, Size::Large),
        Theme::Wild => instruments::wild(random, Size::Small),
        Theme::Far => instruments::lossless(random),
        Theme::Large => instruments::ordinary(random, Size::Large),
        _ => instruments::ordinary(random, Size::Small),
    }
}

/// A list for a machine that opens at `base`. Where that is not 0, its first call keeps a cue, so that no step goes back behind it.
pub fn list(random: &mut Random, theme: Theme, base: u64) -> List {
    let instrument = instrument_for(random, theme);
    let (script, ties, cues) = {
        let mut writer = Writer {
            keys: instrument.keys.iter().map(|k| k.key).collect(),
            strings: instrument.string_count() as u64,
            cells: instrument.cells() as u64,
            console: Console::open(&instrument, base),
            script: String::new(),
            ties: Ties::default(),
            random,
        };
        if base > 0 {
            writer.line("cue".to_string());
        }
        if !writer.chance(10) {
            writer.prelude();
        }
        match theme {
            Theme::Mixed => writer.mixed(),
            Theme::Wild => {
                writer.blow_up();
                writer.mixed();
            }
            Theme::Edits => writer.edits(),
            Theme::Full => writer.full(),
            Theme::Lent => writer.lent(),
            Theme::Far => writer.far(),
            Theme::Large => writer.large(),
        }
        writer.state();
        writer.energies();
        writer.cue_between_plays();
        let cues = writer.back_to_cues();
        if writer.chance(6) {
            writer.script.pop(); // a last line need not end
        }
        (writer.script, writer.ties, cues)
    };
    List { instrument, script, ties, cues }
}
