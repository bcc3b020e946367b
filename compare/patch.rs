//! Writes the Rust renderer that we compare with: `patch FROM FOLDER` reads model.rs and changes it only where document 01
//! says that we part from it. Each change must fit exactly as often as it is expected to. FOLDER gets model.rs, which also
//! counts each key's contacts beside the Rust's own count, and for the benches timed.rs, which does not, published.rs, which
//! has `powf` as published, and logged.rs, which hands each contact's arguments to `crate::contacts::log`.

use std::process::exit;

/// What is made of the Rust.
#[derive(Clone, Copy, PartialEq)]
enum Kind {
    Compared,
    Timed,
    Published,
    Logged,
}

const MADE: [(Kind, &str); 4] = [
    (Kind::Compared, "model.rs"),
    (Kind::Timed, "timed.rs"),
    (Kind::Published, "published.rs"),
    (Kind::Logged, "logged.rs"),
];

const ALL: &[Kind] = &[Kind::Compared, Kind::Timed, Kind::Published, Kind::Logged];

struct Patch {
    /// The sentence of document 01 or 02 that asks for the change, or what the bench wants it for.
    reason: &'static str,
    /// Which of the made files are changed so; the text must fit in all of them.
    kinds: &'static [Kind],
    from: &'static str,
    to: &'static str,
    times: usize,
}

/// Document 02, W2. The Rust has one count, which stays as it is; a count for each key is instrumentation beside it: a field
/// that nothing of the Rust reads, so that it changes no sample, force, state or count.
const COUNT: &str = "A sample in contact counts for the struck key";

const PATCHES: [Patch; 8] = [
    Patch {
        reason: "`powf` is replaced, also in the Rust that we compare with; W5: the Rust run gets this power too",
        kinds: &[Kind::Compared, Kind::Timed, Kind::Logged],
        from: ".powf(",
        to: ".power_of_word(",
        times: 3,
    },
    Patch {
        reason: "φ replaces `filter_delay`, which needs arctangents",
        kinds: ALL,
        from: "d.filter_delay(d.fs, d.f0)",
        to: "d.phi",
        times: 1,
    },
    Patch {
        reason: "the decimator takes 127 lent taps in place of its sines (so does the Rust we compare with)",
        kinds: ALL,
        from: "pub fn decimate(x: &[f64], factor: usize)",
        to: "pub fn decimate(x: &[f64], lent: &[f64], factor: usize)",
        times: 1,
    },
    Patch {
        reason: "the same: tap i is the lent one, and the sines go unused",
        kinds: ALL,
        from: "sinc * w\n",
        to: "{ let _ = (sinc, w); lent[i] }\n",
        times: 1,
    },
    Patch {
        reason: COUNT,
        kinds: &[Kind::Compared],
        from: "    pub contact_samples: usize,\n",
        to: "    pub contact_samples: usize,\n    pub key_contacts: Vec<usize>,\n",
        times: 1,
    },
    Patch {
        reason: COUNT,
        kinds: &[Kind::Compared],
        from: "            keys,\n",
        to: "            key_contacts: vec![0; keys.len()],\n            keys,\n",
        times: 1,
    },
    Patch {
        reason: COUNT,
        kinds: &[Kind::Compared],
        from: "self.contact_samples += 1;",
        to: "self.contact_samples += 1; self.key_contacts[h.key_index] += 1;",
        times: 1,
    },
    Patch {
        reason: "bench/contacts asks how each contact's force is found",
        kinds: &[Kind::Logged],
        from: "        if c0 <= 0.0 || k * ",
        to: "        crate::contacts::log(k, p, eps_r, c0, c1);\n        if c0 <= 0.0 || k * ",
        times: 1,
    },
];

/// A child module sees the private items of its parent; a `use` may stand anywhere in a module.
const APPENDED: &str = "
use crate::power::PowerOfWord;
#[path = \"../../compare/lib/inside.rs\"]
pub mod inside;
";

fn fail(message: String) -> ! {
    eprintln!("patch: {message}");
    exit(1)
}

fn patched(from: &str, published: &str, kind: Kind) -> String {
    let mut text = published.to_string();
    for patch in &PATCHES {
        let found = text.matches(patch.from).count();
        if found != patch.times {
            fail(format!(
                "{from}: `{}` stands there {found} times, not {} ({})",
                patch.from, patch.times, patch.reason
            ));
        }
        if patch.kinds.contains(&kind) {
            text = text.replace(patch.from, patch.to);
        }
    }
    if kind != Kind::Published {
        text.push_str(APPENDED);
    }
    text
}

fn main() {
    let arguments: Vec<String> = std::env::args().skip(1).collect();
    let [from, folder] = arguments.as_slice() else {
        fail("usage: patch FROM FOLDER".to_string());
    };
    let published = std::fs::read_to_string(from).unwrap_or_else(|e| fail(format!("{from}: {e}")));
    for (kind, name) in MADE {
        let to = format!("{folder}/{name}");
        std::fs::write(&to, patched(from, &published, kind)).unwrap_or_else(|e| fail(format!("{to}: {e}")));
    }
}
