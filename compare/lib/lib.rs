//! What the comparisons with the Rust and the benches share: the Rust's models, the proved functions under the names that
//! their libraries export, instruments in ordinary Rust, and numbers drawn from a fixed seed.

pub mod calls;
pub mod common;
pub mod contacts;
pub mod design;
#[macro_use]
#[path = "../../embed/src/lib.rs"]
pub mod gingerfile;
pub mod events;
pub mod exports;
pub mod felts;
pub mod instrument;
pub mod instruments;
pub mod power;
pub mod record;
pub mod waves;

/// The Rust that is compared with; compare/patch.rs says what is changed.
#[allow(dead_code)]
#[path = "../../target/compare/model.rs"]
pub mod model;

/// The same without the count of each key's contacts, for the benches.
#[allow(dead_code)]
#[path = "../../target/compare/timed.rs"]
pub mod timed;

/// The Rust with its own powf.
#[allow(dead_code)]
#[path = "../../target/compare/published.rs"]
pub mod published;

/// The Rust that hands each contact's arguments to `contacts`.
#[allow(dead_code)]
#[path = "../../target/compare/logged.rs"]
pub mod logged;
