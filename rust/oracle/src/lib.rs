//! The oracle: `entities.rs`, `archetype.rs` and `borrow.rs` of hecs 0.11.2,
//! compiled byte for byte as published, behind plain tables.
//!
//! Three drivers: [`Ids`] over `Entities`, [`Columns`] over a set of
//! `Archetype`s, [`Word`] over `AtomicBorrow`; beside them [`handle`]. Each is made from plain tables,
//! has one method a call, and gives its tables back whole: also the entries
//! past the counts, as they stand in the original's memory. A method answers
//! the values, or a [`No`]: the refusal number of document 01 that the
//! original's error or panic stands for, or that document 01 refuses what the
//! original would do (then the original isn't run).
//!
//! The files aren't in this repository. The variable HECS_SRC names their
//! folder at build time (see build.rs). Without them the crate builds, and
//! every driver says on its making what is missing; ask [`MISSING`] first.

#[cfg(not(target_pointer_width = "64"))]
compile_error!(
    "document 01's borrow words and cursor are 64 bits wide: build the oracle for a 64-bit machine"
);

mod tables;
pub use tables::*;

pub mod calls;
pub mod sequences;

#[cfg(no_hecs)]
mod absent;
#[cfg(no_hecs)]
pub use absent::{handle, Columns, Ids, Word};

/// What is missing, or nothing where the original is at hand.
pub const MISSING: Option<&str> = if cfg!(no_hecs) {
    Some("the original is missing: give the folder that holds entities.rs, archetype.rs and borrow.rs of hecs 0.11.2 in HECS_SRC and build again")
} else {
    None
};

#[cfg(not(no_hecs))]
mod present {
    pub use crate::columns::Columns;
    pub use crate::ids::Ids;
    pub use crate::word::Word;
}
#[cfg(not(no_hecs))]
pub use present::*;

#[cfg(not(no_hecs))]
pub mod handle;

#[cfg(not(no_hecs))]
pub mod bare;

#[cfg(not(no_hecs))]
mod columns;
#[cfg(not(no_hecs))]
mod ids;
#[cfg(not(no_hecs))]
mod panics;
#[cfg(not(no_hecs))]
mod types;
#[cfg(not(no_hecs))]
mod word;

#[cfg(all(test, not(no_hecs), debug_assertions))]
mod findings;
#[cfg(all(test, not(no_hecs), not(debug_assertions)))]
mod silent;

// ---- The originals, each in the module that its own paths ask for, with a ----
// ---- child module that opens its private fields.                          ----

#[cfg(not(no_hecs))]
extern crate alloc;

#[cfg(not(no_hecs))]
mod shim;
#[cfg(not(no_hecs))]
use shim::{query, Access, Component, ComponentRef, Query};

#[cfg(not(no_hecs))]
#[allow(dead_code, unexpected_cfgs, unused_imports, clippy::all)]
mod entities {
    include!(env!("HECS_ENTITIES"));
    pub(crate) mod open;
}

#[cfg(not(no_hecs))]
#[allow(dead_code, unexpected_cfgs, unused_imports, clippy::all)]
mod archetype {
    use crate::shim::{foldhash, hashbrown};
    include!(env!("HECS_ARCHETYPE"));
    pub(crate) mod open;
}

#[cfg(not(no_hecs))]
#[allow(dead_code, unexpected_cfgs, unused_imports, clippy::all)]
mod borrow {
    include!(env!("HECS_BORROW"));
    pub(crate) mod open;
}
