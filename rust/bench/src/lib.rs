//! The proved calls beside the original's: the same inputs, in one process, in
//! rounds that take turns.
//!
//! Each case runs some calls from given tables. Before anything is measured the
//! two sides are compared: the answers of all calls and the tables that are
//! left, entries past the counts included, must be the same. Without the
//! original there is nothing beside which to measure, and the crate is empty.

#![cfg(not(no_hecs))]

pub mod cases;
pub mod counts;
pub mod growth;
pub mod measure;
mod ours;
pub mod report;
mod theirs;

pub use ours::Ours;
pub use theirs::Theirs;

use oracle::{ColumnTables, Declaration, IdTables};

/// The tables that a case starts from, and the archetype it works on.
#[derive(Clone)]
pub struct Start {
    pub declaration: Declaration,
    pub ids: IdTables,
    pub columns: ColumnTables,
    pub archetype: usize,
}
