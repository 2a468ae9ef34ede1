//! A second program for the verdict store.
//!
//! Written from document 01 ("01" in the comments) and the settled readings
//! of it (R1 to R44) alone, to be run against the verified store on sound and
//! on damaged tables. It is meant to be plain, not fast: every sentence of 01
//! is a small function with the sentence's name, arithmetic is done in i128,
//! and every call first tests its refusals in 01's order and only then
//! changes anything.
//!
//! `Tables` holds everything a caller lends. Each call answers
//! `Ok(values)` or `Err(refusal number)`.

pub mod columns;
pub mod handles;
pub mod ids;
pub mod rules;
pub mod sound;
pub mod store;
pub mod tables;
pub mod words;

pub use sound::sound;
pub use tables::{fresh, Declaration, Head, Place, Tables, MAX};

/// What a call answers: its values, or the number of the refusal.
pub type Answer<T> = Result<T, u32>;
