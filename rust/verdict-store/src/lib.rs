//! The proved entity store for a superoptimiser's verdicts, under hecs's names.
//!
//! A [`VerdictStore`] is made by a [`Declaration`], once: how many entities there
//! can be, and the archetypes with their columns and rows. It then holds
//! entities and the plain bytes of their components, as an ECS does. Every call
//! runs code that is proved equal to a short rule; a call that is refused says
//! why by a [`Refusal`] and has changed nothing.
//!
//! ```
//! use verdict_store::{component, Component, Declaration, Refusal};
//!
//! #[derive(Debug, PartialEq)]
//! struct Cost(u64);
//! component!(Cost(u64), 1);
//!
//! #[derive(Debug, PartialEq)]
//! enum Verdict {
//!     Proven,
//!     Refuted,
//! }
//!
//! impl Component for Verdict {
//!     const TYPE: u32 = 2;
//!     type Bytes = [u8; 1];
//!     fn to_bytes(&self) -> [u8; 1] {
//!         [(*self == Verdict::Refuted) as u8]
//!     }
//!     fn from_bytes(bytes: [u8; 1]) -> Verdict {
//!         if bytes == [0] { Verdict::Proven } else { Verdict::Refuted }
//!     }
//! }
//!
//! let mut cache = Declaration::new(1024)
//!     .of::<(Cost,)>(1024) // candidates without a verdict
//!     .of::<(Cost, Verdict)>(1024)
//!     .build()?;
//!
//! let e = cache.spawn((Cost(12),))?;
//! assert_eq!(cache.read::<Verdict>(e), Err(Refusal::NoComponent));
//! cache.insert(e, Verdict::Proven)?;
//! assert_eq!(cache.read::<Verdict>(e)?, Verdict::Proven);
//!
//! cache.despawn(e)?;
//! assert_eq!(cache.read::<Verdict>(e), Err(Refusal::NoSuchEntity));
//! # Ok::<(), Box<dyn std::error::Error>>(())
//! ```
//!
//! Handles can be given out before their entities are there:
//! [`reserve_entity`](VerdictStore::reserve_entity) and
//! [`reserve_entities`](VerdictStore::reserve_entities), then
//! [`flush`](VerdictStore::flush). Columns are borrowed whole by
//! [`borrow`](VerdictStore::borrow) and [`borrow_mut`](VerdictStore::borrow_mut),
//! whose answers end the borrow when they are dropped.
//!
//! This crate has no unsafe code; `verdict-store-sys` has the one unsafe block,
//! which lends slices to the library.

#![forbid(unsafe_code)]
#![warn(missing_docs)]

mod columns;
mod component;
mod declaration;
mod entity;
mod refusal;
mod store;
mod typed;

pub use columns::{Borrowed, BorrowedMut};
pub use component::{Bundle, Bytes, Column, Component};
pub use declaration::{BadDeclaration, Declaration, Fault, ARCHETYPES, COLUMNS, LIMIT, SIZE};
pub use entity::{Entity, Place};
pub use refusal::Refusal;
pub use store::{Entities, Handles, VerdictStore};

/// What the examples of these pages share.
#[doc(hidden)]
pub mod doc {
    pub use crate::*;

    #[derive(Clone, Copy, Debug, PartialEq, Eq)]
    pub struct Cost(pub u64);
    component!(Cost(u64), 1);

    #[derive(Clone, Copy, Debug, PartialEq, Eq)]
    pub enum Verdict {
        Proven,
        Refuted,
    }

    impl Component for Verdict {
        const TYPE: u32 = 2;
        type Bytes = [u8; 1];

        fn to_bytes(&self) -> [u8; 1] {
            [*self as u8]
        }
        fn from_bytes(bytes: [u8; 1]) -> Verdict {
            match bytes {
                [0] => Verdict::Proven,
                _ => Verdict::Refuted,
            }
        }
    }
}
