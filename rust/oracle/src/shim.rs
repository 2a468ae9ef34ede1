//! The names that the three files ask of the rest of their crate, and nothing
//! more. No compared call runs any of this.

use crate::archetype::Archetype;

pub trait Component: Send + Sync + 'static {}
impl<T: Send + Sync + 'static> Component for T {}

pub trait ComponentRef<'a> {
    type Column;
    fn get_column(archetype: &'a Archetype) -> Option<Self::Column>;
}

pub enum Access {}

pub trait Query {
    type Fetch: query::Fetch;
}

pub mod query {
    use super::{Access, Archetype};

    pub trait Fetch {
        fn access(archetype: &Archetype) -> Option<Access>;
    }
}

/// Stands for the crate hashbrown: `TypeIdMap` names its map.
pub mod hashbrown {
    pub use std::collections::HashMap;
}

/// Stands for the crate foldhash: a fallback of `TypeIdHasher` names its hasher.
pub mod foldhash {
    pub mod fast {
        pub struct FixedState;

        impl FixedState {
            pub fn with_seed(_: u64) -> Self {
                FixedState
            }
        }

        impl core::hash::BuildHasher for FixedState {
            type Hasher = std::collections::hash_map::DefaultHasher;
            fn build_hasher(&self) -> Self::Hasher {
                unreachable!("no TypeId is hashed as bytes")
            }
        }
    }
}
