//! The original's calls, from the same tables.

use crate::Start;
use oracle::bare::{Store, Word};
use std::any::TypeId;

pub struct Theirs {
    pub store: Store,
    pub word: Word,
    pub handles: Vec<u64>,
    pub taken: Vec<u8>,
    /// The columns of the archetype that the case works on.
    pub kinds: Vec<(TypeId, usize)>,
}

impl Theirs {
    pub fn new(start: &Start) -> Theirs {
        let d = &start.declaration;
        let store = Store::new(d, &start.ids, &start.columns);
        let kinds = d.columns(start.archetype);
        let kinds = kinds.map(|c| (store.columns.kind(d.types[c]), d.sizes[c] as usize)).collect();
        Theirs {
            store,
            word: Word::new(0),
            handles: vec![0; 4096],
            taken: vec![0; d.row_width(start.archetype)],
            kinds,
        }
    }

    pub fn kind(&self, number: u32) -> TypeId {
        self.store.columns.kind(number)
    }
}

/// The first byte at an address in a column, which is never null here.
pub fn first(at: *const u8) -> u64 {
    assert!(!at.is_null(), "a call that was to be granted");
    // SAFETY: the original answers the address of a component of at least one byte.
    unsafe { at.read() as u64 }
}
