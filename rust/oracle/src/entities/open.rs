//! `Entities` from plain tables and back, whole.
//!
//! The vectors are given room for the whole capacity and all of it is filled;
//! then their lengths are set. What the original leaves behind past a length
//! is thus seen, and so is whatever it writes there. Past the lengths the
//! generations are only ever touched as plain numbers, for 0 may stand there.

use super::*;
use crate::{Head, IdTables};

unsafe fn put(at: *mut EntityMeta, generation: u32, archetype: u32, index: u32) {
    (&raw mut (*at).generation).cast::<u32>().write(generation);
    (&raw mut (*at).location.archetype).write(archetype);
    (&raw mut (*at).location.index).write(index);
}

pub(crate) fn build(t: &IdTables) -> Entities {
    let cap = t.capacity();
    let Head { used, pending, cursor, live } = t.head;
    assert!(
        t.archetypes.len() == cap && t.indices.len() == cap && t.pending.len() == cap,
        "id tables of different lengths"
    );
    assert!(used <= cap && pending <= cap, "a count above the capacity");
    assert!(
        t.generations[..used].iter().all(|g| *g != 0),
        "a used generation 0, which the original can't hold"
    );
    let mut meta: Vec<EntityMeta> = Vec::with_capacity(cap);
    for i in 0..cap {
        unsafe { put(meta.as_mut_ptr().add(i), t.generations[i], t.archetypes[i], t.indices[i]) };
    }
    unsafe { meta.set_len(used) };
    let mut waiting: Vec<u32> = Vec::with_capacity(cap);
    waiting.extend_from_slice(&t.pending);
    waiting.truncate(pending);
    Entities { meta, pending: waiting, free_cursor: AtomicIsize::new(cursor as isize), len: live }
}

pub(crate) fn head(e: &Entities) -> Head {
    Head {
        used: e.meta.len(),
        pending: e.pending.len(),
        cursor: e.free_cursor.load(Ordering::Relaxed) as i64,
        live: e.len,
    }
}

/// Where the two vectors stand: `dump` may be called as long as they don't move.
pub(crate) fn stand(e: &Entities) -> [usize; 2] {
    [e.meta.as_ptr() as usize, e.pending.as_ptr() as usize]
}

/// Writes the tables out, `t` having the capacity that `build` was given.
///
/// # Safety
/// The vectors stand where `build` put them.
pub(crate) unsafe fn dump(e: &Entities, t: &mut IdTables) {
    for i in 0..t.capacity() {
        let at = e.meta.as_ptr().add(i);
        t.generations[i] = (&raw const (*at).generation).cast::<u32>().read();
        t.archetypes[i] = (&raw const (*at).location.archetype).read();
        t.indices[i] = (&raw const (*at).location.index).read();
        t.pending[i] = e.pending.as_ptr().add(i).read();
    }
    t.head = head(e);
}

pub(crate) fn set_cursor(e: &mut Entities, cursor: i64) {
    *e.free_cursor.get_mut() = cursor as isize;
}

pub(crate) fn waiting(e: &Entities) -> &[u32] {
    &e.pending
}

pub(crate) fn fresh(state: &AllocManyState) -> Range<u32> {
    state.fresh.clone()
}

/// Where a reader of reserved handles stands: positions of the pending list, and new numbers.
pub(crate) fn reading(
    e: &Entities,
    reader: &ReserveEntitiesIterator<'_>,
) -> (Range<usize>, Range<u32>) {
    let left = reader.id_iter.as_slice();
    let start = (left.as_ptr() as usize - e.pending.as_ptr() as usize) / size_of::<u32>();
    (start..start + left.len(), reader.id_range.clone())
}

/// Number 0 free at generation 2, as one alloc and one free leave it: several tests start there.
#[cfg(test)]
pub(crate) fn one_freed() -> Entities {
    let mut e = Entities::default();
    let first = e.alloc();
    e.meta[0].location = Location { archetype: 1, index: 0 };
    e.free(first).unwrap();
    e
}
