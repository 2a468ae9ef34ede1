//! The proved calls on plain tables.

use crate::Start;
use oracle::{ColumnTables, Declaration, Head, IdTables, Place};
use verdict_store_sys as sys;

/// What a caller of the library holds, and what the calls answer.
pub struct Ours {
    head: [u64; 4],
    declaration: Declaration,
    ids: IdTables,
    columns: ColumnTables,
    words: Vec<u64>,
    word: u64,
    out: [u64; 4],
    pub handles: Vec<u64>,
    pub taken: Vec<u8>,
}

fn four(head: Head) -> [u64; 4] {
    [head.used as u64, head.pending as u64, head.cursor as u64, head.live as u64]
}

/// A call of the id layer, with the answer `$answer` where it is granted.
macro_rules! ids {
    ($s:ident, $call:ident($($own:expr),*) $answer:expr) => {{
        let t = &mut $s.ids;
        let said = sys::$call(
            &mut $s.head, &mut t.generations, &mut t.archetypes, &mut t.indices, &mut t.pending
            $(, $own)*
        );
        answered(said, $answer)
    }};
}

macro_rules! columns {
    ($s:ident, $call:ident($($own:expr),*) $answer:expr) => {{
        let (d, t) = (&$s.declaration, &mut $s.columns);
        let said = sys::$call(
            &d.rows, &d.widths, &d.types, &d.sizes,
            &mut t.row_numbers, &mut t.row_counts, &mut t.bytes
            $(, $own)*
        );
        answered(said, $answer)
    }};
}

macro_rules! store {
    ($s:ident, $call:ident($($own:expr),*) $answer:expr) => {{
        let (d, i, t) = (&$s.declaration, &mut $s.ids, &mut $s.columns);
        let said = sys::$call(
            &mut $s.head, &d.rows, &d.widths, &d.types, &d.sizes,
            &mut i.generations, &mut i.archetypes, &mut i.indices, &mut i.pending,
            &mut t.row_numbers, &mut t.row_counts, &mut t.bytes, &mut $s.words
            $(, $own)*
        );
        answered(said, $answer)
    }};
}

#[inline]
fn answered(said: u32, value: u64) -> u64 {
    assert_eq!(said, 0, "a call that was to be granted");
    value
}

#[inline]
fn packed(archetype: u64, index: u64) -> u64 {
    archetype << 32 | index
}

impl Ours {
    pub fn new(start: &Start) -> Ours {
        Ours {
            head: four(start.ids.head),
            declaration: start.declaration.clone(),
            ids: start.ids.clone(),
            columns: start.columns.clone(),
            words: vec![0; start.declaration.types.len()],
            word: 0,
            out: [0; 4],
            handles: vec![0; 4096],
            taken: vec![0; start.declaration.row_width(start.archetype)],
        }
    }

    pub fn reset(&mut self, start: &Start) {
        self.head = four(start.ids.head);
        self.ids.clone_from(&start.ids);
        self.columns.clone_from(&start.columns);
        self.words.fill(0);
        self.handles.fill(0);
        self.taken.fill(0);
        self.word = 0;
    }

    pub fn ids(&self) -> IdTables {
        let [used, pending, cursor, live] = self.head;
        let head = Head {
            used: used as usize,
            pending: pending as usize,
            cursor: cursor as i64,
            live: live as u32,
        };
        IdTables { head, ..self.ids.clone() }
    }

    pub fn columns(&self) -> ColumnTables {
        self.columns.clone()
    }

    // ---- ids

    #[inline]
    pub fn reserve_entity(&mut self) -> u64 {
        ids!(self, verdict_ids_reserve_entity(&mut self.out) self.out[0])
    }

    #[inline]
    pub fn reserve_entities(&mut self, n: usize) -> u64 {
        ids!(self, verdict_ids_reserve_entities(n, &mut self.handles) 0)
    }

    #[inline]
    pub fn alloc(&mut self, at: Place) -> u64 {
        ids!(self, verdict_ids_alloc(at.archetype, at.index, &mut self.out) self.out[0])
    }

    #[inline]
    pub fn alloc_many(&mut self, n: usize, archetype: u32, first: u32) -> u64 {
        let mut state = [0; 4];
        ids!(self, verdict_ids_alloc_many(n, archetype, first, &mut state) state[0] as u64)
    }

    #[inline]
    pub fn alloc_at(&mut self, bits: u64, at: Place) -> u64 {
        ids!(self, verdict_ids_alloc_at(bits, at.archetype, at.index, &mut self.out)
            self.out[0] * (packed(self.out[1], self.out[2]) + 1))
    }

    #[inline]
    pub fn free(&mut self, bits: u64) -> u64 {
        ids!(self, verdict_ids_free(bits, &mut self.out) packed(self.out[0], self.out[1]))
    }

    #[inline]
    pub fn contains(&mut self, bits: u64) -> u64 {
        ids!(self, verdict_ids_contains(bits, &mut self.out) self.out[0])
    }

    #[inline]
    pub fn get(&mut self, bits: u64) -> u64 {
        ids!(self, verdict_ids_get(bits, &mut self.out) packed(self.out[0], self.out[1]))
    }

    #[inline]
    pub fn set_place(&mut self, bits: u64, at: Place) -> u64 {
        ids!(self, verdict_ids_set_place(bits, at.archetype, at.index) 0)
    }

    #[inline]
    pub fn resolve_unknown_gen(&mut self, number: u32) -> u64 {
        ids!(self, verdict_ids_resolve_unknown_gen(number, &mut self.out) self.out[0])
    }

    #[inline]
    pub fn flush(&mut self, archetype: u32, first: u32) -> u64 {
        ids!(self, verdict_ids_flush(archetype, first) 0)
    }

    #[inline]
    pub fn live(&mut self) -> u64 {
        ids!(self, verdict_ids_len(&mut self.out) self.out[0])
    }

    #[inline]
    pub fn freelist(&mut self) -> u64 {
        ids!(self, verdict_ids_freelist(&mut self.handles, &mut self.out) self.out[0])
    }

    #[inline]
    pub fn clear(&mut self) -> u64 {
        ids!(self, verdict_ids_clear() 0)
    }

    // ---- columns

    #[inline]
    pub fn allocate(&mut self, archetype: u32, number: u32) -> u64 {
        columns!(self, verdict_columns_allocate(archetype, number, &mut self.out) self.out[0])
    }

    #[inline]
    pub fn put(&mut self, archetype: u32, row: u32, kind: u32, value: &[u8]) -> u64 {
        columns!(self, verdict_columns_put(archetype, row, kind, value) 0)
    }

    #[inline]
    pub fn component(&mut self, archetype: u32, row: u32, kind: u32) -> u64 {
        columns!(self, verdict_columns_get(archetype, row, kind, &mut self.out)
            self.columns.bytes[self.out[0] as usize] as u64)
    }

    #[inline]
    pub fn remove_row(&mut self, archetype: u32, row: u32) -> u64 {
        columns!(self, verdict_columns_remove(archetype, row, &mut self.out)
            self.out[0] * (self.out[1] + 1))
    }

    #[inline]
    pub fn move_out(&mut self, archetype: u32, row: u32) -> u64 {
        columns!(self, verdict_columns_move_out(&mut self.taken, archetype, row, &mut self.out)
            self.out[0] * (self.out[1] + 1))
    }

    #[inline]
    pub fn lookup(&mut self, archetype: u32, kind: u32) -> u64 {
        let d = &self.declaration;
        let (rows, widths, types, sizes) = (&d.rows, &d.widths, &d.types, &d.sizes);
        let out = &mut self.out;
        let said = sys::verdict_columns_lookup(rows, widths, types, sizes, archetype, kind, out);
        answered(said, self.out[0])
    }

    #[inline]
    pub fn row_ids(&mut self, archetype: u32) -> u64 {
        columns!(self, verdict_columns_ids(archetype, &mut self.out) self.out[1])
    }

    // ---- words

    pub fn word(&self) -> u64 {
        self.word
    }

    #[inline]
    pub fn shared(&mut self) -> u64 {
        answered(sys::verdict_word_shared(&mut self.word), self.word)
    }

    #[inline]
    pub fn unique(&mut self) -> u64 {
        answered(sys::verdict_word_unique(&mut self.word), self.word)
    }

    #[inline]
    pub fn release(&mut self) -> u64 {
        answered(sys::verdict_word_release(&mut self.word), self.word)
    }

    #[inline]
    pub fn unique_release(&mut self) -> u64 {
        answered(sys::verdict_word_unique_release(&mut self.word), self.word)
    }

    // ---- store

    #[inline]
    pub fn spawn(&mut self, archetype: u32, row: &[u8]) -> u64 {
        store!(self, verdict_store_spawn(archetype, row, &mut self.out) self.out[0])
    }

    #[inline]
    pub fn spawn_at(&mut self, bits: u64, archetype: u32, row: &[u8]) -> u64 {
        store!(self, verdict_store_spawn_at(bits, archetype, row) 0)
    }

    #[inline]
    pub fn despawn(&mut self, bits: u64) -> u64 {
        store!(self, verdict_store_despawn(bits) 0)
    }

    #[inline]
    pub fn insert(&mut self, bits: u64, kind: u32, value: &[u8]) -> u64 {
        store!(self, verdict_store_insert(bits, kind, value) 0)
    }

    #[inline]
    pub fn remove(&mut self, bits: u64, kind: u32) -> u64 {
        store!(self, verdict_store_remove(bits, kind) 0)
    }

    #[inline]
    pub fn read(&mut self, bits: u64, kind: u32) -> u64 {
        store!(self, verdict_store_read(bits, kind, &mut self.out)
            self.columns.bytes[self.out[0] as usize] as u64)
    }

    #[inline]
    pub fn write(&mut self, bits: u64, kind: u32, value: &[u8]) -> u64 {
        store!(self, verdict_store_write(bits, kind, value) 0)
    }

    #[inline]
    pub fn borrow(&mut self, archetype: u32, kind: u32) -> u64 {
        store!(self, verdict_store_borrow(archetype, kind) 0)
    }

    #[inline]
    pub fn release_column(&mut self, archetype: u32, kind: u32) -> u64 {
        store!(self, verdict_store_release(archetype, kind) 0)
    }

    #[inline]
    pub fn store_get(&mut self, bits: u64) -> u64 {
        store!(self, verdict_store_get(bits, &mut self.out) packed(self.out[0], self.out[1]))
    }

    #[inline]
    pub fn store_contains(&mut self, bits: u64) -> u64 {
        store!(self, verdict_store_contains(bits, &mut self.out) self.out[0])
    }

    #[inline]
    pub fn store_reserve_entities(&mut self, n: usize) -> u64 {
        store!(self, verdict_store_reserve_entities(n, &mut self.handles) 0)
    }

    #[inline]
    pub fn store_flush(&mut self) -> u64 {
        store!(self, verdict_store_flush() 0)
    }
}
