//! The store: it owns the tables, and lends them to the proved calls.

use crate::columns::{Borrowed, BorrowedMut, Part};
use crate::{Column, Entity, Place, Refusal};
use std::cell::RefCell;
use std::fmt;
use std::ops::Range;
use verdict_store_sys as sys;

/// Entities and the plain bytes of their components, in columns.
///
/// Made by a [`Declaration`](crate::Declaration). Every method runs a call
/// of the library that is proved equal to its rule; each answers, and a
/// [`Refusal`] has changed nothing. The tables are the store's own, so refusals
/// 1, 12 and those of 13 that speak of tables never come from here.
///
/// Calls that take an entity to another row ([`spawn`](VerdictStore::spawn),
/// [`despawn`](VerdictStore::despawn), [`insert`](VerdictStore::insert),
/// [`remove`](VerdictStore::remove), ..) are refused with
/// [`NotFlushed`](Refusal::NotFlushed) while reserved entities wait for a
/// [`flush`](VerdictStore::flush).
pub struct VerdictStore {
    /// Used, pending, cursor in two's complement, live.
    head: [u64; 4],
    rows: Box<[u32]>,
    widths: Box<[u32]>,
    types: Box<[u32]>,
    sizes: Box<[u32]>,
    generations: Box<[u32]>,
    archetypes: Box<[u32]>,
    indices: Box<[u32]>,
    pending: Box<[u32]>,
    numbers: Box<[u32]>,
    counts: Box<[u32]>,
    bytes: Box<[u8]>,
    /// A shared borrow counts itself through `&self`, and so does its end.
    words: RefCell<Box<[u64]>>,
}

/// Runs a call that is lent all tables of a store that is held `&mut`.
macro_rules! lent {
    ($store:ident, $call:ident $(, $own:expr)*) => {
        granted(sys::$call(
            &mut $store.head,
            &$store.rows, &$store.widths, &$store.types, &$store.sizes,
            &mut $store.generations, &mut $store.archetypes, &mut $store.indices,
            &mut $store.pending,
            &mut $store.numbers, &mut $store.counts, &mut $store.bytes,
            $store.words.get_mut()
            $(, $own)*
        ))
    };
}

/// Runs a call that changes no table, or the words alone.
macro_rules! shown {
    ($store:ident, $words:expr, $call:ident $(, $own:expr)*) => {
        granted(sys::$call(
            &$store.head,
            &$store.rows, &$store.widths, &$store.types, &$store.sizes,
            &$store.generations, &$store.archetypes, &$store.indices, &$store.pending,
            &$store.numbers, &$store.counts, &$store.bytes,
            $words
            $(, $own)*
        ))
    };
}

/// Runs a call that is lent the declaration and the columns alone, and changes none of them.
macro_rules! columns_shown {
    ($store:ident, $call:ident $(, $own:expr)*) => {
        granted(sys::$call(
            &$store.rows, &$store.widths, &$store.types, &$store.sizes,
            &$store.numbers, &$store.counts, &$store.bytes
            $(, $own)*
        ))
    };
}

fn granted(said: u32) -> Result<(), Refusal> {
    match said {
        0 => Ok(()),
        number => Err(Refusal::from_number(number).unwrap_or(Refusal::Damaged)),
    }
}

/// What the library granted of the store's own tables, which it never refuses.
#[track_caller]
fn always<T>(answer: Result<T, Refusal>) -> T {
    match answer {
        Ok(value) => value,
        Err(refusal) => unreachable!("the store's own tables: {refusal}"),
    }
}

/// The handle that the library answered.
fn entity(bits: u64) -> Entity {
    always(Entity::from_bits(bits).ok_or(Refusal::ZeroGeneration))
}

impl VerdictStore {
    /// The empty store of a declaration that has been checked.
    pub(crate) fn empty(capacity: u32, archetypes: &[(u32, Vec<Column>)]) -> VerdictStore {
        let zeros = |length: usize| vec![0; length].into_boxed_slice();
        let columns = || archetypes.iter().flat_map(|(_, columns)| columns);
        let width = |columns: &[Column]| columns.iter().map(|c| c.size as usize).sum::<usize>();
        let bytes = archetypes.iter().map(|(rows, columns)| *rows as usize * width(columns)).sum();
        let capacity = capacity as usize;
        let store = VerdictStore {
            head: [0; 4],
            rows: archetypes.iter().map(|(rows, _)| *rows).collect(),
            widths: archetypes.iter().map(|(_, columns)| columns.len() as u32).collect(),
            types: columns().map(|column| column.kind).collect(),
            sizes: columns().map(|column| column.size).collect(),
            generations: zeros(capacity),
            archetypes: zeros(capacity),
            indices: zeros(capacity),
            pending: zeros(capacity),
            numbers: zeros(archetypes.iter().map(|(rows, _)| *rows as usize).sum()),
            counts: zeros(archetypes.len()),
            bytes: vec![0; bytes].into_boxed_slice(),
            words: RefCell::new(vec![0; columns().count()].into_boxed_slice()),
        };
        debug_assert_eq!(store.len(), 0);
        store
    }

    // ---- entities

    /// Makes an entity in an archetype; `row` is the bytes of its components, in
    /// ascending type number. [`spawn`](VerdictStore::spawn) does both from a
    /// tuple.
    pub fn spawn_bytes(&mut self, archetype: u32, row: &[u8]) -> Result<Entity, Refusal> {
        let mut out = [0; 4];
        lent!(self, verdict_store_spawn, archetype, row, &mut out)?;
        Ok(entity(out[0]))
    }

    /// Makes an entity at a chosen handle, as
    /// [`spawn_at`](VerdictStore::spawn_at) does from a tuple. An entity that has
    /// the number leaves first.
    pub fn spawn_at_bytes(
        &mut self,
        entity: Entity,
        archetype: u32,
        row: &[u8],
    ) -> Result<(), Refusal> {
        lent!(self, verdict_store_spawn_at, entity.to_bits().get(), archetype, row)
    }

    /// Ends an entity: its row is filled by the last one of its archetype.
    pub fn despawn(&mut self, entity: Entity) -> Result<(), Refusal> {
        lent!(self, verdict_store_despawn, entity.to_bits().get())
    }

    /// Ends all entities, and all reservations. Handles are then given out from
    /// 0v1 on again, so that a handle from before may name a new entity.
    pub fn clear(&mut self) -> Result<(), Refusal> {
        lent!(self, verdict_store_clear)
    }

    /// How many entities are live; reserved ones are not.
    pub fn len(&self) -> usize {
        let mut out = [0; 4];
        always(shown!(self, &self.words.borrow(), verdict_store_len, &mut out));
        out[0] as usize
    }

    /// Whether no entity is live.
    pub fn is_empty(&self) -> bool {
        self.len() == 0
    }

    /// How many entities, live and reserved, there can be.
    pub fn capacity(&self) -> usize {
        self.generations.len()
    }

    /// Whether a handle's entity is live or reserved.
    pub fn contains(&self, entity: Entity) -> bool {
        let (bits, mut out) = (entity.to_bits().get(), [0; 4]);
        always(shown!(self, &self.words.borrow(), verdict_store_contains, bits, &mut out));
        out[0] == 1
    }

    /// The place of an entity. A reserved one whose number is new is at index
    /// [`u32::MAX`] of archetype 0; one whose number was used before gives
    /// [`NoSuchEntity`](Refusal::NoSuchEntity), as hecs's `Entities::get` does.
    pub fn get(&self, entity: Entity) -> Result<Place, Refusal> {
        let (bits, mut out) = (entity.to_bits().get(), [0; 4]);
        shown!(self, &self.words.borrow(), verdict_store_get, bits, &mut out)?;
        Ok(Place { archetype: out[0] as u32, index: out[1] as u32 })
    }

    /// The handle of a number, whatever its generation. A free number gives the
    /// handle that it will have next, which [`contains`](VerdictStore::contains)
    /// denies.
    pub fn resolve_unknown_gen(&self, id: u32) -> Result<Entity, Refusal> {
        let mut out = [0; 4];
        let words = self.words.borrow();
        shown!(self, &words, verdict_store_resolve_unknown_gen, id, &mut out)?;
        Ok(entity(out[0]))
    }

    // ---- reservations

    /// Hands out a handle whose entity becomes live at the next
    /// [`flush`](VerdictStore::flush).
    pub fn reserve_entity(&mut self) -> Result<Entity, Refusal> {
        let mut out = [0; 4];
        lent!(self, verdict_store_reserve_entity, &mut out)?;
        Ok(entity(out[0]))
    }

    /// Hands out `n` handles at once.
    pub fn reserve_entities(&mut self, n: u32) -> Result<Handles, Refusal> {
        let n = n as usize;
        if n > self.capacity() {
            // No more than the capacity can be free: said here, so that no list is made for them.
            return Err(Refusal::NoRoom);
        }
        let mut handles = vec![0; n];
        lent!(self, verdict_store_reserve_entities, n, &mut handles)?;
        Ok(Handles(handles.into_iter()))
    }

    /// Makes all reserved entities live, without components, in archetype 0.
    pub fn flush(&mut self) -> Result<(), Refusal> {
        lent!(self, verdict_store_flush)
    }

    /// The handles that the free numbers will have next.
    pub fn freelist(&self) -> Handles {
        let mut handles = vec![0; self.capacity()];
        let mut out = [0; 4];
        let words = self.words.borrow();
        always(shown!(self, &words, verdict_store_freelist, &mut handles, &mut out));
        handles.truncate(out[0] as usize);
        Handles(handles.into_iter())
    }

    // ---- components

    /// Gives an entity a component, as [`insert`](VerdictStore::insert) does from
    /// a value.
    pub fn insert_bytes(&mut self, entity: Entity, kind: u32, value: &[u8]) -> Result<(), Refusal> {
        lent!(self, verdict_store_insert, entity.to_bits().get(), kind, value)
    }

    /// Takes a component from an entity, as [`remove`](VerdictStore::remove) does.
    pub fn remove_type(&mut self, entity: Entity, kind: u32) -> Result<(), Refusal> {
        lent!(self, verdict_store_remove, entity.to_bits().get(), kind)
    }

    /// The bytes of a component, where they stand.
    pub fn read_bytes(&self, entity: Entity, kind: u32) -> Result<&[u8], Refusal> {
        let (bits, mut out) = (entity.to_bits().get(), [0; 4]);
        shown!(self, &self.words.borrow(), verdict_store_read, bits, kind, &mut out)?;
        let (start, length) = (out[0] as usize, out[1] as usize);
        Ok(&self.bytes[start..start + length])
    }

    /// Overwrites a component, as [`write`](VerdictStore::write) does with a
    /// value.
    pub fn write_bytes(&mut self, entity: Entity, kind: u32, value: &[u8]) -> Result<(), Refusal> {
        lent!(self, verdict_store_write, entity.to_bits().get(), kind, value)
    }

    // ---- archetypes and columns

    /// The archetype of these type numbers, given in ascending order.
    pub fn archetype_of_types(&self, kinds: &[u32]) -> Option<u32> {
        self.archetype_and_sizes(kinds).map(|(archetype, _)| archetype)
    }

    /// The archetype of these type numbers, and the sizes of its columns.
    pub(crate) fn archetype_and_sizes(&self, kinds: &[u32]) -> Option<(u32, &[u32])> {
        let mut first = 0;
        for (archetype, width) in self.widths.iter().enumerate() {
            let next = first + *width as usize;
            if self.types[first..next] == *kinds {
                return Some((archetype as u32, &self.sizes[first..next]));
            }
            first = next;
        }
        None
    }

    /// The bytes of a component of this type, the same in all archetypes; none
    /// where no archetype has the type.
    pub(crate) fn size_of_type(&self, kind: u32) -> Option<u32> {
        let column = self.types.iter().position(|declared| *declared == kind)?;
        Some(self.sizes[column])
    }

    /// The entities of an archetype, in the order of their rows.
    pub fn entities(&self, archetype: u32) -> Result<Entities<'_>, Refusal> {
        let rows = self.rows_of(archetype)?;
        Ok(Entities { numbers: self.numbers[rows].iter(), generations: &self.generations })
    }

    /// Where an archetype's numbers stand.
    fn rows_of(&self, archetype: u32) -> Result<Range<usize>, Refusal> {
        let mut out = [0; 4];
        columns_shown!(self, verdict_columns_ids, archetype, &mut out)?;
        let (start, count) = (out[0] as usize, out[1] as usize);
        Ok(start..start + count)
    }

    /// Where the components of a column that is declared stand.
    pub(crate) fn column_of(&self, archetype: u32, kind: u32) -> Result<Part, Refusal> {
        let rows = self.rows_of(archetype)?.len();
        if rows == 0 {
            return Ok(Part { start: 0, size: 0, rows });
        }
        let mut out = [0; 4];
        columns_shown!(self, verdict_columns_get, archetype, 0, kind, &mut out)?;
        Ok(Part { start: out[0] as usize, size: out[1] as usize, rows })
    }

    /// Borrows a column, until the answer is dropped. Others may borrow and read
    /// it meanwhile.
    pub fn borrow(&self, archetype: u32, kind: u32) -> Result<Borrowed<'_>, Refusal> {
        self.hold(archetype, kind)?;
        Ok(Borrowed::new(self, archetype, kind, always(self.column_of(archetype, kind))))
    }

    /// Borrows a column uniquely, until the answer is dropped.
    pub fn borrow_mut(&mut self, archetype: u32, kind: u32) -> Result<BorrowedMut<'_>, Refusal> {
        self.hold_mut(archetype, kind)?;
        let part = always(self.column_of(archetype, kind));
        Ok(BorrowedMut::new(self, archetype, kind, part))
    }

    /// Counts a shared borrow of a column that no guard ends: pair it with
    /// [`release`](VerdictStore::release). While a column is held, no row moves:
    /// those calls are refused with [`WordHeld`](Refusal::WordHeld).
    pub fn hold(&self, archetype: u32, kind: u32) -> Result<(), Refusal> {
        let mut words = self.words.borrow_mut();
        shown!(self, &mut words, verdict_store_borrow, archetype, kind)
    }

    /// Holds a column uniquely, until [`release_mut`](VerdictStore::release_mut).
    /// Reads of it are refused meanwhile.
    pub fn hold_mut(&mut self, archetype: u32, kind: u32) -> Result<(), Refusal> {
        let mut words = self.words.borrow_mut();
        shown!(self, &mut words, verdict_store_borrow_mut, archetype, kind)
    }

    /// Ends one [`hold`](VerdictStore::hold) of a column.
    pub fn release(&mut self, archetype: u32, kind: u32) -> Result<(), Refusal> {
        self.released(archetype, kind)
    }

    /// Ends a [`hold_mut`](VerdictStore::hold_mut) of a column.
    pub fn release_mut(&mut self, archetype: u32, kind: u32) -> Result<(), Refusal> {
        let mut words = self.words.borrow_mut();
        shown!(self, &mut words, verdict_store_release_mut, archetype, kind)
    }

    /// Ends one shared borrow. Open to guards, which hold the store `&`; others
    /// need `&mut`, so that no guard's count is taken from under it.
    pub(crate) fn released(&self, archetype: u32, kind: u32) -> Result<(), Refusal> {
        let mut words = self.words.borrow_mut();
        shown!(self, &mut words, verdict_store_release, archetype, kind)
    }

    pub(crate) fn all_bytes(&self) -> &[u8] {
        &self.bytes
    }

    pub(crate) fn all_bytes_mut(&mut self) -> &mut [u8] {
        &mut self.bytes
    }
}

/// A copy of the entities and their components. No column of it is borrowed.
impl Clone for VerdictStore {
    fn clone(&self) -> VerdictStore {
        VerdictStore {
            head: self.head,
            rows: self.rows.clone(),
            widths: self.widths.clone(),
            types: self.types.clone(),
            sizes: self.sizes.clone(),
            generations: self.generations.clone(),
            archetypes: self.archetypes.clone(),
            indices: self.indices.clone(),
            pending: self.pending.clone(),
            numbers: self.numbers.clone(),
            counts: self.counts.clone(),
            bytes: self.bytes.clone(),
            words: RefCell::new(vec![0; self.types.len()].into_boxed_slice()),
        }
    }
}

impl fmt::Debug for VerdictStore {
    fn fmt(&self, f: &mut fmt::Formatter<'_>) -> fmt::Result {
        f.debug_struct("VerdictStore")
            .field("live", &self.head[3])
            .field("capacity", &self.capacity())
            .field("row_counts", &self.counts)
            .finish_non_exhaustive()
    }
}

/// Handles, in the order they were given out in.
#[derive(Clone, Debug)]
pub struct Handles(std::vec::IntoIter<u64>);

impl Iterator for Handles {
    type Item = Entity;

    fn next(&mut self) -> Option<Entity> {
        self.0.next().map(entity)
    }

    fn size_hint(&self) -> (usize, Option<usize>) {
        self.0.size_hint()
    }
}

impl DoubleEndedIterator for Handles {
    fn next_back(&mut self) -> Option<Entity> {
        self.0.next_back().map(entity)
    }
}

impl ExactSizeIterator for Handles {}

/// The entities of an archetype, in the order of their rows.
#[derive(Clone, Debug)]
pub struct Entities<'a> {
    numbers: std::slice::Iter<'a, u32>,
    generations: &'a [u32],
}

impl Entities<'_> {
    fn entity(&self, number: u32) -> Entity {
        let generation = self.generations[number as usize];
        always(Entity::new(number, generation).ok_or(Refusal::Damaged))
    }
}

impl Iterator for Entities<'_> {
    type Item = Entity;

    fn next(&mut self) -> Option<Entity> {
        let number = *self.numbers.next()?;
        Some(self.entity(number))
    }

    fn size_hint(&self) -> (usize, Option<usize>) {
        self.numbers.size_hint()
    }
}

impl DoubleEndedIterator for Entities<'_> {
    fn next_back(&mut self) -> Option<Entity> {
        let number = *self.numbers.next_back()?;
        Some(self.entity(number))
    }
}

impl ExactSizeIterator for Entities<'_> {}
