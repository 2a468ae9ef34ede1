//! The original's calls with nothing around them, for measuring: no panic is
//! caught and nothing is tested. On sound tables within the sizes alone.
//!
//! Each method is one call of the original, or those that `World` makes for it,
//! and is not inlined, as a call into a linked library is not.

use crate::archetype::{open as columns, Archetype};
use crate::borrow::{open as words, AtomicBorrow};
use crate::entities::{open, Entities, Entity, Location};
use crate::types::TypeNumbers;
use crate::{ColumnTables, Declaration, Head, IdTables, Place};
use core::any::TypeId;

fn entity(bits: u64) -> Entity {
    Entity::from_bits(bits).unwrap()
}

fn at(place: Place) -> Location {
    Location { archetype: place.archetype, index: place.index }
}

/// The place as one number.
fn packed(l: Location) -> u64 {
    (l.archetype as u64) << 32 | l.index as u64
}

pub struct Ids(Entities, usize);

impl Ids {
    pub fn new(tables: &IdTables) -> Ids {
        Ids(open::build(tables), tables.capacity())
    }

    pub fn tables(&self) -> IdTables {
        let mut t = IdTables::empty(self.1);
        unsafe { open::dump(&self.0, &mut t) }
        t
    }

    pub fn head(&self) -> Head {
        open::head(&self.0)
    }

    #[inline(never)]
    pub fn reserve_entity(&mut self) -> u64 {
        self.0.reserve_entity().to_bits().get()
    }

    #[inline(never)]
    pub fn reserve_entities(&mut self, out: &mut [u64]) {
        let handles = self.0.reserve_entities(out.len() as u32);
        for (slot, e) in out.iter_mut().zip(handles) {
            *slot = e.to_bits().get();
        }
    }

    #[inline(never)]
    pub fn alloc(&mut self, place: Place) -> u64 {
        let e = self.0.alloc();
        self.0.meta[e.id() as usize].location = at(place);
        e.to_bits().get()
    }

    /// Answers where the pending part begins.
    #[inline(never)]
    pub fn alloc_many(&mut self, n: u32, archetype: u32, first: u32) -> u64 {
        let state = self.0.alloc_many(n, archetype, first);
        self.0.finish_alloc_many(state.pending_end);
        state.pending_end as u64
    }

    #[inline(never)]
    pub fn alloc_at(&mut self, bits: u64, place: Place) -> u64 {
        let e = entity(bits);
        let old = self.0.alloc_at(e);
        self.0.meta[e.id() as usize].location = at(place);
        old.map_or(0, |l| packed(l) + 1)
    }

    #[inline(never)]
    pub fn free(&mut self, bits: u64) -> u64 {
        self.0.free(entity(bits)).map_or(u64::MAX, packed)
    }

    #[inline(never)]
    pub fn contains(&self, bits: u64) -> u64 {
        self.0.contains(entity(bits)) as u64
    }

    #[inline(never)]
    pub fn get(&self, bits: u64) -> u64 {
        self.0.get(entity(bits)).map_or(u64::MAX, packed)
    }

    #[inline(never)]
    pub fn set_place(&mut self, bits: u64, place: Place) -> u64 {
        match self.0.get_mut(entity(bits)) {
            Ok(old) => {
                *old = at(place);
                0
            }
            Err(_) => 2,
        }
    }

    #[inline(never)]
    pub fn resolve_unknown_gen(&self, number: u32) -> u64 {
        unsafe { self.0.resolve_unknown_gen(number) }.to_bits().get()
    }

    #[inline(never)]
    pub fn flush(&mut self, archetype: u32, first: u32) {
        let mut index = first;
        self.0.flush(|_, place| {
            *place = Location { archetype, index };
            index += 1;
        });
    }

    #[inline(never)]
    pub fn live(&self) -> u64 {
        self.0.len() as u64
    }

    #[inline(never)]
    pub fn freelist(&self, out: &mut [u64]) -> u64 {
        let list = self.0.freelist();
        let count = list.len();
        for (slot, e) in out.iter_mut().zip(list) {
            *slot = e.to_bits().get();
        }
        count as u64
    }

    #[inline(never)]
    pub fn clear(&mut self) {
        self.0.clear()
    }
}

pub struct Columns {
    declaration: Declaration,
    numbers: TypeNumbers,
    archetypes: Vec<Archetype>,
}

impl Columns {
    pub fn new(d: &Declaration, t: &ColumnTables) -> Columns {
        let numbers = TypeNumbers::new(&d.types);
        let archetypes = columns::filled(d, t, |kind| numbers.id(kind));
        Columns { declaration: d.clone(), numbers, archetypes }
    }

    pub fn tables(&self) -> ColumnTables {
        let mut t = ColumnTables::empty(&self.declaration);
        columns::dump(&self.archetypes, &self.declaration, &mut t);
        t
    }

    /// What the original knows a type number by.
    pub fn kind(&self, number: u32) -> TypeId {
        self.numbers.id(number)
    }

    #[inline(never)]
    pub fn allocate(&mut self, archetype: u32, number: u32) -> u64 {
        unsafe { self.archetypes[archetype as usize].allocate(number) as u64 }
    }

    #[inline(never)]
    pub fn put_dynamic(&mut self, archetype: u32, row: u32, kind: TypeId, bytes: &[u8]) {
        let from = bytes.as_ptr().cast_mut();
        unsafe { self.archetypes[archetype as usize].put_dynamic(from, kind, bytes.len(), row) }
    }

    #[inline(never)]
    pub fn get_dynamic(&self, archetype: u32, row: u32, kind: TypeId, size: usize) -> *const u8 {
        let found = unsafe { self.archetypes[archetype as usize].get_dynamic(kind, size, row) };
        found.map_or(core::ptr::null(), |at| at.as_ptr().cast_const())
    }

    /// Answers the moved number and one, or 0.
    #[inline(never)]
    pub fn remove(&mut self, archetype: u32, row: u32) -> u64 {
        let moved = unsafe { self.archetypes[archetype as usize].remove(row, true) };
        moved.map_or(0, |number| number as u64 + 1)
    }

    #[inline(never)]
    pub fn move_to(&mut self, archetype: u32, row: u32, out: &mut [u8]) -> u64 {
        let mut filled = 0;
        let moved = unsafe {
            self.archetypes[archetype as usize].move_to(row, |bytes, _, size| {
                let from = core::slice::from_raw_parts(bytes, size);
                out[filled..filled + size].copy_from_slice(from);
                filled += size;
            })
        };
        moved.map_or(0, |number| number as u64 + 1)
    }

    #[inline(never)]
    pub fn lookup(&self, archetype: u32, kind: TypeId) -> u64 {
        columns::find(&self.archetypes[archetype as usize], kind).map_or(u64::MAX, |c| c as u64)
    }

    #[inline(never)]
    pub fn ids(&self, archetype: u32) -> &[u32] {
        self.archetypes[archetype as usize].ids()
    }
}

pub struct Word(AtomicBorrow);

impl Word {
    pub fn new(word: u64) -> Word {
        Word(words::build(word))
    }

    pub fn value(&self) -> u64 {
        words::read(&self.0)
    }

    #[inline(never)]
    pub fn borrow(&self) -> bool {
        self.0.borrow()
    }

    #[inline(never)]
    pub fn borrow_mut(&self) -> bool {
        self.0.borrow_mut()
    }

    #[inline(never)]
    pub fn release(&self) {
        self.0.release()
    }

    #[inline(never)]
    pub fn release_mut(&self) {
        self.0.release_mut()
    }
}

/// The calls of the id layer and of the archetypes that `World` makes for one of
/// its own, in its order. The files of `World` itself are not compiled here.
pub struct Store {
    pub ids: Ids,
    pub columns: Columns,
}

impl Store {
    pub fn new(d: &Declaration, ids: &IdTables, columns: &ColumnTables) -> Store {
        Store { ids: Ids::new(ids), columns: Columns::new(d, columns) }
    }

    /// `flush`, `alloc`, `allocate`, `put_dynamic` a column.
    #[inline(never)]
    pub fn spawn(&mut self, archetype: u32, row: &[u8], kinds: &[(TypeId, usize)]) -> u64 {
        self.flush();
        let e = self.ids.0.alloc();
        let target = &mut self.columns.archetypes[archetype as usize];
        let index = unsafe { target.allocate(e.id()) };
        put_all(target, index, row, kinds);
        self.ids.0.meta[e.id() as usize].location = Location { archetype, index };
        e.to_bits().get()
    }

    /// `flush`, `alloc_at` with the old row's `remove`, `allocate`, `put_dynamic` a
    /// column.
    #[inline(never)]
    pub fn spawn_at(&mut self, bits: u64, archetype: u32, row: &[u8], kinds: &[(TypeId, usize)]) {
        self.flush();
        let e = entity(bits);
        if let Some(old) = self.ids.0.alloc_at(e) {
            self.leave(old);
        }
        let target = &mut self.columns.archetypes[archetype as usize];
        let index = unsafe { target.allocate(e.id()) };
        put_all(target, index, row, kinds);
        self.ids.0.meta[e.id() as usize].location = Location { archetype, index };
    }

    fn leave(&mut self, old: Location) {
        let moved =
            unsafe { self.columns.archetypes[old.archetype as usize].remove(old.index, true) };
        if let Some(moved) = moved {
            self.ids.0.meta[moved as usize].location.index = old.index;
        }
    }

    /// `flush`, `free`, `remove`, the moved number's place.
    #[inline(never)]
    pub fn despawn(&mut self, bits: u64) -> u64 {
        self.flush();
        match self.ids.0.free(entity(bits)) {
            Ok(old) => {
                self.leave(old);
                0
            }
            Err(_) => 2,
        }
    }

    /// `get`, the column's shared borrow and release, `get_dynamic`.
    #[inline(never)]
    pub fn read(&self, bits: u64, kind: TypeId, size: usize) -> *const u8 {
        let Ok(place) = self.ids.0.get(entity(bits)) else {
            return core::ptr::null();
        };
        let archetype = &self.columns.archetypes[place.archetype as usize];
        let Some(column) = columns::find(archetype, kind) else {
            return core::ptr::null();
        };
        unsafe {
            archetype.borrow_raw(column);
            let at = archetype.get_dynamic(kind, size, place.index);
            archetype.release_raw(column);
            at.map_or(core::ptr::null(), |at| at.as_ptr().cast_const())
        }
    }

    /// `get`, `put_dynamic`.
    #[inline(never)]
    pub fn write(&mut self, bits: u64, kind: TypeId, bytes: &[u8]) -> u64 {
        let Ok(place) = self.ids.0.get(entity(bits)) else {
            return 2;
        };
        let archetype = &mut self.columns.archetypes[place.archetype as usize];
        let from = bytes.as_ptr().cast_mut();
        unsafe { archetype.put_dynamic(from, kind, bytes.len(), place.index) }
        0
    }

    /// `flush`, `get`, `allocate` in the target, `move_to` with `put_dynamic` a
    /// column that the target has, the moved number's place; for an insert then
    /// `put_dynamic` of the new component. `World` looks the target up in a map of
    /// its own, which is not counted here.
    #[inline(never)]
    pub fn move_entity(&mut self, bits: u64, target: u32, add: Option<(TypeId, &[u8])>) -> u64 {
        self.flush();
        let e = entity(bits);
        let Ok(old) = self.ids.0.get(e) else {
            return 2;
        };
        let all = &mut self.columns.archetypes[..];
        let [from, into] = all.get_disjoint_mut([old.archetype as usize, target as usize]).unwrap();
        unsafe {
            let index = into.allocate(e.id());
            let moved = from.move_to(old.index, |bytes, kind, size| {
                if into.has_dynamic(kind) {
                    into.put_dynamic(bytes, kind, size, index)
                }
            });
            if let Some((kind, bytes)) = add {
                into.put_dynamic(bytes.as_ptr().cast_mut(), kind, bytes.len(), index);
            }
            self.ids.0.meta[e.id() as usize].location = Location { archetype: target, index };
            if let Some(moved) = moved {
                self.ids.0.meta[moved as usize].location.index = old.index;
            }
        }
        0
    }

    /// `flush` with `allocate` a number, in archetype 0.
    #[inline(never)]
    pub fn flush(&mut self) {
        let empty = &mut self.columns.archetypes[0];
        self.ids.0.flush(|id, place| {
            *place = Location { archetype: 0, index: unsafe { empty.allocate(id) } };
        });
    }

    /// `borrow` and `release` of a column, found by its type.
    #[inline(never)]
    pub fn borrow(&self, archetype: u32, kind: TypeId) {
        let archetype = &self.columns.archetypes[archetype as usize];
        let column = columns::find(archetype, kind).unwrap();
        unsafe { archetype.borrow_raw(column) }
    }

    #[inline(never)]
    pub fn release(&self, archetype: u32, kind: TypeId) {
        let archetype = &self.columns.archetypes[archetype as usize];
        let column = columns::find(archetype, kind).unwrap();
        unsafe { archetype.release_raw(column) }
    }
}

fn put_all(target: &mut Archetype, index: u32, row: &[u8], kinds: &[(TypeId, usize)]) {
    let mut rest = row;
    for (kind, size) in kinds {
        let (component, more) = rest.split_at(*size);
        let from = component.as_ptr().cast_mut();
        unsafe { target.put_dynamic(from, *kind, *size, index) };
        rest = more;
    }
}
