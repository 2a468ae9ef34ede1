//! The id calls of document 01 on the original `Entities`.

use crate::entities::open;
use crate::entities::{Entities, Entity, Location};
use crate::panics::{caught, mapped, must_speak};
use crate::{Batch, Head, IdTables, No, Place, Said, Stand, Walk, MAX};

const UNFLUSHED: &[(&str, u32)] = &[("flush() needs to be called", 3)];
const OUT_OF_RANGE: &[(&str, u32)] = &[("entity id is out of range", 2)];

/// The original `Entities`, at the capacity of the tables it was made from.
pub struct Ids {
    inner: Entities,
    capacity: usize,
    stand: [usize; 2],
}

fn handle(bits: u64) -> Said<Entity> {
    Entity::from_bits(bits).ok_or(No::Refused(5))
}

fn location(p: Place) -> Location {
    Location { archetype: p.archetype, index: p.index }
}

fn place(l: Location) -> Place {
    Place { archetype: l.archetype, index: l.index }
}

/// Steps until none was given twice. A step tells where it stands, and gives something if asked to.
fn walked(mut step: impl FnMut(bool) -> (Stand, Option<u64>)) -> Walk {
    let mut walk = Walk { stands: Vec::new(), given: Vec::new() };
    loop {
        let ended = walk.given.ends_with(&[None, None]);
        let (stand, given) = step(!ended);
        walk.stands.push(stand);
        if ended {
            return walk;
        }
        walk.given.push(given);
    }
}

impl Ids {
    /// From sound tables. Panics where the original can't hold them: tables of
    /// different lengths, a count above the capacity, a used generation 0.
    pub fn new(tables: &IdTables) -> Ids {
        must_speak();
        let inner = open::build(tables);
        let stand = open::stand(&inner);
        Ids { inner, capacity: tables.capacity(), stand }
    }

    pub fn capacity(&self) -> usize {
        self.capacity
    }

    pub fn head(&self) -> Head {
        open::head(&self.inner)
    }

    /// The tables whole, entries past the counts included.
    pub fn tables(&self) -> IdTables {
        let mut t = IdTables::empty(self.capacity);
        self.dump(&mut t);
        t
    }

    /// The same into tables of that capacity.
    pub fn dump(&self, into: &mut IdTables) {
        assert_eq!(into.capacity(), self.capacity);
        assert_eq!(open::stand(&self.inner), self.stand, "the original's tables have grown");
        unsafe { open::dump(&self.inner, into) }
    }

    fn flushed(&self) -> bool {
        let h = self.head();
        h.cursor == h.pending as i64
    }

    /// Numbers neither live nor reserved.
    fn room(&self) -> i64 {
        let h = self.head();
        self.capacity as i64 - h.used as i64 + h.cursor
    }

    fn fits(&self, n: i64) -> Said<()> {
        if n <= self.room() {
            Ok(())
        } else {
            Err(No::Outside(4))
        }
    }

    /// Indexes from `first` on for `n` numbers.
    fn indexes(n: i64, first: u32) -> Said<()> {
        if n == 0 || first as i64 + n <= MAX as i64 {
            Ok(())
        } else {
            Err(No::Outside(6))
        }
    }

    pub fn reserve_entity(&mut self) -> Said<u64> {
        self.fits(1)?;
        mapped(&[], || self.inner.reserve_entity().to_bits().get())
    }

    pub fn reserve_entities(&mut self, n: u32) -> Said<Vec<u64>> {
        self.fits(n as i64)?;
        mapped(&[], || {
            let handles = self.inner.reserve_entities(n);
            assert_eq!(handles.len(), n as usize);
            handles.map(|e| e.to_bits().get()).collect()
        })
    }

    /// `reserve_entities`, and its iterator walked: handles.
    pub fn reserve_walk(&mut self, n: u32) -> Said<Walk> {
        self.fits(n as i64)?;
        mapped(&[], || {
            let mut reader = self.inner.reserve_entities(n);
            walked(|steps| {
                let (positions, fresh) = open::reading(&self.inner, &reader);
                let stand = Stand { positions, fresh, len: reader.len() };
                let given = if steps { reader.next() } else { None };
                (stand, given.map(|e| e.to_bits().get()))
            })
        })
    }

    /// The place is written right after the original's `alloc`, as `World` does.
    pub fn alloc(&mut self, at: Place) -> Said<u64> {
        if self.flushed() {
            Self::indexes(1, at.index)?;
            self.fits(1)?;
        }
        let e = mapped(UNFLUSHED, || self.inner.alloc())?;
        self.inner.meta[e.id() as usize].location = location(at);
        Ok(e.to_bits().get())
    }

    /// What a walk over the state of an `alloc_many` gave, from where it began.
    pub fn alloc_many(&mut self, n: u32, archetype: u32, first_row: u32) -> Said<Batch> {
        let Walk { stands, given } = self.alloc_many_walk(n, archetype, first_row)?;
        let Stand { positions, fresh, len } = stands[0].clone();
        assert_eq!(len, n as usize);
        let numbers = given.into_iter().flatten().map(|number| number as u32).collect();
        Ok(Batch { numbers, positions, fresh })
    }

    /// `alloc_many`, its state walked, `finish_alloc_many`: numbers.
    pub fn alloc_many_walk(&mut self, n: u32, archetype: u32, first_row: u32) -> Said<Walk> {
        if self.flushed() {
            Self::indexes(n as i64, first_row)?;
            self.fits(n as i64)?;
        }
        let mut state = mapped(UNFLUSHED, || self.inner.alloc_many(n, archetype, first_row))?;
        let end = state.pending_end;
        let walk = caught(|| {
            walked(|steps| {
                let positions = state.pending_end..self.inner_pending();
                let len = state.len(&self.inner);
                let stand = Stand { positions, fresh: open::fresh(&state), len };
                let given = if steps { state.next(&self.inner) } else { None };
                (stand, given.map(u64::from))
            })
        })
        .map_err(No::Panicked)?;
        self.inner.finish_alloc_many(end);
        Ok(walk)
    }

    fn inner_pending(&self) -> usize {
        open::waiting(&self.inner).len()
    }

    /// Answers the place of the live number that was there, if one was. The
    /// place is written right after the original's `alloc_at`.
    pub fn alloc_at(&mut self, bits: u64, at: Place) -> Said<Option<Place>> {
        let e = handle(bits)?;
        if self.flushed() {
            Self::indexes(1, at.index)?;
            if e.id() as usize >= self.capacity {
                return Err(No::Outside(4));
            }
        }
        let old = mapped(UNFLUSHED, || self.inner.alloc_at(e))?;
        self.inner.meta[e.id() as usize].location = location(at);
        Ok(old.map(place))
    }

    pub fn free(&mut self, bits: u64) -> Said<Place> {
        let e = handle(bits)?;
        match mapped(UNFLUSHED, || self.inner.free(e))? {
            Ok(old) => Ok(place(old)),
            Err(_) => Err(No::Refused(2)),
        }
    }

    pub fn contains(&self, bits: u64) -> Said<bool> {
        let e = handle(bits)?;
        mapped(&[], || self.inner.contains(e))
    }

    pub fn get(&self, bits: u64) -> Said<Place> {
        let e = handle(bits)?;
        match mapped(&[], || self.inner.get(e))? {
            Ok(at) => Ok(place(at)),
            Err(_) => Err(No::Refused(2)),
        }
    }

    /// `get_mut`, and a write of the place where it grants one.
    pub fn set_place(&mut self, bits: u64, at: Place) -> Said<()> {
        let e = handle(bits)?;
        Self::indexes(1, at.index)?;
        mapped(&[], || match self.inner.get_mut(e) {
            Ok(old) => {
                *old = location(at);
                Ok(())
            }
            Err(_) => Err(No::Refused(2)),
        })?
    }

    /// Answers the handle's bits.
    pub fn resolve_unknown_gen(&self, number: u32) -> Said<u64> {
        mapped(OUT_OF_RANGE, || unsafe { self.inner.resolve_unknown_gen(number).to_bits().get() })
    }

    /// Gives the reserved numbers successive rows from `first_row` on and
    /// answers them in that order.
    pub fn flush(&mut self, archetype: u32, first_row: u32) -> Said<Vec<u32>> {
        let h = self.head();
        Self::indexes(h.pending as i64 - h.cursor, first_row)?;
        let mut order = Vec::new();
        mapped(&[], || {
            self.inner.flush(|number, at| {
                *at = Location { archetype, index: first_row + order.len() as u32 };
                order.push(number);
            })
        })?;
        Ok(order)
    }

    pub fn len(&self) -> u32 {
        self.inner.len()
    }

    pub fn is_empty(&self) -> bool {
        self.len() == 0
    }

    pub fn freelist(&self) -> Said<Vec<u64>> {
        mapped(&[], || self.inner.freelist().map(|e| e.to_bits().get()).collect())
    }

    pub fn clear(&mut self) {
        self.inner.clear()
    }
}
