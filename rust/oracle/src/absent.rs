//! The drivers where the original is missing: they build, and say so on their making.

use crate::*;

enum Never {}

fn missing() -> ! {
    panic!("{}", MISSING.unwrap())
}

pub mod handle {
    use super::{missing, Said};

    pub fn from_bits(_: u64) -> Said<(u32, u32)> {
        missing()
    }

    pub fn to_bits(_: u32, _: u32) -> Said<u64> {
        missing()
    }

    pub fn dangling() -> u64 {
        missing()
    }
}

macro_rules! driver {
    ($name:ident, new($($a:ident: $t:ty),*),
     $( $f:ident(&$($m:ident)+ $(, $x:ident: $xt:ty)*) -> $r:ty; )*) => {
        pub struct $name(Never);

        impl $name {
            pub fn new($($a: $t),*) -> $name {
                let _ = ($($a),*);
                missing()
            }
            $( driver! { @ $f, $($m)+, [$($x: $xt),*], $r } )*
        }
    };
    (@ $f:ident, self, [$($x:ident: $xt:ty),*], $r:ty) => {
        pub fn $f(&self $(, $x: $xt)*) -> $r {
            $( let _ = $x; )*
            match self.0 {}
        }
    };
    (@ $f:ident, mut self, [$($x:ident: $xt:ty),*], $r:ty) => {
        pub fn $f(&mut self $(, $x: $xt)*) -> $r {
            $( let _ = $x; )*
            match self.0 {}
        }
    };
}

driver! { Ids, new(tables: &IdTables),
    capacity(&self) -> usize;
    head(&self) -> Head;
    tables(&self) -> IdTables;
    dump(&self, into: &mut IdTables) -> ();
    reserve_entity(&mut self) -> Said<u64>;
    reserve_entities(&mut self, n: u32) -> Said<Vec<u64>>;
    reserve_walk(&mut self, n: u32) -> Said<Walk>;
    alloc(&mut self, at: Place) -> Said<u64>;
    alloc_many(&mut self, n: u32, archetype: u32, first_row: u32) -> Said<Batch>;
    alloc_many_walk(&mut self, n: u32, archetype: u32, first_row: u32) -> Said<Walk>;
    alloc_at(&mut self, bits: u64, at: Place) -> Said<Option<Place>>;
    free(&mut self, bits: u64) -> Said<Place>;
    contains(&self, bits: u64) -> Said<bool>;
    get(&self, bits: u64) -> Said<Place>;
    set_place(&mut self, bits: u64, at: Place) -> Said<()>;
    resolve_unknown_gen(&self, number: u32) -> Said<u64>;
    flush(&mut self, archetype: u32, first_row: u32) -> Said<Vec<u32>>;
    len(&self) -> u32;
    is_empty(&self) -> bool;
    freelist(&self) -> Said<Vec<u64>>;
    clear(&mut self) -> ();
}

driver! { Columns, new(d: &Declaration, t: &ColumnTables),
    declaration(&self) -> &Declaration;
    tables(&self) -> ColumnTables;
    dump(&self, into: &mut ColumnTables) -> ();
    allocate(&mut self, archetype: u32, number: u32) -> Said<u32>;
    remove(&mut self, archetype: u32, row: u32) -> Said<Option<u32>>;
    move_to(&mut self, archetype: u32, row: u32) -> Said<(Vec<u8>, Option<u32>)>;
    put_dynamic(&mut self, archetype: u32, row: u32, ty: u32, bytes: &[u8]) -> Said<()>;
    get_dynamic(&self, archetype: u32, row: u32, ty: u32) -> Said<(Part, Vec<u8>)>;
    lookup(&self, archetype: u32, ty: u32) -> Said<u32>;
    ids(&self, archetype: u32) -> Said<&[u32]>;
}

driver! { Word, new(word: u64),
    value(&self) -> u64;
    left(&self) -> u64;
    borrow(&mut self) -> Said<()>;
    borrow_mut(&mut self) -> Said<()>;
    release(&mut self) -> Said<()>;
    release_mut(&mut self) -> Said<()>;
}
