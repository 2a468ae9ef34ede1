//! The calls of the proved static library, over slices.
//!
//! Each function here is the function of that name in the crates `exports_..`,
//! with the same parameters: it lends the slices to the proved code and answers the
//! number of the refusal, 0 where the call is granted. `head` is used, pending,
//! cursor (two's complement) and live; `out` gets up to four numbers, zeros on
//! a refusal. Nothing else that is lent changes on a refusal. Any tables may be
//! lent: the library tests what it is given.
//!
//! The crate `verdict-store` is the one to use; this is what it stands on. All
//! unsafe code of the workspace's users of the library is in the macro below.

#![warn(missing_docs)]

/// Declares the C functions, and for each a safe function over slices.
///
/// In C a slice is a pointer and a count of elements; an array of four numbers,
/// and a word, is a pointer. The walk turns each parameter into what it is in Rust, what it
/// is in C, and what is passed.
macro_rules! calls {
    ($( $(#[$about:meta])* fn $name:ident($($list:tt)*); )*) => {
        $( calls!(@ [$(#[$about])*] $name ($($list)*) [] [] []); )*
    };
    (@ [$($about:tt)*] $name:ident () [$($taken:tt)*] [$($declared:tt)*] [$($passed:tt)*]) => {
        $($about)*
        #[inline]
        #[must_use]
        #[allow(clippy::too_many_arguments)]
        pub fn $name($($taken)*) -> u32 {
            extern "C" {
                fn $name($($declared)*) -> u32;
            }
            // SAFETY: the declaration is that of the proved crate (tests/declared.rs holds the two
            // together). Each pointer comes from a reference that lives through the call, and
            // the count beside it from that slice's own `len`; what the library writes to is
            // borrowed `&mut`, so nothing else can see it meanwhile. The library is proved to stay
            // within what it is lent and to return; it keeps no pointer, and cannot unwind.
            unsafe { $name($($passed)*) }
        }
    };
    (@ $about:tt $name:ident ($p:ident: &mut [$of:ty; 4], $($rest:tt)*) [$($t:tt)*] [$($d:tt)*] [$($g:tt)*]) => {
        calls!(@ $about $name ($($rest)*)
            [$($t)* $p: &mut [$of; 4],] [$($d)* _: *mut $of,] [$($g)* $p.as_mut_ptr(),]);
    };
    (@ $about:tt $name:ident ($p:ident: &[$of:ty; 4], $($rest:tt)*) [$($t:tt)*] [$($d:tt)*] [$($g:tt)*]) => {
        calls!(@ $about $name ($($rest)*)
            [$($t)* $p: &[$of; 4],] [$($d)* _: *const $of,] [$($g)* $p.as_ptr(),]);
    };
    (@ $about:tt $name:ident ($p:ident: &mut [$of:ty], $($rest:tt)*) [$($t:tt)*] [$($d:tt)*] [$($g:tt)*]) => {
        calls!(@ $about $name ($($rest)*)
            [$($t)* $p: &mut [$of],] [$($d)* _: *mut $of, _: usize,] [$($g)* $p.as_mut_ptr(), $p.len(),]);
    };
    (@ $about:tt $name:ident ($p:ident: &[$of:ty], $($rest:tt)*) [$($t:tt)*] [$($d:tt)*] [$($g:tt)*]) => {
        calls!(@ $about $name ($($rest)*)
            [$($t)* $p: &[$of],] [$($d)* _: *const $of, _: usize,] [$($g)* $p.as_ptr(), $p.len(),]);
    };
    (@ $about:tt $name:ident ($p:ident: &mut $of:ty, $($rest:tt)*) [$($t:tt)*] [$($d:tt)*] [$($g:tt)*]) => {
        calls!(@ $about $name ($($rest)*) [$($t)* $p: &mut $of,] [$($d)* _: *mut $of,] [$($g)* $p,]);
    };
    (@ $about:tt $name:ident ($p:ident: $of:ty, $($rest:tt)*) [$($t:tt)*] [$($d:tt)*] [$($g:tt)*]) => {
        calls!(@ $about $name ($($rest)*) [$($t)* $p: $of,] [$($d)* _: $of,] [$($g)* $p,]);
    };
}

// The id layer.
calls! {
    /// hecs's `alloc`, with the place that the number gets. Out: the handle.
    fn verdict_ids_alloc(
        head: &mut [u64; 4], generations: &mut [u32], archetypes: &mut [u32],
        indices: &mut [u32], pending: &[u32], archetype: u32, index: u32, out: &mut [u64; 4],
    );

    /// hecs's `free`. Out: the old place.
    fn verdict_ids_free(
        head: &mut [u64; 4], generations: &mut [u32], archetypes: &mut [u32],
        indices: &mut [u32], pending: &mut [u32], bits: u64, out: &mut [u64; 4],
    );

    /// hecs's `alloc_at`, with the place that the number gets. Out: 1 and the old place where the
    /// number was live, else 0.
    fn verdict_ids_alloc_at(
        head: &mut [u64; 4], generations: &mut [u32], archetypes: &mut [u32],
        indices: &mut [u32], pending: &mut [u32], bits: u64, archetype: u32, index: u32,
        out: &mut [u64; 4],
    );

    /// hecs's `alloc_many` and its finish. Out: the state that walks the numbers: a position of the
    /// pending table and its end, a new number and its end.
    fn verdict_ids_alloc_many(
        head: &mut [u64; 4], generations: &mut [u32], archetypes: &mut [u32],
        indices: &mut [u32], pending: &[u32], n: usize, archetype: u32, first: u32,
        out: &mut [u32; 4],
    );

    /// hecs's `AllocManyState::next`. Out: 1 and the number, or 0 at the end.
    fn verdict_ids_alloc_many_next(
        state: &mut [u32; 4], pending: &[u32], out: &mut [u64; 4],
    );

    /// hecs's `AllocManyState::len`. Out: how many numbers are left.
    fn verdict_ids_alloc_many_len(
        state: &[u32; 4], out: &mut [u64; 4],
    );

    /// hecs's `reserve_entity`. Out: the handle.
    fn verdict_ids_reserve_entity(
        head: &mut [u64; 4], generations: &[u32], archetypes: &[u32], indices: &[u32],
        pending: &[u32], out: &mut [u64; 4],
    );

    /// hecs's `reserve_entities`: n handles to the front of `handles`.
    fn verdict_ids_reserve_entities(
        head: &mut [u64; 4], generations: &[u32], archetypes: &[u32], indices: &[u32],
        pending: &[u32], n: usize, handles: &mut [u64],
    );

    /// hecs's `reserve_entities`, as a span that `verdict_ids_reserve_next` walks. Out: where its part
    /// of the pending list begins and ends, and where its new numbers do.
    fn verdict_ids_reserve_span(
        head: &mut [u64; 4], generations: &[u32], archetypes: &[u32], indices: &[u32],
        pending: &[u32], n: usize, out: &mut [u64; 4],
    );

    /// hecs's `ReserveEntitiesIterator::next`, over that part of the pending list. Out: 1 and the
    /// handle, or 0 at the end.
    fn verdict_ids_reserve_next(
        recycled: &[u32], position: &mut usize, number: &mut u32, end: u32, generations: &[u32],
        out: &mut [u64; 4],
    );

    /// hecs's `ReserveEntitiesIterator::len`. Out: how many handles are left.
    fn verdict_ids_reserve_len(
        recycled: &[u32], position: usize, number: u32, end: u32, out: &mut [u64; 4],
    );

    /// hecs's `flush`: the reserved numbers get successive rows of an archetype.
    fn verdict_ids_flush(
        head: &mut [u64; 4], generations: &mut [u32], archetypes: &mut [u32],
        indices: &mut [u32], pending: &[u32], archetype: u32, first: u32,
    );

    /// hecs's `contains`. Out: 1 for yes, 0 for no.
    fn verdict_ids_contains(
        head: &[u64; 4], generations: &[u32], archetypes: &[u32], indices: &[u32],
        pending: &[u32], bits: u64, out: &mut [u64; 4],
    );

    /// hecs's `get`. Out: the place.
    fn verdict_ids_get(
        head: &[u64; 4], generations: &[u32], archetypes: &[u32], indices: &[u32],
        pending: &[u32], bits: u64, out: &mut [u64; 4],
    );

    /// hecs's `get_mut`, as a call that sets the place.
    fn verdict_ids_set_place(
        head: &[u64; 4], generations: &[u32], archetypes: &mut [u32], indices: &mut [u32],
        pending: &[u32], bits: u64, archetype: u32, index: u32,
    );

    /// hecs's `resolve_unknown_gen`. Out: the handle.
    fn verdict_ids_resolve_unknown_gen(
        head: &[u64; 4], generations: &[u32], archetypes: &[u32], indices: &[u32],
        pending: &[u32], number: u32, out: &mut [u64; 4],
    );

    /// hecs's `len`. Out: the live count.
    fn verdict_ids_len(
        head: &[u64; 4], generations: &[u32], archetypes: &[u32], indices: &[u32],
        pending: &[u32], out: &mut [u64; 4],
    );

    /// hecs's `freelist`: the handles of the free numbers to the front of `handles`. Out: how many.
    fn verdict_ids_freelist(
        head: &[u64; 4], generations: &[u32], archetypes: &[u32], indices: &[u32],
        pending: &[u32], handles: &mut [u64], out: &mut [u64; 4],
    );

    /// hecs's `clear`.
    fn verdict_ids_clear(
        head: &mut [u64; 4], generations: &[u32], archetypes: &[u32], indices: &[u32],
        pending: &[u32],
    );
}

// The column layer.
calls! {
    /// hecs's `allocate`. Out: the row.
    fn verdict_columns_allocate(
        rows: &[u32], widths: &[u32], types: &[u32], sizes: &[u32], numbers: &mut [u32],
        counts: &mut [u32], bytes: &[u8], archetype: u32, number: u32, out: &mut [u64; 4],
    );

    /// hecs's `remove`. Out: 1 and the number moved into the row, or 0.
    fn verdict_columns_remove(
        rows: &[u32], widths: &[u32], types: &[u32], sizes: &[u32], numbers: &mut [u32],
        counts: &mut [u32], bytes: &mut [u8], archetype: u32, row: u32, out: &mut [u64; 4],
    );

    /// hecs's `move_to`: the row's old bytes to `taken`. Out: as `remove`.
    fn verdict_columns_move_out(
        rows: &[u32], widths: &[u32], types: &[u32], sizes: &[u32], numbers: &mut [u32],
        counts: &mut [u32], bytes: &mut [u8], taken: &mut [u8], archetype: u32, row: u32,
        out: &mut [u64; 4],
    );

    /// hecs's `put_dynamic`.
    fn verdict_columns_put(
        rows: &[u32], widths: &[u32], types: &[u32], sizes: &[u32], numbers: &[u32],
        counts: &[u32], bytes: &mut [u8], archetype: u32, row: u32, kind: u32, value: &[u8],
    );

    /// hecs's `get_dynamic`. Out: where the component starts in the bytes, and its length.
    fn verdict_columns_get(
        rows: &[u32], widths: &[u32], types: &[u32], sizes: &[u32], numbers: &[u32],
        counts: &[u32], bytes: &[u8], archetype: u32, row: u32, kind: u32, out: &mut [u64; 4],
    );

    /// hecs's `ids`. Out: where the archetype's numbers start in `numbers`, and how many they are.
    fn verdict_columns_ids(
        rows: &[u32], widths: &[u32], types: &[u32], sizes: &[u32], numbers: &[u32],
        counts: &[u32], bytes: &[u8], archetype: u32, out: &mut [u64; 4],
    );

    /// The column of a type within an archetype. Out: the column.
    fn verdict_columns_lookup(
        rows: &[u32], widths: &[u32], types: &[u32], sizes: &[u32], archetype: u32, kind: u32,
        out: &mut [u64; 4],
    );
}

// Borrow words and handles.
calls! {
    /// Shared borrow of a word.
    fn verdict_word_shared(
        word: &mut u64,
    );

    /// Shared borrow of the word at a position. Out: the word that is left.
    fn verdict_word_shared_at(
        words: &mut [u64], at: usize, out: &mut [u64; 4],
    );

    /// Unique borrow of a word.
    fn verdict_word_unique(
        word: &mut u64,
    );

    /// Unique borrow of the word at a position. Out: the word that is left.
    fn verdict_word_unique_at(
        words: &mut [u64], at: usize, out: &mut [u64; 4],
    );

    /// Shared release of a word.
    fn verdict_word_release(
        word: &mut u64,
    );

    /// Shared release of the word at a position. Out: the word that is left.
    fn verdict_word_release_at(
        words: &mut [u64], at: usize, out: &mut [u64; 4],
    );

    /// Unique release of a word.
    fn verdict_word_unique_release(
        word: &mut u64,
    );

    /// Unique release of the word at a position. Out: the word that is left.
    fn verdict_word_unique_release_at(
        words: &mut [u64], at: usize, out: &mut [u64; 4],
    );

    /// A handle's bits taken apart. Out: the number and the generation.
    fn verdict_handle_from_bits(
        raw: u64, out: &mut [u64; 4],
    );

    /// The handle of a number and a generation. Out: its bits.
    fn verdict_handle_new(
        number: u32, generation: u32, out: &mut [u64; 4],
    );
}

// The store.
calls! {
    /// An entity in an archetype; `run` is its row in column order. Out: the handle.
    fn verdict_store_spawn(
        head: &mut [u64; 4], rows: &[u32], widths: &[u32], types: &[u32], sizes: &[u32],
        generations: &mut [u32], archetypes: &mut [u32], indices: &mut [u32], pending: &[u32],
        numbers: &mut [u32], counts: &mut [u32], bytes: &mut [u8], words: &[u64],
        archetype: u32, run: &[u8], out: &mut [u64; 4],
    );

    /// An entity at a chosen handle.
    fn verdict_store_spawn_at(
        head: &mut [u64; 4], rows: &[u32], widths: &[u32], types: &[u32], sizes: &[u32],
        generations: &mut [u32], archetypes: &mut [u32], indices: &mut [u32],
        pending: &mut [u32], numbers: &mut [u32], counts: &mut [u32], bytes: &mut [u8],
        words: &[u64], bits: u64, archetype: u32, run: &[u8],
    );

    /// An entity and its row leave.
    fn verdict_store_despawn(
        head: &mut [u64; 4], rows: &[u32], widths: &[u32], types: &[u32], sizes: &[u32],
        generations: &mut [u32], archetypes: &mut [u32], indices: &mut [u32],
        pending: &mut [u32], numbers: &mut [u32], counts: &mut [u32], bytes: &mut [u8],
        words: &[u64], bits: u64,
    );

    /// A component is added, or overwritten where it is held.
    fn verdict_store_insert(
        head: &[u64; 4], rows: &[u32], widths: &[u32], types: &[u32], sizes: &[u32],
        generations: &[u32], archetypes: &mut [u32], indices: &mut [u32], pending: &[u32],
        numbers: &mut [u32], counts: &mut [u32], bytes: &mut [u8], words: &[u64], bits: u64,
        kind: u32, value: &[u8],
    );

    /// A component is taken away.
    fn verdict_store_remove(
        head: &[u64; 4], rows: &[u32], widths: &[u32], types: &[u32], sizes: &[u32],
        generations: &[u32], archetypes: &mut [u32], indices: &mut [u32], pending: &[u32],
        numbers: &mut [u32], counts: &mut [u32], bytes: &mut [u8], words: &[u64], bits: u64,
        kind: u32,
    );

    /// Where a component starts in the bytes, and its length.
    fn verdict_store_read(
        head: &[u64; 4], rows: &[u32], widths: &[u32], types: &[u32], sizes: &[u32],
        generations: &[u32], archetypes: &[u32], indices: &[u32], pending: &[u32],
        numbers: &[u32], counts: &[u32], bytes: &[u8], words: &[u64], bits: u64, kind: u32,
        out: &mut [u64; 4],
    );

    /// A component is overwritten.
    fn verdict_store_write(
        head: &[u64; 4], rows: &[u32], widths: &[u32], types: &[u32], sizes: &[u32],
        generations: &[u32], archetypes: &[u32], indices: &[u32], pending: &[u32],
        numbers: &[u32], counts: &[u32], bytes: &mut [u8], words: &[u64], bits: u64,
        kind: u32, value: &[u8],
    );

    /// Shared borrow of a column.
    fn verdict_store_borrow(
        head: &[u64; 4], rows: &[u32], widths: &[u32], types: &[u32], sizes: &[u32],
        generations: &[u32], archetypes: &[u32], indices: &[u32], pending: &[u32],
        numbers: &[u32], counts: &[u32], bytes: &[u8], words: &mut [u64], archetype: u32,
        kind: u32,
    );

    /// Unique borrow of a column.
    fn verdict_store_borrow_mut(
        head: &[u64; 4], rows: &[u32], widths: &[u32], types: &[u32], sizes: &[u32],
        generations: &[u32], archetypes: &[u32], indices: &[u32], pending: &[u32],
        numbers: &[u32], counts: &[u32], bytes: &[u8], words: &mut [u64], archetype: u32,
        kind: u32,
    );

    /// Shared release of a column.
    fn verdict_store_release(
        head: &[u64; 4], rows: &[u32], widths: &[u32], types: &[u32], sizes: &[u32],
        generations: &[u32], archetypes: &[u32], indices: &[u32], pending: &[u32],
        numbers: &[u32], counts: &[u32], bytes: &[u8], words: &mut [u64], archetype: u32,
        kind: u32,
    );

    /// Unique release of a column.
    fn verdict_store_release_mut(
        head: &[u64; 4], rows: &[u32], widths: &[u32], types: &[u32], sizes: &[u32],
        generations: &[u32], archetypes: &[u32], indices: &[u32], pending: &[u32],
        numbers: &[u32], counts: &[u32], bytes: &[u8], words: &mut [u64], archetype: u32,
        kind: u32,
    );

    /// Out: the place of an entity.
    fn verdict_store_get(
        head: &[u64; 4], rows: &[u32], widths: &[u32], types: &[u32], sizes: &[u32],
        generations: &[u32], archetypes: &[u32], indices: &[u32], pending: &[u32],
        numbers: &[u32], counts: &[u32], bytes: &[u8], words: &[u64], bits: u64,
        out: &mut [u64; 4],
    );

    /// Out: 1 where a handle is live or reserved, else 0.
    fn verdict_store_contains(
        head: &[u64; 4], rows: &[u32], widths: &[u32], types: &[u32], sizes: &[u32],
        generations: &[u32], archetypes: &[u32], indices: &[u32], pending: &[u32],
        numbers: &[u32], counts: &[u32], bytes: &[u8], words: &[u64], bits: u64,
        out: &mut [u64; 4],
    );

    /// Out: the handle of a number.
    fn verdict_store_resolve_unknown_gen(
        head: &[u64; 4], rows: &[u32], widths: &[u32], types: &[u32], sizes: &[u32],
        generations: &[u32], archetypes: &[u32], indices: &[u32], pending: &[u32],
        numbers: &[u32], counts: &[u32], bytes: &[u8], words: &[u64], number: u32,
        out: &mut [u64; 4],
    );

    /// Out: the live count.
    fn verdict_store_len(
        head: &[u64; 4], rows: &[u32], widths: &[u32], types: &[u32], sizes: &[u32],
        generations: &[u32], archetypes: &[u32], indices: &[u32], pending: &[u32],
        numbers: &[u32], counts: &[u32], bytes: &[u8], words: &[u64], out: &mut [u64; 4],
    );

    /// Out: a handle that is handed out before its entity is there.
    fn verdict_store_reserve_entity(
        head: &mut [u64; 4], rows: &[u32], widths: &[u32], types: &[u32], sizes: &[u32],
        generations: &[u32], archetypes: &[u32], indices: &[u32], pending: &[u32],
        numbers: &[u32], counts: &[u32], bytes: &[u8], words: &[u64], out: &mut [u64; 4],
    );

    /// n such handles to the front of `handles`.
    fn verdict_store_reserve_entities(
        head: &mut [u64; 4], rows: &[u32], widths: &[u32], types: &[u32], sizes: &[u32],
        generations: &[u32], archetypes: &[u32], indices: &[u32], pending: &[u32],
        numbers: &[u32], counts: &[u32], bytes: &[u8], words: &[u64], n: usize,
        handles: &mut [u64],
    );

    /// The handles of the free numbers to the front of `handles`. Out: how many.
    fn verdict_store_freelist(
        head: &[u64; 4], rows: &[u32], widths: &[u32], types: &[u32], sizes: &[u32],
        generations: &[u32], archetypes: &[u32], indices: &[u32], pending: &[u32],
        numbers: &[u32], counts: &[u32], bytes: &[u8], words: &[u64], handles: &mut [u64],
        out: &mut [u64; 4],
    );

    /// The reserved entities become live, in archetype 0.
    fn verdict_store_flush(
        head: &mut [u64; 4], rows: &[u32], widths: &[u32], types: &[u32], sizes: &[u32],
        generations: &mut [u32], archetypes: &mut [u32], indices: &mut [u32], pending: &[u32],
        numbers: &mut [u32], counts: &mut [u32], bytes: &[u8], words: &[u64],
    );

    /// All entities leave.
    fn verdict_store_clear(
        head: &mut [u64; 4], rows: &[u32], widths: &[u32], types: &[u32], sizes: &[u32],
        generations: &[u32], archetypes: &[u32], indices: &[u32], pending: &[u32],
        numbers: &[u32], counts: &mut [u32], bytes: &[u8], words: &[u64],
    );
}
