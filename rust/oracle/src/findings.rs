//! Facts about the original, each with the smallest input found for it.
//!
//! `comments`: where a comment of the crate and its code say different things.
//! `intended`: where document 01 means to differ from the code.
//! docs/DIFFERENCES.md lists them all.

use crate::archetype::{open as rows, Archetype, TypeIdHasher, TypeInfo};
use crate::entities::{open, Entities, Entity, Location, NoSuchEntity};
use crate::panics::caught;
use crate::types::sorted;
use crate::{
    bits, handle, place, ColumnTables, Columns, Declaration, Head, IdTables, Ids, No, Word, MAX,
    NOWHERE,
};
use core::alloc::Layout;
use core::hash::Hasher;

const TOP: u64 = 1 << 63;

fn entity(number: u32, generation: u32) -> Entity {
    Entity::from_bits(bits(number, generation)).unwrap()
}

fn at(l: Location) -> (u32, u32) {
    (l.archetype, l.index)
}

/// One used number, free, at generation 2: what one alloc and one free leave.
fn one_free(capacity: usize) -> Ids {
    let mut ids = Ids::new(&IdTables::empty(capacity));
    assert_eq!(ids.alloc(place(1, 0)), Ok(bits(0, 1)));
    assert_eq!(ids.free(bits(0, 1)), Ok(place(1, 0)));
    ids
}

/// An archetype with one column of that size and the given rows.
fn one_column(size: usize, numbers: &[u32]) -> Archetype {
    let mut a = rows::build(vec![rows::info(sorted()[0], size)], 64);
    for (row, n) in numbers.iter().enumerate() {
        unsafe {
            assert_eq!(a.allocate(*n), row as u32);
            a.put_dynamic([*n as u8; 64].as_mut_ptr(), sorted()[0], size, row as u32);
        }
    }
    a
}

/// The bytes of the first rows of that column, wherever the row count stands.
fn bytes(a: &Archetype, count: usize) -> Vec<u8> {
    unsafe { core::slice::from_raw_parts(rows::column(a, 0), count) }.to_vec()
}

mod comments {
    use super::*;

    // ---- entities.rs ----

    #[test]
    fn get_refuses_a_recycled_reserved_handle_that_contains_affirms() {
        let mut ids = one_free(1);
        assert_eq!(ids.get(bits(0, 2)), Err(No::Refused(2)), "pending and free");
        assert_eq!(ids.reserve_entity(), Ok(bits(0, 2)));
        assert_eq!(ids.contains(bits(0, 2)), Ok(true));
        assert_eq!(ids.get(bits(0, 2)), Err(No::Refused(2)));
    }

    #[test]
    fn get_gives_a_new_reserved_handle_the_index_max() {
        let mut ids = Ids::new(&IdTables::empty(1));
        assert_eq!(ids.reserve_entity(), Ok(bits(0, 1)));
        assert_eq!(ids.get(bits(0, 1)), Ok(NOWHERE));
    }

    #[test]
    fn get_mut_refuses_reserved_handles_itself() {
        let mut recycled = one_free(1);
        assert_eq!(recycled.reserve_entity(), Ok(bits(0, 2)));
        assert_eq!(recycled.set_place(bits(0, 2), place(0, 0)), Err(No::Refused(2)));
        let mut new = Ids::new(&IdTables::empty(1));
        assert_eq!(new.reserve_entity(), Ok(bits(0, 1)));
        assert_eq!(new.set_place(bits(0, 1), place(0, 0)), Err(No::Refused(2)));
    }

    #[test]
    fn resolve_answers_outside_meta_for_a_reserved_new_number() {
        let mut ids = Ids::new(&IdTables::empty(1));
        assert_eq!(ids.resolve_unknown_gen(0), Err(No::Refused(2)));
        assert_eq!(ids.reserve_entity(), Ok(bits(0, 1)));
        assert_eq!(ids.head().used, 0, "meta is empty");
        assert_eq!(ids.resolve_unknown_gen(0), Ok(bits(0, 1)));
    }

    #[test]
    fn resolve_answers_the_next_generation_of_a_free_number() {
        let ids = one_free(1);
        assert_eq!(ids.resolve_unknown_gen(0), Ok(bits(0, 2)));
        assert_eq!(ids.contains(bits(0, 2)), Ok(false));
    }

    #[test]
    fn alloc_at_a_live_number_keeps_len_and_takes_an_older_generation() {
        let mut ids = one_free(1);
        assert_eq!(ids.alloc(place(1, 0)), Ok(bits(0, 2)));
        assert_eq!(ids.alloc_at(bits(0, 1), place(3, 4)), Ok(Some(place(1, 0))));
        assert_eq!(ids.len(), 1);
        assert_eq!(ids.contains(bits(0, 2)), Ok(false), "the handle just given is dead");
        assert_eq!(ids.get(bits(0, 1)), Ok(place(3, 4)), "the freed one names the new entity");
    }

    #[test]
    fn before_finish_alloc_many_a_live_number_is_free() {
        let mut e = open::one_freed();
        let mut state = e.alloc_many(1, 1, 0);
        assert_eq!(at(e.get(entity(0, 2)).unwrap()), (1, 0), "live");
        assert_eq!(state.next(&e), Some(0));
        assert_eq!(e.freelist().collect::<Vec<_>>(), [entity(0, 2)], "and on the free list");
        assert_eq!(e.alloc(), entity(0, 2), "and given out again");
        assert_eq!(e.len(), 2, "and counted twice");
    }

    #[test]
    fn free_list_holds_numbers_never_freed() {
        let mut ids = Ids::new(&IdTables::empty(2));
        assert_eq!(ids.alloc_at(bits(1, 1), place(1, 0)), Ok(None));
        assert_eq!(ids.freelist(), Ok(vec![bits(0, 1)]));
        // alloc_at's "ID was previously in use, but is now free": never in use
        assert_eq!(ids.alloc_at(bits(0, 7), place(1, 1)), Ok(None));
        assert_eq!(ids.freelist(), Ok(vec![]));
    }

    #[test]
    fn free_list_serves_alloc_many_and_alloc_at_too() {
        assert_eq!(one_free(1).alloc_many(1, 1, 0).unwrap().numbers, [0]);
        let mut ids = one_free(1);
        assert_eq!(ids.alloc_at(bits(0, 2), place(1, 0)), Ok(None));
        assert_eq!(ids.head().pending, 0);
    }

    #[test]
    fn alloc_at_calls_a_number_never_used_after_clear() {
        let mut ids = Ids::new(&IdTables::empty(1));
        assert_eq!(ids.alloc(place(1, 0)), Ok(bits(0, 1)));
        ids.clear();
        // the branch "ID has never been used in this world before"
        assert_eq!(ids.alloc_at(bits(0, 1), place(1, 0)), Ok(None));
    }

    #[test]
    fn handles_repeat_after_clear_and_after_the_last_generation() {
        let mut ids = Ids::new(&IdTables::empty(1));
        assert_eq!(ids.alloc(place(1, 0)), Ok(bits(0, 1)));
        ids.clear();
        assert_eq!(ids.alloc(place(1, 0)), Ok(bits(0, 1)));

        let mut ids = Ids::new(&IdTables::empty(1));
        assert_eq!(ids.alloc(place(1, 0)), Ok(bits(0, 1)));
        assert_eq!(ids.alloc_at(bits(0, MAX), place(1, 0)), Ok(Some(place(1, 0))));
        assert_eq!(ids.free(bits(0, MAX)), Ok(place(1, 0)));
        assert_eq!(ids.alloc(place(1, 0)), Ok(bits(0, 1)));
    }

    #[test]
    fn reserve_one_and_a_batch_of_one_part_at_the_last_number() {
        let taken = || {
            let e = Entities::default();
            assert_eq!(e.reserve_entities(MAX).len(), MAX as usize);
            e
        };
        assert_eq!(taken().reserve_entity(), entity(MAX, 1));
        let words = caught(|| taken().reserve_entities(1).next()).unwrap_err();
        assert!(words.starts_with("too many entities"), "{words}");
    }

    #[test]
    fn not_any_number_can_be_reserved_and_a_failure_lowers_the_cursor() {
        let mut e = Entities::default();
        e.alloc();
        e.meta[0].location = Location { archetype: 0, index: 0 };
        let words = caught(|| e.reserve_entities(MAX).len()).unwrap_err();
        assert!(words.starts_with("too many entities"), "{words}");
        assert_eq!(open::head(&e).cursor, -(MAX as i64));
    }

    #[test]
    fn dummy_index_is_a_mark_that_lookups_read() {
        let mut e = Entities::default();
        let made = e.alloc(); // location not yet written
        assert_eq!(e.len(), 1);
        assert!(!e.contains(made));
        assert!(e.get(made).is_err());
        assert!(e.get_mut(made).is_err());
        assert!(e.free(made).is_err());
    }

    #[test]
    fn no_such_entity_is_said_of_a_number_that_is_live() {
        let mut e = Entities::default();
        e.alloc();
        e.meta[0].location = Location { archetype: 0, index: 0 };
        assert_eq!(e.get(entity(0, 2)).map(at), Err(NoSuchEntity));
        assert_eq!(NoSuchEntity.to_string(), "no such entity");
        assert_eq!(e.get(entity(0, 1)).map(at), Ok((0, 0)));
    }

    // ---- archetype.rs ----

    #[test]
    fn growth_clears_borrow_words() {
        let mut a = Archetype::new(vec![rows::info(sorted()[0], 1)]);
        unsafe { a.borrow_raw(0) }; // a guard that is forgotten leaves this
        assert_eq!(rows::word(&a, 0), 1);
        unsafe { a.allocate(0) };
        assert_eq!(rows::word(&a, 0), 0);
        let words = caught(|| unsafe { a.release_raw(0) }).unwrap_err();
        assert_eq!(words, "unbalanced release");
    }

    #[test]
    fn a_type_without_bytes_has_no_allocation() {
        let a = rows::build(vec![rows::info(sorted()[0], 0)], 64);
        assert_eq!(rows::column(&a, 0) as usize, 1, "its alignment, not an address");
        let unused = Archetype::new(vec![rows::info(sorted()[0], 8)]);
        assert_eq!(rows::column(&unused, 0) as usize, 1, "nor has any before the first row");
    }

    #[test]
    fn a_type_may_occur_twice_with_two_alignments() {
        unsafe fn nothing(_: *mut u8) {}
        let of = |align| {
            TypeInfo::from_parts(sorted()[0], Layout::from_size_align(2, align).unwrap(), nothing)
        };
        let (two, one) = (of(2), of(1));
        assert!(two == one && two.cmp(&one).is_lt(), "equal, and yet in order");
        let a = Archetype::new(vec![two, one]);
        assert_eq!(a.component_types().len(), 2, "no panic about duplicates");
        let words = caught(|| Archetype::new(vec![of(1), of(1)]).len()).unwrap_err();
        assert!(words.contains("each type must occur at most once"), "{words}");
    }

    #[test]
    fn type_id_hasher_drops_the_high_half() {
        let mut h = TypeIdHasher::default();
        h.write_u128(5 << 64 | 3);
        assert_eq!(h.finish(), 3);
        // "TypeId is already a fully-hashed u64": it has 16 bytes
        assert_eq!(size_of::<core::any::TypeId>(), 16);
    }

    #[test]
    fn unreached_components_of_a_last_row_are_not_overwritten() {
        unsafe fn bad(_: *mut u8) {
            panic!("destructor")
        }
        let first = TypeInfo::from_parts(sorted()[0], Layout::from_size_align(1, 1).unwrap(), bad);
        let mut a = rows::build(vec![first, rows::info(sorted()[1], 1)], 1);
        unsafe {
            a.allocate(0);
            a.put_dynamic([8].as_mut_ptr(), sorted()[0], 1, 0);
            a.put_dynamic([9].as_mut_ptr(), sorted()[1], 1, 0);
        }
        assert!(caught(|| unsafe { a.remove(0, true) }).is_err());
        assert_eq!(a.len(), 0);
        assert_eq!(unsafe { *rows::column(&a, 1) }, 9);
    }

    #[test]
    fn an_archetype_without_rows_contains_its_types() {
        let a = one_column(4, &[]);
        assert!(a.is_empty() && a.has_dynamic(sorted()[0]));
    }

    // ---- borrow.rs ----

    #[test]
    fn an_overflowing_borrow_leaves_the_unique_state() {
        let mut w = Word::new(TOP - 1);
        assert_eq!((w.borrow(), w.left()), (Err(No::Refused(9)), TOP));
        let mut left = Word::new(w.left());
        assert_eq!(left.borrow(), Err(No::Refused(7)), "reads as uniquely borrowed");
        assert_eq!(left.release_mut(), Ok(()));
    }

    #[test]
    fn an_overflowing_borrow_ends_a_unique_one() {
        let mut w = Word::new(u64::MAX);
        assert_eq!((w.borrow(), w.left()), (Err(No::Refused(9)), 0));
    }

    #[test]
    fn an_unbalanced_release_leaves_all_ones() {
        // "mut borrowed, and some other thread is trying to borrow": one thread, no borrow
        let mut w = Word::new(0);
        assert_eq!((w.release(), w.left()), (Err(No::Refused(10)), u64::MAX));
    }

    #[test]
    fn a_shared_release_of_a_unique_borrow_ends_it() {
        let mut w = Word::new(TOP);
        assert_eq!((w.release(), w.left()), (Err(No::Refused(11)), TOP - 1));
        assert_eq!(
            Word::new(w.left()).borrow(),
            Err(No::Refused(9)),
            "reads as borrowed 2^63 - 1 times"
        );
    }

    #[test]
    fn tries_under_a_unique_borrow_read_as_borrows_after_it() {
        let mut w = Word::new(TOP + 2); // two tries, none granted
        assert_eq!(w.release_mut(), Ok(()));
        assert_eq!(w.value(), 2, "\"isn't mut borrowed, and currently borrowed\"");
        assert_eq!(w.borrow_mut(), Err(No::Refused(8)));
    }
}

mod intended {
    use super::*;

    // ---- ids ----

    #[test]
    fn alloc_and_alloc_at_leave_the_place_to_the_caller() {
        let mut e = Entities::default();
        let made = e.alloc();
        assert_eq!(at(e.meta[0].location), (0, MAX));
        e.meta[0].location = Location { archetype: 3, index: 4 };
        assert_eq!(e.alloc_at(made).map(at), Some((3, 4)));
        assert_eq!(at(e.meta[0].location), (0, MAX));
        // 01's calls write it
        let mut ids = Ids::new(&IdTables::empty(1));
        assert_eq!(ids.alloc(place(3, 4)), Ok(bits(0, 1)));
        assert_eq!(ids.get(bits(0, 1)), Ok(place(3, 4)));
    }

    #[test]
    fn a_walk_after_finish_misses_the_recycled_numbers() {
        let mut e = open::one_freed();
        let state = e.alloc_many(2, 1, 0);
        let mut before = state.clone();
        assert_eq!([before.next(&e), before.next(&e), before.next(&e)], [Some(0), Some(1), None]);
        e.finish_alloc_many(state.pending_end);
        let mut after = state.clone();
        assert_eq!([after.next(&e), after.next(&e)], [Some(1), None]);
        // 01: the pending table still holds the entry past its count
        let batch = one_free(2).alloc_many(2, 1, 0).unwrap();
        assert_eq!(batch.numbers, [0, 1]);
    }

    #[test]
    fn the_original_grows_where_01_says_4() {
        let mut e = open::build(&IdTables::empty(0));
        assert_eq!(e.alloc(), entity(0, 1));
        assert_eq!(Ids::new(&IdTables::empty(0)).alloc(place(0, 0)), Err(No::Outside(4)));

        let mut a = one_column(1, &[0; 64]);
        assert_eq!(a.capacity(), 64);
        assert_eq!(unsafe { a.allocate(9) }, 64);
        assert_eq!(a.capacity(), 128);
        let d = Declaration::of(&[(0, &[])]);
        assert_eq!(Columns::new(&d, &ColumnTables::empty(&d)).allocate(0, 9), Err(No::Outside(4)));
    }

    #[test]
    fn too_large_a_reservation_lowers_the_cursor_and_then_panics() {
        let e = Entities::default();
        assert_eq!(e.reserve_entities(MAX).len(), MAX as usize);
        assert!(caught(|| e.reserve_entities(1).len()).is_err());
        assert_eq!(open::head(&e).cursor, -(1 << 32));
        let mut ids = Ids::new(&IdTables::empty(1));
        assert_eq!(ids.reserve_entities(2), Err(No::Outside(4)));
        assert_eq!(ids.head(), Head::default());
    }

    #[test]
    fn most_entities_differ_from_call_to_call() {
        // on empty tables 2^32 - 1 can be reserved at once but not allocated
        assert_eq!(Entities::default().reserve_entities(MAX).len(), MAX as usize);
        let words = caught(|| Entities::default().alloc_many(MAX, 0, 0).pending_end).unwrap_err();
        assert_eq!(words, "too many entities");
    }

    #[test]
    fn an_index_max_written_through_get_mut_hides_a_live_entity() {
        let mut e = Entities::default();
        let made = e.alloc();
        e.meta[0].location = Location { archetype: 0, index: 0 };
        e.get_mut(made).unwrap_or_else(|_| panic!()).index = MAX;
        assert!(!e.contains(made));
        assert_eq!(e.len(), 1);
        let mut ids = Ids::new(&IdTables::empty(1));
        assert_eq!(ids.alloc(place(0, 0)), Ok(bits(0, 1)));
        assert_eq!(ids.set_place(bits(0, 1), place(0, MAX)), Err(No::Outside(6)));
        assert_eq!(ids.contains(bits(0, 1)), Ok(true));
    }

    #[test]
    fn alloc_many_up_to_index_max_panics_half_done() {
        let mut t = IdTables::empty(2);
        for n in 0..2 {
            (t.generations[n], t.indices[n], t.pending[n]) = (2, MAX, n as u32);
        }
        t.head = Head { used: 2, pending: 2, cursor: 2, live: 0 };
        let mut e = open::build(&t);
        let words = caught(|| e.alloc_many(2, 1, MAX - 1).pending_end).unwrap_err();
        assert_eq!(words, "attempt to add with overflow");
        assert_eq!(at(e.meta[0].location), (1, MAX - 1), "placed, and still pending");
        assert_eq!(open::head(&e), t.head);
        let mut ids = Ids::new(&t);
        assert_eq!(ids.alloc_many(2, 1, MAX - 1), Err(No::Outside(6)));
        assert_eq!(ids.tables(), t);
    }

    #[test]
    fn damaged_tables_panic_half_done() {
        // pending names number 5 of 1: alloc has popped and counted it by then
        let mut t = IdTables::empty(1);
        (t.generations[0], t.indices[0], t.pending[0]) = (1, MAX, 5);
        t.head = Head { used: 1, pending: 1, cursor: 1, live: 0 };
        let mut e = open::build(&t);
        let words = caught(|| e.alloc()).unwrap_err();
        assert!(words.starts_with("index out of bounds"), "{words}");
        assert_eq!(open::head(&e), Head { used: 1, pending: 0, cursor: 0, live: 1 });
    }

    #[test]
    fn contains_panics_where_the_cursor_is_above_pending() {
        let mut t = IdTables::empty(1);
        (t.generations[0], t.indices[0]) = (1, MAX);
        t.head = Head { used: 1, pending: 0, cursor: 1, live: 1 };
        let said = Ids::new(&t).contains(bits(0, 1));
        assert!(
            matches!(said, Err(No::Panicked(ref words)) if words.contains("out of range")),
            "{said:?}"
        );
    }

    #[test]
    fn a_handle_of_generation_0_cannot_be_made() {
        assert_eq!(handle::from_bits(7), Err(No::Refused(5)));
        assert_eq!(handle::to_bits(7, 0), Err(No::Refused(5)));
    }

    // ---- columns ----

    #[test]
    fn put_and_get_reach_just_past_the_end() {
        let mut a = one_column(1, &[]);
        unsafe {
            a.put_dynamic([5].as_mut_ptr(), sorted()[0], 1, 0);
            assert_eq!(*a.get_dynamic(sorted()[0], 1, 0).unwrap().as_ptr(), 5);
        }
        assert_eq!(a.len(), 0);
        let d = Declaration::of(&[(0, &[]), (1, &[(0, 1)])]);
        let mut c = Columns::new(&d, &ColumnTables::empty(&d));
        assert_eq!(c.put_dynamic(1, 0, 0, &[5]), Err(No::Outside(6)));
        assert_eq!(c.get_dynamic(1, 0, 0), Err(No::Outside(6)));
    }

    #[test]
    fn just_past_the_end_may_lie_outside_the_allocation() {
        let a = one_column(2, &[0; 64]);
        assert_eq!(a.capacity(), 64, "full");
        let past = unsafe { a.get_dynamic(sorted()[0], 2, 64) }.unwrap().as_ptr();
        assert_eq!(past as usize - rows::column(&a, 0) as usize, 64 * 2, "one past its last byte");
    }

    #[test]
    fn get_further_past_the_end_panics() {
        let a = one_column(1, &[]);
        let words = caught(|| unsafe { a.get_dynamic(sorted()[0], 1, 1) }).unwrap_err();
        assert_eq!(words, "assertion failed: index <= self.len");
    }

    #[test]
    fn a_wrong_size_reaches_another_row() {
        let mut a = one_column(2, &[1, 2]);
        assert_eq!(bytes(&a, 4), [1, 1, 2, 2]);
        unsafe { a.put_dynamic([9].as_mut_ptr(), sorted()[0], 1, 1) };
        assert_eq!(bytes(&a, 4), [1, 9, 2, 2], "row 1 was named, row 0 is changed");
        let d = Declaration::of(&[(0, &[]), (2, &[(0, 2)])]);
        let mut t = ColumnTables::empty(&d);
        t.row_counts[1] = 2;
        assert_eq!(Columns::new(&d, &t).put_dynamic(1, 1, 0, &[9]), Err(No::Outside(13)));
    }

    #[test]
    fn removing_a_row_that_is_not_there_loses_the_last() {
        for out in [false, true] {
            let mut a = one_column(1, &[10, 11, 12]);
            let moved = match out {
                false => unsafe { a.remove(3, true) },
                true => unsafe { a.move_to(3, |_, _, _| ()) },
            };
            assert_eq!(moved, Some(12), "said to have moved into row 3");
            assert_eq!(a.ids(), [10, 11]);
            assert_eq!(rows::rows(&a, 4), [10, 11, 12, 12]);
        }
        let d = Declaration::of(&[(0, &[]), (4, &[(0, 1)])]);
        let mut t = ColumnTables::empty(&d);
        t.row_counts[1] = 3;
        let mut c = Columns::new(&d, &t);
        assert_eq!(c.remove(1, 3), Err(No::Outside(6)));
        assert_eq!(c.move_to(1, 3), Err(No::Outside(6)));
        assert_eq!(c.tables(), t);
    }

    #[test]
    fn removing_from_no_rows_panics() {
        let words = caught(|| unsafe { one_column(1, &[]).remove(0, true) }).unwrap_err();
        assert_eq!(words, "attempt to subtract with overflow");
    }

    #[test]
    fn growth_drops_rows_past_the_count() {
        let mut a = one_column(1, &[7]);
        unsafe { a.remove(0, false) };
        assert_eq!(rows::rows(&a, 1), [7]);
        a.reserve(65);
        assert_eq!(rows::rows(&a, 1), [MAX]);
    }

    // ---- words ----

    #[test]
    fn a_panicking_call_has_changed_its_word() {
        for (word, call, number, left) in [
            (TOP - 1, Word::borrow as fn(&mut Word) -> _, 9, TOP),
            (u64::MAX, Word::borrow, 9, 0),
            (0, Word::release, 10, u64::MAX),
            (TOP, Word::release, 11, TOP - 1),
            (TOP + 1, Word::release, 11, TOP),
        ] {
            let mut w = Word::new(word);
            assert_eq!(call(&mut w), Err(No::Refused(number)));
            assert_eq!((w.left(), w.value()), (left, word));
        }
        // the other refusals have not
        for (word, call, number) in [
            (TOP, Word::borrow as fn(&mut Word) -> _, 7),
            (TOP + 1, Word::borrow, 7),
            (1, Word::borrow_mut, 8),
            (TOP, Word::borrow_mut, 8),
            (0, Word::release_mut, 11),
            (TOP - 1, Word::release_mut, 11),
        ] {
            let mut w = Word::new(word);
            assert_eq!(call(&mut w), Err(No::Refused(number)));
            assert_eq!((w.left(), w.value()), (word, word));
        }
    }
}

/// What the drivers rest on.
mod driver {
    use super::*;
    use crate::types::TypeNumbers;

    #[test]
    fn remove_with_and_without_destructors_leaves_the_same() {
        let (mut with, mut without) = (one_column(3, &[1, 2, 3]), one_column(3, &[1, 2, 3]));
        assert_eq!(unsafe { with.remove(0, true) }, unsafe { without.remove(0, false) });
        assert_eq!((with.ids(), bytes(&with, 9)), (without.ids(), bytes(&without, 9)));
    }

    #[test]
    fn type_numbers_have_the_order_of_the_type_ids() {
        let all = sorted();
        assert_eq!(all.len(), 512);
        assert!(all.windows(2).all(|p| p[0] < p[1]));
        let declared: Vec<u32> = (0..240).map(|i| i * 17 + 5).collect();
        let numbers = TypeNumbers::new(&declared);
        let mut seen = vec![numbers.id(0)];
        for ty in &declared {
            seen.extend([numbers.id(*ty), numbers.id(*ty + 1)]);
        }
        assert!(seen.windows(2).all(|p| p[0] < p[1]));
        assert!(numbers.id(6) == numbers.id(7), "undeclared neighbours share one");
    }

    #[test]
    fn column_calls_leave_the_borrow_words() {
        let mut a = one_column(1, &[1, 2, 3]);
        rows::set_word(&a, 0, TOP + 5);
        unsafe {
            a.allocate(4);
            a.put_dynamic([9].as_mut_ptr(), sorted()[0], 1, 3);
            a.remove(0, true);
            a.move_to(0, |_, _, _| ());
        }
        assert_eq!(rows::word(&a, 0), TOP + 5);
    }
}
