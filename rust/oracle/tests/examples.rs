//! Document 01's examples K1 to K13, run on the original. The expected values
//! are written here by hand from the document.

#[cfg(no_hecs)]
#[test]
#[ignore = "the original is missing: give the folder of hecs 0.11.2's src in HECS_SRC and build again"]
fn the_examples() {}

#[cfg(not(no_hecs))]
mod on_the_original {
    use oracle::*;
    use std::ops::Range;

    const MAX_GENERATION: u32 = 4_294_967_295;
    const TOP: u64 = 1 << 63;

    fn fresh() -> Ids {
        Ids::new(&IdTables::empty(16))
    }

    /// Tables of capacity 16 with that many used numbers, all at the given
    /// generation; those not pending live in archetype 1 at the row of their number.
    fn started(used: usize, generation: u32, pending: &[u32], cursor: i64) -> Ids {
        let mut t = IdTables::empty(16);
        for n in 0..used {
            t.generations[n] = generation;
            let free = pending.contains(&(n as u32));
            t.archetypes[n] = if free { 0 } else { 1 };
            t.indices[n] = if free { MAX } else { n as u32 };
        }
        t.pending[..pending.len()].copy_from_slice(pending);
        t.head = Head { used, pending: pending.len(), cursor, live: (used - pending.len()) as u32 };
        assert!(t.is_sound());
        Ids::new(&t)
    }

    fn pending(ids: &Ids) -> Vec<u32> {
        ids.tables().pending[..ids.head().pending].to_vec()
    }

    /// A step of a walk: the positions and the new numbers that are left before it, how many that
    /// is, and what it gives.
    type Step = (Range<usize>, Range<u32>, usize, Option<u64>);

    /// The walk of these steps, after the last of which it stands as before it.
    fn walk(steps: &[Step]) -> Walk {
        let stand = |(positions, fresh, len, _): &Step| Stand {
            positions: positions.clone(),
            fresh: fresh.clone(),
            len: *len,
        };
        Walk {
            stands: steps.iter().chain(steps.last()).map(stand).collect(),
            given: steps.iter().map(|step| step.3).collect(),
        }
    }

    #[test]
    fn k1_bits() {
        assert_eq!(handle::to_bits(7, 2), Ok(8_589_934_599));
        assert_eq!(handle::from_bits(8_589_934_599), Ok((7, 2)));
        assert_eq!(bits(7, 2), 8_589_934_599);
        let mut ids = fresh();
        assert_eq!(ids.alloc_at(8_589_934_599, place(1, 0)), Ok(None));
        assert_eq!(ids.tables().generations[7], 2);
        assert_eq!(ids.resolve_unknown_gen(7), Ok(8_589_934_599));
        assert_eq!(handle::dangling(), u64::MAX);
    }

    #[test]
    fn k2_generation_zero() {
        assert_eq!(handle::from_bits(4_294_967_295), Err(No::Refused(5)));
        let mut ids = fresh();
        assert_eq!(ids.free(4_294_967_295), Err(No::Refused(5)));
        assert_eq!(ids.get(4_294_967_295), Err(No::Refused(5)));
        assert_eq!(ids.contains(4_294_967_295), Err(No::Refused(5)));
        assert_eq!(ids.set_place(4_294_967_295, place(0, 0)), Err(No::Refused(5)));
        assert_eq!(ids.alloc_at(4_294_967_295, place(0, 0)), Err(No::Refused(5)));
        assert_eq!(ids.tables(), IdTables::empty(16));
    }

    #[test]
    fn k3_alloc_and_free() {
        let mut ids = fresh();
        for n in 0..3 {
            assert_eq!(ids.alloc(place(1, n)), Ok(bits(n, 1)));
        }
        assert_eq!(ids.free(bits(1, 1)), Ok(place(1, 1)));
        assert_eq!(ids.free(bits(0, 1)), Ok(place(1, 0)));
        assert_eq!(pending(&ids), [1, 0]);
        assert_eq!(ids.head(), Head { used: 3, pending: 2, cursor: 2, live: 1 });
        assert_eq!(ids.freelist(), Ok(vec![bits(1, 2), bits(0, 2)]));
        assert_eq!(ids.alloc(place(1, 1)), Ok(bits(0, 2)));
        assert_eq!(ids.alloc(place(1, 2)), Ok(bits(1, 2)));
        assert_eq!(ids.alloc(place(1, 3)), Ok(bits(3, 1)));
        assert_eq!(ids.len(), 4);
    }

    #[test]
    fn k4_batch_and_singles() {
        let mut batch = started(2, 2, &[1, 0], 2);
        assert_eq!(batch.reserve_entities(2), Ok(vec![bits(1, 2), bits(0, 2)]));
        let mut singles = started(2, 2, &[1, 0], 2);
        assert_eq!(singles.reserve_entity(), Ok(bits(0, 2)));
        assert_eq!(singles.reserve_entity(), Ok(bits(1, 2)));
        for mut ids in [batch, singles] {
            assert_eq!(ids.head().cursor, 0);
            assert_eq!(ids.flush(0, 5), Ok(vec![1, 0]));
            assert_eq!(ids.get(bits(1, 2)), Ok(place(0, 5)));
            assert_eq!(ids.get(bits(0, 2)), Ok(place(0, 6)));
            assert_eq!(ids.head(), Head { used: 2, pending: 0, cursor: 0, live: 2 });
        }
    }

    #[test]
    fn k5_past_the_free_list() {
        let six = [5, 3, 1, 0, 2, 4];
        let mut ids = started(6, 7, &six, 6);
        let mut handles: Vec<u64> = six.iter().map(|n| bits(*n, 7)).collect();
        handles.extend([bits(6, 1), bits(7, 1), bits(8, 1)]);
        assert_eq!(ids.reserve_entities(9), Ok(handles));
        assert_eq!(ids.head(), Head { used: 6, pending: 6, cursor: -3, live: 0 });
        assert_eq!(ids.freelist(), Ok(vec![]));
        assert_eq!(ids.flush(0, 0), Ok(vec![6, 7, 8, 5, 3, 1, 0, 2, 4]));
        assert_eq!(ids.head(), Head { used: 9, pending: 0, cursor: 0, live: 9 });
        assert_eq!(ids.get(bits(6, 1)), Ok(place(0, 0)));
        assert_eq!(ids.get(bits(4, 7)), Ok(place(0, 8)));

        let mut ids = started(6, 7, &six, 6);
        assert_eq!(ids.reserve_entities(17), Err(No::Outside(4)));
        assert_eq!(ids.reserve_entities(16).unwrap().len(), 16);
        assert_eq!(ids.reserve_entities(1), Err(No::Outside(4)));
        assert_eq!(ids.head().cursor, -10);
    }

    #[test]
    fn k6_reserve_none() {
        for t in [
            IdTables::empty(0),
            IdTables::empty(16),
            started(3, 1, &[1], 1).tables(),
            started(3, 1, &[1], -2).tables(),
        ] {
            let mut ids = Ids::new(&t);
            assert_eq!(ids.reserve_entities(0), Ok(vec![]));
            assert_eq!(ids.tables(), t);
        }
        assert_eq!(Ids::new(&IdTables::empty(0)).reserve_entity(), Err(No::Outside(4)));
    }

    #[test]
    fn k7_last_generation() {
        let mut ids = started(1, MAX_GENERATION, &[], 0);
        assert_eq!(ids.free(bits(0, MAX_GENERATION)), Ok(place(1, 0)));
        assert_eq!(ids.tables().generations[0], 1);
        assert_eq!(ids.freelist(), Ok(vec![bits(0, 1)]));
    }

    #[test]
    fn k8_alloc_at() {
        let mut ids = fresh();
        assert_eq!(ids.alloc_at(bits(5, 9), place(1, 0)), Ok(None));
        assert_eq!(pending(&ids), [0, 1, 2, 3, 4]);
        assert_eq!(ids.head(), Head { used: 6, pending: 5, cursor: 5, live: 1 });
        let t = ids.tables();
        assert_eq!(t.generations[..6], [1, 1, 1, 1, 1, 9]);
        assert_eq!((t.archetypes[4], t.indices[4]), (0, MAX));
        assert_eq!(ids.alloc_at(bits(2, 1), place(1, 1)), Ok(None));
        assert_eq!(pending(&ids), [0, 1, 4, 3]);
        assert_eq!(ids.len(), 2);
        // a live number: the old place is answered and live stays
        assert_eq!(ids.alloc_at(bits(5, 3), place(2, 8)), Ok(Some(place(1, 0))));
        assert_eq!(ids.get(bits(5, 3)), Ok(place(2, 8)));
        assert_eq!(ids.len(), 2);

        assert_eq!(fresh().alloc_at(bits(15, 1), place(1, 0)), Ok(None));
        assert_eq!(fresh().alloc_at(bits(16, 1), place(1, 0)), Err(No::Outside(4)));
    }

    #[test]
    fn k9_alloc_many_and_allocs() {
        let mut many = started(5, 2, &[4, 1, 3], 3);
        let batch = many.alloc_many(2, 1, 10).unwrap();
        assert_eq!(batch, Batch { numbers: vec![1, 3], positions: 1..3, fresh: 5..5 });
        assert_eq!(pending(&many), [4]);
        assert_eq!(many.tables().pending[..3], [4, 1, 3], "entries past the count stay");
        assert_eq!(many.get(bits(1, 2)), Ok(place(1, 10)));
        assert_eq!(many.get(bits(3, 2)), Ok(place(1, 11)));

        let mut two = started(5, 2, &[4, 1, 3], 3);
        assert_eq!(two.alloc(place(1, 10)), Ok(bits(3, 2)));
        assert_eq!(two.alloc(place(1, 11)), Ok(bits(1, 2)));

        let mut past = started(5, 2, &[4, 1, 3], 3);
        let batch = past.alloc_many(5, 1, 10).unwrap();
        assert_eq!(batch, Batch { numbers: vec![4, 1, 3, 5, 6], positions: 0..3, fresh: 5..7 });
        assert_eq!(past.get(bits(6, 1)), Ok(place(1, 14)));
        assert_eq!(past.head(), Head { used: 7, pending: 0, cursor: 0, live: 7 });
    }

    /// K5 and K9 as the original's own walks give them: at each step where it stands, how many are
    /// left, and what it gives; at the end none, twice, and it stays.
    #[test]
    fn k5_and_k9_step_by_step() {
        let mut reserved = started(6, 2, &[5, 3, 0, 1, 4, 2], 2);
        let handles = [
            (0..2, 6..8, 4, Some(bits(5, 2))),
            (1..2, 6..8, 3, Some(bits(3, 2))),
            (2..2, 6..8, 2, Some(bits(6, 1))),
            (2..2, 7..8, 1, Some(bits(7, 1))),
            (2..2, 8..8, 0, None),
            (2..2, 8..8, 0, None),
        ];
        assert_eq!(reserved.reserve_walk(4), Ok(walk(&handles)));
        assert_eq!(reserved.head().cursor, -2);
        // where no new number is taken the original's new range is 0 to 0
        let mut free = started(6, 2, &[5, 3, 0, 1, 4, 2], 6);
        let first = Stand { positions: 5..6, fresh: 0..0, len: 1 };
        assert_eq!(free.reserve_walk(1).unwrap().stands[0], first);
        assert_eq!(free.reserve_walk(16), Err(No::Outside(4)));

        let mut many = started(5, 2, &[4, 1, 3], 3);
        let numbers = [
            (0..3, 5..6, 4, Some(4)),
            (1..3, 5..6, 3, Some(1)),
            (2..3, 5..6, 2, Some(3)),
            (3..3, 5..6, 1, Some(5)),
            (3..3, 6..6, 0, None),
            (3..3, 6..6, 0, None),
        ];
        assert_eq!(many.alloc_many_walk(4, 1, 10), Ok(walk(&numbers)));
        assert_eq!(many.head(), Head { used: 6, pending: 0, cursor: 0, live: 6 });
    }

    #[test]
    fn k10_remove_rows() {
        let d = Declaration::of(&[(0, &[]), (4, &[(3, 2), (9, 0), (11, 1)])]);
        let t = ColumnTables {
            row_numbers: vec![10, 11, 12, 77],
            row_counts: vec![0, 3],
            bytes: vec![1, 2, 3, 4, 5, 6, 7, 8, 91, 92, 93, 94],
        };
        let mut c = Columns::new(&d, &t);
        assert_eq!(c.tables(), t);
        assert_eq!(c.remove(1, 0), Ok(Some(12)));
        assert_eq!(c.ids(1), Ok(&[12, 11][..]));
        let after = ColumnTables {
            row_numbers: vec![12, 11, 12, 77],
            row_counts: vec![0, 2],
            bytes: vec![5, 6, 3, 4, 5, 6, 7, 8, 93, 92, 93, 94],
        };
        assert_eq!(c.tables(), after);
        assert_eq!(c.remove(1, 1), Ok(None));
        assert_eq!(c.tables(), ColumnTables { row_counts: vec![0, 1], ..after.clone() });

        // move out hands over the old bytes, then does the same
        let mut m = Columns::new(&d, &t);
        assert_eq!(m.move_to(1, 0), Ok((vec![1, 2, 91], Some(12))));
        assert_eq!(m.tables(), after);
        assert_eq!(m.move_to(1, 1), Ok((vec![3, 4, 92], None)));
        assert_eq!(m.allocate(1, 55), Ok(1));
        assert_eq!(m.get_dynamic(1, 1, 3), Ok((Part { start: 2, length: 2 }, vec![3, 4])));
        assert_eq!(m.put_dynamic(1, 1, 11, &[200]), Ok(()));
        assert_eq!(m.get_dynamic(1, 1, 11), Ok((Part { start: 9, length: 1 }, vec![200])));
        assert_eq!(m.get_dynamic(1, 0, 9), Ok((Part { start: 8, length: 0 }, vec![])));
        assert_eq!(m.get_dynamic(1, 0, 10), Err(No::Refused(15)));
        assert_eq!(m.put_dynamic(1, 0, 10, &[1]), Err(No::Refused(15)));
        assert_eq!((m.lookup(1, 3), m.lookup(1, 9), m.lookup(1, 11)), (Ok(0), Ok(1), Ok(2)));
        assert_eq!(m.lookup(1, 4), Err(No::Refused(15)));
        assert_eq!(m.lookup(2, 4), Err(No::Outside(6)));
    }

    #[test]
    fn k11_words() {
        let mut full = Word::new(TOP - 1);
        assert_eq!((full.borrow(), full.value()), (Err(No::Refused(9)), TOP - 1));
        let mut unique = Word::new(TOP);
        assert_eq!((unique.borrow(), unique.value()), (Err(No::Refused(7)), TOP));
        let mut one = Word::new(1);
        assert_eq!((one.borrow_mut(), one.value()), (Err(No::Refused(8)), 1));
        // and the rules beside them
        let mut word = Word::new(0);
        assert_eq!((word.borrow(), word.value()), (Ok(()), 1));
        assert_eq!((word.release(), word.value()), (Ok(()), 0));
        assert_eq!((word.borrow_mut(), word.value()), (Ok(()), TOP));
        assert_eq!((word.release_mut(), word.value()), (Ok(()), 0));
        assert_eq!((word.release(), word.value()), (Err(No::Refused(10)), 0));
        assert_eq!((word.release_mut(), word.value()), (Err(No::Refused(11)), 0));
        let mut tried = Word::new(TOP + 2);
        assert_eq!((tried.release(), tried.value()), (Err(No::Refused(11)), TOP + 2));
        let mut all = Word::new(u64::MAX);
        assert_eq!((all.borrow(), all.value()), (Err(No::Refused(9)), u64::MAX), "9 before 7");
    }

    #[test]
    fn k12_reserved_new_numbers() {
        let mut ids = started(3, 1, &[], -2);
        assert_eq!(ids.contains(bits(4, 1)), Ok(true));
        assert_eq!(ids.contains(bits(5, 1)), Ok(false));
        assert_eq!(ids.get(bits(4, 1)), Ok(place(0, MAX)));
        assert_eq!(ids.get(bits(5, 1)), Err(No::Refused(2)));
        assert_eq!(ids.resolve_unknown_gen(4), Ok(bits(4, 1)));
        assert_eq!(ids.resolve_unknown_gen(5), Err(No::Refused(2)));
        assert_eq!(ids.set_place(bits(4, 1), place(0, 0)), Err(No::Refused(2)));
        // not flushed: alloc, alloc many, alloc at, free refuse 3 and change nothing
        let before = ids.tables();
        assert_eq!(ids.alloc(place(0, 0)), Err(No::Refused(3)));
        assert_eq!(ids.alloc_many(0, 0, 0), Err(No::Refused(3)));
        assert_eq!(ids.alloc_at(bits(0, 1), place(0, 0)), Err(No::Refused(3)));
        assert_eq!(ids.free(bits(0, 1)), Err(No::Refused(3)));
        assert_eq!(ids.tables(), before);
        // a reserved number below used: contains yes, get 2
        let ids = started(3, 1, &[2], 0);
        assert_eq!(ids.contains(bits(2, 1)), Ok(true));
        assert_eq!(ids.get(bits(2, 1)), Err(No::Refused(2)));
    }

    #[test]
    fn k13_unique_release_keeps_the_count() {
        let mut word = Word::new(TOP + 2);
        assert_eq!((word.release_mut(), word.value()), (Ok(()), 2));
    }

    #[test]
    fn clear_changes_counts_only() {
        let mut ids = started(5, 2, &[4, 1], 1);
        let before = ids.tables();
        ids.clear();
        assert_eq!(ids.tables(), IdTables { head: Head::default(), ..before });
    }

    #[test]
    fn entries_past_the_counts_stand_as_lent() {
        let t = IdTables {
            generations: vec![3, 0, 9],
            archetypes: vec![1, 8, 7],
            indices: vec![2, MAX, 5],
            pending: vec![6, 7, 8],
            head: Head { used: 1, pending: 0, cursor: 0, live: 1 },
        };
        let mut ids = Ids::new(&t);
        assert_eq!(ids.tables(), t);
        assert_eq!(ids.free(bits(0, 3)), Ok(place(1, 2)));
        let mut after = t.clone();
        (after.generations[0], after.archetypes[0], after.indices[0]) = (4, 0, MAX);
        after.pending[0] = 0;
        after.head = Head { used: 1, pending: 1, cursor: 1, live: 0 };
        assert_eq!(ids.tables(), after);
    }
}
