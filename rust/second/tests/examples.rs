//! 01, "Examples to hold it to": K1 to K13, the values by hand.

mod common;
use common::*;
use second::handles::*;
use second::*;

/// Capacity 16; id calls look at nothing else.
fn ids_only() -> Tables {
    fresh(Declaration::default(), 16)
}

#[test]
fn k1_bits() {
    let h = Handle { generation: 2, number: 7 };
    assert_eq!(to_bits(h), Ok(8_589_934_599));
    assert_eq!(from_bits(8_589_934_599), Ok(h));
    assert_eq!(id(8_589_934_599), Ok(7));
    assert_eq!(to_bits(DANGLING), Ok(u64::MAX));
}

#[test]
fn k2_generation_zero() {
    assert_eq!(from_bits(4_294_967_295), Err(5));
}

#[test]
fn k3_alloc_and_free() {
    let mut t = ids_only();
    for (k, number) in [0, 1, 2].into_iter().enumerate() {
        assert_eq!(ids::alloc(&mut t, at(3, k as u32)), Ok(v(number, 1)));
    }
    assert_eq!(ids::free(&mut t, v(1, 1)), Ok(at(3, 1)));
    assert_eq!(ids::free(&mut t, v(0, 1)), Ok(at(3, 0)));
    assert_eq!(t.pending[..t.head.pending as usize], [1, 0]);
    assert_eq!(t.head.cursor, 2);
    assert_eq!(ids::alloc(&mut t, at(0, 0)), Ok(v(0, 2)));
    assert_eq!(ids::alloc(&mut t, at(0, 1)), Ok(v(1, 2)));
    assert_eq!(ids::alloc(&mut t, at(0, 2)), Ok(v(3, 1)));
    assert_eq!(ids::len(&t), Ok(4));
}

#[test]
fn k4_batch_and_singles() {
    let mut start = ids_only();
    for k in 0..2 {
        ids::alloc(&mut start, at(0, k)).unwrap();
    }
    ids::free(&mut start, v(1, 1)).unwrap();
    ids::free(&mut start, v(0, 1)).unwrap();

    let mut batch = start.clone();
    let mut out = [77; 3];
    assert_eq!(ids::reserve_entities(&mut batch, 2, &mut out), Ok(()));
    assert_eq!(out, [v(1, 2), v(0, 2), 77]);

    let mut singles = start.clone();
    assert_eq!(ids::reserve_entity(&mut singles), Ok(v(0, 2)));
    assert_eq!(ids::reserve_entity(&mut singles), Ok(v(1, 2)));

    for t in [&mut batch, &mut singles] {
        assert_eq!(t.head.cursor, 0);
        assert_eq!(ids::flush(t, 5, 100), Ok(()));
        assert_eq!(ids::get(t, v(1, 2)), Ok(at(5, 100)));
        assert_eq!(ids::get(t, v(0, 2)), Ok(at(5, 101)));
        assert_eq!(ids::len(t), Ok(2));
    }
    assert_eq!(batch, singles);
}

/// Used 6, all six pending, in a mixed order, at generation 2.
fn six_pending() -> Tables {
    let mut t = ids_only();
    for k in 0..6 {
        ids::alloc(&mut t, at(0, k)).unwrap();
    }
    for number in [5, 3, 0, 1, 4, 2] {
        ids::free(&mut t, v(number, 1)).unwrap();
    }
    t
}

#[test]
fn k5_reserve_nine() {
    let start = six_pending();
    assert_eq!((start.head.used, start.head.pending), (6, 6));

    let mut t = start.clone();
    let mut out = [0; 9];
    assert_eq!(ids::reserve_entities(&mut t, 9, &mut out), Ok(()));
    let expected =
        [v(5, 2), v(3, 2), v(0, 2), v(1, 2), v(4, 2), v(2, 2), v(6, 1), v(7, 1), v(8, 1)];
    assert_eq!(out, expected);
    assert_eq!(t.head.cursor, -3);

    assert_eq!(ids::flush(&mut t, 0, 0), Ok(()));
    let order = [v(6, 1), v(7, 1), v(8, 1), v(5, 2), v(3, 2), v(0, 2), v(1, 2), v(4, 2), v(2, 2)];
    for (row, bits) in order.into_iter().enumerate() {
        assert_eq!(ids::get(&t, bits), Ok(at(0, row as u32)));
    }
    assert_eq!(ids::len(&t), Ok(9));
    assert_eq!(t.head, Head { used: 9, pending: 0, live: 9, cursor: 0 });

    let mut t = start.clone();
    let mut out = [0; 17];
    assert_eq!(ids::reserve_entities(&mut t, 16, &mut out), Ok(()));
    assert_eq!(t.head.cursor, -10);
    let mut t = start.clone();
    assert_eq!(ids::reserve_entities(&mut t, 17, &mut out), Err(4));
    assert_eq!(t, start);
    // R7: 17 handles into 16 places is 13.
    assert_eq!(ids::reserve_entities(&mut t, 17, &mut out[..16]), Err(13));
}

#[test]
fn k6_reserve_none() {
    for mut t in [six_pending(), ids_only(), fresh(Declaration::default(), 0)] {
        let before = t.clone();
        assert_eq!(ids::reserve_entities(&mut t, 0, &mut []), Ok(()));
        assert_eq!(t, before);
    }
}

#[test]
fn k7_last_generation() {
    let mut t = ids_only();
    assert_eq!(ids::alloc_at(&mut t, v(0, MAX), at(0, 0)), Ok(None));
    assert_eq!(ids::free(&mut t, v(0, MAX)), Ok(at(0, 0)));
    assert_eq!(t.generations[0], 1);
}

#[test]
fn k8_alloc_at() {
    let mut t = ids_only();
    assert_eq!(ids::alloc_at(&mut t, v(5, 9), at(0, 0)), Ok(None));
    assert_eq!(t.head, Head { used: 6, pending: 5, live: 1, cursor: 5 });
    assert_eq!(t.pending[..5], [0, 1, 2, 3, 4]);
    assert_eq!(t.generations[..6], [1, 1, 1, 1, 1, 9]);
    assert_eq!(ids::alloc_at(&mut t, v(2, 1), at(0, 1)), Ok(None));
    assert_eq!(t.pending[..4], [0, 1, 4, 3]);
    assert_eq!(t.head, Head { used: 6, pending: 4, live: 2, cursor: 4 });
    assert_eq!(ids::alloc_at(&mut t, v(16, 1), at(0, 2)), Err(4));
    assert_eq!(ids::alloc_at(&mut t, v(15, 1), at(0, 2)), Ok(None));
    assert_eq!(t.head.used, 16);
    assert_eq!(t.pending[..13], [0, 1, 4, 3, 6, 7, 8, 9, 10, 11, 12, 13, 14]);
    // A live number: the old place is answered and live stays.
    assert_eq!(ids::alloc_at(&mut t, v(15, 4), at(9, 9)), Ok(Some(at(0, 2))));
    assert_eq!(ids::len(&t), Ok(3));
    assert_eq!(ids::get(&t, v(15, 4)), Ok(at(9, 9)));
}

#[test]
fn k9_alloc_many() {
    let mut t = ids_only();
    for k in 0..5 {
        ids::alloc(&mut t, at(0, k)).unwrap();
    }
    for number in [4, 1, 3] {
        ids::free(&mut t, v(number, 1)).unwrap();
    }
    let mut singles = t.clone();

    let mut state = ids::alloc_many(&mut t, 2, 0, 10).unwrap();
    assert_eq!(t.pending[..t.head.pending as usize], [4]);
    assert_eq!(t.pending[..3], [4, 1, 3]); // entries past the count stay
    assert_eq!(ids::alloc_many_next(&mut state, &t.pending), Ok(Some(1)));
    assert_eq!(ids::alloc_many_next(&mut state, &t.pending), Ok(Some(3)));
    let end = state;
    assert_eq!(ids::alloc_many_next(&mut state, &t.pending), Ok(None));
    assert_eq!(state, end);
    assert_eq!(ids::get(&t, v(1, 2)), Ok(at(0, 10)));
    assert_eq!(ids::get(&t, v(3, 2)), Ok(at(0, 11)));
    assert_eq!(t.head, Head { used: 5, pending: 1, live: 4, cursor: 1 });

    assert_eq!(ids::alloc(&mut singles, at(0, 10)), Ok(v(3, 2)));
    assert_eq!(ids::alloc(&mut singles, at(0, 11)), Ok(v(1, 2)));
}

#[test]
fn k9_alloc_many_with_new_numbers() {
    let mut t = six_pending();
    let mut state = ids::alloc_many(&mut t, 8, 2, 5).unwrap();
    let mut lengths = Vec::new();
    let walked: Vec<_> = (0..9)
        .map(|_| {
            lengths.push(ids::alloc_many_len(&state));
            ids::alloc_many_next(&mut state, &t.pending)
        })
        .collect();
    assert_eq!(lengths, [8, 7, 6, 5, 4, 3, 2, 1, 0]);
    let expected = [5, 3, 0, 1, 4, 2, 6, 7].map(|n| Ok(Some(n)));
    assert_eq!(walked[..8], expected);
    assert_eq!(walked[8], Ok(None));
    for (k, number) in [5, 3, 0, 1, 4, 2, 6, 7].into_iter().enumerate() {
        assert_eq!(t.archetypes[number], 2);
        assert_eq!(t.indices[number], 5 + k as u32);
    }
    assert_eq!(t.head, Head { used: 8, pending: 0, live: 8, cursor: 0 });
}

#[test]
fn k10_remove_row() {
    let mut t = fresh(declare(&[(0, &[]), (3, &[(1, 1), (2, 2)])]), 0);
    for (row, number) in [10, 11, 12].into_iter().enumerate() {
        assert_eq!(columns::allocate(&mut t, 1, number), Ok(row as u32));
        let b = number as u8;
        assert_eq!(columns::put(&mut t, 1, row as u32, 1, &[b]), Ok(()));
        assert_eq!(columns::put(&mut t, 1, row as u32, 2, &[b, b + 100]), Ok(()));
    }
    assert_eq!(t.bytes, [10, 11, 12, 10, 110, 11, 111, 12, 112]);
    assert_eq!(columns::remove(&mut t, 1, 0), Ok(Some(12)));
    assert_eq!(columns::ids(&t, 1), Ok((0, 2)));
    assert_eq!(columns::ids_part(&t, 1), [12, 11]);
    // the last row's old bytes stay
    assert_eq!(t.bytes, [12, 11, 12, 12, 112, 11, 111, 12, 112]);
    assert_eq!(columns::remove(&mut t, 1, 1), Ok(None));
    assert_eq!(columns::ids_part(&t, 1), [12]);

    let mut out = [0; 3];
    assert_eq!(columns::move_out(&mut t, 1, 0, &mut out), Ok(None));
    assert_eq!(out, [12, 12, 112]);
    assert_eq!(columns::ids_part(&t, 1), []);
}

#[test]
fn k11_words() {
    let top = 1u64 << 63;
    assert_eq!(words::shared(top - 1), Err(9));
    assert_eq!(words::shared(top), Err(7));
    assert_eq!(words::unique(1), Err(8));
    assert_eq!(words::shared(0), Ok(1));
    assert_eq!(words::unique(0), Ok(top));
    assert_eq!(words::release(2), Ok(1));
    assert_eq!(words::unique_release(top), Ok(0));
    assert_eq!(words::shared(u64::MAX), Err(9)); // both apply; 9 comes first
    assert_eq!(words::shared(top + 5), Err(7));
    assert_eq!(words::unique(top), Err(8));
    assert_eq!(words::release(0), Err(10));
    assert_eq!(words::release(top), Err(11));
    assert_eq!(words::release(u64::MAX), Err(11));
    assert_eq!(words::unique_release(0), Err(11));
    assert_eq!(words::unique_release(top - 1), Err(11));
}

#[test]
fn k12_reserved_new_numbers() {
    let mut t = ids_only();
    for k in 0..3 {
        ids::alloc(&mut t, at(0, k)).unwrap();
    }
    assert_eq!(ids::reserve_entity(&mut t), Ok(v(3, 1)));
    assert_eq!(ids::reserve_entity(&mut t), Ok(v(4, 1)));
    assert_eq!(t.head.cursor, -2);
    assert_eq!(ids::contains(&t, v(4, 1)), Ok(true));
    assert_eq!(ids::contains(&t, v(5, 1)), Ok(false));
    assert_eq!(ids::contains(&t, v(4, 2)), Ok(false));
    assert_eq!(ids::get(&t, v(4, 1)), Ok(at(0, MAX)));
    assert_eq!(ids::get(&t, v(5, 1)), Err(2));
    assert_eq!(ids::get(&t, v(4, 2)), Err(2));
    assert_eq!(ids::resolve_unknown_gen(&t, 4), Ok(v(4, 1)));
    assert_eq!(ids::resolve_unknown_gen(&t, 5), Err(2));
    assert_eq!(ids::set_place(&mut t, v(4, 1), at(0, 0)), Err(2));
}

#[test]
fn k13_unique_release_keeps_the_count() {
    assert_eq!(words::unique_release((1 << 63) + 2), Ok(2));
}

/// 01 Contains, get: "For a reserved number below used, `contains` is yes
/// and `get` refuses 2".
#[test]
fn reserved_below_used() {
    let mut t = six_pending();
    assert_eq!(ids::contains(&t, v(2, 2)), Ok(false)); // free
    assert_eq!(ids::reserve_entity(&mut t), Ok(v(2, 2)));
    assert_eq!(ids::contains(&t, v(2, 2)), Ok(true));
    assert_eq!(ids::get(&t, v(2, 2)), Err(2));
    assert_eq!(ids::set_place(&mut t, v(2, 2), at(0, 0)), Err(2));
    assert_eq!(ids::contains(&t, v(4, 2)), Ok(false)); // still free
    assert_eq!(ids::resolve_unknown_gen(&t, 4), Ok(v(4, 2)));
    let mut out = [9; 6];
    assert_eq!(ids::freelist(&t, &mut out), Ok(5));
    assert_eq!(out, [v(5, 2), v(3, 2), v(0, 2), v(1, 2), v(4, 2), 9]);
}

/// The reader hands out what one batch does.
#[test]
fn reader_agrees_with_batch() {
    for n in 0..=16 {
        let mut a = six_pending();
        let mut b = a.clone();
        let mut out = vec![0; n];
        ids::reserve_entities(&mut a, n as u64, &mut out).unwrap();
        let mut reader = ids::reserve_reader(&mut b, n as u64).unwrap();
        assert_eq!(a, b);
        for (k, &bits) in out.iter().enumerate() {
            assert_eq!(ids::reserve_reader_len(&reader), (n - k) as u64);
            assert_eq!(ids::reserve_reader_step(&mut reader, &b.generations), Ok(Some(bits)));
        }
        assert_eq!(ids::reserve_reader_len(&reader), 0);
        let end = reader.clone();
        assert_eq!(ids::reserve_reader_step(&mut reader, &b.generations), Ok(None));
        assert_eq!(reader, end);
    }
    let mut t = six_pending();
    let reader = ids::reserve_reader(&mut t, 1).unwrap();
    let mut again = reader.clone();
    assert_eq!(ids::reserve_reader_step(&mut again, &t.generations[..2]), Err(13));
    let mut zeroed = t.generations.clone();
    zeroed[2] = 0;
    assert_eq!(ids::reserve_reader_step(&mut again, &zeroed), Err(1));
    assert_eq!(again, reader);
    assert_eq!(ids::reserve_reader(&mut t, 16), Err(4));
    t.generations[4] = 0;
    assert_eq!(ids::reserve_reader(&mut t, 1), Err(1));
}

/// 01 Alloc many: "13 if the table has no such position".
#[test]
fn walk_past_the_table() {
    let mut t = six_pending();
    let mut state = ids::alloc_many(&mut t, 7, 0, 0).unwrap();
    let start = state;
    assert_eq!(ids::alloc_many_next(&mut state, &[]), Err(13));
    assert_eq!(state, start);
    assert_eq!(ids::alloc_many_next(&mut state, &[8]), Ok(Some(8))); // what it holds now
    assert_eq!(ids::alloc_many_next(&mut state, &[8]), Err(13));
}
