//! Each refusal of each call, in 01's order.
//!
//! A ladder starts from tables and arguments to which all of a call's
//! refusals apply (as far as they can at once), expects the first of the
//! order, removes its cause and expects the next, down to a granted call. At
//! each rung the tables and the outputs must be unchanged.

mod common;
use common::*;
use second::*;

#[derive(Clone, Debug, PartialEq)]
struct Args {
    bits: u64,
    number: u32,
    archetype: u32,
    row: u32,
    type_number: u32,
    n: u64,
    place: Place,
    bytes: Vec<u8>,
    handles: Vec<u64>,
}

fn args() -> Args {
    Args {
        bits: v(0, 1),
        number: 0,
        archetype: 1,
        row: 0,
        type_number: 10,
        n: 1,
        place: at(1, 0),
        bytes: vec![9, 9, 9, 9],
        handles: vec![7; 8],
    }
}

type Call = fn(&mut Tables, &mut Args) -> Answer<()>;
type Change = fn(&mut Tables, &mut Args);

fn ladder(call: Call, start: Change, rungs: &[(u32, Change)]) {
    ladder_to(call, &[start], rungs, Ok(()));
}

fn ladder_to(call: Call, starts: &[Change], rungs: &[(u32, Change)], last: Answer<()>) {
    let mut t = small();
    let mut a = args();
    for start in starts {
        start(&mut t, &mut a);
    }
    for (k, (number, repair)) in rungs.iter().enumerate() {
        let (t0, a0) = (t.clone(), a.clone());
        assert_eq!(call(&mut t, &mut a), Err(*number), "rung {k}");
        assert_eq!((&t, &a), (&t0, &a0), "rung {k} changed something");
        repair(&mut t, &mut a);
    }
    assert_eq!(call(&mut t, &mut a), last, "after the last rung");
}

// Causes at a call's entry and their repairs, on `small()`.

fn ids_entry(t: &mut Tables, _: &mut Args) {
    t.generations.resize(4097, 1); // 12
    t.indices.push(0); // 13
    t.head.live = 99; // 1
}
fn ids_12(t: &mut Tables, _: &mut Args) {
    t.generations.truncate(8);
}
fn ids_13(t: &mut Tables, _: &mut Args) {
    t.indices.truncate(8);
}
fn head_1(t: &mut Tables, _: &mut Args) {
    t.head.live = t.head.used - t.head.pending;
}
fn columns_entry(t: &mut Tables, _: &mut Args) {
    t.declaration.sizes[0] = 65; // 12
    t.bytes.push(0); // 13
    t.row_counts[3] = 4; // 1
}
fn columns_12(t: &mut Tables, _: &mut Args) {
    t.declaration.sizes[0] = 4;
}
fn columns_13(t: &mut Tables, _: &mut Args) {
    t.bytes.pop();
}
fn columns_1(t: &mut Tables, _: &mut Args) {
    t.row_counts[3] = 0;
}
fn store_entry(t: &mut Tables, _: &mut Args) {
    t.declaration.sizes[0] = 65; // 12
    t.generations.resize(4097, 1); // 12
    t.words.push(0); // 13
    t.head.live = 99; // 1
    t.row_counts[3] = 4; // 1
}
fn store_12a(t: &mut Tables, _: &mut Args) {
    t.declaration.sizes[0] = 4;
}
fn store_13(t: &mut Tables, _: &mut Args) {
    t.words.pop();
}

/// The tests at the entry of every call that is lent the same tables: what
/// breaks them all, and the rungs that mend them one by one.
struct Entry {
    broken: Change,
    rungs: &'static [(u32, Change)],
}

const IDS: Entry = Entry { broken: ids_entry, rungs: &[(12, ids_12), (13, ids_13), (1, head_1)] };

const COLUMNS: Entry =
    Entry { broken: columns_entry, rungs: &[(12, columns_12), (13, columns_13), (1, columns_1)] };

const STORE: Entry = Entry {
    broken: store_entry,
    rungs: &[(12, store_12a), (12, ids_12), (13, store_13), (1, head_1), (1, columns_1)],
};

impl Entry {
    /// A ladder of the entry's rungs, then more. What `start` breaks comes on
    /// top of what the entry does.
    fn ladder(&self, call: Call, start: Change, more: &[(u32, Change)]) {
        self.ladder_to(call, start, more, Ok(()));
    }

    fn ladder_to(&self, call: Call, start: Change, more: &[(u32, Change)], last: Answer<()>) {
        let rungs = [self.rungs, more].concat();
        ladder_to(call, &[self.broken, start], &rungs, last);
    }
}

/// The start of a ladder where no more is broken than the entry.
fn entry_alone(_: &mut Tables, _: &mut Args) {}

// ------------------------------------------------------------------- ids --

#[test]
fn ids_reserve_entity() {
    ladder(
        |t, _| ids::reserve_entity(t).map(|_| ()),
        ids_entry,
        &[
            (12, ids_12),
            (13, ids_13),
            (1, |t, _| head(t, 8, 1, 0)),
            (4, |t, _| {
                head(t, 6, 1, 1);
                t.generations[4] = 0;
            }),
            (1, |t, _| {
                t.generations[4] = 2;
                t.indices[4] = 3;
            }),
            (1, |t, _| {
                t.indices[4] = MAX;
                t.pending[0] = 6;
            }),
            (1, |t, _| t.pending[0] = 4),
        ],
    );
}

#[test]
fn ids_reserve_entities() {
    ladder(
        |t, a| ids::reserve_entities(t, a.n, &mut a.handles),
        |t, a| {
            ids_entry(t, a);
            a.n = 9;
            t.generations[4] = 0;
        },
        &[
            (12, ids_12),
            (13, ids_13),
            (13, |_, a| a.handles.push(7)),
            (1, head_1),
            (4, |_, a| a.n = 3), // room is 8 - 6 + 1
            (1, |t, _| t.generations[4] = 2),
        ],
    );
}

#[test]
fn ids_alloc() {
    IDS.ladder(
        |t, a| ids::alloc(t, a.place).map(|_| ()),
        |t, a| {
            t.head.cursor = 0;
            a.place.index = MAX;
        },
        &[
            (3, |t, _| head(t, 8, 0, 0)),
            (6, |_, a| a.place = at(99, MAX - 1)), // ids take any archetype
            (4, |t, _| {
                head(t, 6, 1, 1);
                t.indices[4] = 0;
            }),
            (1, |t, _| t.indices[4] = MAX),
        ],
    );
}

#[test]
fn ids_alloc_many() {
    IDS.ladder(
        |t, a| ids::alloc_many(t, a.n, a.archetype, a.place.index).map(|_| ()),
        |t, a| {
            t.head.cursor = 0;
            t.indices[4] = 0;
            a.n = 4;
            a.place.index = MAX - 3;
        },
        &[
            (3, |t, _| t.head.cursor = 1),
            (6, |_, a| a.place.index = MAX - 4),
            (4, |_, a| a.n = 3),
            (1, |t, _| t.indices[4] = MAX),
        ],
    );
    // R9: n = 0 takes any first row.
    let mut t = small();
    let state = ids::alloc_many(&mut t, 0, 0, MAX).unwrap();
    assert_eq!((state.position, state.end), (1, 1));
    assert_eq!(t, small());
}

#[test]
fn ids_alloc_at() {
    IDS.ladder(
        |t, a| ids::alloc_at(t, a.bits, a.place).map(|_| ()),
        |t, a| {
            t.head.cursor = 0;
            a.place.index = MAX;
            a.bits = 8;
        },
        &[
            (5, |_, a| a.bits = v(8, 1)),
            (3, |t, _| t.head.cursor = 1),
            (6, |_, a| a.place.index = 5),
            (4, |t, a| {
                a.bits = v(3, 9);
                t.indices[3] = MAX; // not pending and index MAX
            }),
            (1, |t, a| {
                t.indices[3] = 0;
                t.indices[4] = 7; // found pending with an index
                a.bits = v(4, 2);
            }),
            (1, |t, _| {
                t.indices[4] = MAX;
                t.generations[4] = 0; // found pending with generation 0
            }),
            (1, |t, _| t.generations[4] = 2),
        ],
    );
    // R28: own place is the store's test; R12: the moved entry is not tested.
    let mut t = small();
    t.archetypes[0] = 77;
    assert_eq!(ids::alloc_at(&mut t, v(0, 5), at(1, 2)), Ok(Some(at(77, 0))));
    let mut t = small();
    head(&mut t, 7, 2, 2);
    t.pending[1] = 50;
    assert_eq!(ids::alloc_at(&mut t, v(4, 5), at(1, 2)), Ok(None));
    assert_eq!(t.pending[..2], [50, 50]);
}

#[test]
fn ids_free() {
    IDS.ladder(
        |t, a| ids::free(t, a.bits).map(|_| ()),
        |t, a| {
            t.head.cursor = 0;
            a.bits = 0;
        },
        &[
            (5, |_, a| a.bits = v(4, 2)),
            (3, |t, _| t.head.cursor = 1),
            (2, |_, a| a.bits = v(6, 1)),  // free, then beyond used
            (2, |_, a| a.bits = v(0, 2)),  // wrong generation
            (2, |_, a| a.bits = u64::MAX), // DANGLING
            (2, |t, a| {
                a.bits = v(0, 1);
                head(t, 6, 6, 6); // live 0
            }),
            (1, |t, _| head(t, 6, 1, 1)),
        ],
    );
}

#[test]
fn ids_contains_get_set_place() {
    IDS.ladder(
        |t, a| ids::contains(t, a.bits).map(|_| ()),
        |_, a| a.bits = 0,
        &[(5, |_, a| a.bits = v(0, 7))],
    );
    IDS.ladder(
        |t, a| ids::get(t, a.bits).map(|_| ()),
        |_, a| a.bits = 0,
        &[(5, |_, a| a.bits = v(0, 7)), (2, |_, a| a.bits = v(0, 1))],
    );
    IDS.ladder(
        |t, a| ids::set_place(t, a.bits, a.place),
        |t, a| {
            t.head.cursor = -1; // R19: works on unflushed tables
            a.bits = 0;
            a.place.index = MAX;
        },
        &[
            (5, |_, a| a.bits = v(6, 1)),
            (6, |_, a| a.place.index = 12),
            (2, |_, a| a.bits = v(0, 1)),
        ],
    );
    let t = small();
    assert_eq!(ids::contains(&t, v(0, 1)), Ok(true));
    assert_eq!(ids::contains(&t, v(0, 2)), Ok(false));
    assert_eq!(ids::contains(&t, v(4, 2)), Ok(false));
    assert_eq!(ids::contains(&t, u64::MAX), Ok(false));
}

#[test]
fn ids_resolve() {
    IDS.ladder(
        |t, a| ids::resolve_unknown_gen(t, a.number).map(|_| ()),
        |_, a| a.number = 6,
        &[
            (2, |_, a| a.number = MAX),
            (2, |t, a| {
                a.number = 2;
                t.generations[2] = 0;
            }),
            (1, |t, _| t.generations[2] = 1),
        ],
    );
    // R14: only resolve answers 1 for a stored generation 0.
    let mut t = small();
    t.generations[2] = 0;
    assert_eq!(ids::get(&t, v(2, 1)), Err(2));
    assert_eq!(ids::contains(&t, v(2, 1)), Ok(false));
    assert_eq!(ids::free(&mut t, v(2, 1)), Err(2));
    assert_eq!(store::despawn(&mut t, v(2, 1)), Err(2));
    assert_eq!(store::read(&t, v(2, 1), 10), Err(2));
}

#[test]
fn ids_flush() {
    IDS.ladder(
        |t, a| ids::flush(t, a.archetype, a.place.index),
        |t, a| {
            t.head.cursor = -2;
            t.generations[4] = 0;
            a.archetype = 1000;
            a.place.index = MAX - 2;
        },
        &[(6, |_, a| a.place.index = MAX - 3), (1, |t, _| t.generations[4] = 2)],
    );
    // R9: a flush of nothing takes any first row.
    let mut t = small();
    assert_eq!(ids::flush(&mut t, 0, MAX), Ok(()));
    assert_eq!(t, small());
    // R11: `used` is the one before the call, at a flush too.
    let mut t = small();
    head(&mut t, 6, 1, -1);
    t.pending[0] = 6;
    assert_eq!(ids::flush(&mut t, 0, 0), Err(1));
    // R11: a number that stands twice gets both rows, the later is its place.
    let mut t = small();
    head(&mut t, 7, 3, 0);
    t.pending[..3].copy_from_slice(&[4, 6, 4]);
    t.generations[6] = 1;
    t.indices[6] = MAX;
    assert_eq!(ids::flush(&mut t, 3, 20), Ok(()));
    assert_eq!((t.indices[4], t.indices[6]), (22, 21));
    assert_eq!(t.head.live, 7);
}

#[test]
fn ids_len_clear_freelist() {
    IDS.ladder(|t, _| ids::len(t).map(|_| ()), entry_alone, &[]);
    IDS.ladder(|t, _| ids::clear(t), entry_alone, &[]);
    ladder(
        |t, a| ids::freelist(t, &mut a.handles).map(|_| ()),
        |t, a| {
            ids_entry(t, a);
            a.handles.clear();
            t.generations[4] = 0;
        },
        &[
            (12, ids_12),
            (13, ids_13),
            (13, |_, a| a.handles.push(7)), // R7: before the head's 1
            (1, head_1),
            (1, |t, _| t.generations[4] = 2),
        ],
    );
    let mut t = small();
    t.head.cursor = i64::MAX;
    assert_eq!(ids::freelist(&t, &mut [0; 8]), Err(13));
    t.head.cursor = i64::MIN;
    assert_eq!(ids::freelist(&t, &mut []), Err(1));
    let mut t = small();
    let row_counts = t.row_counts.clone();
    assert_eq!(ids::clear(&mut t), Ok(()));
    assert_eq!(t.head, Head::default());
    assert_eq!(t.row_counts, row_counts); // R42
}

#[test]
fn head_rule_broken_in_each_way() {
    let broken: &[Head] = &[
        Head { used: 9, pending: 1, live: 8, cursor: 1 },
        Head { used: u64::MAX, pending: 1, live: u64::MAX - 1, cursor: 1 },
        Head { used: 6, pending: 7, live: u64::MAX, cursor: 1 },
        Head { used: 6, pending: 1, live: 5, cursor: 2 },
        Head { used: 6, pending: 1, live: 5, cursor: -3 },
        Head { used: 6, pending: 1, live: 5, cursor: i64::MIN },
        Head { used: 6, pending: 1, live: 6, cursor: 1 },
        Head { used: 6, pending: 1, live: u64::MAX, cursor: 1 },
    ];
    for &head in broken {
        let mut t = small();
        t.head = head;
        assert_eq!(ids::len(&t), Err(1), "{head:?}");
        assert_eq!(store::len(&t), Err(1), "{head:?}");
        assert_eq!(store::borrow(&mut t, 1, 10), Err(1), "{head:?}");
        assert!(sound(&t).unwrap_err().starts_with("head"), "{head:?}");
    }
    let mut t = small();
    t.head.cursor = -2;
    assert_eq!(ids::len(&t), Ok(5));
}

// --------------------------------------------------------------- columns --

#[test]
fn columns_lookup() {
    let good = standard();
    assert_eq!(columns::lookup(&good, 2, 20), Ok(1));
    assert_eq!(columns::lookup(&good, 5, 20), Err(6));
    assert_eq!(columns::lookup(&good, 1, 20), Err(15));
    assert_eq!(columns::lookup(&good, 0, 20), Err(15));
    assert_eq!(columns::lookup(&Declaration::default(), 5, 1), Err(12));
}

#[test]
fn declaration_broken_in_each_way() {
    let broken: &[fn(&mut Declaration)] = &[
        |d| *d = Declaration::default(),
        |d| *d = declare(&vec![(1, &[] as &[(u32, u32)]); 17]),
        |d| d.widths[0] = 1,
        |d| d.widths.push(0),
        |d| {
            d.widths.pop();
        },
        |d| d.types.push(99),
        |d| d.sizes.push(1),
        |d| {
            d.types.pop();
            d.sizes.pop();
        },
        |d| {
            d.rows.push(1); // a second archetype without columns
            d.widths.push(0);
        },
        |d| *d = declare(&[(0, &[]), (0, &[(3, 1), (2, 1)])]),
        |d| *d = declare(&[(0, &[]), (0, &[(3, 1), (3, 1)])]),
        |d| *d = declare(&[(0, &[]), (0, &[(3, 1)]), (0, &[(3, 1)])]),
        |d| *d = declare(&[(0, &[]), (0, &[(3, 1)]), (0, &[(3, 2), (4, 1)])]),
        |d| *d = declare(&[(0, &[]), (0, &[(3, 65)])]),
        |d| d.rows[0] = 4097,
        |d| {
            let columns: Vec<(u32, u32)> = (0..17).map(|k| (k, 1)).collect();
            *d = declare(&[(0, &[]), (0, &columns)]);
        },
        |d| d.widths[1] = u32::MAX,
    ];
    for (k, breaking) in broken.iter().enumerate() {
        let mut d = standard();
        breaking(&mut d);
        assert_eq!(columns::lookup(&d, 1, 10), Err(12), "way {k}");
        let mut t = small();
        t.declaration = d;
        assert_eq!(columns::ids(&t, 0), Err(12), "way {k}");
        assert_eq!(store::len(&t), Err(12), "way {k}");
        assert_eq!(ids::len(&t), Ok(5), "way {k}"); // lent no declaration
        assert!(sound(&t).unwrap_err().starts_with("12"), "way {k}");
    }
    // at the limits
    let types: Vec<(u32, u32)> = (0..16).map(|k| (k, 64)).collect();
    let sets: Vec<(u32, &[(u32, u32)])> = (0..16).map(|k| (4096, &types[..k])).collect();
    let t = fresh(declare(&sets), 4096);
    assert_eq!(sound(&t), Ok(()));
    assert_eq!(store::len(&t), Ok(0));
    let wide = fresh(declare(&[(0, &[]), (1, &types)]), 0);
    assert_eq!(columns::lookup(&wide.declaration, 1, 15), Ok(15));
}

#[test]
fn lengths_wrong_in_each_way() {
    let ways: &[fn(&mut Tables)] = &[
        |t| t.archetypes.push(0),
        |t| t.indices.truncate(3),
        |t| t.pending.clear(),
        |t| t.row_numbers.push(0),
        |t| t.row_counts.push(0),
        |t| t.row_counts.truncate(1),
        |t| t.words.truncate(1),
        |t| t.bytes.truncate(1),
        |t| t.generations.push(1),
    ];
    for (k, way) in ways.iter().enumerate() {
        let mut t = small();
        way(&mut t);
        assert_eq!(store::len(&t), Err(13), "way {k}");
        assert_eq!(store::contains(&t, 0), Err(13), "way {k}");
        let ids_lent = matches!(k, 0 | 1 | 2 | 8);
        assert_eq!(ids::len(&t).is_err(), ids_lent, "way {k}");
        let columns_lent = matches!(k, 3 | 4 | 5 | 7);
        assert_eq!(columns::ids(&t, 0).is_err(), columns_lent, "way {k}");
        assert!(sound(&t).unwrap_err().starts_with("13"), "way {k}");
    }
}

#[test]
fn columns_allocate_remove_ids() {
    COLUMNS.ladder(
        |t, a| columns::allocate(t, a.archetype, a.number).map(|_| ()),
        |_, a| {
            a.archetype = 5;
            a.number = MAX;
        },
        &[
            (6, |t, a| {
                a.archetype = 1;
                t.row_counts[1] = 4;
            }),
            (4, |t, _| t.row_counts[1] = 3),
        ],
    );
    COLUMNS.ladder(
        |t, a| columns::remove(t, a.archetype, a.row).map(|_| ()),
        |_, a| a.archetype = 5,
        &[
            (6, |_, a| {
                a.archetype = 1;
                a.row = 3; // the row count itself: R33
            }),
            (6, |_, a| a.row = 2),
        ],
    );
    COLUMNS.ladder(
        |t, a| columns::ids(t, a.archetype).map(|_| ()),
        |_, a| a.archetype = 5,
        &[(6, |_, a| a.archetype = 4)],
    );
    assert_eq!(columns::ids_part(&small(), 5), []);
}

#[test]
fn columns_move_out() {
    ladder(
        |t, a| columns::move_out(t, a.archetype, a.row, &mut a.bytes).map(|_| ()),
        |t, a| {
            columns_entry(t, a);
            a.bytes.push(0);
            a.row = 3;
        },
        &[
            (12, columns_12),
            (13, columns_13),
            (13, |_, a| a.bytes.truncate(3)), // too long, then too short
            (13, |_, a| a.bytes.push(0)),
            (1, columns_1),
            (6, |_, a| {
                a.archetype = 5; // undeclared: 13 is not tested
                a.bytes.push(0);
            }),
            (6, |_, a| {
                a.archetype = 1;
                a.row = 0;
                a.bytes.pop();
            }),
        ],
    );
}

#[test]
fn columns_put_get() {
    ladder(
        |t, a| columns::put(t, a.archetype, a.row, a.type_number, &a.bytes),
        |t, a| {
            columns_entry(t, a);
            a.type_number = 20; // declared, but not in archetype 1
            a.row = 3;
        },
        &[
            (12, columns_12),
            (13, columns_13),
            (13, |_, a| a.bytes = vec![0; 2]),
            (1, columns_1),
            (6, |_, a| {
                a.archetype = 5; // undeclared: 13 is not tested
                a.bytes = vec![0; 9];
            }),
            (6, |_, a| {
                a.archetype = 1;
                a.row = 2;
                a.type_number = 21; // undeclared: 13 is not tested
            }),
            (15, |_, a| {
                a.type_number = 20;
                a.bytes = vec![0; 2];
            }),
            (15, |_, a| {
                a.type_number = 10;
                a.bytes = vec![0; 4];
            }),
        ],
    );
    COLUMNS.ladder(
        |t, a| columns::get(t, a.archetype, a.row, a.type_number).map(|_| ()),
        |_, a| {
            a.archetype = 5;
            a.type_number = 20;
            a.row = 3;
        },
        &[(6, |_, a| a.archetype = 1), (6, |_, a| a.row = 2), (15, |_, a| a.type_number = 10)],
    );
    let t = small();
    assert_eq!(columns::get(&t, 1, 2, 10), Ok((8, 4)));
    assert_eq!(columns::get_part(&t, 1, 2, 10), [3, 3, 3, 3]);
    assert_eq!(columns::get(&t, 2, 0, 20), Ok((32, 2)));
    assert_eq!(columns::get_part(&t, 1, 3, 10), []);
}

// ----------------------------------------------------------------- store --

#[test]
fn store_spawn() {
    STORE.ladder(
        |t, a| store::spawn(t, a.archetype, &a.bytes).map(|_| ()),
        |t, a| {
            t.head.cursor = 0;
            t.words[3] = 1;
            t.row_counts[1] = 4;
            t.indices[4] = 0;
            a.archetype = 5;
            a.bytes = vec![0; 7]; // no 13 while the archetype is undeclared
        },
        &[
            (3, |t, _| t.head.cursor = 1),
            (6, |_, a| a.archetype = 1),
            (13, |_, a| a.bytes = vec![0; 4]),
            (8, |t, _| t.words[3] = 0),
            (4, |t, _| {
                t.row_counts[1] = 3;
                head(t, 8, 0, 0); // no number left
            }),
            (4, |t, _| head(t, 6, 1, 1)),
            (1, |t, _| t.indices[4] = MAX),
        ],
    );
}

#[test]
fn store_spawn_at() {
    STORE.ladder(
        |t, a| store::spawn_at(t, a.bits, a.archetype, &a.bytes),
        |t, a| {
            t.head.cursor = 0;
            t.words[3] = 1 << 63;
            a.bits = 0;
            a.archetype = 5;
        },
        &[
            (5, |_, a| a.bits = v(0, 6)),
            (3, |t, _| t.head.cursor = 1),
            (6, |t, a| {
                a.archetype = 2;
                a.bytes = vec![0; 6];
                t.row_counts[2] = 4;
                t.row_numbers[8] = 3; // 0's row (1, 0) is not its own
            }),
            (1, |t, _| t.row_numbers[8] = 0),
            (8, |t, _| t.words[3] = 0),
            (4, |_, a| a.bits = v(8, 6)), // rows of the target, then the number
            (4, |t, _| t.row_counts[2] = 1),
            (4, |t, a| {
                a.bits = v(0, 6);
                t.indices[2] = 0; // the moved number's place is not the last row
            }),
            (1, |t, _| {
                t.indices[2] = 2;
                t.row_numbers[10] = 6; // a moved number not below used
            }),
            (1, |t, a| {
                t.row_numbers[10] = 0; // the chosen number itself: R41
                a.bits = v(0, 6);
            }),
            (1, |t, a| {
                t.row_numbers[10] = 2;
                a.bits = v(3, 6);
                t.indices[3] = MAX; // not pending, index MAX
            }),
            (1, |t, a| {
                t.indices[3] = 0;
                a.bits = v(4, 6);
                t.generations[4] = 0; // found pending, generation 0
            }),
            (1, |t, _| {
                t.generations[4] = 2;
                t.indices[4] = 0; // found pending, index not MAX: no own place
            }),
            (1, |t, _| t.indices[4] = MAX),
        ],
    );
}

#[test]
fn store_spawn_at_room_of_the_old_row() {
    let mut t = small();
    assert_eq!(store::spawn(&mut t, 1, &[8; 4]), Ok(v(4, 2)));
    assert_eq!(t.row_counts[1], 4); // full
    let mut same = t.clone();
    assert_eq!(store::spawn_at(&mut same, v(0, 7), 1, &[6; 4]), Ok(()));
    assert_eq!(sound(&same), Ok(()));
    assert_eq!(columns::ids_part(&same, 1), [4, 1, 2, 0]);
    assert_eq!(store::read_part(&same, v(0, 7), 10), [6; 4]);
    assert_eq!(store::read_part(&same, v(4, 2), 10), [8; 4]);
    assert_eq!(store::read(&same, v(0, 1), 10), Err(2));
    assert_eq!(same.head.live, t.head.live);
    // the old row lies elsewhere: its room does not count
    assert_eq!(store::spawn_at(&mut t, v(3, 7), 1, &[6; 4]), Err(4));
}

#[test]
fn store_despawn() {
    STORE.ladder(
        |t, a| store::despawn(t, a.bits),
        |t, a| {
            t.head.cursor = 0;
            t.words[0] = 1;
            a.bits = 0;
        },
        &[
            (5, |_, a| a.bits = v(0, 2)),
            (3, |t, _| t.head.cursor = 1),
            (2, |t, a| {
                a.bits = v(0, 1);
                t.archetypes[0] = 5;
            }),
            (1, |t, _| {
                t.archetypes[0] = 1;
                t.indices[0] = 3;
            }),
            (1, |t, _| {
                t.indices[0] = 1; // row 1 holds 1
            }),
            (1, |t, _| t.indices[0] = 0),
            (8, |t, _| {
                t.words[0] = 0;
                t.archetypes[2] = 2;
            }),
            (1, |t, _| {
                t.archetypes[2] = 1;
                t.row_numbers[10] = MAX;
            }),
            (1, |t, _| {
                t.row_numbers[10] = 2;
                head(t, 6, 6, 6); // live 0
            }),
            (1, |t, _| head(t, 6, 1, 1)),
        ],
    );
}

#[test]
fn store_insert() {
    STORE.ladder(
        |t, a| store::insert(t, a.bits, a.type_number, &a.bytes),
        |t, a| {
            t.head.cursor = 0;
            t.words[3] = 5;
            t.row_counts[2] = 4;
            t.indices[2] = 1; // the number to be moved
            a.bits = 0;
            a.type_number = 21; // undeclared: 13 is not tested
        },
        &[
            (5, |_, a| a.bits = v(0, 2)),
            (3, |t, _| t.head.cursor = 1),
            (2, |t, a| {
                a.bits = v(0, 1);
                t.row_numbers[8] = 1;
            }),
            (1, |t, _| t.row_numbers[8] = 0),
            (14, |_, a| {
                a.type_number = 30; // declared, but no {10, 30}
            }),
            (13, |_, a| a.bytes.clear()),
            (14, |_, a| a.type_number = 20),
            (13, |_, a| a.bytes = vec![6, 6]),
            (8, |t, _| t.words[3] = 0),
            (4, |t, _| t.row_counts[2] = 1),
            (1, |t, _| t.indices[2] = 2),
        ],
    );
    // R16: of a held type
    ladder(
        |t, a| store::insert(t, a.bits, a.type_number, &a.bytes),
        |t, a| {
            t.words[4] = 1;
            t.indices[2] = 1; // no moved number is tested
            a.bytes.pop();
        },
        &[(13, |_, a| a.bytes.push(9)), (8, |t, _| t.words[4] = 0)],
    );
}

#[test]
fn store_remove() {
    STORE.ladder(
        |t, a| store::remove(t, a.bits, a.type_number),
        |t, a| {
            t.head.cursor = 0;
            t.words[3] = 5;
            t.row_counts[0] = 8;
            t.indices[2] = 1; // the number to be moved
            a.bits = 0;
            a.type_number = 21;
        },
        &[
            (5, |_, a| a.bits = v(0, 2)),
            (3, |t, _| t.head.cursor = 1),
            (2, |t, a| {
                a.bits = v(0, 1);
                t.row_numbers[8] = 1;
            }),
            (1, |t, _| t.row_numbers[8] = 0),
            (15, |_, a| a.type_number = 20), // undeclared, then not held
            (15, |_, a| a.type_number = 10),
            (8, |t, _| t.words[3] = 0),
            (4, |t, _| t.row_counts[0] = 1),
            (1, |t, _| t.indices[2] = 2),
        ],
    );
    // held, but there is no {20, 30}
    let mut t = small();
    assert_eq!(store::spawn_at(&mut t, v(6, 1), 4, &[1; 6]), Ok(()));
    t.words[0] = 1;
    assert_eq!(store::remove(&mut t, v(6, 1), 10), Err(14));
    assert_eq!(store::remove(&mut t, v(6, 1), 30), Err(8));
}

#[test]
fn store_read_write() {
    STORE.ladder(
        |t, a| store::read(t, a.bits, a.type_number).map(|_| ()),
        |t, a| {
            t.head.cursor = -1; // R21: 3 is not tested
            t.words[0] = u64::MAX;
            a.bits = 0;
            a.type_number = 20;
        },
        &[
            (5, |_, a| a.bits = v(4, 2)), // reserved below used
            (2, |_, a| a.bits = v(6, 1)), // a reserved handle that get answers
            (15, |t, a| {
                a.bits = v(0, 1);
                t.row_numbers[8] = 1;
            }),
            (1, |t, _| t.row_numbers[8] = 0),
            (15, |_, a| a.type_number = 10),
            (7, |t, _| t.words[0] = u64::MAX >> 1), // R21: no 9, and other words are not looked at
        ],
    );
    STORE.ladder(
        |t, a| store::write(t, a.bits, a.type_number, &a.bytes),
        |t, a| {
            t.head.cursor = -1;
            t.words[0] = 1;
            t.words[4] = 1;
            a.bits = 0;
            a.type_number = 21;
        },
        &[
            (5, |_, a| a.bits = v(4, 2)),
            (2, |_, a| a.bits = v(6, 1)),
            (15, |_, a| a.type_number = 20),
            (13, |_, a| a.bytes = vec![1, 2]),
            (15, |t, a| {
                a.bits = v(0, 1);
                t.row_numbers[8] = 1;
            }),
            (1, |t, _| t.row_numbers[8] = 0),
            (15, |_, a| {
                a.type_number = 10;
                a.bytes = vec![1, 2, 3, 4];
            }),
            (8, |t, _| t.words[0] = 0),
        ],
    );
    let t = small();
    assert_eq!(store::read(&t, v(3, 1), 20), Ok((32, 2)));
    assert_eq!(store::read_part(&t, v(3, 1), 20), [5, 5]);
    assert_eq!(store::read_part(&t, v(3, 1), 30), []);
}

/// A call, the words it refuses with the refusals, and a granted word before
/// and after it.
type BorrowCase = (Call, &'static [(u64, u32)], u64, u64);

#[test]
fn store_borrow_and_release() {
    let cases: &[BorrowCase] = &[
        (
            |t, a| store::borrow(t, a.archetype, a.type_number),
            &[(u64::MAX, 9), (u64::MAX >> 1, 9), (1 << 63, 7)],
            3,
            4,
        ),
        (
            |t, a| store::borrow_mut(t, a.archetype, a.type_number),
            &[(1, 8), (1 << 63, 8)],
            0,
            1 << 63,
        ),
        (
            |t, a| store::release(t, a.archetype, a.type_number),
            &[(0, 10), (1 << 63, 11), (u64::MAX, 11)],
            3,
            2,
        ),
        (
            |t, a| store::release_mut(t, a.archetype, a.type_number),
            &[(0, 11), (5, 11)],
            (1 << 63) + 2,
            2,
        ),
    ];
    for (call, refused, before, after) in cases {
        STORE.ladder_to(
            *call,
            |t, a| {
                t.words[0] = 1;
                a.archetype = 5;
            },
            &[],
            Err(6),
        );
        let mut t = small();
        let mut a = args();
        for &(word, number) in *refused {
            t.words[2] = word;
            a.archetype = 2;
            a.type_number = 20;
            let kept = t.clone();
            assert_eq!(call(&mut t, &mut a), Err(number));
            a.archetype = 1; // not in the archetype
            assert_eq!(call(&mut t, &mut a), Err(15));
            a.archetype = 5; // not declared
            assert_eq!(call(&mut t, &mut a), Err(6));
            assert_eq!(t, kept);
        }
        a.archetype = 2;
        t.words[2] = *before;
        let mut expected = t.clone();
        expected.words[2] = *after;
        assert_eq!(call(&mut t, &mut a), Ok(()));
        assert_eq!(t, expected);
    }
}

#[test]
fn store_reserve() {
    STORE.ladder(
        |t, _| store::reserve_entity(t).map(|_| ()),
        |t, _| {
            t.words[0] = 1; // R18: no words are looked at
            t.row_counts[0] = 8; // and no rows
        },
        &[],
    );
    ladder(
        |t, _| store::reserve_entity(t).map(|_| ()),
        |t, _| {
            t.words[0] = 1;
            t.row_counts[0] = 8;
            head(t, 8, 1, 0);
        },
        &[
            (4, |t, _| {
                head(t, 6, 1, 1);
                t.generations[4] = 0;
            }),
            (1, |t, _| t.generations[4] = 2),
        ],
    );
    STORE.ladder(
        |t, a| store::reserve_entities(t, a.n, &mut a.handles),
        |t, a| {
            t.words[0] = 1;
            t.row_counts[0] = 8;
            t.generations[4] = 0;
            a.n = 8;
        },
        &[
            (4, |_, a| {
                a.n = 3;
                a.handles.truncate(2);
            }),
            (13, |_, a| a.handles.push(0)),
            (1, |t, _| t.generations[4] = 2),
        ],
    );
    let mut t = small();
    t.head.live = 0;
    assert_eq!(store::reserve_entities(&mut t, 9, &mut [0; 8]), Err(13)); // before 1
}

#[test]
fn store_flush_and_clear() {
    STORE.ladder(
        |t, _| store::flush(t),
        |t, _| {
            t.head.cursor = -2;
            t.words[5] = 1;
            t.row_counts[0] = 6;
            t.generations[4] = 0;
        },
        &[
            (8, |t, _| t.words[5] = 0),
            (4, |t, _| t.row_counts[0] = 5),
            (1, |t, _| t.generations[4] = 2),
        ],
    );
    // R18: 8 even with nothing reserved
    let mut t = small();
    t.words[0] = 1;
    assert_eq!(store::flush(&mut t), Err(8));
    STORE.ladder(
        |t, _| store::clear(t),
        |t, _| {
            t.head.cursor = -2;
            t.words[5] = 1;
        },
        &[(8, |t, _| t.words[5] = 0)],
    );
    let mut t = small();
    let mut expected = t.clone();
    expected.head = Head::default();
    expected.row_counts = vec![0; 5];
    assert_eq!(store::clear(&mut t), Ok(()));
    assert_eq!(t, expected);
}

#[test]
fn store_lookups() {
    STORE.ladder(
        |t, a| store::contains(t, a.bits).map(|_| ()),
        |_, a| a.bits = 7,
        &[(5, |_, a| a.bits = v(7, 7))],
    );
    STORE.ladder(
        |t, a| store::get(t, a.bits).map(|_| ()),
        |_, a| a.bits = 7,
        &[
            (5, |_, a| a.bits = v(7, 7)),
            (2, |t, a| {
                a.bits = v(0, 1);
                t.archetypes[0] = 2;
            }),
            (1, |t, _| t.archetypes[0] = 1),
        ],
    );
    STORE.ladder(
        |t, a| store::resolve(t, a.number).map(|_| ()),
        |_, a| a.number = 6,
        &[
            (2, |t, a| {
                a.number = 4;
                t.generations[4] = 0;
            }),
            (1, |t, _| t.generations[4] = 2),
        ],
    );
    STORE.ladder(|t, _| store::len(t).map(|_| ()), entry_alone, &[]);
    STORE.ladder(
        |t, a| store::freelist(t, &mut a.handles).map(|_| ()),
        |t, a| {
            t.pending[0] = 7;
            a.handles.truncate(1);
        },
        &[
            (1, |t, a| {
                t.pending[0] = 4;
                a.handles.clear();
            }),
            (13, |_, a| a.handles.push(0)),
        ],
    );
}

#[test]
fn nothing_at_all() {
    // R43: capacity 0 or no rows.
    let mut t = fresh(declare(&[(0, &[])]), 0);
    assert_eq!(sound(&t), Ok(()));
    assert_eq!(ids::alloc(&mut t, at(0, 0)), Err(4));
    assert_eq!(store::spawn(&mut t, 0, &[]), Err(4));
    assert_eq!(columns::allocate(&mut t, 0, 0), Err(4));
    assert_eq!(ids::reserve_entity(&mut t), Err(4));
    assert_eq!(ids::alloc_at(&mut t, v(0, 1), at(0, 0)), Err(4));
    assert!(ids::alloc_many(&mut t, 0, 0, 0).is_ok());
    assert_eq!(store::reserve_entities(&mut t, 0, &mut []), Ok(()));
    assert_eq!(store::flush(&mut t), Ok(()));
    assert_eq!(store::clear(&mut t), Ok(()));
    assert_eq!(store::freelist(&t, &mut []), Ok(0));
    assert_eq!(store::contains(&t, u64::MAX), Ok(false));
    assert_eq!(store::get(&t, u64::MAX), Err(2));
}

#[test]
fn handles_refuse_generation_zero() {
    use second::handles::*;
    assert_eq!(from_bits(0), Err(5));
    assert_eq!(id(17), Err(5));
    let none = Handle { generation: 0, number: 17 };
    assert_eq!(to_bits(none), Err(5));
}
