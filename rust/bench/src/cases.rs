//! What is measured.

use crate::measure::{case, Pair};
use crate::theirs::first;
use crate::{Start, Theirs};
use oracle::{bits, place, ColumnTables, Declaration, Head, IdTables, NOWHERE};

/// Calls in a run, and numbers in a batch.
const N: usize = 1000;
const CAPACITY: usize = 4096;
const ROWS: u32 = 1024;

// ---- tables to start from

/// Id tables whose first `used` numbers have this generation and place.
fn numbers(capacity: usize, used: usize, generation: u32, live: bool) -> IdTables {
    let mut t = IdTables::empty(capacity);
    for i in 0..used {
        let at = if live { place(1, i as u32) } else { NOWHERE };
        t.generations[i] = generation;
        (t.archetypes[i], t.indices[i]) = (at.archetype, at.index);
    }
    t.head.used = used;
    t
}

pub fn empty(capacity: usize) -> IdTables {
    IdTables::empty(capacity)
}

/// The first `n` numbers live at generation 1, each in its row of archetype 1.
pub fn live(capacity: usize, n: usize) -> IdTables {
    let mut t = numbers(capacity, n, 1, true);
    t.head = Head { used: n, pending: 0, cursor: 0, live: n as u32 };
    t
}

/// The first `n` numbers free at generation 2, of which the last `reserved` are
/// handed out.
pub fn freed(capacity: usize, n: usize, reserved: usize) -> IdTables {
    let mut t = numbers(capacity, n, 2, false);
    for i in 0..n {
        t.pending[i] = i as u32;
    }
    t.head = Head { used: n, pending: n, cursor: (n - reserved) as i64, live: 0 };
    t
}

/// `n` numbers live, and as many new ones handed out.
fn reserved_new(capacity: usize, n: usize) -> IdTables {
    let mut t = live(capacity, n);
    t.head.cursor = -(n as i64);
    t
}

pub fn ids_alone(ids: IdTables) -> Start {
    let declaration = Declaration::of(&[(0, &[])]);
    let columns = ColumnTables::empty(&declaration);
    Start { declaration, ids, columns, archetype: 0 }
}

/// Archetype 1 of `columns` columns of `size` bytes with its first rows in use.
pub fn one_archetype(columns: u32, size: u32, rows: u32, used: usize) -> Start {
    let types: Vec<(u32, u32)> = (1..=columns).map(|kind| (kind, size)).collect();
    let declaration = Declaration::of(&[(0, &[]), (rows, &types)]);
    let columns = with_rows(&declaration, 1, used);
    Start { declaration, ids: empty(0), columns, archetype: 1 }
}

/// Tables whose archetype has the numbers 0, 1, .. in its first rows.
fn with_rows(d: &Declaration, archetype: usize, used: usize) -> ColumnTables {
    let mut t = ColumnTables::empty(d);
    let first = d.first_row(archetype);
    (0..used).for_each(|i| t.row_numbers[first + i] = i as u32);
    t.row_counts[archetype] = used as u32;
    for (i, byte) in t.bytes.iter_mut().enumerate() {
        *byte = (i * 7 % 251) as u8;
    }
    t
}

/// A store's declaration: archetype 0, `archetypes` of `columns` columns, and one
/// that has a column less than they; all components have 8 bytes.
pub fn store_declaration(archetypes: usize, columns: usize, rows: u32) -> Declaration {
    let shared: Vec<(u32, u32)> = (1..columns as u32).map(|kind| (kind, 8)).collect();
    let own = |a: usize| [&shared[..], &[(own_kind(a), 8)]].concat();
    let mut all = vec![(rows, Vec::new())];
    all.extend((1..=archetypes).map(|a| (rows, own(a))));
    if columns > 1 {
        all.push((rows, shared.clone()));
    }
    let all: Vec<(u32, &[(u32, u32)])> = all.iter().map(|(rows, c)| (*rows, &c[..])).collect();
    Declaration::of(&all)
}

/// The type that only archetype `a` has.
fn own_kind(a: usize) -> u32 {
    100 + a as u32
}

/// The first `used` numbers live in the first rows of an archetype.
pub fn store_start(d: Declaration, capacity: usize, archetype: usize, used: usize) -> Start {
    let mut ids = live(capacity, used);
    ids.archetypes[..used].fill(archetype as u32);
    let columns = with_rows(&d, archetype, used);
    Start { declaration: d, ids, columns, archetype }
}

// ---- cases

macro_rules! boxed {
    ($($case:expr;)*) => { vec![$(Box::new($case) as Box<dyn Pair>),*] };
}

/// The id layer's calls.
pub fn ids() -> Vec<Box<dyn Pair>> {
    [reserving(), allocating(), holding(), over_all_numbers()].into_iter().flatten().collect()
}

fn reserving() -> Vec<Box<dyn Pair>> {
    let c = CAPACITY;
    boxed! {
        case("reserve_entity, a free number", ids_alone(freed(c, N, 0)), N,
            |o, _| o.reserve_entity(), |t, _| t.store.ids.reserve_entity());
        case("reserve_entity, a new number", ids_alone(empty(c)), N,
            |o, _| o.reserve_entity(), |t, _| t.store.ids.reserve_entity());
        case("reserve_entities of 1000 new numbers, flush", ids_alone(empty(c)), 1,
            |o, _| o.reserve_entities(N) + o.flush(0, 0), reserve_and_flush);
        case("reserve_entities of 500 free and 500 new, flush", ids_alone(freed(c, N / 2, 0)), 1,
            |o, _| o.reserve_entities(N) + o.flush(0, 0), reserve_and_flush);
    }
}

fn allocating() -> Vec<Box<dyn Pair>> {
    let c = CAPACITY;
    boxed! {
        case("alloc, a free number", ids_alone(freed(c, N, 0)), N,
            |o, i| o.alloc(place(1, i as u32)), |t, i| t.store.ids.alloc(place(1, i as u32)));
        case("alloc, a new number", ids_alone(empty(c)), N,
            |o, i| o.alloc(place(1, i as u32)), |t, i| t.store.ids.alloc(place(1, i as u32)));
        case("alloc_many of 500 free and 500 new", ids_alone(freed(c, N / 2, 0)), 1,
            |o, _| o.alloc_many(N, 1, 0), |t, _| t.store.ids.alloc_many(N as u32, 1, 0));
        case("alloc_at, the next new number", ids_alone(empty(c)), N,
            |o, i| o.alloc_at(bits(i as u32, 9), place(1, i as u32)),
            |t, i| t.store.ids.alloc_at(bits(i as u32, 9), place(1, i as u32)));
        case("alloc_at, the last of up to 1000 free numbers", ids_alone(freed(c, N, 0)), N,
            |o, i| o.alloc_at(bits((N - 1 - i) as u32, 9), place(1, i as u32)),
            |t, i| t.store.ids.alloc_at(bits((N - 1 - i) as u32, 9), place(1, i as u32)));
        case("alloc_at, a live number", ids_alone(live(c, N)), N,
            |o, i| o.alloc_at(bits(i as u32, 9), place(1, i as u32)),
            |t, i| t.store.ids.alloc_at(bits(i as u32, 9), place(1, i as u32)));
    }
}

/// Calls on a handle or a number that there is.
fn holding() -> Vec<Box<dyn Pair>> {
    let c = CAPACITY;
    boxed! {
        case("free", ids_alone(live(c, N)), N,
            |o, i| o.free(bits(i as u32, 1)), |t, i| t.store.ids.free(bits(i as u32, 1)));
        case("contains, a live number", ids_alone(live(c, N)), N,
            |o, i| o.contains(bits(i as u32, 1)), |t, i| t.store.ids.contains(bits(i as u32, 1)));
        case("contains, a reserved new number", ids_alone(reserved_new(c, N)), N,
            |o, i| o.contains(bits((N + i) as u32, 1)),
            |t, i| t.store.ids.contains(bits((N + i) as u32, 1)));
        case("contains, one of 1000 reserved free numbers", ids_alone(freed(c, N, N)), N,
            |o, i| o.contains(bits(i as u32, 2)), |t, i| t.store.ids.contains(bits(i as u32, 2)));
        case("get", ids_alone(live(c, N)), N,
            |o, i| o.get(bits(i as u32, 1)), |t, i| t.store.ids.get(bits(i as u32, 1)));
        case("set the place", ids_alone(live(c, N)), N,
            |o, i| o.set_place(bits(i as u32, 1), place(3, i as u32)),
            |t, i| t.store.ids.set_place(bits(i as u32, 1), place(3, i as u32)));
        case("resolve_unknown_gen", ids_alone(live(c, N)), N,
            |o, i| o.resolve_unknown_gen(i as u32),
            |t, i| t.store.ids.resolve_unknown_gen(i as u32));
    }
}

fn over_all_numbers() -> Vec<Box<dyn Pair>> {
    let c = CAPACITY;
    boxed! {
        case("len", ids_alone(live(c, N)), N, |o, _| o.live(), |t, _| t.store.ids.live());
        case("freelist of 1000", ids_alone(freed(c, N, 0)), 1,
            |o, _| o.freelist(), |t, _| t.store.ids.freelist(&mut t.handles));
        case("clear", ids_alone(live(c, N)), N,
            |o, _| o.clear(), |t, _| { t.store.ids.clear(); 0 });
    }
}

fn reserve_and_flush(t: &mut Theirs, _: usize) -> u64 {
    t.store.ids.reserve_entities(&mut t.handles[..N]);
    t.store.ids.flush(0, 0);
    0
}

pub fn columns() -> Vec<Box<dyn Pair>> {
    let mut all: Vec<Box<dyn Pair>> = Vec::new();
    for (columns, size) in [(1, 8), (4, 8), (16, 8), (16, 64)] {
        all.extend(columns_of(columns, size));
    }
    all
}

fn columns_of(columns: u32, size: u32) -> Vec<Box<dyn Pair>> {
    let start = |used| one_archetype(columns, size, ROWS, used);
    let shape = format!("{columns}×{size}");
    let value = [7u8; 64];
    let length = size as usize;
    boxed! {
        case(format!("allocate and put all, {shape}"), start(0), N,
            move |o, i| {
                let row = o.allocate(1, i as u32);
                (1..=columns).for_each(|kind| { o.put(1, row as u32, kind, &value[..length]); });
                row
            },
            move |t, i| {
                let row = t.store.columns.allocate(1, i as u32);
                for (kind, _) in &t.kinds {
                    t.store.columns.put_dynamic(1, row as u32, *kind, &value[..length]);
                }
                row
            });
        case(format!("remove the first row, {shape}"), start(N), N,
            |o, _| o.remove_row(1, 0), |t, _| t.store.columns.remove(1, 0));
        case(format!("move out the first row, {shape}"), start(N), N,
            |o, _| o.move_out(1, 0), |t, _| t.store.columns.move_to(1, 0, &mut t.taken));
        case(format!("get the last type, {shape}"), start(N), N,
            move |o, i| o.component(1, i as u32, columns),
            move |t, i| {
                let kind = t.kinds[columns as usize - 1].0;
                first(t.store.columns.get_dynamic(1, i as u32, kind, length))
            });
        case(format!("look the last type up, {shape}"), start(N), N,
            move |o, _| o.lookup(1, columns),
            move |t, _| t.store.columns.lookup(1, t.kinds[columns as usize - 1].0));
        case(format!("ids, {shape}"), start(N), N,
            |o, _| o.row_ids(1), |t, _| t.store.columns.ids(1).len() as u64);
    }
}

pub fn words() -> Vec<Box<dyn Pair>> {
    let none = || ids_alone(empty(0));
    boxed! {
        case("shared borrow and release", none(), N,
            |o, _| { o.shared(); o.release(); 0 },
            |t, _| { assert!(t.word.borrow()); t.word.release(); 0 });
        case("unique borrow and release", none(), N,
            |o, _| { o.unique(); o.unique_release(); 0 },
            |t, _| { assert!(t.word.borrow_mut()); t.word.release_mut(); 0 });
    }
}

/// A declaration of a store, and how the table tells it.
struct Shape {
    declaration: Declaration,
    words: String,
    columns: usize,
    /// The archetype that has a column less than the first.
    less: usize,
}

impl Shape {
    fn new(archetypes: usize, columns: usize) -> Shape {
        let declaration = store_declaration(archetypes, columns, ROWS);
        let words = format!("{}×{columns}", declaration.rows.len() - 1);
        Shape { declaration, words, columns, less: archetypes + 1 }
    }

    fn start(&self, archetype: usize, used: usize) -> Start {
        store_start(self.declaration.clone(), CAPACITY, archetype, used)
    }

    fn named(&self, call: &str) -> String {
        format!("{call}, {}", self.words)
    }
}

/// The store's calls at a declaration of so many archetypes of so many columns.
pub fn store(archetypes: usize, columns: usize) -> Vec<Box<dyn Pair>> {
    let shape = Shape::new(archetypes, columns);
    let parts = [rows(&shape), components(&shape), moves(&shape), chosen(&shape)];
    parts.into_iter().flatten().collect()
}

fn rows(shape: &Shape) -> Vec<Box<dyn Pair>> {
    let row = vec![7u8; 8 * shape.columns];
    let row_too = row.clone();
    boxed! {
        case(shape.named("spawn"), shape.start(1, 0), N,
            move |o, _| o.spawn(1, &row), move |t, _| t.store.spawn(1, &row_too, &t.kinds));
        case(shape.named("despawn"), shape.start(1, N), N,
            |o, i| o.despawn(bits(i as u32, 1)), |t, i| t.store.despawn(bits(i as u32, 1)));
    }
}

/// Calls that leave every row where it is.
fn components(shape: &Shape) -> Vec<Box<dyn Pair>> {
    let (value, kind, last) = ([9u8; 8], own_kind(1), shape.columns - 1);
    boxed! {
        case(shape.named("read"), shape.start(1, N), N,
            move |o, i| o.read(bits(i as u32, 1), kind),
            move |t, i| first(t.store.read(bits(i as u32, 1), t.kinds[last].0, 8)));
        case(shape.named("write"), shape.start(1, N), N,
            move |o, i| o.write(bits(i as u32, 1), kind, &value),
            move |t, i| t.store.write(bits(i as u32, 1), t.kinds[last].0, &value));
        case(shape.named("get"), shape.start(1, N), N,
            |o, i| o.store_get(bits(i as u32, 1)), |t, i| t.store.ids.get(bits(i as u32, 1)));
        case(shape.named("contains"), shape.start(1, N), N,
            |o, i| o.store_contains(bits(i as u32, 1)),
            |t, i| t.store.ids.contains(bits(i as u32, 1)));
        case(shape.named("borrow and release a column"), shape.start(1, N), N,
            move |o, _| o.borrow(1, kind) + o.release_column(1, kind),
            move |t, _| {
                t.store.borrow(1, t.kinds[last].0);
                t.store.release(1, t.kinds[last].0);
                0
            });
    }
}

/// Calls that move a row to another archetype.
fn moves(shape: &Shape) -> Vec<Box<dyn Pair>> {
    let (value, kind, less) = ([9u8; 8], own_kind(1), shape.less);
    boxed! {
        case(shape.named("insert"), shape.start(less, N), N,
            move |o, i| o.insert(bits(i as u32, 1), kind, &value),
            move |t, i| {
                let kind = t.kind(kind);
                t.store.move_entity(bits(i as u32, 1), 1, Some((kind, &value)))
            });
        case(shape.named("remove"), shape.start(1, N), N,
            move |o, i| o.remove(bits(i as u32, 1), kind),
            move |t, i| t.store.move_entity(bits(i as u32, 1), less as u32, None));
    }
}

/// Rows of handles that were chosen or reserved before.
fn chosen(shape: &Shape) -> Vec<Box<dyn Pair>> {
    let row = vec![7u8; 8 * shape.columns];
    let row_too = row.clone();
    boxed! {
        case(shape.named("spawn_at"), shape.start(1, 0), N,
            move |o, i| o.spawn_at(bits(i as u32, 9), 1, &row),
            move |t, i| { t.store.spawn_at(bits(i as u32, 9), 1, &row_too, &t.kinds); 0 });
        case(shape.named("reserve_entities of 1000, flush"), shape.start(1, 0), 1,
            |o, _| o.store_reserve_entities(N) + o.store_flush(),
            |t, _| {
                t.store.ids.reserve_entities(&mut t.handles[..N]);
                t.store.flush();
                0
            });
    }
}

/// All cases, under the headings of the table; those whose name has the words of
/// the variable CASES in it, where it is set.
pub fn all() -> Vec<(&'static str, Vec<Box<dyn Pair>>)> {
    let wanted = std::env::var("CASES").unwrap_or_default();
    let mut all = vec![
        ("The id layer", ids()),
        ("The column layer", columns()),
        ("Borrow words", words()),
        ("The store, 4 archetypes of 3 columns and one of 2", store(4, 3)),
        ("The store, 14 archetypes of 16 columns and one of 15", store(14, 16)),
    ];
    for (_, pairs) in &mut all {
        pairs.retain(|pair| pair.name().contains(&wanted));
    }
    all.retain(|(_, pairs)| !pairs.is_empty());
    all
}
