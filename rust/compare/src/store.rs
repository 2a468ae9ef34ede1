//! The store, and the id and column calls on any tables, against the second program.

use crate::moves;
use crate::ours::{Difference, Exchange, Ours};
use crate::tables::{
    above_limit, bytes, crowded, damage, row_width, size_of, some_handle, some_type, sound,
};
use crate::tally::Tally;
use oracle::sequences::Rng;
use second::rules::flushed;
use second::{columns, ids, store, Declaration, Place, Tables, MAX};

/// What each call can answer.
pub const WANTED: &[(&str, &str, &[u32])] = &[
    ("ids reserve entity", "verdict_ids_reserve_entity", &[0, 12, 13, 1, 4]),
    ("ids reserve entities", "verdict_ids_reserve_entities", &[0, 12, 13, 1, 4]),
    ("ids alloc", "verdict_ids_alloc", &[0, 12, 13, 1, 3, 6, 4]),
    ("ids alloc many", "verdict_ids_alloc_many", &[0, 12, 13, 1, 3, 6, 4]),
    ("ids alloc many next", "verdict_ids_alloc_many_next", &[0, 13]),
    ("ids alloc at", "verdict_ids_alloc_at", &[0, 12, 13, 1, 5, 3, 6, 4]),
    ("ids free", "verdict_ids_free", &[0, 12, 13, 1, 5, 3, 2]),
    ("ids contains", "verdict_ids_contains", &[0, 12, 13, 1, 5]),
    ("ids get", "verdict_ids_get", &[0, 12, 13, 1, 5, 2]),
    ("ids set place", "verdict_ids_set_place", &[0, 12, 13, 1, 5, 6, 2]),
    ("ids resolve", "verdict_ids_resolve_unknown_gen", &[0, 12, 13, 1, 2]),
    ("ids flush", "verdict_ids_flush", &[0, 12, 13, 1, 6]),
    ("ids len", "verdict_ids_len", &[0, 12, 13, 1]),
    ("ids freelist", "verdict_ids_freelist", &[0, 12, 13, 1]),
    ("ids clear", "verdict_ids_clear", &[0, 12, 13, 1]),
    ("columns allocate", "verdict_columns_allocate", &[0, 12, 13, 1, 6, 4]),
    ("columns remove", "verdict_columns_remove", &[0, 12, 13, 1, 6]),
    ("columns move out", "verdict_columns_move_out", &[0, 12, 13, 1, 6]),
    ("columns put", "verdict_columns_put", &[0, 12, 13, 1, 6, 15]),
    ("columns get", "verdict_columns_get", &[0, 12, 13, 1, 6, 15]),
    ("columns lookup", "verdict_columns_lookup", &[0, 12, 6, 15]),
    ("columns ids", "verdict_columns_ids", &[0, 12, 13, 1, 6]),
    ("spawn", "verdict_store_spawn", &[0, 12, 13, 1, 3, 6, 8, 4]),
    ("spawn at", "verdict_store_spawn_at", &[0, 12, 13, 1, 5, 3, 6, 8, 4]),
    ("despawn", "verdict_store_despawn", &[0, 12, 13, 1, 5, 3, 2, 8]),
    ("insert", "verdict_store_insert", &[0, 12, 13, 1, 5, 3, 2, 14, 8, 4]),
    ("remove", "verdict_store_remove", &[0, 12, 13, 1, 5, 3, 2, 14, 15, 8, 4]),
    ("read", "verdict_store_read", &[0, 12, 13, 1, 5, 2, 15, 7]),
    ("write", "verdict_store_write", &[0, 12, 13, 1, 5, 2, 15, 8]),
    ("borrow", "verdict_store_borrow", &[0, 12, 13, 1, 6, 15, 9, 7]),
    ("borrow mut", "verdict_store_borrow_mut", &[0, 12, 13, 1, 6, 15, 8]),
    ("release", "verdict_store_release", &[0, 12, 13, 1, 6, 15, 10, 11]),
    ("release mut", "verdict_store_release_mut", &[0, 12, 13, 1, 6, 15, 11]),
    ("reserve entity", "verdict_store_reserve_entity", &[0, 12, 13, 1, 4]),
    ("reserve entities", "verdict_store_reserve_entities", &[0, 12, 13, 1, 4]),
    ("freelist", "verdict_store_freelist", &[0, 12, 13, 1]),
    ("flush", "verdict_store_flush", &[0, 12, 13, 1, 8, 4]),
    ("clear", "verdict_store_clear", &[0, 12, 13, 1, 8]),
    ("get", "verdict_store_get", &[0, 12, 13, 1, 5, 2]),
    ("contains", "verdict_store_contains", &[0, 12, 13, 1, 5]),
    ("resolve", "verdict_store_resolve_unknown_gen", &[0, 12, 13, 1, 2]),
    ("len", "verdict_store_len", &[0, 12, 13, 1]),
];

/// The same by kind alone.
pub fn wanted() -> Vec<(&'static str, &'static [u32])> {
    WANTED.iter().map(|w| (w.0, w.2)).collect()
}

enum Layer {
    Ids,
    Columns,
    Store,
}

/// The layer that a kind of call belongs to: its first word tells, where it isn't the store's.
fn layer(kind: &str) -> Layer {
    match kind.split(' ').next() {
        Some("ids") => Layer::Ids,
        Some("columns") => Layer::Columns,
        _ => Layer::Store,
    }
}

/// A call's arguments. Each kind of call uses some of them.
#[derive(Clone, Debug)]
struct Arguments {
    bits: u64,
    number: u32,
    archetype: u32,
    row: u32,
    ty: u32,
    n: u64,
    /// A row's bytes, a component's bytes, and outputs.
    run: Vec<u8>,
    value: Vec<u8>,
    taken: Vec<u8>,
    handles: Vec<u64>,
    state: ids::AllocManyState,
}

fn some_archetype(rng: &mut Rng, d: &Declaration) -> u32 {
    match rng.below(16) {
        0 => MAX,
        1 => d.rows.len() as u32,
        _ => rng.below(d.rows.len().max(1) as u64) as u32,
    }
}

/// A row that this archetype has, its last, the one after it, or one that no archetype has.
fn some_row(rng: &mut Rng, t: &Tables, archetype: u32) -> u32 {
    let count = t.row_counts.get(archetype as usize).copied().unwrap_or(0);
    match rng.below(12) {
        0 => MAX,
        1 => MAX - 1,
        2 => count,
        3 | 4 => count.saturating_sub(1),
        _ => rng.below(u64::from(count.min(20)).max(1)) as u32,
    }
}

/// How many handles are asked for: a few, what is pending, all that there are, or far too many.
fn some_count(rng: &mut Rng, t: &Tables) -> u64 {
    match rng.below(12) {
        0 => rng.pick(&[u64::MAX, 1 << 63, MAX.into(), 1 << 32, 17]),
        1 => t.head.pending,
        2 => (t.generations.len() as u64)
            .wrapping_sub(t.head.used)
            .wrapping_add(t.head.cursor as u64),
        _ => rng.below(5),
    }
}

/// The size that the call demands, and now and then one more or one less.
fn mostly(rng: &mut Rng, size: usize) -> usize {
    match rng.below(24) {
        0 => size + 1,
        1 => size.saturating_sub(1),
        _ => size,
    }
}

/// The length of an output of handles: mostly enough for `n` of them and for all free ones.
fn some_length(rng: &mut Rng, t: &Tables, n: u64) -> usize {
    let free = t.head.cursor.clamp(0, 50) as usize;
    let room = n.min(50) as usize;
    match rng.below(12) {
        0 => room.saturating_sub(1),
        1 => free.saturating_sub(1),
        _ => room.max(free) + rng.below(3) as usize,
    }
}

/// A walking state from here on, whose two ranges can be empty or turned around.
fn some_state(rng: &mut Rng, position: u64, next: u32) -> ids::AllocManyState {
    ids::AllocManyState {
        position,
        end: position.saturating_sub(1) + rng.below(40),
        next,
        new_end: next.saturating_sub(1) + rng.below(3) as u32,
    }
}

fn arguments(rng: &mut Rng, t: &Tables) -> Arguments {
    let d = &t.declaration;
    let archetype = some_archetype(rng, d);
    let row = some_row(rng, t, archetype);
    let bits = some_handle(rng, t);
    let own = t.archetypes.get(bits as u32 as usize).copied().unwrap_or(0);
    let near = if rng.percent(60) { own } else { archetype };
    let ty = some_type(rng, d, near);
    let n = some_count(rng, t);
    let width = mostly(rng, row_width(d, archetype).min(2000));
    let size = size_of(d, ty).unwrap_or(rng.below(4) as usize).min(70);
    let size = mostly(rng, size);
    let length = some_length(rng, t, n);
    let position = rng.below(6);
    let next = rng.below(9) as u32;
    Arguments {
        bits,
        number: bits as u32,
        archetype,
        row,
        ty,
        n,
        run: bytes(rng, width),
        value: bytes(rng, size),
        taken: bytes(rng, width),
        handles: (0..length).map(|_| rng.number()).collect(),
        state: some_state(rng, position, next),
    }
}

/// Other arguments for a call that moves rows: those of a row that is there, by which the call is
/// granted where nothing else is in its way.
fn aim(rng: &mut Rng, kind: &str, t: &Tables, x: &mut Arguments) {
    if !["insert", "remove"].contains(&kind) {
        x.bits = moves::row_step(rng, t).unwrap_or(x.bits);
    } else if let Some((bits, ty)) = moves::component_step(rng, t, kind == "insert") {
        let size = size_of(&t.declaration, ty).unwrap_or(0).min(70);
        (x.bits, x.ty, x.value) = (bits, ty, bytes(rng, size));
    }
}

fn head(t: &Tables) -> [u64; 4] {
    [t.head.used, t.head.pending, t.head.cursor as u64, t.head.live]
}

fn declared(e: Exchange, t: &Tables) -> Exchange {
    let d = &t.declaration;
    e.lent("rows", &d.rows)
        .lent("widths", &d.widths)
        .lent("types", &d.types)
        .lent("sizes", &d.sizes)
}

fn id_tables(e: Exchange, b: &Tables, a: &Tables) -> Exchange {
    e.slice("generations", &b.generations, &a.generations)
        .slice("archetypes", &b.archetypes, &a.archetypes)
        .slice("indices", &b.indices, &a.indices)
        .slice("pending", &b.pending, &a.pending)
}

fn row_tables(e: Exchange, b: &Tables, a: &Tables) -> Exchange {
    e.slice("numbers", &b.row_numbers, &a.row_numbers)
        .slice("counts", &b.row_counts, &a.row_counts)
        .slice("bytes", &b.bytes, &a.bytes)
}

/// What a call is lent, before and after, by the layer that its name tells.
pub fn lent(name: &'static str, code: u32, b: &Tables, a: &Tables) -> Exchange {
    let e = Exchange::new(name, code);
    if name.starts_with("verdict_ids") {
        return id_tables(e.array("head", &head(b), &head(a)), b, a);
    }
    if name == "verdict_columns_lookup" {
        return declared(e, b);
    }
    if name.starts_with("verdict_columns") {
        return row_tables(declared(e, b), b, a);
    }
    let e = id_tables(declared(e.array("head", &head(b), &head(a)), b), b, a);
    row_tables(e, b, a).slice("words", &b.words, &a.words)
}

fn pair(p: Place) -> Vec<u64> {
    vec![p.archetype.into(), p.index.into()]
}

fn part((start, length): (usize, usize)) -> Vec<u64> {
    vec![start as u64, length as u64]
}

fn one(value: impl Into<u64>) -> Vec<u64> {
    vec![value.into()]
}

fn none(_granted: ()) -> Vec<u64> {
    Vec::new()
}

fn flag(some: Option<Vec<u64>>) -> Vec<u64> {
    some.map_or(vec![0], |v| [vec![1], v].concat())
}

/// The values of a granted call, or the number with which it is refused.
type Said = Result<Vec<u64>, u32>;

/// What the second program makes of a call: the number, the values, and what
/// it left of the tables and the outputs.
struct Answered {
    code: u32,
    out: Vec<u64>,
    after: Tables,
    arguments: Arguments,
}

/// An id call on `a`, whose outputs go to `y`.
fn ids_said(kind: &str, a: &mut Tables, x: &Arguments, y: &mut Arguments) -> Said {
    let place = Place { archetype: x.archetype, index: x.row };
    match kind {
        "ids reserve entity" => ids::reserve_entity(a).map(one),
        "ids reserve entities" => ids::reserve_entities(a, x.n, &mut y.handles).map(none),
        "ids alloc" => ids::alloc(a, place).map(one),
        "ids alloc many" => ids::alloc_many(a, x.n, x.archetype, x.row).map(|state| {
            y.state = state;
            Vec::new()
        }),
        "ids alloc many next" => {
            ids::alloc_many_next(&mut y.state, &a.pending).map(|number| flag(number.map(one)))
        }
        "ids alloc at" => ids::alloc_at(a, x.bits, place).map(|p| flag(p.map(pair))),
        "ids free" => ids::free(a, x.bits).map(pair),
        "ids contains" => ids::contains(a, x.bits).map(one),
        "ids get" => ids::get(a, x.bits).map(pair),
        "ids set place" => ids::set_place(a, x.bits, place).map(none),
        "ids resolve" => ids::resolve_unknown_gen(a, x.number).map(one),
        "ids flush" => ids::flush(a, x.archetype, x.row).map(none),
        "ids len" => ids::len(a).map(one),
        "ids freelist" => ids::freelist(a, &mut y.handles).map(one),
        "ids clear" => ids::clear(a).map(none),
        _ => unreachable!("{kind}"),
    }
}

/// The same of a column call.
fn columns_said(kind: &str, a: &mut Tables, x: &Arguments, y: &mut Arguments) -> Said {
    let moved = |number: Option<u32>| flag(number.map(one));
    match kind {
        "columns allocate" => columns::allocate(a, x.archetype, x.number).map(one),
        "columns remove" => columns::remove(a, x.archetype, x.row).map(moved),
        "columns move out" => columns::move_out(a, x.archetype, x.row, &mut y.taken).map(moved),
        "columns put" => columns::put(a, x.archetype, x.row, x.ty, &x.value).map(none),
        "columns get" => columns::get(a, x.archetype, x.row, x.ty).map(part),
        "columns lookup" => columns::lookup(&a.declaration, x.archetype, x.ty).map(one),
        "columns ids" => columns::ids(a, x.archetype).map(part),
        _ => unreachable!("{kind}"),
    }
}

/// The same of a store call.
fn store_said(kind: &str, a: &mut Tables, x: &Arguments, y: &mut Arguments) -> Said {
    match kind {
        "spawn" => store::spawn(a, x.archetype, &x.run).map(one),
        "spawn at" => store::spawn_at(a, x.bits, x.archetype, &x.run).map(none),
        "despawn" => store::despawn(a, x.bits).map(none),
        "insert" => store::insert(a, x.bits, x.ty, &x.value).map(none),
        "remove" => store::remove(a, x.bits, x.ty).map(none),
        "read" => store::read(a, x.bits, x.ty).map(part),
        "write" => store::write(a, x.bits, x.ty, &x.value).map(none),
        "borrow" => store::borrow(a, x.archetype, x.ty).map(none),
        "borrow mut" => store::borrow_mut(a, x.archetype, x.ty).map(none),
        "release" => store::release(a, x.archetype, x.ty).map(none),
        "release mut" => store::release_mut(a, x.archetype, x.ty).map(none),
        "reserve entity" => store::reserve_entity(a).map(one),
        "reserve entities" => store::reserve_entities(a, x.n, &mut y.handles).map(none),
        "freelist" => store::freelist(a, &mut y.handles).map(one),
        "flush" => store::flush(a).map(none),
        "clear" => store::clear(a).map(none),
        "get" => store::get(a, x.bits).map(pair),
        "contains" => store::contains(a, x.bits).map(one),
        "resolve" => store::resolve(a, x.number).map(one),
        "len" => store::len(a).map(one),
        _ => unreachable!("{kind}"),
    }
}

fn answered(kind: &str, t: &Tables, x: &Arguments) -> Answered {
    let mut a = t.clone();
    let mut y = x.clone();
    let said = match layer(kind) {
        Layer::Ids => ids_said(kind, &mut a, x, &mut y),
        Layer::Columns => columns_said(kind, &mut a, x, &mut y),
        Layer::Store => store_said(kind, &mut a, x, &mut y),
    };
    let (code, out) = match said {
        Ok(values) => (0, values),
        Err(number) => {
            assert_eq!(a, *t, "the second program changed what it refused");
            (number, Vec::new())
        }
    };
    Answered { code, out, after: a, arguments: y }
}

/// A walking state as it crosses.
pub fn state(s: &ids::AllocManyState) -> [u32; 4] {
    [s.position as u32, s.end as u32, s.next, s.new_end]
}

/// The rest of an exchange, after the tables, of an id call or of the store's call of that name.
fn with_common(e: Exchange, kind: &str, x: &Arguments, s: &Answered) -> Exchange {
    match kind.trim_start_matches("ids ") {
        "reserve entity" | "len" => e.out(&s.out),
        "reserve entities" => e.numbers(&[x.n]).slice("handles", &x.handles, &s.arguments.handles),
        "freelist" => e.slice("handles", &x.handles, &s.arguments.handles).out(&s.out),
        "contains" | "get" => e.numbers(&[x.bits]).out(&s.out),
        "resolve" => e.numbers(&[x.number.into()]).out(&s.out),
        "clear" => e,
        _ => unreachable!("{kind}"),
    }
}

/// The rest of an id call's.
fn with_ids(e: Exchange, kind: &str, x: &Arguments, s: &Answered) -> Exchange {
    let (a, row) = (u64::from(x.archetype), u64::from(x.row));
    match kind {
        "ids alloc" => e.numbers(&[a, row]).out(&s.out),
        "ids alloc many" => {
            let left = if s.code == 0 { state(&s.arguments.state) } else { [0; 4] };
            e.numbers(&[x.n, a, row]).array("out", &[7u32, 8, 9, 10], &left)
        }
        "ids alloc at" => e.numbers(&[x.bits, a, row]).out(&s.out),
        "ids free" => e.numbers(&[x.bits]).out(&s.out),
        "ids set place" => e.numbers(&[x.bits, a, row]),
        "ids flush" => e.numbers(&[a, row]),
        _ => with_common(e, kind, x, s),
    }
}

/// The rest of a column call's.
fn with_columns(e: Exchange, kind: &str, x: &Arguments, s: &Answered) -> Exchange {
    let (a, row, ty) = (u64::from(x.archetype), u64::from(x.row), u64::from(x.ty));
    match kind {
        "columns allocate" => e.numbers(&[a, x.number.into()]).out(&s.out),
        "columns remove" => e.numbers(&[a, row]).out(&s.out),
        "columns move out" => {
            e.slice("taken", &x.taken, &s.arguments.taken).numbers(&[a, row]).out(&s.out)
        }
        "columns put" => e.numbers(&[a, row, ty]).lent("value", &x.value),
        "columns get" => e.numbers(&[a, row, ty]).out(&s.out),
        "columns lookup" => e.numbers(&[a, ty]).out(&s.out),
        "columns ids" => e.numbers(&[a]).out(&s.out),
        _ => unreachable!("{kind}"),
    }
}

/// The rest of a store call's.
fn with_store(e: Exchange, kind: &str, x: &Arguments, s: &Answered) -> Exchange {
    let (a, ty) = (u64::from(x.archetype), u64::from(x.ty));
    match kind {
        "spawn" => e.numbers(&[a]).lent("run", &x.run).out(&s.out),
        "spawn at" => e.numbers(&[x.bits, a]).lent("run", &x.run),
        "despawn" => e.numbers(&[x.bits]),
        "insert" | "write" => e.numbers(&[x.bits, ty]).lent("value", &x.value),
        "remove" => e.numbers(&[x.bits, ty]),
        "read" => e.numbers(&[x.bits, ty]).out(&s.out),
        "borrow" | "borrow mut" | "release" | "release mut" => e.numbers(&[a, ty]),
        "flush" => e,
        _ => with_common(e, kind, x, s),
    }
}

/// The exchange of a call that the second program answered so.
fn exchange(kind: &str, name: &'static str, t: &Tables, x: &Arguments, s: &Answered) -> Exchange {
    if kind == "ids alloc many next" {
        return Exchange::new(name, s.code)
            .array("state", &state(&x.state), &state(&s.arguments.state))
            .lent("pending", &t.pending)
            .out(&s.out);
    }
    let e = lent(name, s.code, t, &s.after);
    match layer(kind) {
        Layer::Ids => with_ids(e, kind, x, s),
        Layer::Columns => with_columns(e, kind, x, s),
        Layer::Store => with_store(e, kind, x, s),
    }
}

fn tables(kind: &str) -> u64 {
    match (kind, layer(kind)) {
        ("ids alloc many next", _) => 2,
        ("columns lookup", _) => 4,
        (_, Layer::Ids) => 5,
        (_, Layer::Columns) => 7,
        (_, Layer::Store) => 13,
    }
}

/// A random call of this kind: its exchange by the second program, the number, and what it left.
pub fn made(rng: &mut Rng, which: usize, t: &Tables) -> (Exchange, u32, Tables) {
    let (kind, name, _) = WANTED[which];
    let mut x = arguments(rng, t);
    if moves::moves_rows(name) && rng.percent(60) {
        aim(rng, kind, t, &mut x);
    }
    let s = answered(kind, t, &x);
    (exchange(kind, name, t, &x, &s), s.code, s.after)
}

/// The same, compared.
fn play(
    ours: &mut Ours,
    tally: &mut Tally,
    rng: &mut Rng,
    which: usize,
    t: &Tables,
) -> Result<Tables, Difference> {
    let kind = WANTED[which].0;
    let (exchange, code, after) = made(rng, which, t);
    tally.called(kind, code, tables(kind));
    moves::done(&exchange).into_iter().for_each(|what| tally.done(kind, what));
    ours.compare(exchange)?;
    Ok(after)
}

/// The position of the next call. Where a flush is owed and would be granted, half of the time it is
/// that, since the calls that move rows are refused until then; a clear, which leaves them no row,
/// comes less often than the others.
pub fn next_call(rng: &mut Rng, calls: &[usize], t: &Tables) -> usize {
    let flush = calls.iter().copied().find(|i| WANTED[*i].0 == "flush");
    if let (Some(flush), false) = (flush, flushed(t)) {
        if rng.percent(50) && store::flush(&mut t.clone()).is_ok() {
            return flush;
        }
    }
    let which = rng.pick(calls);
    if WANTED[which].0.ends_with("clear") && rng.percent(75) {
        return rng.pick(calls);
    }
    which
}

/// Every call on tables of a capacity above the limit.
fn play_above_limit(ours: &mut Ours, tally: &mut Tally, rng: &mut Rng) -> Result<(), Difference> {
    let t = above_limit(rng);
    for which in 0..WANTED.len() {
        play(ours, tally, rng, which, &t)?;
    }
    Ok(())
}

/// A sequence of twenty of these calls, from these tables on.
fn play_sequence(
    ours: &mut Ours,
    tally: &mut Tally,
    rng: &mut Rng,
    calls: &[usize],
    mut t: Tables,
) -> Result<(), Difference> {
    for _ in 0..20 {
        let which = next_call(rng, calls, &t);
        t = play(ours, tally, rng, which, &t)?;
    }
    Ok(())
}

/// Short sequences until there were `count` calls: of store calls, mostly on
/// sound tables, and of all calls on tables of every kind; now and then every
/// call at a capacity above the limit.
pub fn run(ours: &mut Ours, tally: &mut Tally, seed: u64, count: u64) -> Result<(), Difference> {
    let every: Vec<usize> = (0..WANTED.len()).collect();
    let of_store = |i: &usize| WANTED[*i].1.starts_with("verdict_store");
    let store: Vec<usize> = every.iter().copied().filter(of_store).collect();
    let mut rng = Rng(seed);
    for s in 0.. {
        if tally.calls() >= count {
            break;
        }
        if s % 1000 == 0 {
            play_above_limit(ours, tally, &mut rng)?;
        }
        let mut t = if rng.percent(50) { crowded(&mut rng) } else { sound(&mut rng) };
        let mixed = rng.percent(50);
        if mixed || rng.percent(30) {
            damage(&mut rng, &mut t);
        }
        let calls = if mixed { &every } else { &store };
        play_sequence(ours, tally, &mut rng, calls, t)?;
    }
    ours.settle()
}
