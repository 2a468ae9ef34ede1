//! Id calls against the original, in sequences.

use crate::ours::{Difference, Exchange, Ours};
use crate::tally::Tally;
use oracle::calls::IdCall;
use oracle::sequences::{id_call, id_tables, Rng};
use oracle::{Head, IdTables, Ids, Place};

pub const WANTED: &[(&str, &[u32])] = &[
    ("reserve entity", &[0]),
    ("reserve entities", &[0]),
    ("alloc", &[0, 3]),
    ("alloc many", &[0, 3]),
    ("alloc many next", &[0]),
    ("alloc at", &[0, 3, 5]),
    ("free", &[0, 2, 3, 5]),
    ("contains", &[0, 5]),
    ("get", &[0, 2, 5]),
    ("set place", &[0, 2, 5]),
    ("resolve", &[0, 2]),
    ("flush", &[0]),
    ("len", &[0]),
    ("freelist", &[0]),
    ("clear", &[0]),
];

fn kind(call: &IdCall) -> &'static str {
    match call {
        IdCall::ReserveEntity => "reserve entity",
        IdCall::ReserveEntities(_) => "reserve entities",
        IdCall::Alloc(_) => "alloc",
        IdCall::AllocMany(..) => "alloc many",
        IdCall::AllocAt(..) => "alloc at",
        IdCall::Free(_) => "free",
        IdCall::Contains(_) => "contains",
        IdCall::Get(_) => "get",
        IdCall::SetPlace(..) => "set place",
        IdCall::Resolve(_) => "resolve",
        IdCall::Flush(_) => "flush",
        IdCall::Len => "len",
        IdCall::Freelist => "freelist",
        IdCall::Clear => "clear",
    }
}

pub fn head_words(h: Head) -> [u64; 4] {
    [h.used as u64, h.pending as u64, h.cursor as u64, h.live.into()]
}

/// The head and the four tables, before and after.
pub fn tables(e: Exchange, before: &IdTables, after: &IdTables) -> Exchange {
    e.array("head", &head_words(before.head), &head_words(after.head))
        .slice("generations", &before.generations, &after.generations)
        .slice("archetypes", &before.archetypes, &after.archetypes)
        .slice("indices", &before.indices, &after.indices)
        .slice("pending", &before.pending, &after.pending)
}

fn place(p: Place) -> [u64; 2] {
    [p.archetype.into(), p.index.into()]
}

/// An output of handles: a few more places than asked for, and what is in it after.
fn handles(e: Exchange, room: usize, given: &[u64]) -> Exchange {
    let before: Vec<u64> = (0..room as u64 + 2).map(|i| i * 77 + 5).collect();
    let mut after = before.clone();
    after[..given.len()].copy_from_slice(given);
    e.slice("handles", &before, &after)
}

/// The output of an alloc many, which is a walking state; none where it is refused.
fn walking_state(e: Exchange, values: &[u64]) -> Exchange {
    let mut state = [0u32; 4];
    for (into, v) in state.iter_mut().zip(values) {
        *into = *v as u32;
    }
    e.array("out", &[7u32, 8, 9, 10], &state)
}

/// The outputs of a freelist: the handles, and how many they are where it is granted.
fn free_handles(e: Exchange, before: &IdTables, code: u32, values: &[u64]) -> Exchange {
    let room = before.head.cursor.max(0) as usize;
    let count = if code == 0 { vec![values.len() as u64] } else { Vec::new() };
    handles(e, room, values).out(&count)
}

/// The exchange of a call that the original answered with this.
pub fn exchange(
    call: &IdCall,
    before: &IdTables,
    after: &IdTables,
    code: u32,
    values: &[u64],
) -> Exchange {
    let begin = |name| tables(Exchange::new(name, code), before, after);
    match *call {
        IdCall::ReserveEntity => begin("verdict_ids_reserve_entity").out(values),
        IdCall::ReserveEntities(n) => {
            let e = begin("verdict_ids_reserve_entities").numbers(&[n.into()]);
            handles(e, n as usize, values)
        }
        IdCall::Alloc(p) => begin("verdict_ids_alloc").numbers(&place(p)).out(values),
        IdCall::AllocMany(n, p) => {
            let e = begin("verdict_ids_alloc_many").numbers(&[n.into()]).numbers(&place(p));
            walking_state(e, values)
        }
        IdCall::AllocAt(bits, p) => {
            begin("verdict_ids_alloc_at").numbers(&[bits]).numbers(&place(p)).out(values)
        }
        IdCall::Free(bits) => begin("verdict_ids_free").numbers(&[bits]).out(values),
        IdCall::Contains(bits) => begin("verdict_ids_contains").numbers(&[bits]).out(values),
        IdCall::Get(bits) => begin("verdict_ids_get").numbers(&[bits]).out(values),
        IdCall::SetPlace(bits, p) => {
            begin("verdict_ids_set_place").numbers(&[bits]).numbers(&place(p))
        }
        IdCall::Resolve(n) => {
            begin("verdict_ids_resolve_unknown_gen").numbers(&[n.into()]).out(values)
        }
        IdCall::Flush(p) => begin("verdict_ids_flush").numbers(&place(p)),
        IdCall::Len => begin("verdict_ids_len").out(values),
        IdCall::Freelist => free_handles(begin("verdict_ids_freelist"), before, code, values),
        IdCall::Clear => begin("verdict_ids_clear"),
    }
}

/// The walk over the numbers of an alloc many: each of them, then none.
pub fn walk(pending: &[u32], values: &[u64]) -> Vec<Exchange> {
    let mut state: [u32; 4] = std::array::from_fn(|i| values[i] as u32);
    let begin = |before: &[u32; 4], after: &[u32; 4]| {
        let e = Exchange::new("verdict_ids_alloc_many_next", 0);
        e.array("state", before, after).lent("pending", pending)
    };
    let mut steps = Vec::new();
    for number in &values[4..] {
        let before = state;
        state[if state[0] < state[1] { 0 } else { 2 }] += 1;
        steps.push(begin(&before, &state).out(&[1, *number]));
    }
    steps.push(begin(&state, &state).out(&[]));
    steps
}

/// The steps of such a walk, compared.
fn play_walk(
    ours: &mut Ours,
    tally: &mut Tally,
    pending: &[u32],
    values: &[u64],
) -> Result<(), Difference> {
    for step in walk(pending, values) {
        tally.called("alloc many next", 0, 2);
        ours.compare(step)?;
    }
    Ok(())
}

/// The capacity of a sequence's tables, and the most numbers that they use at its beginning.
fn sizes(s: u64) -> (usize, usize) {
    let capacity = match s % 40 {
        0 => 4096,
        1 | 2 => 0,
        3..=5 => 1,
        6..=12 => 257,
        _ => 16,
    };
    let most = match s % 7 {
        0 => 0,
        1 | 2 if capacity > 16 => 12,
        _ => capacity,
    };
    (capacity, most)
}

/// A sequence of so many calls, from these tables on.
fn sequence(
    ours: &mut Ours,
    tally: &mut Tally,
    rng: &mut Rng,
    calls: usize,
    mut before: IdTables,
) -> Result<(), Difference> {
    let mut ids = Ids::new(&before);
    let mut after = before.clone();
    for _ in 0..calls {
        let call = id_call(rng, &before);
        let said = ids.call(&call);
        ids.dump(&mut after);
        let Some((code, values)) = tally.answered(kind(&call), 5, &call, said) else {
            continue;
        };
        ours.compare(exchange(&call, &before, &after, code, &values))?;
        if let (IdCall::AllocMany(..), 0) = (&call, code) {
            play_walk(ours, tally, &after.pending, &values)?;
        }
        before.clone_from(&after);
    }
    Ok(())
}

/// Sequences from fresh and constructed sound tables, until there were `count` calls.
pub fn run(ours: &mut Ours, tally: &mut Tally, seed: u64, count: u64) -> Result<(), Difference> {
    for s in 0.. {
        if tally.calls() >= count {
            break;
        }
        let mut rng = Rng(seed.wrapping_add(s * 0xd134_2543));
        let (capacity, most) = sizes(s);
        let before = id_tables(&mut rng, capacity, most);
        assert!(before.is_sound());
        sequence(ours, tally, &mut rng, if capacity <= 1 { 20 } else { 80 }, before)?;
    }
    ours.settle()
}
