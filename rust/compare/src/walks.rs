//! The two walks in the Rust's own forms, step by step: over the handles of a
//! reservation and over the numbers of an alloc many. On sound tables beside the
//! original's `ReserveEntitiesIterator` and `AllocManyState`, on any tables, and
//! from readers and states of any numbers, beside the second program's.

use crate::ours::{Difference, Exchange, Ours};
use crate::store::{lent, state};
use crate::tables::{above_limit, damage, sound};
use crate::tally::Tally;
use oracle::calls::IdCall;
use oracle::sequences::{id_call, id_tables, Rng};
use oracle::{IdTables, Ids, No, Stand, Walk};
use second::ids::{AllocManyState, ReserveReader};
use second::{ids, Tables, MAX};

pub const WANTED: &[(&str, &[u32])] = &[
    ("reserve span", &[0]),
    ("reserve next", &[0]),
    ("reserve len", &[0]),
    ("alloc many", &[0, 3]),
    ("alloc many next", &[0]),
    ("alloc many len", &[0]),
    ("reserve span, any tables", &[0, 12, 13, 1, 4]),
    ("reserve next, any tables", &[0, 13, 1]),
    ("reserve len, any tables", &[0]),
    ("alloc many next, any tables", &[0, 13]),
    ("alloc many len, any tables", &[0]),
];

/// The names of a call's kinds, where it is held to the original or to the second program.
struct Names {
    next: &'static str,
    len: &'static str,
}

const READER: Names = Names { next: "reserve next", len: "reserve len" };
const READER_ANY: Names =
    Names { next: "reserve next, any tables", len: "reserve len, any tables" };
const STATE: Names = Names { next: "alloc many next", len: "alloc many len" };
const STATE_ANY: Names =
    Names { next: "alloc many next, any tables", len: "alloc many len, any tables" };

/// What is compared of every call: it goes to the tally, and then to our side.
struct Side<'a> {
    ours: &'a mut Ours,
    tally: &'a mut Tally,
}

impl Side<'_> {
    fn call(
        &mut self,
        kind: &'static str,
        code: u32,
        tables: u64,
        e: Exchange,
    ) -> Result<(), Difference> {
        self.tally.called(kind, code, tables);
        self.ours.compare(e)
    }

    /// How many a reader has left.
    fn reader_len(
        &mut self,
        names: &Names,
        part: &[u32],
        at: At,
        left: u64,
    ) -> Result<(), Difference> {
        let e = Exchange::new("verdict_ids_reserve_len", 0)
            .lent("recycled", part)
            .numbers(&[at.position, at.number.into(), at.end.into()])
            .out(&[left]);
        self.call(names.len, 0, 1, e)
    }

    /// A step of a reader, from one standing to the next.
    fn reader_next(&mut self, names: &Names, step: &ReaderStep) -> Result<(), Difference> {
        let (from, to) = (step.from, step.to);
        let e = Exchange::new("verdict_ids_reserve_next", step.code)
            .lent("recycled", step.part)
            .array("position", &[from.position], &[to.position])
            .array("number", &[from.number], &[to.number])
            .numbers(&[from.end.into()])
            .lent("generations", step.generations)
            .out(&step.given);
        self.call(names.next, step.code, 4, e)
    }

    fn state_len(&mut self, names: &Names, state: [u32; 4], left: u64) -> Result<(), Difference> {
        let e = Exchange::new("verdict_ids_alloc_many_len", 0);
        self.call(names.len, 0, 1, e.array("state", &state, &state).out(&[left]))
    }

    fn state_next(
        &mut self,
        names: &Names,
        code: u32,
        states: [[u32; 4]; 2],
        pending: &[u32],
        given: &[u64],
    ) -> Result<(), Difference> {
        let e = Exchange::new("verdict_ids_alloc_many_next", code)
            .array("state", &states[0], &states[1])
            .lent("pending", pending)
            .out(given);
        self.call(names.next, code, 2, e)
    }
}

/// Where a reader stands: a position of its part, a new number and the end of the new ones.
#[derive(Clone, Copy)]
struct At {
    position: u64,
    number: u32,
    end: u32,
}

struct ReaderStep<'a> {
    code: u32,
    part: &'a [u32],
    from: At,
    to: At,
    generations: &'a [u32],
    given: Vec<u64>,
}

/// 1 and what a step gave, or 0.
fn given(value: Option<u64>) -> Vec<u64> {
    value.map_or(vec![0], |v| vec![1, v])
}

/// Where no new number is taken, the original's and the second program's new range is 0 to 0, and
/// ours is empty where it would begin. No step can tell.
fn new_range(from: u32, to: u32, used: u64) -> (u32, u32) {
    if (from, to) == (0, 0) {
        (used as u32, used as u32)
    } else {
        (from, to)
    }
}

// ---- beside the original ----

/// A granted reservation, and the walk over its handles.
fn reservation(
    side: &mut Side,
    n: u32,
    before: &IdTables,
    after: &IdTables,
    walk: &Walk,
) -> Result<(), Difference> {
    let part = walk.stands[0].positions.clone();
    let place = |stand: &Stand| {
        let position = (stand.positions.start - part.start) as u64;
        let used = before.head.used as u64;
        let (number, end) = new_range(stand.fresh.start, stand.fresh.end, used);
        At { position, number, end }
    };
    let at: Vec<At> = walk.stands.iter().map(place).collect();
    let span = [part.start as u64, part.end as u64, at[0].number.into(), at[0].end.into()];
    let e = crate::ids::tables(Exchange::new("verdict_ids_reserve_span", 0), before, after);
    side.call("reserve span", 0, 5, e.numbers(&[n.into()]).out(&span))?;
    let part = &before.pending[part];
    for (i, gives) in walk.given.iter().enumerate() {
        side.reader_len(&READER, part, at[i], walk.stands[i].len as u64)?;
        let step = ReaderStep {
            code: 0,
            part,
            from: at[i],
            to: at[i + 1],
            generations: &after.generations,
            given: given(*gives),
        };
        side.reader_next(&READER, &step)?;
    }
    Ok(())
}

/// The state of an alloc many where the original stands.
fn state_at(stand: &Stand) -> [u32; 4] {
    let Stand { positions, fresh, .. } = stand;
    [positions.start as u32, positions.end as u32, fresh.start, fresh.end]
}

/// The walk over the numbers of an alloc many.
fn batch(side: &mut Side, pending: &[u32], walk: &Walk) -> Result<(), Difference> {
    for (i, gives) in walk.given.iter().enumerate() {
        let states = [state_at(&walk.stands[i]), state_at(&walk.stands[i + 1])];
        side.state_len(&STATE, states[0], walk.stands[i].len as u64)?;
        side.state_next(&STATE, 0, states, pending, &given(*gives))?;
    }
    Ok(())
}

/// What the original says to a call: a walk, where it is a reservation or a batch.
fn original_said(original: &mut Ids, call: &IdCall) -> Result<Option<Walk>, No> {
    match *call {
        IdCall::ReserveEntities(n) => original.reserve_walk(n).map(Some),
        IdCall::AllocMany(n, p) => original.alloc_many_walk(n, p.archetype, p.index).map(Some),
        _ => original.call(call).map(|_| None),
    }
}

/// A granted alloc many, and the walk over its numbers.
fn granted_batch(
    side: &mut Side,
    call: &IdCall,
    before: &IdTables,
    after: &IdTables,
    walk: &Walk,
) -> Result<(), Difference> {
    let state = state_at(&walk.stands[0]).map(u64::from);
    let e = crate::ids::exchange(call, before, after, 0, &state);
    side.call("alloc many", 0, 5, e)?;
    batch(side, &after.pending, walk)
}

/// A reservation or a batch to which the original said this.
fn compare_walk(
    side: &mut Side,
    call: &IdCall,
    before: &IdTables,
    after: &IdTables,
    said: Result<Option<Walk>, No>,
) -> Result<(), Difference> {
    match (*call, said) {
        (_, Err(No::Panicked(words))) => panic!("the original panicked on {call:?}: {words}"),
        (IdCall::ReserveEntities(n), Ok(Some(walk))) => reservation(side, n, before, after, &walk)?,
        (IdCall::AllocMany(..), Ok(Some(walk))) => {
            granted_batch(side, call, before, after, &walk)?;
        }
        (IdCall::AllocMany(..), Err(No::Refused(number))) => {
            let e = crate::ids::exchange(call, before, after, number, &[]);
            side.call("alloc many", number, 5, e)?;
        }
        (IdCall::ReserveEntities(_), Err(No::Outside(number))) => {
            side.tally.left_out("reserve span", number);
        }
        (IdCall::AllocMany(..), Err(No::Outside(number))) => {
            side.tally.left_out("alloc many", number);
        }
        _ => {}
    }
    Ok(())
}

/// The capacity of a sequence's tables, and the most numbers that they use at its beginning.
fn sizes(s: u64) -> (usize, usize) {
    let capacity = match s % 20 {
        0 => 257,
        1 => 0,
        2 | 3 => 1,
        _ => 16,
    };
    let most = match s % 7 {
        0 => 0,
        _ => capacity,
    };
    (capacity, most)
}

/// A sequence of id calls, of which the reservations and the batches are walked. The other calls
/// only lead to other tables: the run `ids` compares them.
fn beside_original(side: &mut Side, rng: &mut Rng, s: u64) -> Result<(), Difference> {
    let (capacity, most) = sizes(s);
    let mut before = id_tables(rng, capacity, most);
    assert!(before.is_sound());
    let mut original = Ids::new(&before);
    let mut after = before.clone();
    for _ in 0..40 {
        let call = id_call(rng, &before);
        let said = original_said(&mut original, &call);
        original.dump(&mut after);
        compare_walk(side, &call, &before, &after, said)?;
        before.clone_from(&after);
    }
    Ok(())
}

// ---- beside the second program ----

fn at(reader: &ReserveReader) -> At {
    At { position: reader.position as u64, number: reader.next, end: reader.new_end }
}

/// A reservation of the second program, whether granted or not. Its reader, and the tables after it.
fn span_any(
    side: &mut Side,
    t: &Tables,
    n: u64,
) -> Result<Option<(ReserveReader, Tables)>, Difference> {
    let mut after = t.clone();
    let mut said = ids::reserve_reader(&mut after, n);
    if let Ok(reader) = &mut said {
        (reader.next, reader.new_end) = new_range(reader.next, reader.new_end, t.head.used);
    }
    let (code, out) = match &said {
        Ok(r) => {
            let to = (r.start + r.part.len()) as u64;
            (0, vec![r.start as u64, to, r.next.into(), r.new_end.into()])
        }
        Err(number) => (*number, Vec::new()),
    };
    let e = lent("verdict_ids_reserve_span", code, t, &after);
    side.call("reserve span, any tables", code, 5, e.numbers(&[n]).out(&out))?;
    Ok(said.ok().map(|reader| (reader, after)))
}

/// Generations as they are, or none for the number that comes next, or a 0 there.
fn spoilt(rng: &mut Rng, reader: &ReserveReader, generations: &[u32]) -> Vec<u32> {
    let mut all = generations.to_vec();
    let next = reader.part.get(reader.position).map_or(0, |number| *number as usize);
    match rng.below(9) {
        0 => all.truncate(next),
        1 => all.iter_mut().skip(next).take(1).for_each(|g| *g = 0),
        _ => {}
    }
    all
}

/// A step of the second program's reader. Whether it gave none.
fn step_any(
    side: &mut Side,
    reader: &mut ReserveReader,
    generations: &[u32],
) -> Result<bool, Difference> {
    side.reader_len(&READER_ANY, &reader.part, at(reader), ids::reserve_reader_len(reader))?;
    let from = at(reader);
    let said = ids::reserve_reader_step(reader, generations);
    let step = ReaderStep {
        code: said.err().unwrap_or(0),
        part: &reader.part,
        from,
        to: at(reader),
        generations,
        given: said.map_or(Vec::new(), given),
    };
    side.reader_next(&READER_ANY, &step)?;
    Ok(said == Ok(None))
}

/// A number near a limit, or a small one.
fn odd(rng: &mut Rng) -> u32 {
    match rng.below(5) {
        0 => MAX - rng.below(3) as u32,
        1 => rng.number() as u32,
        _ => rng.below(12) as u32,
    }
}

/// A reader that no reservation made: any part, any position, any new numbers.
fn some_reader(rng: &mut Rng) -> ReserveReader {
    let length = rng.below(5) as usize;
    let next = odd(rng);
    ReserveReader {
        start: 0,
        part: (0..length).map(|_| odd(rng)).collect(),
        position: match rng.below(6) {
            0 => rng.pick(&[usize::MAX, 1 << 32, 9]),
            _ => rng.below(length as u64 + 2) as usize,
        },
        next,
        new_end: if rng.percent(50) { next.saturating_add(rng.below(3) as u32) } else { odd(rng) },
    }
}

fn some_state(rng: &mut Rng) -> AllocManyState {
    let (position, next) = (odd(rng), odd(rng));
    let end = if rng.percent(60) { position.saturating_add(rng.below(4) as u32) } else { odd(rng) };
    let new_end = if rng.percent(60) { next.saturating_add(rng.below(4) as u32) } else { odd(rng) };
    AllocManyState { position: position.into(), end: end.into(), next, new_end }
}

/// Six steps of the second program's state over this pending table.
fn walk_any(side: &mut Side, mut s: AllocManyState, pending: &[u32]) -> Result<(), Difference> {
    for _ in 0..6 {
        side.state_len(&STATE_ANY, state(&s), ids::alloc_many_len(&s))?;
        let before = state(&s);
        let said = ids::alloc_many_next(&mut s, pending);
        let values = said.map_or(Vec::new(), |number| given(number.map(u64::from)));
        let code = said.err().unwrap_or(0);
        side.state_next(&STATE_ANY, code, [before, state(&s)], pending, &values)?;
    }
    Ok(())
}

/// How many are asked for: a few, what there is, one more, and more than any table holds.
fn asked(rng: &mut Rng, t: &Tables) -> u64 {
    let room = (t.generations.len() as u64).wrapping_sub(t.head.used);
    let room = room.wrapping_add(t.head.cursor as u64);
    match rng.below(8) {
        0 => rng.pick(&[u64::MAX, 1 << 63, MAX.into(), 1 << 32]),
        1 => room,
        2 => room.wrapping_add(1),
        3 => t.head.cursor.max(0) as u64,
        _ => rng.below(6),
    }
}

/// A reservation on any tables and the walk over its handles. The tables after it, if it is granted.
fn reservation_any(
    side: &mut Side,
    rng: &mut Rng,
    t: &Tables,
) -> Result<Option<Tables>, Difference> {
    let n = asked(rng, t);
    let Some((mut reader, after)) = span_any(side, t, n)? else { return Ok(None) };
    for _ in 0..60 {
        let generations = spoilt(rng, &reader, &after.generations);
        if step_any(side, &mut reader, &generations)? {
            break;
        }
    }
    Ok(Some(after))
}

/// Four steps of a reader that no reservation made.
fn reader_any(side: &mut Side, rng: &mut Rng, generations: &[u32]) -> Result<(), Difference> {
    let mut reader = some_reader(rng);
    for _ in 0..4 {
        let generations = spoilt(rng, &reader, generations);
        step_any(side, &mut reader, &generations)?;
    }
    Ok(())
}

fn beside_second(side: &mut Side, rng: &mut Rng, s: u64) -> Result<(), Difference> {
    let mut t = if s % 500 == 1 { above_limit(rng) } else { sound(rng) };
    if rng.percent(80) {
        damage(rng, &mut t);
    }
    for _ in 0..4 {
        t = reservation_any(side, rng, &t)?.unwrap_or(t);
    }
    reader_any(side, rng, &t.generations)?;
    walk_any(side, some_state(rng), &t.pending)
}

/// Sequences beside the one and beside the other, until there were `count` calls.
pub fn run(ours: &mut Ours, tally: &mut Tally, seed: u64, count: u64) -> Result<(), Difference> {
    let mut side = Side { ours, tally };
    for s in 0.. {
        if side.tally.calls() >= count {
            break;
        }
        let mut rng = Rng(seed.wrapping_add(s * 0xd134_2543));
        if s % 4 == 0 {
            beside_original(&mut side, &mut rng, s / 4)?;
        } else {
            beside_second(&mut side, &mut rng, s)?;
        }
    }
    side.ours.settle()
}
