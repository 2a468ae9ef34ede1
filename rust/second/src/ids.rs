//! The id layer. Every call is lent the four id tables and the head (R3).
//!
//! Refusals in 01's order: 12, 13, 1 (head), 5, 3, 6, 2, 4, 1 (entries).

use crate::handles::{from_bits, pack};
use crate::rules::*;
use crate::tables::{Head, Place, Tables, EMPTY, MAX};
use crate::Answer;

/// 12, 13 and the head's 1, tested by every call of the layer (R3).
fn entry(t: &Tables, output_fits: bool) -> Answer<()> {
    refuse_if(capacity_above_limit(t), 12)?; // R1
    refuse_if(!id_tables_as_long_as_capacity(t), 13)?; // R1
    refuse_if(!output_fits, 13)?; // 01 table, 13; R7
    refuse_if(head_rule_of_ids(t).is_err(), 1)?; // 01 head rule; R4
    Ok(())
}

// ----------------------------------------------------------------- steps --
// The step rules without any test, for this layer and the store.

/// 01 "Reserve one at c > 0 gives pending[c-1]", else a new number.
fn step_reserve_one(t: &mut Tables) -> u64 {
    let c = cursor(t);
    t.head.cursor -= 1;
    if c > 0 {
        let number = t.pending[c as usize - 1];
        pack(t.generations[number as usize], number)
    } else {
        pack(1, (used(t) - c) as u32)
    }
}

/// 01 "Reserve n at once": the numbers of the pending part, in ascending
/// position, and the range of new numbers. The cursor falls by n.
fn step_reserve_many(t: &mut Tables, n: u64) -> (Vec<u32>, u32, u32) {
    let part = reserve_part(t, n).to_vec();
    let c = cursor(t);
    let n = i128::from(n);
    let (start, end) = if c >= n {
        (0, 0) // "none if c >= n"
    } else {
        (used(t) - c.min(0), used(t) - (c - n))
    };
    t.head.cursor = (c - n) as i64;
    (part, start as u32, end as u32)
}

/// The positions max(c-n,0)..max(c,0).
fn reserve_positions(t: &Tables, n: u64) -> std::ops::Range<usize> {
    (cursor(t) - i128::from(n)).max(0) as usize..free_end(t)
}

/// pending[max(c-n,0)..max(c,0)].
fn reserve_part(t: &Tables, n: u64) -> &[u32] {
    &t.pending[reserve_positions(t, n)]
}

/// The last min(n, pending) entries of the pending list.
fn last_part(t: &Tables, n: u64) -> &[u32] {
    let list = pending_list(t);
    let taken = i128::from(n).min(pending(t)) as usize;
    &list[list.len() - taken..]
}

/// 01 "Alloc: last of pending, else number = used with generation 1."
pub(crate) fn step_alloc(t: &mut Tables, place: Place) -> u64 {
    let number = match pending_list(t).last() {
        Some(&number) => {
            t.head.pending -= 1;
            t.head.cursor = t.head.pending as i64;
            number
        }
        None => {
            let number = t.head.used as u32;
            t.head.used += 1;
            t.generations[number as usize] = 1;
            number
        }
    };
    t.head.live += 1;
    t.set_place(number, place);
    pack(t.generations[number as usize], number)
}

/// 01 "Alloc at (g, i)". Answers the old place of a live number.
pub(crate) fn step_alloc_at(
    t: &mut Tables,
    generation: u32,
    number: u32,
    place: Place,
) -> Option<Place> {
    let old = if !below_used(t, number) {
        // "numbers used to i - 1 become pending, in order, generation 1,
        // place (0, MAX)"
        for skipped in t.head.used as u32..number {
            t.pending[t.head.pending as usize] = skipped;
            t.head.pending += 1;
            t.generations[skipped as usize] = 1;
            t.set_place(skipped, EMPTY);
        }
        t.head.used = u64::from(number) + 1;
        t.head.live += 1;
        None
    } else if let Some(position) = pending_position(t, number) {
        // "first position, last entry moved into it"
        let last = t.head.pending as usize - 1;
        t.pending[position] = t.pending[last];
        t.head.pending -= 1;
        t.head.live += 1;
        None
    } else {
        // "the old place is answered and live stays"
        Some(t.place(number))
    };
    t.head.cursor = t.head.pending as i64;
    t.generations[number as usize] = generation; // "The generation becomes g"
    t.set_place(number, place);
    old
}

/// 01 "Free": "Generation + 1, MAX becoming 1; place (0, MAX); number pushed
/// on pending." Answers the old place.
pub(crate) fn step_free(t: &mut Tables, number: u32) -> Place {
    let old = t.place(number);
    let generation = t.generations[number as usize];
    t.generations[number as usize] = if generation == MAX { 1 } else { generation + 1 };
    t.set_place(number, EMPTY);
    t.pending[t.head.pending as usize] = number;
    t.head.pending += 1;
    t.head.cursor = t.head.pending as i64;
    t.head.live -= 1;
    old
}

/// How many numbers a flush makes live.
pub(crate) fn to_flush(t: &Tables) -> i128 {
    new_reserved(t) + reserved_part(t).len() as i128
}

/// 01 "Flush: new numbers first, ascending, generation 1; then
/// pending[max(c,0)..] in order. They get successive rows." Answers the
/// numbers in the order of their rows. A number that stands twice gets both
/// rows, and its place is the later one (R11).
pub(crate) fn step_flush(t: &mut Tables, archetype: u32, first: u32) -> Vec<u32> {
    let new_end = used(t) + new_reserved(t);
    let mut numbers: Vec<u32> = (t.head.used as u32..new_end as u32).collect();
    for &number in &numbers {
        t.generations[number as usize] = 1;
    }
    numbers.extend_from_slice(reserved_part(t));
    for (k, &number) in numbers.iter().enumerate() {
        let index = (i128::from(first) + k as i128) as u32;
        t.set_place(number, Place { archetype, index });
    }
    let pending = free_end(t) as u64;
    t.head = Head {
        used: new_end as u64,
        pending,
        live: t.head.live + numbers.len() as u64,
        cursor: pending as i64,
    };
    numbers
}

// ----------------------------------------------------------------- calls --

/// Reserves one number and answers its handle.
pub fn reserve_entity(t: &mut Tables) -> Answer<u64> {
    entry(t, true)?; // 12, 13, 1
    refuse_if(room(t) < 1, 4)?; // 01 table, 4; R31
    refuse_if(any_damaged_pending(t, reserve_part(t, 1)), 1)?; // 01 Damage; R10
    Ok(step_reserve_one(t))
}

/// Reserves n numbers and writes their handles to the front of `out`.
pub fn reserve_entities(t: &mut Tables, n: u64, out: &mut [u64]) -> Answer<()> {
    entry(t, output_holds(out.len(), n))?; // 12, 13, 1
    refuse_if(room(t) < i128::from(n), 4)?; // 01 table, 4; R31
    refuse_if(any_damaged_pending(t, reserve_part(t, n)), 1)?; // 01 Damage; R10
    let (part, start, end) = step_reserve_many(t, n);
    let mut handles: Vec<u64> = Vec::new();
    for number in part {
        handles.push(pack(t.generations[number as usize], number));
    }
    for number in start..end {
        handles.push(pack(1, number));
    }
    out[..handles.len()].copy_from_slice(&handles);
    Ok(())
}

/// The reader of reserved handles (01, What must change shape). It holds the
/// part of the pending list and the new range; `position` and `next` advance.
/// `start` says where in the pending table the part stood; no step needs it.
#[derive(Clone, Debug, PartialEq, Eq)]
pub struct ReserveReader {
    pub start: usize,
    pub part: Vec<u32>,
    pub position: usize,
    pub next: u32,
    pub new_end: u32,
}

/// R23: making the reader refuses as reserve n does, without an output.
pub fn reserve_reader(t: &mut Tables, n: u64) -> Answer<ReserveReader> {
    entry(t, true)?; // 12, 13, 1
    refuse_if(room(t) < i128::from(n), 4)?; // 01 table, 4; R31
    refuse_if(any_damaged_pending(t, reserve_part(t, n)), 1)?; // 01 Damage; R10
    let start = reserve_positions(t, n).start;
    let (part, next, new_end) = step_reserve_many(t, n);
    Ok(ReserveReader { start, part, position: 0, next, new_end })
}

/// One step of the reader: the next handle, or none at the end. It is lent
/// only the generations (R3). At the end and on a refusal it is unchanged.
pub fn reserve_reader_step(reader: &mut ReserveReader, generations: &[u32]) -> Answer<Option<u64>> {
    if reader.position < reader.part.len() {
        let number = reader.part[reader.position];
        refuse_if(number as usize >= generations.len(), 13)?; // R23
        refuse_if(generations[number as usize] == 0, 1)?; // R23
        reader.position += 1;
        Ok(Some(pack(generations[number as usize], number)))
    } else if reader.next < reader.new_end {
        let number = reader.next;
        reader.next += 1;
        Ok(Some(pack(1, number)))
    } else {
        Ok(None)
    }
}

/// How many handles the reader has left: of its part of the pending list, and
/// of the new range (OPEN.md, 21).
pub fn reserve_reader_len(reader: &ReserveReader) -> u64 {
    left(reader.position as u64, reader.part.len() as u64)
        + left(reader.next.into(), reader.new_end.into())
}

/// How many are left of a range that has come to `at`; none past its end.
fn left(at: u64, end: u64) -> u64 {
    end.saturating_sub(at)
}

/// Makes one number live at the given place and answers its handle.
pub fn alloc(t: &mut Tables, place: Place) -> Answer<u64> {
    entry(t, true)?; // 12, 13, 1
    refuse_if(!flushed(t), 3)?; // 01 table, 3
    refuse_if(index_not_storable(i128::from(place.index)), 6)?; // 01 table, 6
    refuse_if(room(t) < 1, 4)?; // 01 table, 4; R31
    refuse_if(any_damaged_pending(t, last_part(t, 1)), 1)?; // 01 Damage; R10
    Ok(step_alloc(t, place))
}

/// What walks the numbers of an alloc many (R44): `position` and `next`
/// advance, `end` and `new_end` are fixed.
#[derive(Clone, Copy, Debug, PartialEq, Eq)]
pub struct AllocManyState {
    pub position: u64,
    pub end: u64,
    pub next: u32,
    pub new_end: u32,
}

/// Makes n numbers live at successive indices of an archetype; one call with
/// its finish (R17).
pub fn alloc_many(t: &mut Tables, n: u64, archetype: u32, first: u32) -> Answer<AllocManyState> {
    entry(t, true)?; // 12, 13, 1
    refuse_if(!flushed(t), 3)?; // 01 table, 3
    refuse_if(indices_not_storable(first, i128::from(n)), 6)?; // 01 table, 6; R9
    refuse_if(room(t) < i128::from(n), 4)?; // 01 table, 4; R31
    refuse_if(any_damaged_pending(t, last_part(t, n)), 1)?; // 01 Damage; R10

    let taken = last_part(t, n).to_vec();
    let fresh = n - taken.len() as u64;
    let state = AllocManyState {
        position: t.head.pending - taken.len() as u64,
        end: t.head.pending,
        next: t.head.used as u32,
        new_end: (t.head.used + fresh) as u32,
    };
    // "the last min(n, pending) entries in ascending position get the first
    // rows, then new numbers"
    let mut numbers = taken;
    for number in state.next..state.new_end {
        t.generations[number as usize] = 1;
        numbers.push(number);
    }
    for (k, &number) in numbers.iter().enumerate() {
        let index = (i128::from(first) + k as i128) as u32;
        t.set_place(number, Place { archetype, index });
    }
    t.head = Head {
        used: u64::from(state.new_end),
        pending: state.position,
        live: t.head.live + n,
        cursor: state.position as i64,
    };
    Ok(state)
}

/// One step of the walk: the next number, or none after the range. It is
/// lent only the pending table (R3) and answers what that holds now.
pub fn alloc_many_next(state: &mut AllocManyState, pending: &[u32]) -> Answer<Option<u32>> {
    if state.position < state.end {
        refuse_if(state.position >= pending.len() as u64, 13)?; // 01 Alloc many; R44
        let number = pending[state.position as usize];
        state.position += 1;
        Ok(Some(number))
    } else if state.next < state.new_end {
        let number = state.next;
        state.next += 1;
        Ok(Some(number))
    } else {
        Ok(None)
    }
}

/// How many numbers the walk has left: positions, then new numbers (OPEN.md, 21).
pub fn alloc_many_len(state: &AllocManyState) -> u64 {
    left(state.position, state.end) + left(state.next.into(), state.new_end.into())
}

/// Makes a chosen handle live at the given place. Answers the old place of a
/// number that was live.
pub fn alloc_at(t: &mut Tables, bits: u64, place: Place) -> Answer<Option<Place>> {
    entry(t, true)?; // 12, 13, 1
    let h = from_bits(bits)?; // 5; R8
    refuse_if(!flushed(t), 3)?; // 01 table, 3
    refuse_if(index_not_storable(i128::from(place.index)), 6)?; // 01 table, 6
    refuse_if(i128::from(h.number) >= capacity(t), 4)?; // 01 table, 4; R43
    refuse_if(damaged_chosen(t, h.number), 1)?; // 01 Damage; R12, R28
    Ok(step_alloc_at(t, h.generation, h.number, place))
}

/// Frees a live handle and answers its old place (R32).
pub fn free(t: &mut Tables, bits: u64) -> Answer<Place> {
    entry(t, true)?; // 12, 13, 1
    let h = from_bits(bits)?; // 5; R8
    refuse_if(!flushed(t), 3)?; // 01 table, 3
    refuse_if(!live_handle(t, h), 2)?; // 01 Free; R14, R43
    refuse_if(live(t) == 0, 1)?; // 01 Damage: a live count of 0; R28
    Ok(step_free(t, h.number))
}

/// Is the handle live or reserved?
pub fn contains(t: &Tables, bits: u64) -> Answer<bool> {
    entry(t, true)?; // 12, 13, 1; R19
    let h = from_bits(bits)?; // 5; R8
    Ok(contained(t, h))
}

/// The place of a handle; (0, MAX) for a reserved new number.
pub fn get(t: &Tables, bits: u64) -> Answer<Place> {
    entry(t, true)?; // 12, 13, 1
    let h = from_bits(bits)?; // 5; R8
    place_of(t, h).ok_or(2) // 01 Contains, get; R14, R30
}

/// Sets the place of a live handle (01: what `get_mut` becomes).
pub fn set_place(t: &mut Tables, bits: u64, place: Place) -> Answer<()> {
    entry(t, true)?; // 12, 13, 1
    let h = from_bits(bits)?; // 5; R8
    refuse_if(index_not_storable(i128::from(place.index)), 6)?; // 01 table, 6; R19
    refuse_if(!live_handle(t, h), 2)?; // 01 Contains, get: "2 for every reserved handle"
    t.set_place(h.number, place);
    Ok(())
}

/// The handle of a number, its generation being unknown.
pub fn resolve_unknown_gen(t: &Tables, number: u32) -> Answer<u64> {
    entry(t, true)?; // 12, 13, 1
    if below_used(t, number) {
        let generation = t.generations[number as usize];
        refuse_if(generation == 0, 1)?; // 01 Resolve: "0 there is damage"; R14
        Ok(pack(generation, number))
    } else {
        refuse_if(!is_new_reserved(t, number), 2)?; // 01 Resolve; R43
        Ok(pack(1, number))
    }
}

/// Makes every reserved number live, at successive indices of an archetype.
pub fn flush(t: &mut Tables, archetype: u32, first: u32) -> Answer<()> {
    entry(t, true)?; // 12, 13, 1
    refuse_if(indices_not_storable(first, to_flush(t)), 6)?; // 01 table, 6; R9, R18
    refuse_if(any_damaged_pending(t, reserved_part(t)), 1)?; // 01 Damage; R10, R11
    step_flush(t, archetype, first);
    Ok(())
}

/// The live count.
pub fn len(t: &Tables) -> Answer<u64> {
    entry(t, true)?; // 12, 13, 1; R3
    Ok(t.head.live)
}

/// Writes the handles of the free numbers, in order, to the front of `out`
/// and answers how many they are.
pub fn freelist(t: &Tables, out: &mut [u64]) -> Answer<u64> {
    entry(t, output_holds_free_list(t, out.len()))?; // 12, 13, 1; R7
    let part = &t.pending[..free_end(t)];
    refuse_if(any_damaged_pending(t, part), 1)?; // 01 Damage; R10
    for (k, &number) in part.iter().enumerate() {
        out[k] = pack(t.generations[number as usize], number);
    }
    Ok(part.len() as u64)
}

/// 01 "Clear": the head becomes 0; nothing else changes (R42).
pub fn clear(t: &mut Tables) -> Answer<()> {
    entry(t, true)?; // 12, 13, 1; R3
    t.head = Head::default();
    Ok(())
}
