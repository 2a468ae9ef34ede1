//! The store. Every call is lent everything (R3).
//!
//! Refusals in 01's order: 12, 13, 1 (head), 5, 3, 6, 2, 1 (own place),
//! 14 or 15, 9, 7, 8, 10, 11, 4, 1 (other entries).

use crate::columns::{component, step_allocate, step_remove, write_row_bytes};
use crate::handles::{from_bits, Handle};
use crate::ids;
use crate::rules::*;
use crate::tables::{Place, Tables, MAX};
use crate::words;
use crate::Answer;

/// 12, 13 and the head's 1, on the whole bundle (R3).
fn entry(t: &Tables, buffers_fit: impl Fn(&Layout) -> bool) -> Answer<Layout> {
    refuse_if(capacity_above_limit(t), 12)?; // R1
    let l = layout(&t.declaration).map_err(|_| 12u32)?; // 01 table, 12; R40
    refuse_if(!id_tables_as_long_as_capacity(t), 13)?; // R1
    refuse_if(!column_tables_of_right_length(t, &l), 13)?; // R39
    refuse_if(!words_of_right_length(t, &l), 13)?; // R39
    refuse_if(!buffers_fit(&l), 13)?; // R6, R7
    refuse_if(head_rule_of_ids(t).is_err(), 1)?; // 01 head rule
    refuse_if(head_rule_of_columns(t, &l).is_err(), 1)?; // 01 head rule
    Ok(l)
}

/// Removes a row and writes the moved number's place (01 "The store then
/// writes the moved number's place").
fn remove_row(t: &mut Tables, l: &Layout, place: Place) {
    if let Some(moved) = step_remove(t, l, place) {
        t.set_place(moved, place);
    }
}

/// Moves an entity to another archetype: shared components keep their bytes,
/// its place becomes the new row, the hole is filled and the moved number
/// learns its place.
fn change_archetype(t: &mut Tables, l: &Layout, number: u32, target: u32) -> Place {
    let old = t.place(number);
    let index = step_allocate(t, l, target, number);
    let new = Place { archetype: target, index };
    for column in &l.archetype(old.archetype).columns {
        if let Some(to) = l.archetype(target).column(column.type_number) {
            let (from, size) = component(column, old.index);
            let (into, _) = component(to, new.index);
            let shared = t.bytes[from..from + size].to_vec();
            t.bytes[into..into + size].copy_from_slice(&shared);
        }
    }
    remove_row(t, l, old);
    t.set_place(number, new);
    new
}

/// The place and archetype of a live handle whose own place is not damaged.
fn own_place(t: &Tables, l: &Layout, h: Handle) -> Answer<Place> {
    refuse_if(!live_handle(t, h), 2)?; // 01 table, 2; R14, R30
    refuse_if(damaged_own_place(t, l, h.number), 1)?; // 01 Own place
    Ok(t.place(h.number))
}

/// The column of a type in a live handle's archetype, for read and write.
fn own_column<'a>(
    t: &Tables,
    l: &'a Layout,
    h: Handle,
    type_number: u32,
) -> Answer<(Place, &'a Column)> {
    // 01: "A reserved handle that `get` answers gives 15 to read and write."
    refuse_if(new_reserved_handle(t, h), 15)?;
    let place = own_place(t, l, h)?; // 2, 1 (own place)
    let column = l.archetype(place.archetype).column(type_number);
    Ok((place, column.ok_or(15u32)?)) // 01 table, 15
}

/// The column named by (archetype, type) (R21).
fn named_column(l: &Layout, archetype: u32, type_number: u32) -> Answer<&Column> {
    refuse_if(!l.declares(archetype), 6)?; // 01 table, 6; R21
    l.archetype(archetype).column(type_number).ok_or(15) // 01 table, 15; R21
}

// ------------------------------------------------ spawning and despawning --

/// Spawns an entity in an archetype; `bytes` is its row in column order.
pub fn spawn(t: &mut Tables, archetype: u32, bytes: &[u8]) -> Answer<u64> {
    let l = entry(t, |l| row_bytes_fit(l, archetype, bytes.len()))?; // 12, 13, 1
    refuse_if(!flushed(t), 3)?; // 01 table, 3
    refuse_if(!l.declares(archetype), 6)?; // 01 table, 6
    refuse_if(any_word_nonzero(t), 8)?; // 01 table, 8
    refuse_if(room(t) < 1, 4)?; // 01 table, 4: numbers
    refuse_if(spare_rows(t, &l, archetype) < 1, 4)?; // 01 table, 4: rows
    let last = pending_list(t).last().copied();
    refuse_if(last.is_some_and(|p| damaged_pending(t, p)), 1)?; // 01 Damage; R10

    let index = t.row_counts[archetype as usize];
    let place = Place { archetype, index };
    let bits = ids::step_alloc(t, place);
    step_allocate(t, &l, archetype, bits as u32);
    write_row_bytes(t, &l, place, bytes);
    Ok(bits)
}

/// Spawns an entity at a chosen handle. A live number's old row is removed
/// first (01 Alloc at; R13, R41).
pub fn spawn_at(t: &mut Tables, bits: u64, archetype: u32, bytes: &[u8]) -> Answer<()> {
    let l = entry(t, |l| row_bytes_fit(l, archetype, bytes.len()))?; // 12, 13, 1
    let h = from_bits(bits)?; // 5; R8
    refuse_if(!flushed(t), 3)?; // 01 table, 3
    refuse_if(!l.declares(archetype), 6)?; // 01 table, 6

    // A chosen number below used, not pending, index not MAX: it has an old
    // row, unless its own place is damaged.
    let chosen_live = below_used(t, h.number)
        && pending_position(t, h.number).is_none()
        && t.indices[h.number as usize] != MAX;
    refuse_if(chosen_live && damaged_own_place(t, &l, h.number), 1)?; // 01 Own place; R13
    let old = if chosen_live { Some(t.place(h.number)) } else { None };

    refuse_if(any_word_nonzero(t), 8)?; // 01 table, 8
    refuse_if(i128::from(h.number) >= capacity(t), 4)?; // 01 table, 4: chosen number; R43
    let old_room = match old {
        Some(place) if place.archetype == archetype => 1, // R13: only in the target
        _ => 0,
    };
    refuse_if(spare_rows(t, &l, archetype) + old_room < 1, 4)?; // 01 table, 4: rows
    refuse_if(damaged_chosen(t, h.number), 1)?; // 01 Damage; R12, R13
    refuse_if(old.is_some_and(|place| damaged_moved(t, &l, place)), 1)?; // 01 Damage; R13, R41

    if let Some(place) = old {
        remove_row(t, &l, place);
    }
    let index = step_allocate(t, &l, archetype, h.number);
    let place = Place { archetype, index };
    ids::step_alloc_at(t, h.generation, h.number, place);
    write_row_bytes(t, &l, place, bytes);
    Ok(())
}

/// Despawns a live handle.
pub fn despawn(t: &mut Tables, bits: u64) -> Answer<()> {
    let l = entry(t, |_| true)?; // 12, 13, 1
    let h = from_bits(bits)?; // 5; R8
    refuse_if(!flushed(t), 3)?; // 01 table, 3
    let place = own_place(t, &l, h)?; // 2, 1 (own place)
    refuse_if(any_word_nonzero(t), 8)?; // 01 table, 8
    refuse_if(live(t) == 0, 1)?; // 01 Damage: a live count of 0 at a free
    refuse_if(damaged_moved(t, &l, place), 1)?; // 01 Damage: moved number

    remove_row(t, &l, place);
    ids::step_free(t, h.number); // after the moved number: it stays (0, MAX)
    Ok(())
}

// ------------------------------------------------------------- components --

/// Adds a component, or overwrites one that is held (R16).
pub fn insert(t: &mut Tables, bits: u64, type_number: u32, bytes: &[u8]) -> Answer<()> {
    let l = entry(t, |l| component_bytes_fit(l, type_number, bytes.len()))?; // 12, 13, 1; R6
    let h = from_bits(bits)?; // 5; R8
    refuse_if(!flushed(t), 3)?; // 01 table, 3
    let place = own_place(t, &l, h)?; // 2, 1 (own place)

    if let Some(column) = l.archetype(place.archetype).column(type_number) {
        refuse_if(any_word_nonzero(t), 8)?; // 01 table, 8; R16
        let (start, size) = component(column, place.index);
        t.bytes[start..start + size].copy_from_slice(bytes);
        return Ok(());
    }

    let mut wanted = l.archetype(place.archetype).type_set();
    wanted.insert(type_number);
    let target = l.with_types(&wanted).ok_or(14u32)?; // 01 table, 14; R15
    refuse_if(any_word_nonzero(t), 8)?; // 01 table, 8
    refuse_if(spare_rows(t, &l, target) < 1, 4)?; // 01 table, 4: rows
    refuse_if(damaged_moved(t, &l, place), 1)?; // 01 Damage: moved number

    let new = change_archetype(t, &l, h.number, target);
    let added = l.archetype(target).column(type_number);
    let (start, size) = component(added.expect("the target has the type"), new.index);
    t.bytes[start..start + size].copy_from_slice(bytes);
    Ok(())
}

/// Takes a component away.
pub fn remove(t: &mut Tables, bits: u64, type_number: u32) -> Answer<()> {
    let l = entry(t, |_| true)?; // 12, 13, 1
    let h = from_bits(bits)?; // 5; R8
    refuse_if(!flushed(t), 3)?; // 01 table, 3
    let place = own_place(t, &l, h)?; // 2, 1 (own place)
    let mut wanted = l.archetype(place.archetype).type_set();
    refuse_if(!wanted.remove(&type_number), 15)?; // 01 Order: not held is 15; R15
    let target = l.with_types(&wanted).ok_or(14u32)?; // 01 table, 14; R15
    refuse_if(any_word_nonzero(t), 8)?; // 01 table, 8
    refuse_if(spare_rows(t, &l, target) < 1, 4)?; // 01 table, 4: rows
    refuse_if(damaged_moved(t, &l, place), 1)?; // 01 Damage: moved number

    change_archetype(t, &l, h.number, target);
    Ok(())
}

/// Where a component of an entity stands: (start, length) (R22).
pub fn read(t: &Tables, bits: u64, type_number: u32) -> Answer<(usize, usize)> {
    let l = entry(t, |_| true)?; // 12, 13, 1
    let h = from_bits(bits)?; // 5; R8
    let (place, column) = own_column(t, &l, h, type_number)?; // 2, 1 (own place), 15
    refuse_if(words::unique_held(t.words[column.word]), 7)?; // 01 table, 7; R21
    Ok(component(column, place.index))
}

/// The twin of `read`: that part of the bytes, empty on a refusal.
pub fn read_part(t: &Tables, bits: u64, type_number: u32) -> &[u8] {
    match read(t, bits, type_number) {
        Ok((start, length)) => &t.bytes[start..start + length],
        Err(_) => &[],
    }
}

/// Overwrites a component of an entity.
pub fn write(t: &mut Tables, bits: u64, type_number: u32, bytes: &[u8]) -> Answer<()> {
    let l = entry(t, |l| component_bytes_fit(l, type_number, bytes.len()))?; // 12, 13, 1; R6
    let h = from_bits(bits)?; // 5; R8
    let (place, column) = own_column(t, &l, h, type_number)?; // 2, 1 (own place), 15
    refuse_if(t.words[column.word] != 0, 8)?; // 01 table, 8; R21
    let (start, size) = component(column, place.index);
    t.bytes[start..start + size].copy_from_slice(bytes);
    Ok(())
}

// ------------------------------------------------------------ borrow words --

/// Applies a step on the word of the named column.
fn on_word(
    t: &mut Tables,
    archetype: u32,
    type_number: u32,
    step: fn(u64) -> Answer<u64>,
) -> Answer<()> {
    let l = entry(t, |_| true)?; // 12, 13, 1
    let word = named_column(&l, archetype, type_number)?.word; // 6, 15
    t.words[word] = step(t.words[word])?; // 9, 7, 8, 10, 11
    Ok(())
}

/// Shared borrow of a column.
pub fn borrow(t: &mut Tables, archetype: u32, type_number: u32) -> Answer<()> {
    on_word(t, archetype, type_number, words::shared)
}

/// Unique borrow of a column.
pub fn borrow_mut(t: &mut Tables, archetype: u32, type_number: u32) -> Answer<()> {
    on_word(t, archetype, type_number, words::unique)
}

/// Shared release of a column.
pub fn release(t: &mut Tables, archetype: u32, type_number: u32) -> Answer<()> {
    on_word(t, archetype, type_number, words::release)
}

/// Unique release of a column.
pub fn release_mut(t: &mut Tables, archetype: u32, type_number: u32) -> Answer<()> {
    on_word(t, archetype, type_number, words::unique_release)
}

// ------------------------------------------------- reserve, flush, clear --
// The id call does the rest: what it tests at its entry has passed by then.

/// Reserves one number. R18: looks at no rows and no words.
pub fn reserve_entity(t: &mut Tables) -> Answer<u64> {
    entry(t, |_| true)?; // 12, 13, 1
    ids::reserve_entity(t) // 4, 1 (entries)
}

/// Reserves n numbers into the front of `out`.
pub fn reserve_entities(t: &mut Tables, n: u64, out: &mut [u64]) -> Answer<()> {
    entry(t, |_| output_holds(out.len(), n))?; // 12, 13, 1; R7
    ids::reserve_entities(t, n, out) // 4, 1 (entries)
}

/// Makes every reserved number live in archetype 0, from its row count on.
pub fn flush(t: &mut Tables) -> Answer<()> {
    let l = entry(t, |_| true)?; // 12, 13, 1
    refuse_if(any_word_nonzero(t), 8)?; // 01 table, 8; R18
    refuse_if(spare_rows(t, &l, 0) < ids::to_flush(t), 4)?; // 01 table, 4: rows; R18
    refuse_if(any_damaged_pending(t, reserved_part(t)), 1)?; // 01 Damage; R10, R11

    let first = t.row_counts[0];
    for number in ids::step_flush(t, 0, first) {
        step_allocate(t, &l, 0, number);
    }
    Ok(())
}

/// 01 "Clear: used, pending, cursor, live and all row counts become 0".
pub fn clear(t: &mut Tables) -> Answer<()> {
    entry(t, |_| true)?; // 12, 13, 1
    refuse_if(any_word_nonzero(t), 8)?; // 01 table, 8
    t.head = Default::default();
    for count in t.row_counts.iter_mut() {
        *count = 0;
    }
    Ok(())
}

// ---------------------------------------------------------------- lookups --

/// Is the handle live or reserved?
pub fn contains(t: &Tables, bits: u64) -> Answer<bool> {
    entry(t, |_| true)?; // 12, 13, 1; R19
    ids::contains(t, bits) // 5
}

/// The place of a handle; (0, MAX) for a reserved new number. A live handle's
/// own place is tested (OPEN.md, 2).
pub fn get(t: &Tables, bits: u64) -> Answer<Place> {
    let l = entry(t, |_| true)?; // 12, 13, 1
    let h = from_bits(bits)?; // 5; R8
    let place = place_of(t, h).ok_or(2u32)?; // 01 table, 2
    refuse_if(live_handle(t, h) && damaged_own_place(t, &l, h.number), 1)?; // 01 Own place
    Ok(place)
}

/// The handle of a number, its generation being unknown.
pub fn resolve(t: &Tables, number: u32) -> Answer<u64> {
    entry(t, |_| true)?; // 12, 13, 1
    ids::resolve_unknown_gen(t, number) // 2, 1
}

/// The live count.
pub fn len(t: &Tables) -> Answer<u64> {
    entry(t, |_| true)?; // 12, 13, 1
    ids::len(t)
}

/// Writes the handles of the free numbers to the front of `out` and answers
/// how many they are.
pub fn freelist(t: &Tables, out: &mut [u64]) -> Answer<u64> {
    entry(t, |_| output_holds_free_list(t, out.len()))?; // 12, 13, 1; R7
    ids::freelist(t, out) // 1 (entries)
}
