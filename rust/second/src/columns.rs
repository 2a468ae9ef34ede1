//! The column layer. Every call is lent the declaration, row numbers, row
//! counts and bytes (R3); no head, no words, no id tables.
//!
//! Refusals in 01's order: 12, 13, 1 (row counts), 6, 15, 4.

use crate::rules::*;
use crate::tables::{Declaration, Place, Tables};
use crate::Answer;

/// 12, 13 and the row counts' 1 (R3, R4), and the laid out declaration.
fn entry(t: &Tables, bytes_fit: impl Fn(&Layout) -> bool) -> Answer<Layout> {
    let l = layout(&t.declaration).map_err(|_| 12u32)?; // 01 table, 12; R40
    refuse_if(!column_tables_of_right_length(t, &l), 13)?; // 01 table, 13; R39
    refuse_if(!bytes_fit(&l), 13)?; // R6
    refuse_if(head_rule_of_columns(t, &l).is_err(), 1)?; // 01 head rule; R4
    Ok(l)
}

/// 6 for an archetype that is not declared (R29 for `ids`).
fn declared(l: &Layout, archetype: u32) -> Answer<&Archetype> {
    refuse_if(!l.declares(archetype), 6)?; // 01 table, 6
    Ok(l.archetype(archetype))
}

/// 6 for an undeclared archetype or a row not below the row count.
fn held_row<'a>(t: &Tables, l: &'a Layout, archetype: u32, row: u32) -> Answer<&'a Archetype> {
    let a = declared(l, archetype)?; // 01 table, 6
    refuse_if(row >= t.row_counts[archetype as usize], 6)?; // 01 table, 6; R33
    Ok(a)
}

// ----------------------------------------------------------------- steps --

/// Where one component stands in the byte buffer: (start, length).
pub(crate) fn component(column: &Column, row: u32) -> (usize, usize) {
    (column.start + row as usize * column.size, column.size)
}

/// 01 "Allocate: the number goes into the first unused row, whose position
/// is answered."
pub(crate) fn step_allocate(t: &mut Tables, l: &Layout, archetype: u32, number: u32) -> u32 {
    let row = t.row_counts[archetype as usize];
    t.row_numbers[l.archetype(archetype).first + row as usize] = number;
    t.row_counts[archetype as usize] += 1;
    row
}

/// 01 "Remove row": the last row copied over it if it is not the last; the
/// last row's old bytes stay. Answers the moved number.
pub(crate) fn step_remove(t: &mut Tables, l: &Layout, place: Place) -> Option<u32> {
    let moved = moved_number(t, l, place);
    let a = l.archetype(place.archetype);
    let last = t.row_counts[place.archetype as usize] - 1;
    if let Some(number) = moved {
        for column in &a.columns {
            let (from, size) = component(column, last);
            let (to, _) = component(column, place.index);
            let old = t.bytes[from..from + size].to_vec();
            t.bytes[to..to + size].copy_from_slice(&old);
        }
        t.row_numbers[a.first + place.index as usize] = number;
    }
    t.row_counts[place.archetype as usize] -= 1;
    moved
}

/// The bytes of one row, in column order.
pub(crate) fn row_bytes(t: &Tables, l: &Layout, place: Place) -> Vec<u8> {
    let mut out = Vec::new();
    for column in &l.archetype(place.archetype).columns {
        let (start, size) = component(column, place.index);
        out.extend_from_slice(&t.bytes[start..start + size]);
    }
    out
}

/// Writes the bytes of one row, given in column order.
pub(crate) fn write_row_bytes(t: &mut Tables, l: &Layout, place: Place, bytes: &[u8]) {
    let mut done = 0;
    for column in &l.archetype(place.archetype).columns {
        let (start, size) = component(column, place.index);
        t.bytes[start..start + size].copy_from_slice(&bytes[done..done + size]);
        done += size;
    }
}

// ----------------------------------------------------------------- calls --

/// Type lookup: the column of a type within an archetype (R38). It is lent
/// only the declaration.
pub fn lookup(d: &Declaration, archetype: u32, type_number: u32) -> Answer<u32> {
    let l = layout(d).map_err(|_| 12u32)?; // 01 table, 12; R40
    let a = declared(&l, archetype)?; // 6
    let position = a.position(type_number).ok_or(15u32)?; // 01 table, 15
    Ok(position as u32)
}

/// Puts a number into the first unused row and answers the row.
pub fn allocate(t: &mut Tables, archetype: u32, number: u32) -> Answer<u32> {
    let l = entry(t, |_| true)?; // 12, 13, 1
    declared(&l, archetype)?; // 6
    refuse_if(spare_rows(t, &l, archetype) < 1, 4)?; // 01 table, 4: too few rows
    Ok(step_allocate(t, &l, archetype, number))
}

/// Removes a row and answers the number moved into it, if any.
pub fn remove(t: &mut Tables, archetype: u32, row: u32) -> Answer<Option<u32>> {
    let l = entry(t, |_| true)?; // 12, 13, 1
    held_row(t, &l, archetype, row)?; // 6
    let index = row;
    Ok(step_remove(t, &l, Place { archetype, index }))
}

/// Hands the row's bytes over, in column order, then removes it.
pub fn move_out(t: &mut Tables, archetype: u32, row: u32, out: &mut [u8]) -> Answer<Option<u32>> {
    let l = entry(t, |l| row_bytes_fit(l, archetype, out.len()))?; // 12, 13, 1; R6
    held_row(t, &l, archetype, row)?; // 6
    let index = row;
    out.copy_from_slice(&row_bytes(t, &l, Place { archetype, index }));
    Ok(step_remove(t, &l, Place { archetype, index }))
}

/// Writes one component of a row.
pub fn put(t: &mut Tables, archetype: u32, row: u32, type_number: u32, bytes: &[u8]) -> Answer<()> {
    let l = entry(t, |l| {
        // R6: tested when the type and the named archetype are declared.
        !l.declares(archetype) || component_bytes_fit(l, type_number, bytes.len())
    })?; // 12, 13, 1
    let a = held_row(t, &l, archetype, row)?; // 6
    let column = a.column(type_number).ok_or(15u32)?; // 01 table, 15
    let (start, size) = component(column, row);
    t.bytes[start..start + size].copy_from_slice(bytes);
    Ok(())
}

/// Where one component of a row stands: (start, length) (R22).
pub fn get(t: &Tables, archetype: u32, row: u32, type_number: u32) -> Answer<(usize, usize)> {
    let l = entry(t, |_| true)?; // 12, 13, 1
    let a = held_row(t, &l, archetype, row)?; // 6
    let column = a.column(type_number).ok_or(15u32)?; // 01 table, 15
    Ok(component(column, row))
}

/// The twin of `get`: that part of the bytes, empty on a refusal.
pub fn get_part(t: &Tables, archetype: u32, row: u32, type_number: u32) -> &[u8] {
    match get(t, archetype, row, type_number) {
        Ok((start, length)) => &t.bytes[start..start + length],
        Err(_) => &[],
    }
}

/// Where the numbers of an archetype stand: (start, count) (R22).
pub fn ids(t: &Tables, archetype: u32) -> Answer<(usize, usize)> {
    let l = entry(t, |_| true)?; // 12, 13, 1
    let a = declared(&l, archetype)?; // 6; R29
    Ok((a.first, t.row_counts[archetype as usize] as usize))
}

/// The twin of `ids`: that part of the row numbers, empty on a refusal.
pub fn ids_part(t: &Tables, archetype: u32) -> &[u32] {
    match ids(t, archetype) {
        Ok((start, count)) => &t.row_numbers[start..start + count],
        Err(_) => &[],
    }
}
