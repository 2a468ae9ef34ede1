//! The private fields of `Archetype`, in the terms of plain tables.

use super::*;
use crate::borrow::open as word;
use crate::{ColumnTables, Declaration};

/// A `TypeInfo` of alignment 1 whose destructor does nothing.
pub(crate) fn info(id: TypeId, size: usize) -> TypeInfo {
    unsafe fn nothing(_: *mut u8) {}
    TypeInfo::from_parts(id, Layout::from_size_align(size, 1).unwrap(), nothing)
}

/// An archetype with room for `rows` rows, so that it never grows again: growth
/// would clear borrow words and rows past the count.
pub(crate) fn build(types: Vec<TypeInfo>, rows: u32) -> Archetype {
    let mut a = Archetype::new(types);
    a.reserve(rows);
    a
}

/// Fills all `numbers.len()` rows of the row numbers and sets the row count.
pub(crate) fn fill(a: &mut Archetype, numbers: &[u32], count: u32) {
    a.entities[..numbers.len()].copy_from_slice(numbers);
    unsafe { a.set_len(count) }
}

/// The archetypes of a declaration, with all rows of the tables in them.
pub(crate) fn filled(
    d: &Declaration,
    t: &ColumnTables,
    id: impl Fn(u32) -> TypeId,
) -> Vec<Archetype> {
    let one = |a: usize| {
        let columns = d.columns(a);
        let types = columns.clone().map(|c| info(id(d.types[c]), d.sizes[c] as usize)).collect();
        let mut made = build(types, d.rows[a]);
        let (first, rows) = (d.first_row(a), d.rows[a] as usize);
        fill(&mut made, &t.row_numbers[first..first + rows], t.row_counts[a]);
        for (j, c) in columns.enumerate() {
            let start = d.column_start(a, j);
            let bytes = &t.bytes[start..start + rows * d.sizes[c] as usize];
            unsafe { column(&made, j).copy_from_nonoverlapping(bytes.as_ptr(), bytes.len()) }
        }
        made
    };
    (0..d.rows.len()).map(one).collect()
}

/// All rows of the archetypes into tables of the declared lengths.
pub(crate) fn dump(archetypes: &[Archetype], d: &Declaration, into: &mut ColumnTables) {
    for (a, original) in archetypes.iter().enumerate() {
        let (first, count) = (d.first_row(a), d.rows[a] as usize);
        into.row_numbers[first..first + count].copy_from_slice(rows(original, count));
        into.row_counts[a] = original.len();
        for (j, c) in d.columns(a).enumerate() {
            let start = d.column_start(a, j);
            let bytes = &mut into.bytes[start..start + count * d.sizes[c] as usize];
            unsafe { column(original, j).copy_to_nonoverlapping(bytes.as_mut_ptr(), bytes.len()) }
        }
    }
}

/// Row numbers, those past the count included.
pub(crate) fn rows(a: &Archetype, count: usize) -> &[u32] {
    &a.entities[..count]
}

/// The bytes of a column from its first row on. Valid for the rows that
/// `build` was asked for, once all of them are written.
pub(crate) fn column(a: &Archetype, column: usize) -> *mut u8 {
    a.data[column].storage.as_ptr()
}

/// The position of a type among the archetype's columns.
pub(crate) fn find(a: &Archetype, id: TypeId) -> Option<usize> {
    a.index.get(&id).copied()
}

pub(crate) fn word(a: &Archetype, column: usize) -> u64 {
    word::read(&a.data[column].state)
}

pub(crate) fn set_word(a: &Archetype, column: usize, w: u64) {
    word::write(&a.data[column].state, w)
}
