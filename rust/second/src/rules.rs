//! The sentences of 01 as predicates over the tables.

use std::collections::{BTreeMap, BTreeSet};

use crate::handles::Handle;
use crate::tables::{Declaration, Place, Tables, EMPTY, MAX};
use crate::Answer;

/// 01, Sizes.
pub const MOST_NUMBERS: usize = 4096;
pub const MOST_ARCHETYPES: usize = 16;
pub const MOST_COLUMNS: u32 = 16;
pub const MOST_SIZE: u32 = 64;
pub const MOST_ROWS: u32 = 4096;

pub fn refuse_if(applies: bool, number: u32) -> Answer<()> {
    if applies {
        Err(number)
    } else {
        Ok(())
    }
}

// ---------------------------------------------------------------- layout --

/// One column of one archetype.
#[derive(Clone, Debug)]
pub struct Column {
    pub type_number: u32,
    pub size: usize,
    /// Position among all columns: where its borrow word stands.
    pub word: usize,
    /// Where its row 0 starts in the byte buffer.
    pub start: usize,
}

/// One archetype.
#[derive(Clone, Debug)]
pub struct Archetype {
    pub rows: usize,
    /// Where its row 0 stands in the row-number table.
    pub first: usize,
    pub columns: Vec<Column>,
}

impl Archetype {
    pub fn column(&self, type_number: u32) -> Option<&Column> {
        self.columns.iter().find(|c| c.type_number == type_number)
    }

    pub fn position(&self, type_number: u32) -> Option<usize> {
        self.columns.iter().position(|c| c.type_number == type_number)
    }

    pub fn type_set(&self) -> BTreeSet<u32> {
        self.columns.iter().map(|c| c.type_number).collect()
    }

    /// Bytes of one row over all columns.
    pub fn row_width(&self) -> usize {
        self.columns.iter().map(|c| c.size).sum()
    }
}

/// A declaration that keeps the sizes and column rules, laid out.
#[derive(Clone, Debug)]
pub struct Layout {
    pub archetypes: Vec<Archetype>,
    pub row_total: usize,
    pub column_total: usize,
    pub byte_total: usize,
}

impl Layout {
    /// Is this archetype declared?
    pub fn declares(&self, archetype: u32) -> bool {
        (archetype as usize) < self.archetypes.len()
    }

    /// The declared archetype.
    pub fn archetype(&self, archetype: u32) -> &Archetype {
        &self.archetypes[archetype as usize]
    }

    /// The size of a type declared in any archetype.
    pub fn size_of_type(&self, type_number: u32) -> Option<usize> {
        self.archetypes.iter().find_map(|a| a.column(type_number)).map(|c| c.size)
    }

    /// The archetype with exactly these types.
    pub fn with_types(&self, types: &BTreeSet<u32>) -> Option<u32> {
        self.archetypes.iter().position(|a| a.type_set() == *types).map(|a| a as u32)
    }
}

/// Lays a declaration out, or says which of the sizes and column rules it
/// breaks (01 Sizes, 01 Columns; R2, R40). Any `Err` here is refusal 12.
pub fn layout(d: &Declaration) -> Result<Layout, String> {
    lengths_agree(d)?;
    archetypes_allowed(d)?;
    let mut out = Layout { archetypes: Vec::new(), row_total: 0, column_total: 0, byte_total: 0 };
    for a in 0..d.rows.len() {
        lay_archetype(&mut out, d, a)?;
    }
    type_sets_differ(&out)?;
    types_have_one_size(&out)?;
    Ok(out)
}

/// R2: lengths that disagree with each other are the declaration's fault.
fn lengths_agree(d: &Declaration) -> Result<(), String> {
    if d.widths.len() != d.rows.len() {
        return Err("widths and rows differ in length".into());
    }
    let columns: i128 = d.widths.iter().map(|&w| i128::from(w)).sum();
    if d.types.len() as i128 != columns {
        return Err("there are not as many types as columns".into());
    }
    if d.sizes.len() as i128 != columns {
        return Err("there are not as many sizes as columns".into());
    }
    Ok(())
}

/// 01 Sizes: "Archetypes: 1 to 16; archetype 0 has no columns."
fn archetypes_allowed(d: &Declaration) -> Result<(), String> {
    if d.rows.is_empty() {
        return Err("no archetype is declared".into());
    }
    if d.rows.len() > MOST_ARCHETYPES {
        return Err("more than 16 archetypes are declared".into());
    }
    if d.widths[0] != 0 {
        return Err("archetype 0 has columns".into());
    }
    Ok(())
}

/// Lays archetype `a` out behind those before it. 01 Sizes: "Columns per
/// archetype: 0 to 16", "Rows per archetype: 0 to 4,096".
fn lay_archetype(out: &mut Layout, d: &Declaration, a: usize) -> Result<(), String> {
    if d.widths[a] > MOST_COLUMNS {
        return Err(format!("archetype {a} has more than 16 columns"));
    }
    if d.rows[a] > MOST_ROWS {
        return Err(format!("archetype {a} has more than 4,096 rows"));
    }
    let rows = d.rows[a] as usize;
    let mut columns = Vec::new();
    for _ in 0..d.widths[a] {
        columns.push(lay_column(out, d, rows)?);
    }
    if !types_ascend(&columns) {
        return Err(format!("the types of archetype {a} do not ascend"));
    }
    out.archetypes.push(Archetype { rows, first: out.row_total, columns });
    out.row_total += rows;
    Ok(())
}

/// Lays the next column out, of an archetype with that many rows. 01 Sizes:
/// "Component size: 0 to 64 bytes".
fn lay_column(out: &mut Layout, d: &Declaration, rows: usize) -> Result<Column, String> {
    let word = out.column_total;
    if d.sizes[word] > MOST_SIZE {
        return Err(format!("column {word} has a size above 64"));
    }
    let size = d.sizes[word] as usize;
    let column = Column { type_number: d.types[word], size, word, start: out.byte_total };
    out.column_total += 1;
    out.byte_total += rows * size;
    Ok(column)
}

/// 01 Columns: "columns stand in ascending type number".
fn types_ascend(columns: &[Column]) -> bool {
    columns.windows(2).all(|pair| pair[0].type_number < pair[1].type_number)
}

/// 01 Columns: "Two archetypes never have the same type set".
fn type_sets_differ(l: &Layout) -> Result<(), String> {
    let sets: BTreeSet<BTreeSet<u32>> = l.archetypes.iter().map(|a| a.type_set()).collect();
    if sets.len() != l.archetypes.len() {
        return Err("two archetypes have the same type set".into());
    }
    Ok(())
}

/// 01 Columns: "a type has one size everywhere".
fn types_have_one_size(l: &Layout) -> Result<(), String> {
    let mut size_of: BTreeMap<u32, usize> = BTreeMap::new();
    for column in l.archetypes.iter().flat_map(|a| &a.columns) {
        let known = *size_of.entry(column.type_number).or_insert(column.size);
        if known != column.size {
            return Err(format!("type {} has two sizes", column.type_number));
        }
    }
    Ok(())
}

// --------------------------------------------------------------- lengths --

/// R1: "Capacity is the length of the generation table".
pub fn capacity(t: &Tables) -> i128 {
    t.generations.len() as i128
}

/// 01 Sizes: "Capacity: 0 to 4,096 numbers" (R1: above it, 12).
pub fn capacity_above_limit(t: &Tables) -> bool {
    t.generations.len() > MOST_NUMBERS
}

/// 01 The tables: the id tables are "each as long as the capacity".
pub fn id_tables_as_long_as_capacity(t: &Tables) -> bool {
    let capacity = t.generations.len();
    t.archetypes.len() == capacity && t.indices.len() == capacity && t.pending.len() == capacity
}

/// R39: the exact lengths of row numbers, row counts and bytes.
pub fn column_tables_of_right_length(t: &Tables, l: &Layout) -> bool {
    t.row_numbers.len() == l.row_total
        && t.row_counts.len() == l.archetypes.len()
        && t.bytes.len() == l.byte_total
}

/// R39: "words one a column".
pub fn words_of_right_length(t: &Tables, l: &Layout) -> bool {
    t.words.len() == l.column_total
}

/// R6: the bytes of one component: exact length, tested when the type is
/// declared in any archetype.
pub fn component_bytes_fit(l: &Layout, type_number: u32, length: usize) -> bool {
    match l.size_of_type(type_number) {
        Some(size) => length == size,
        None => true,
    }
}

/// R6: one run in column order, of exactly the row's width, tested when the
/// archetype is declared. Spawn's bytes and move out's output.
pub fn row_bytes_fit(l: &Layout, archetype: u32, length: usize) -> bool {
    !l.declares(archetype) || length == l.archetype(archetype).row_width()
}

/// 01 table, 13: "an output too short for n handles".
pub fn output_holds(length: usize, n: u64) -> bool {
    length as i128 >= i128::from(n)
}

/// R7: the free list's output, against max(cursor, 0) of the head as given.
pub fn output_holds_free_list(t: &Tables, length: usize) -> bool {
    length as i128 >= i128::from(t.head.cursor).max(0)
}

// ------------------------------------------------------------------ head --

pub fn used(t: &Tables) -> i128 {
    i128::from(t.head.used)
}

pub fn pending(t: &Tables) -> i128 {
    i128::from(t.head.pending)
}

pub fn live(t: &Tables) -> i128 {
    i128::from(t.head.live)
}

pub fn cursor(t: &Tables) -> i128 {
    i128::from(t.head.cursor)
}

/// The part of the head rule that ids calls test (R4: not the row counts).
/// `Err` says which part is broken.
pub fn head_rule_of_ids(t: &Tables) -> Result<(), String> {
    if used(t) > capacity(t) {
        return Err("head: used is above the capacity".into());
    }
    if pending(t) > used(t) {
        return Err("head: pending is above used".into());
    }
    if cursor(t) > pending(t) {
        return Err("head: the cursor is above pending".into());
    }
    if cursor(t) < -(capacity(t) - used(t)) {
        return Err("head: more new numbers are reserved than the capacity holds".into());
    }
    if live(t) != used(t) - pending(t) {
        return Err("head: live is not used less pending".into());
    }
    Ok(())
}

/// The part of the head rule that column calls test (R4).
pub fn head_rule_of_columns(t: &Tables, l: &Layout) -> Result<(), String> {
    for (a, archetype) in l.archetypes.iter().enumerate() {
        if t.row_counts[a] as usize > archetype.rows {
            return Err(format!("head: the row count of archetype {a} is above its rows"));
        }
    }
    Ok(())
}

/// 01: "Flushed means cursor = pending count."
pub fn flushed(t: &Tables) -> bool {
    cursor(t) == pending(t)
}

/// Numbers neither live nor reserved, as arithmetic on the head (R31).
pub fn room(t: &Tables) -> i128 {
    capacity(t) - used(t) + cursor(t)
}

/// max(cursor, 0): the free numbers are pending[0..this].
pub fn free_end(t: &Tables) -> usize {
    cursor(t).max(0) as usize
}

/// How many new numbers are reserved: those from used to used - cursor - 1.
pub fn new_reserved(t: &Tables) -> i128 {
    (-cursor(t)).max(0)
}

/// The entries of the pending list, in order. Head rule must hold.
pub fn pending_list(t: &Tables) -> &[u32] {
    &t.pending[..t.head.pending as usize]
}

/// The reserved part of the pending list (01: "the rest of pending").
pub fn reserved_part(t: &Tables) -> &[u32] {
    &pending_list(t)[free_end(t)..]
}

// --------------------------------------------------------------- handles --

pub fn below_used(t: &Tables, number: u32) -> bool {
    i128::from(number) < used(t)
}

/// A reserved new number: from used to used - cursor - 1.
pub fn is_new_reserved(t: &Tables, number: u32) -> bool {
    !below_used(t, number) && i128::from(number) < used(t) + new_reserved(t)
}

/// Is this a live handle? R30: told by the index, never by a scan of pending.
/// R14: a stored generation 0 never equals a handle's.
pub fn live_handle(t: &Tables, h: Handle) -> bool {
    below_used(t, h.number)
        && t.generations[h.number as usize] == h.generation
        && t.indices[h.number as usize] != MAX
}

/// Is this a handle on a reserved new number? Those have generation 1.
pub fn new_reserved_handle(t: &Tables, h: Handle) -> bool {
    is_new_reserved(t, h.number) && h.generation == 1
}

/// 01 "Contains, get: as the code" (OPEN.md, 1).
pub fn contained(t: &Tables, h: Handle) -> bool {
    if below_used(t, h.number) {
        t.generations[h.number as usize] == h.generation
            && (t.indices[h.number as usize] != MAX || reserved_part(t).contains(&h.number))
    } else {
        new_reserved_handle(t, h)
    }
}

/// The place `get` answers, if any.
pub fn place_of(t: &Tables, h: Handle) -> Option<Place> {
    if live_handle(t, h) {
        Some(t.place(h.number))
    } else if new_reserved_handle(t, h) {
        Some(EMPTY)
    } else {
        None
    }
}

/// First position of a number in the pending list.
pub fn pending_position(t: &Tables, number: u32) -> Option<usize> {
    pending_list(t).iter().position(|&p| p == number)
}

/// 01 table, 6: "index to be stored >= MAX".
pub fn index_not_storable(index: i128) -> bool {
    index >= i128::from(MAX)
}

/// R9: n indices from the first on; nothing is stored for n = 0.
pub fn indices_not_storable(first: u32, n: i128) -> bool {
    n > 0 && index_not_storable(i128::from(first) + n - 1)
}

// ---------------------------------------------------------------- damage --

/// 01 Damage: "a pending number >= used, its generation 0, its index not
/// MAX". R11: `used` is the one before the call. R36: the archetype of its
/// place is not looked at.
pub fn damaged_pending(t: &Tables, number: u32) -> bool {
    !below_used(t, number)
        || t.generations[number as usize] == 0
        || t.indices[number as usize] != MAX
}

/// Any of a stretch of the pending list damaged.
pub fn any_damaged_pending(t: &Tables, part: &[u32]) -> bool {
    part.iter().any(|&number| damaged_pending(t, number))
}

/// 01 Damage: "a chosen number not pending whose index is MAX", and R12: a
/// chosen number found pending whose generation is 0 or index not MAX.
pub fn damaged_chosen(t: &Tables, number: u32) -> bool {
    if !below_used(t, number) {
        return false; // it is neither looked up nor pending: it becomes used
    }
    match pending_position(t, number) {
        Some(_) => damaged_pending(t, number),
        None => t.indices[number as usize] == MAX,
    }
}

/// Does the place name a row that holds the number?
pub fn row_holds(t: &Tables, l: &Layout, place: Place, number: u32) -> bool {
    l.declares(place.archetype)
        && place.index < t.row_counts[place.archetype as usize]
        && t.row_numbers[l.archetype(place.archetype).first + place.index as usize] == number
}

/// 01: "Own place ... is damaged if it isn't a row holding that number."
pub fn damaged_own_place(t: &Tables, l: &Layout, number: u32) -> bool {
    !row_holds(t, l, t.place(number), number)
}

/// The number that a removal of this row moves: the last row's, if the row
/// is not the last. The row must be below the row count.
pub fn moved_number(t: &Tables, l: &Layout, place: Place) -> Option<u32> {
    let last = t.row_counts[place.archetype as usize] - 1;
    if place.index == last {
        None
    } else {
        Some(t.row_numbers[l.archetype(place.archetype).first + last as usize])
    }
}

/// 01 Damage: "a moved number >= used or whose place isn't the last row".
pub fn damaged_moved(t: &Tables, l: &Layout, place: Place) -> bool {
    let last = t.row_counts[place.archetype as usize] - 1;
    match moved_number(t, l, place) {
        None => false,
        Some(number) => {
            !below_used(t, number)
                || t.place(number) != Place { archetype: place.archetype, index: last }
        }
    }
}

// ----------------------------------------------------------- rows, words --

/// Spare rows of a declared archetype.
pub fn spare_rows(t: &Tables, l: &Layout, archetype: u32) -> i128 {
    l.archetype(archetype).rows as i128 - i128::from(t.row_counts[archetype as usize])
}

/// 01 table, 8: "with any word nonzero".
pub fn any_word_nonzero(t: &Tables) -> bool {
    t.words.iter().any(|&word| word != 0)
}
