//! Everything lent, as plain vectors of any length and content.

/// 01, Sizes: "Below, MAX is 4,294,967,295".
pub const MAX: u32 = 4_294_967_295;

/// R2: four flat tables in archetype order.
#[derive(Clone, Debug, Default, PartialEq, Eq)]
pub struct Declaration {
    /// Rows, one an archetype.
    pub rows: Vec<u32>,
    /// Number of columns, one an archetype.
    pub widths: Vec<u32>,
    /// Type numbers, one a column.
    pub types: Vec<u32>,
    /// Component sizes in bytes, one a column.
    pub sizes: Vec<u32>,
}

/// 01, The tables: "A small head holds the used count, pending count, signed
/// cursor and live count."
#[derive(Clone, Copy, Debug, Default, PartialEq, Eq)]
pub struct Head {
    pub used: u64,
    pub pending: u64,
    pub live: u64,
    pub cursor: i64,
}

/// An entity's place: the archetype and the index (row) in it.
#[derive(Clone, Copy, Debug, PartialEq, Eq, Hash, PartialOrd, Ord)]
pub struct Place {
    pub archetype: u32,
    pub index: u32,
}

/// The empty place (0, MAX).
pub const EMPTY: Place = Place { archetype: 0, index: MAX };

#[derive(Clone, Debug, Default, PartialEq, Eq)]
pub struct Tables {
    pub declaration: Declaration,
    pub generations: Vec<u32>,
    pub archetypes: Vec<u32>,
    pub indices: Vec<u32>,
    pub pending: Vec<u32>,
    pub row_numbers: Vec<u32>,
    pub row_counts: Vec<u32>,
    pub words: Vec<u64>,
    pub bytes: Vec<u8>,
    pub head: Head,
}

impl Tables {
    /// The stored place of a number. The number must have an entry.
    pub(crate) fn place(&self, number: u32) -> Place {
        Place { archetype: self.archetypes[number as usize], index: self.indices[number as usize] }
    }

    pub(crate) fn set_place(&mut self, number: u32, place: Place) {
        self.archetypes[number as usize] = place.archetype;
        self.indices[number as usize] = place.index;
    }
}

/// Empty tables of the right lengths for a declaration and a capacity, all
/// zeros. Meant for declarations that keep 01's rules; lists that disagree in
/// length are read as far as they go, and the calls then refuse 12.
pub fn fresh(declaration: Declaration, capacity: usize) -> Tables {
    let mut row_total = 0usize;
    let mut byte_total = 0usize;
    let mut column = 0usize;
    for (archetype, &rows) in declaration.rows.iter().enumerate() {
        row_total += rows as usize;
        let width = declaration.widths.get(archetype).copied().unwrap_or(0) as usize;
        for _ in 0..width {
            if let Some(&size) = declaration.sizes.get(column) {
                byte_total += rows as usize * size as usize;
            }
            column += 1;
        }
    }
    Tables {
        generations: vec![0; capacity],
        archetypes: vec![0; capacity],
        indices: vec![0; capacity],
        pending: vec![0; capacity],
        row_numbers: vec![0; row_total],
        row_counts: vec![0; declaration.rows.len()],
        words: vec![0; declaration.types.len()],
        bytes: vec![0; byte_total],
        head: Head::default(),
        declaration,
    }
}
