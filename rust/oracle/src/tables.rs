//! The plain tables, and how a call answers.

use std::fmt;
use std::ops::Range;

/// 4,294,967,295: the index of no row.
pub const MAX: u32 = u32::MAX;

/// An (archetype, index) pair.
#[derive(Clone, Copy, Debug, PartialEq, Eq)]
pub struct Place {
    pub archetype: u32,
    pub index: u32,
}

/// The place of a number that has none.
pub const NOWHERE: Place = place(0, MAX);

pub const fn place(archetype: u32, index: u32) -> Place {
    Place { archetype, index }
}

/// The handle `number`v`generation` as bits.
pub const fn bits(number: u32, generation: u32) -> u64 {
    (generation as u64) << 32 | number as u64
}

/// The counts beside the id tables.
#[derive(Clone, Copy, Debug, Default, PartialEq, Eq)]
pub struct Head {
    pub used: usize,
    pub pending: usize,
    pub cursor: i64,
    pub live: u32,
}

/// The four id tables, each as long as the capacity, and the head.
#[derive(Clone, Debug, Default, PartialEq, Eq)]
pub struct IdTables {
    pub generations: Vec<u32>,
    pub archetypes: Vec<u32>,
    pub indices: Vec<u32>,
    pub pending: Vec<u32>,
    pub head: Head,
}

impl IdTables {
    /// Tables of zeros.
    pub fn empty(capacity: usize) -> IdTables {
        IdTables {
            generations: vec![0; capacity],
            archetypes: vec![0; capacity],
            indices: vec![0; capacity],
            pending: vec![0; capacity],
            head: Head::default(),
        }
    }

    pub fn capacity(&self) -> usize {
        self.generations.len()
    }

    /// What document 01 calls sound, as far as the id tables show it.
    pub fn is_sound(&self) -> bool {
        let Head { used, pending, cursor, live } = self.head;
        let cap = self.capacity();
        let lengths = [&self.archetypes, &self.indices, &self.pending];
        if lengths.iter().any(|t| t.len() != cap)
            || used > cap
            || pending > used
            || cursor > pending as i64
            || cursor < -((cap - used) as i64)
            || live as usize != used - pending
        {
            return false;
        }
        let mut waits = vec![false; used];
        for &n in &self.pending[..pending] {
            let n = n as usize;
            if n >= used || waits[n] || self.archetypes[n] != 0 {
                return false;
            }
            waits[n] = true;
        }
        (0..used).all(|n| self.generations[n] != 0 && (self.indices[n] == MAX) == waits[n])
    }
}

/// Where a walk of the original stands, before a step.
#[derive(Clone, Debug, PartialEq, Eq)]
pub struct Stand {
    /// The positions of the pending table that it has left.
    pub positions: Range<usize>,
    /// The new numbers that it has left.
    pub fresh: Range<u32>,
    /// How many that are, as the original's own `len` says.
    pub len: usize,
}

/// A walk of the original, step by step: `given[i]` is what the step from
/// `stands[i]` to `stands[i + 1]` gave. The last two steps gave none.
#[derive(Clone, Debug, PartialEq, Eq)]
pub struct Walk {
    pub stands: Vec<Stand>,
    pub given: Vec<Option<u64>>,
}

/// What an `alloc_many` gave: the numbers in the order of their rows, and its
/// state before the first step.
#[derive(Clone, Debug, PartialEq, Eq)]
pub struct Batch {
    pub numbers: Vec<u32>,
    /// The positions of the pending table that are walked first.
    pub positions: Range<usize>,
    /// The new numbers that are walked after them.
    pub fresh: Range<u32>,
}

/// The declaration, in archetype order: rows and columns of each archetype,
/// type number and size of each column.
#[derive(Clone, Debug, Default, PartialEq, Eq)]
pub struct Declaration {
    pub rows: Vec<u32>,
    pub widths: Vec<u32>,
    pub types: Vec<u32>,
    pub sizes: Vec<u32>,
}

impl Declaration {
    /// One list of (type, size) and a row limit for each archetype.
    pub fn of(archetypes: &[(u32, &[(u32, u32)])]) -> Declaration {
        let mut d = Declaration::default();
        for (rows, columns) in archetypes {
            d.rows.push(*rows);
            d.widths.push(columns.len() as u32);
            d.types.extend(columns.iter().map(|c| c.0));
            d.sizes.extend(columns.iter().map(|c| c.1));
        }
        d
    }

    /// The columns of an archetype, as positions in `types` and `sizes`.
    pub fn columns(&self, archetype: usize) -> Range<usize> {
        let start = self.widths[..archetype].iter().sum::<u32>() as usize;
        start..start + self.widths[archetype] as usize
    }

    /// Where an archetype's rows begin in the table of row numbers.
    pub fn first_row(&self, archetype: usize) -> usize {
        self.rows[..archetype].iter().sum::<u32>() as usize
    }

    /// Bytes of a row.
    pub fn row_width(&self, archetype: usize) -> usize {
        self.sizes[self.columns(archetype)].iter().sum::<u32>() as usize
    }

    /// Where a column (counted within the archetype) begins in the bytes.
    pub fn column_start(&self, archetype: usize, column: usize) -> usize {
        let before: usize = (0..archetype).map(|a| self.rows[a] as usize * self.row_width(a)).sum();
        let first = self.columns(archetype).start;
        let widths = self.sizes[first..first + column].iter().sum::<u32>() as usize;
        before + self.rows[archetype] as usize * widths
    }

    /// Row numbers and bytes that the declaration asks for.
    pub fn lengths(&self) -> (usize, usize) {
        let all = self.rows.len();
        let bytes = (0..all).map(|a| self.rows[a] as usize * self.row_width(a)).sum();
        (self.first_row(all), bytes)
    }

    /// Document 01's sizes and column rules (refusal 12).
    pub fn is_allowed(&self) -> bool {
        let all = self.rows.len();
        if !(1..=16).contains(&all)
            || self.widths.len() != all
            || self.widths.iter().any(|w| *w > 16)
            || self.widths.iter().sum::<u32>() as usize != self.types.len()
            || self.sizes.len() != self.types.len()
            || self.widths[0] != 0
            || self.rows.iter().any(|r| *r > 4096)
            || self.sizes.iter().any(|s| *s > 64)
        {
            return false;
        }
        let types = |a| &self.types[self.columns(a)];
        (0..all).all(|a| types(a).windows(2).all(|p| p[0] < p[1]))
            && (0..all).all(|a| (0..a).all(|b| types(a) != types(b)))
            && (0..self.types.len()).all(|i| {
                (0..i).all(|j| self.types[i] != self.types[j] || self.sizes[i] == self.sizes[j])
            })
    }
}

/// Row numbers, row counts and component bytes.
#[derive(Clone, Debug, Default, PartialEq, Eq)]
pub struct ColumnTables {
    pub row_numbers: Vec<u32>,
    pub row_counts: Vec<u32>,
    pub bytes: Vec<u8>,
}

impl ColumnTables {
    /// Tables of zeros.
    pub fn empty(d: &Declaration) -> ColumnTables {
        let (rows, bytes) = d.lengths();
        ColumnTables {
            row_numbers: vec![0; rows],
            row_counts: vec![0; d.rows.len()],
            bytes: vec![0; bytes],
        }
    }
}

/// A part of the byte buffer.
#[derive(Clone, Copy, Debug, PartialEq, Eq)]
pub struct Part {
    pub start: usize,
    pub length: usize,
}

/// Why a call gives no values.
#[derive(Clone, Debug, PartialEq, Eq)]
pub enum No {
    /// The original refused or panicked; this is document 01's number for it.
    Refused(u32),
    /// Document 01 refuses with this number and the original has no such
    /// refusal. The original was not run.
    Outside(u32),
    /// The original panicked with words that have no number.
    Panicked(String),
}

pub type Said<T> = Result<T, No>;

impl fmt::Display for No {
    fn fmt(&self, f: &mut fmt::Formatter<'_>) -> fmt::Result {
        match self {
            No::Refused(n) => write!(f, "refused {n}"),
            No::Outside(n) => write!(f, "outside what is compared: document 01 says {n}"),
            No::Panicked(words) => write!(f, "panicked: {words}"),
        }
    }
}
