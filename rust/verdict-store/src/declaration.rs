//! What a store holds, said once.

use crate::{Bundle, Column, VerdictStore};
use std::fmt;

/// The largest capacity, and the most rows of an archetype.
pub const LIMIT: u32 = 4096;
/// The most archetypes, the one without components among them.
pub const ARCHETYPES: usize = 16;
/// The most columns of an archetype.
pub const COLUMNS: usize = 16;
/// The largest component, in bytes.
pub const SIZE: u32 = 64;

/// What a store is to hold: how many numbers there are, and for each archetype
/// its columns and how many rows it has. Fixed once the store is made.
///
/// Archetype 0 has no columns; reserved entities get their first row there.
/// The others are numbered from 1 in the order they are given in.
///
/// ```
/// use verdict_store::{Column, Declaration};
///
/// let store = Declaration::new(1024)
///     .rows_without_components(256)
///     .archetype(1024, [Column { kind: 1, size: 8 }])
///     .archetype(512, [Column { kind: 1, size: 8 }, Column { kind: 2, size: 1 }])
///     .build()?;
/// assert_eq!(store.len(), 0);
///
/// let wrong = Declaration::new(5000).archetype(10, []).build().unwrap_err();
/// assert_eq!(
///     wrong.to_string(),
///     "capacity 5000 is above 4096; archetypes 0 and 1 have the same types"
/// );
/// # Ok::<(), verdict_store::BadDeclaration>(())
/// ```
#[derive(Clone, Debug, PartialEq, Eq)]
pub struct Declaration {
    capacity: u32,
    archetypes: Vec<(u32, Vec<Column>)>,
}

impl Declaration {
    /// A declaration for up to `capacity` entities, live and reserved. Archetype
    /// 0 has as many rows.
    pub fn new(capacity: u32) -> Declaration {
        Declaration { capacity, archetypes: vec![(capacity, Vec::new())] }
    }

    /// Sets the rows of archetype 0: as many reserved entities fit in a flush,
    /// beside those whose components are all removed.
    #[must_use]
    pub fn rows_without_components(mut self, rows: u32) -> Declaration {
        self.archetypes[0].0 = rows;
        self
    }

    /// Adds an archetype of these columns, which may be given in any order.
    #[must_use]
    pub fn archetype(
        mut self,
        rows: u32,
        columns: impl IntoIterator<Item = Column>,
    ) -> Declaration {
        let mut columns: Vec<Column> = columns.into_iter().collect();
        columns.sort_by_key(|column| column.kind);
        self.archetypes.push((rows, columns));
        self
    }

    /// Adds the archetype of a tuple of components.
    ///
    /// ```
    /// # use verdict_store::{Component, Declaration};
    /// # struct Cost; struct Verdict;
    /// # impl Component for Cost { const TYPE: u32 = 1; type Bytes = [u8; 8];
    /// #     fn to_bytes(&self) -> [u8; 8] { [0; 8] } fn from_bytes(_: [u8; 8]) -> Cost { Cost } }
    /// # impl Component for Verdict { const TYPE: u32 = 2; type Bytes = [u8; 1];
    /// #     fn to_bytes(&self) -> [u8; 1] { [0] } fn from_bytes(_: [u8; 1]) -> Verdict { Verdict } }
    /// let store = Declaration::new(64).of::<(Cost, Verdict)>(32).build()?;
    /// assert_eq!(store.archetype_of::<(Verdict, Cost)>(), Some(1));
    /// # Ok::<(), verdict_store::BadDeclaration>(())
    /// ```
    #[must_use]
    pub fn of<B: Bundle>(self, rows: u32) -> Declaration {
        self.archetype(rows, B::columns())
    }

    /// What is wrong, if anything is.
    pub fn check(&self) -> Result<(), BadDeclaration> {
        let mut faults = Vec::new();
        if self.capacity > LIMIT {
            faults.push(Fault::Capacity(self.capacity));
        }
        if self.archetypes.len() > ARCHETYPES {
            faults.push(Fault::Archetypes(self.archetypes.len()));
        }
        for (archetype, (rows, columns)) in self.archetypes.iter().enumerate() {
            self.check_archetype(archetype, *rows, columns, &mut faults);
        }
        self.check_sizes(&mut faults);
        if faults.is_empty() {
            Ok(())
        } else {
            Err(BadDeclaration { faults })
        }
    }

    fn check_archetype(
        &self,
        archetype: usize,
        rows: u32,
        columns: &[Column],
        faults: &mut Vec<Fault>,
    ) {
        // Archetype 0 has the capacity's rows unless told otherwise: one fault, not two.
        if rows > LIMIT && (archetype > 0 || rows != self.capacity) {
            faults.push(Fault::Rows { archetype, rows });
        }
        if columns.len() > COLUMNS {
            faults.push(Fault::Columns { archetype, columns: columns.len() });
        }
        for column in columns.iter().filter(|column| column.size > SIZE) {
            faults.push(Fault::Size { archetype, column: *column });
        }
        for pair in columns.windows(2).filter(|pair| pair[0].kind == pair[1].kind) {
            faults.push(Fault::TypeTwice { archetype, kind: pair[0].kind });
        }
        let kinds = |columns: &[Column]| columns.iter().map(|c| c.kind).collect::<Vec<_>>();
        let twin = self.archetypes[..archetype]
            .iter()
            .position(|(_, others)| kinds(others) == kinds(columns));
        if let Some(first) = twin {
            faults.push(Fault::SameTypes { first, second: archetype });
        }
    }

    /// A type has one size everywhere.
    fn check_sizes(&self, faults: &mut Vec<Fault>) {
        let mut known: Vec<Column> = Vec::new();
        for column in self.archetypes.iter().flat_map(|(_, columns)| columns) {
            match known.iter().find(|other| other.kind == column.kind) {
                Some(other) if other.size != column.size => {
                    let (kind, first, second) = (column.kind, other.size, column.size);
                    faults.push(Fault::TwoSizes { kind, first, second });
                }
                Some(_) => {}
                None => known.push(*column),
            }
        }
    }

    /// The store, empty.
    ///
    /// All tables are made here, once: no later call of the store asks for
    /// memory, but for [`archetype_of`], for the lists of handles that
    /// [`reserve_entities`] and [`freelist`] answer, and for a copy of the store.
    ///
    /// [`archetype_of`]: VerdictStore::archetype_of
    /// [`reserve_entities`]: VerdictStore::reserve_entities
    /// [`freelist`]: VerdictStore::freelist
    pub fn build(&self) -> Result<VerdictStore, BadDeclaration> {
        self.check()?;
        Ok(VerdictStore::empty(self.capacity, &self.archetypes))
    }
}

/// What is wrong with a [`Declaration`], each fault in words.
#[derive(Clone, Debug, PartialEq, Eq)]
pub struct BadDeclaration {
    faults: Vec<Fault>,
}

impl BadDeclaration {
    /// The faults, at least one.
    pub fn faults(&self) -> &[Fault] {
        &self.faults
    }
}

impl fmt::Display for BadDeclaration {
    fn fmt(&self, f: &mut fmt::Formatter<'_>) -> fmt::Result {
        for (i, fault) in self.faults.iter().enumerate() {
            let comma = if i == 0 { "" } else { "; " };
            write!(f, "{comma}{fault}")?;
        }
        Ok(())
    }
}

impl std::error::Error for BadDeclaration {}

/// One thing that is wrong with a [`Declaration`].
#[derive(Clone, Debug, PartialEq, Eq)]
#[non_exhaustive]
#[allow(missing_docs)] // the fields are what the sentences name
pub enum Fault {
    /// The capacity is above the limit.
    Capacity(u32),
    /// There are too many archetypes.
    Archetypes(usize),
    /// An archetype has too many rows.
    Rows { archetype: usize, rows: u32 },
    /// An archetype has too many columns.
    Columns { archetype: usize, columns: usize },
    /// A component is too large.
    Size { archetype: usize, column: Column },
    /// A type stands twice in an archetype.
    TypeTwice { archetype: usize, kind: u32 },
    /// Two archetypes have the same types.
    SameTypes { first: usize, second: usize },
    /// A type has two sizes.
    TwoSizes { kind: u32, first: u32, second: u32 },
}

impl fmt::Display for Fault {
    fn fmt(&self, f: &mut fmt::Formatter<'_>) -> fmt::Result {
        match self {
            Fault::Capacity(capacity) => write!(f, "capacity {capacity} is above {LIMIT}"),
            Fault::Archetypes(count) => {
                write!(f, "{count} archetypes, archetype 0 among them, are more than {ARCHETYPES}")
            }
            Fault::Rows { archetype, rows } => {
                write!(f, "archetype {archetype} has {rows} rows, above {LIMIT}")
            }
            Fault::Columns { archetype, columns } => {
                write!(f, "archetype {archetype} has {columns} columns, above {COLUMNS}")
            }
            Fault::Size { archetype, column: Column { kind, size } } => {
                write!(f, "type {kind} in archetype {archetype} has {size} bytes, above {SIZE}")
            }
            Fault::TypeTwice { archetype, kind } => {
                write!(f, "archetype {archetype} has type {kind} twice")
            }
            Fault::SameTypes { first, second } => {
                write!(f, "archetypes {first} and {second} have the same types")
            }
            Fault::TwoSizes { kind, first, second } => {
                write!(f, "type {kind} has {first} bytes in one archetype and {second} in another")
            }
        }
    }
}
