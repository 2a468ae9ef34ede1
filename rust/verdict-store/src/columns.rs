//! Borrowed columns. Each ends its borrow when it is dropped.

use crate::component::Bytes;
use crate::{Component, Refusal, VerdictStore};
use std::ops::Range;

/// Where the components of an archetype's rows stand in the bytes, one after the
/// other.
#[derive(Clone, Copy, Debug)]
pub(crate) struct Part {
    pub(crate) start: usize,
    pub(crate) size: usize,
    pub(crate) rows: usize,
}

impl Part {
    fn range(self) -> Range<usize> {
        self.start..self.start + self.rows * self.size
    }

    fn row(self, index: u32) -> Option<Range<usize>> {
        let index = index as usize;
        (index < self.rows).then(|| {
            let start = self.start + index * self.size;
            start..start + self.size
        })
    }

    /// The values of a column of this type number; none where the type has another
    /// number or another size.
    fn values<T: Component>(self, kind: u32, bytes: &[u8]) -> impl Iterator<Item = T> + '_ {
        let fits = kind == T::TYPE && self.size == T::Bytes::SIZE;
        let rows = if fits { self.rows } else { 0 };
        (0..rows).filter_map(move |row| {
            let start = self.start + row * self.size;
            T::Bytes::from_slice(&bytes[start..start + self.size]).map(T::from_bytes)
        })
    }
}

/// A column that is borrowed: the components of an archetype's rows, one after
/// the other.
///
/// ```
/// # use verdict_store::{Column, Declaration};
/// # let mut store = Declaration::new(8).archetype(8, [Column { kind: 1, size: 2 }]).build()?;
/// store.spawn_bytes(1, &[1, 2])?;
/// store.spawn_bytes(1, &[3, 4])?;
/// let column = store.borrow(1, 1)?;
/// assert_eq!(column.bytes(), [1, 2, 3, 4]);
/// assert_eq!(column.row(1), Some(&[3, 4][..]));
/// # Ok::<(), Box<dyn std::error::Error>>(())
/// ```
#[derive(Debug)]
pub struct Borrowed<'a> {
    store: &'a VerdictStore,
    archetype: u32,
    kind: u32,
    part: Part,
}

impl<'a> Borrowed<'a> {
    pub(crate) fn new(store: &'a VerdictStore, archetype: u32, kind: u32, part: Part) -> Self {
        Borrowed { store, archetype, kind, part }
    }

    /// How many components there are.
    pub fn rows(&self) -> usize {
        self.part.rows
    }

    /// All components of the column.
    pub fn bytes(&self) -> &[u8] {
        &self.store.all_bytes()[self.part.range()]
    }

    /// The component in a row.
    pub fn row(&self, index: u32) -> Option<&[u8]> {
        self.part.row(index).map(|range| &self.store.all_bytes()[range])
    }

    /// The components as values; none where the column is of another type, or of
    /// another size than the type's.
    pub fn values<T: Component>(&self) -> impl Iterator<Item = T> + '_ {
        self.part.values(self.kind, self.store.all_bytes())
    }
}

impl Drop for Borrowed<'_> {
    fn drop(&mut self) {
        let released = self.store.released(self.archetype, self.kind);
        debug_assert_eq!(released, Ok(()));
    }
}

/// A column that is borrowed uniquely.
///
/// ```
/// # use verdict_store::{Column, Declaration};
/// # let columns = [Column { kind: 1, size: 1 }, Column { kind: 2, size: 2 }];
/// # let mut store = Declaration::new(8).archetype(8, columns).build()?;
/// let entity = store.spawn_bytes(1, &[7, 0, 0])?;
/// let mut column = store.borrow_mut(1, 2)?;
/// let (mine, other) = column.beside(1)?;
/// mine[0] = other[0] + 1;
/// drop(column);
/// assert_eq!(store.read_bytes(entity, 2)?, [8, 0]);
/// # Ok::<(), Box<dyn std::error::Error>>(())
/// ```
#[derive(Debug)]
pub struct BorrowedMut<'a> {
    store: &'a mut VerdictStore,
    archetype: u32,
    kind: u32,
    part: Part,
}

impl<'a> BorrowedMut<'a> {
    pub(crate) fn new(store: &'a mut VerdictStore, archetype: u32, kind: u32, part: Part) -> Self {
        BorrowedMut { store, archetype, kind, part }
    }

    /// How many components there are.
    pub fn rows(&self) -> usize {
        self.part.rows
    }

    /// All components of the column.
    pub fn bytes(&self) -> &[u8] {
        &self.store.all_bytes()[self.part.range()]
    }

    /// All components of the column, to be written.
    pub fn bytes_mut(&mut self) -> &mut [u8] {
        &mut self.store.all_bytes_mut()[self.part.range()]
    }

    /// The component in a row.
    pub fn row(&self, index: u32) -> Option<&[u8]> {
        self.part.row(index).map(|range| &self.store.all_bytes()[range])
    }

    /// The component in a row, to be written.
    pub fn row_mut(&mut self, index: u32) -> Option<&mut [u8]> {
        self.part.row(index).map(|range| &mut self.store.all_bytes_mut()[range])
    }

    /// The components as values; none where the column is of another type, or of
    /// another size than the type's.
    pub fn values<T: Component>(&self) -> impl Iterator<Item = T> + '_ {
        self.part.values(self.kind, self.store.all_bytes())
    }

    /// This column to be written, and another of the archetype to be read. This
    /// column itself is refused with [`UniqueHeld`](Refusal::UniqueHeld).
    pub fn beside(&mut self, kind: u32) -> Result<(&mut [u8], &[u8]), Refusal> {
        // The two parts end before this guard does, and no call runs meanwhile: the other
        // column's borrow is tried, and need not be kept.
        self.store.hold(self.archetype, kind)?;
        self.store.released(self.archetype, kind)?;
        let other = self.store.column_of(self.archetype, kind)?.range();
        let mine = self.part.range();
        let bytes = self.store.all_bytes_mut();
        // Columns do not overlap.
        Ok(if mine.end <= other.start {
            let (low, high) = bytes.split_at_mut(mine.end);
            (&mut low[mine.start..], &high[other.start - mine.end..other.end - mine.end])
        } else {
            let (low, high) = bytes.split_at_mut(mine.start);
            (&mut high[..mine.end - mine.start], &low[other])
        })
    }
}

impl Drop for BorrowedMut<'_> {
    fn drop(&mut self) {
        let released = self.store.release_mut(self.archetype, self.kind);
        debug_assert_eq!(released, Ok(()));
    }
}
