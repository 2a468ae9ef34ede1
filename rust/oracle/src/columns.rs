//! The column calls of document 01 on the original `Archetype`s.

use crate::archetype::{open, Archetype};
use crate::panics::{mapped, must_speak};
use crate::types::TypeNumbers;
use crate::{ColumnTables, Declaration, No, Part, Said};

const NO_SUCH_TYPE: &[(&str, u32)] = &[("called `Option::unwrap()` on a `None` value", 15)];

/// One original `Archetype` for each declared one.
pub struct Columns {
    declaration: Declaration,
    numbers: TypeNumbers,
    archetypes: Vec<Archetype>,
}

impl Columns {
    /// From an allowed declaration and tables of its lengths, with row counts
    /// within their rows. Panics on others.
    pub fn new(d: &Declaration, t: &ColumnTables) -> Columns {
        must_speak();
        assert!(d.is_allowed(), "a declaration that document 01 refuses");
        let lengths = (t.row_numbers.len(), t.bytes.len());
        assert_eq!(d.lengths(), lengths, "tables of other lengths than declared");
        assert_eq!(d.rows.len(), t.row_counts.len(), "row counts of another length than declared");
        let numbers = TypeNumbers::new(&d.types);
        let mut counts = t.row_counts.iter().zip(&d.rows);
        assert!(counts.all(|(count, rows)| count <= rows), "a row count above its rows");
        let archetypes = open::filled(d, t, |kind| numbers.id(kind));
        Columns { declaration: d.clone(), numbers, archetypes }
    }

    pub fn declaration(&self) -> &Declaration {
        &self.declaration
    }

    /// The tables whole, rows past the counts included.
    pub fn tables(&self) -> ColumnTables {
        let mut t = ColumnTables::empty(&self.declaration);
        self.dump(&mut t);
        t
    }

    /// The same into tables of the declared lengths.
    pub fn dump(&self, into: &mut ColumnTables) {
        let d = &self.declaration;
        assert_eq!(d.lengths(), (into.row_numbers.len(), into.bytes.len()));
        open::dump(&self.archetypes, d, into);
    }

    fn named(&self, archetype: u32) -> Said<usize> {
        match (archetype as usize) < self.archetypes.len() {
            true => Ok(archetype as usize),
            false => Err(No::Outside(6)),
        }
    }

    fn row(&self, archetype: u32, row: u32) -> Said<usize> {
        let a = self.named(archetype)?;
        match row < self.archetypes[a].len() {
            true => Ok(a),
            false => Err(No::Outside(6)),
        }
    }

    /// The size of a type that some archetype declares.
    fn size(&self, ty: u32) -> Option<usize> {
        let d = &self.declaration;
        d.types.iter().position(|t| *t == ty).map(|c| d.sizes[c] as usize)
    }

    /// Answers the row.
    pub fn allocate(&mut self, archetype: u32, number: u32) -> Said<u32> {
        let a = self.named(archetype)?;
        if self.archetypes[a].len() == self.declaration.rows[a] {
            return Err(No::Outside(4));
        }
        mapped(&[], || unsafe { self.archetypes[a].allocate(number) })
    }

    /// Answers the number moved into the row, if one was.
    pub fn remove(&mut self, archetype: u32, row: u32) -> Said<Option<u32>> {
        let a = self.row(archetype, row)?;
        mapped(&[], || unsafe { self.archetypes[a].remove(row, true) })
    }

    /// Answers the row's old bytes in column order, and the number moved into it.
    pub fn move_to(&mut self, archetype: u32, row: u32) -> Said<(Vec<u8>, Option<u32>)> {
        let a = self.row(archetype, row)?;
        let mut out = Vec::new();
        let moved = mapped(&[], || unsafe {
            self.archetypes[a].move_to(row, |bytes, _, size| {
                out.extend_from_slice(core::slice::from_raw_parts(bytes, size))
            })
        })?;
        Ok((out, moved))
    }

    pub fn put_dynamic(&mut self, archetype: u32, row: u32, ty: u32, bytes: &[u8]) -> Said<()> {
        let a = self.named(archetype)?;
        let size = self.size(ty).unwrap_or(bytes.len());
        if size != bytes.len() {
            return Err(No::Outside(13));
        }
        self.row(archetype, row)?;
        let id = self.numbers.id(ty);
        let mut component = bytes.to_vec();
        mapped(NO_SUCH_TYPE, || unsafe {
            self.archetypes[a].put_dynamic(component.as_mut_ptr(), id, size, row)
        })
    }

    /// Answers where the component stands in the byte buffer, and its bytes.
    pub fn get_dynamic(&self, archetype: u32, row: u32, ty: u32) -> Said<(Part, Vec<u8>)> {
        let a = self.row(archetype, row)?;
        let original = &self.archetypes[a];
        let id = self.numbers.id(ty);
        let length = self.size(ty).unwrap_or(0);
        let found = mapped(&[], || unsafe { original.get_dynamic(id, length, row) })?;
        let at = found.ok_or(No::Refused(15))?.as_ptr();
        let column = open::find(original, id).unwrap();
        let within = at as usize - open::column(original, column) as usize;
        let bytes = unsafe { core::slice::from_raw_parts(at, length) }.to_vec();
        let start = self.declaration.column_start(a, column) + within;
        Ok((Part { start, length }, bytes))
    }

    /// Answers the column within the archetype.
    pub fn lookup(&self, archetype: u32, ty: u32) -> Said<u32> {
        let original = &self.archetypes[self.named(archetype)?];
        let id = self.numbers.id(ty);
        let found = open::find(original, id);
        assert_eq!(found.is_some(), original.has_dynamic(id));
        found.map(|c| c as u32).ok_or(No::Refused(15))
    }

    pub fn ids(&self, archetype: u32) -> Said<&[u32]> {
        Ok(self.archetypes[self.named(archetype)?].ids())
    }
}
