//! The same calls with values in place of bytes.

use crate::component::Bytes;
use crate::{Bundle, Component, Entity, Refusal, VerdictStore, COLUMNS, SIZE};

/// The widest row: sixteen columns of 64 bytes.
const WIDEST: usize = COLUMNS * SIZE as usize;

/// An archetype that no store declares.
const NO_ARCHETYPE: u32 = u32::MAX;

/// A component of a tuple: its size as given, and its bytes as far as a column can hold them.
#[derive(Clone, Copy)]
struct Given {
    kind: u32,
    size: u32,
    kept: [u8; SIZE as usize],
}

impl Given {
    const NOTHING: Given = Given { kind: 0, size: 0, kept: [0; SIZE as usize] };

    fn new(kind: u32, bytes: &[u8]) -> Given {
        let mut given = Given { kind, ..Given::NOTHING };
        given.size = u32::try_from(bytes.len()).unwrap_or(u32::MAX);
        let kept = bytes.len().min(given.kept.len());
        given.kept[..kept].copy_from_slice(&bytes[..kept]);
        given
    }

    fn bytes(&self) -> &[u8] {
        let size = self.size.min(SIZE) as usize;
        &self.kept[..size]
    }
}

/// The components of a tuple in ascending type number: their types, their sizes, and
/// their bytes one after the other.
struct Row {
    kinds: [u32; COLUMNS],
    sizes: [u32; COLUMNS],
    columns: usize,
    bytes: [u8; WIDEST],
    length: usize,
}

impl Row {
    /// The row of a tuple; of more components than an archetype can have, it keeps no more
    /// than their count.
    fn of(bundle: &impl Bundle) -> Row {
        let (mut given, mut columns) = ([Given::NOTHING; COLUMNS], 0);
        bundle.each(&mut |kind, bytes| {
            if let Some(next) = given.get_mut(columns) {
                *next = Given::new(kind, bytes);
            }
            columns += 1;
        });
        let given = given.get_mut(..columns).unwrap_or(&mut []);
        given.sort_unstable_by_key(|component| component.kind);
        let (kinds, sizes) = ([0; COLUMNS], [0; COLUMNS]);
        let mut row = Row { kinds, sizes, columns, bytes: [0; WIDEST], length: 0 };
        for (column, component) in given.iter().enumerate() {
            row.kinds[column] = component.kind;
            row.sizes[column] = component.size;
            let next = row.length + component.bytes().len();
            row.bytes[row.length..next].copy_from_slice(component.bytes());
            row.length = next;
        }
        row
    }

    /// The types; none where there are more than an archetype can have.
    fn kinds(&self) -> Option<&[u32]> {
        self.kinds.get(..self.columns)
    }

    fn bytes(&self) -> &[u8] {
        &self.bytes[..self.length]
    }
}

impl VerdictStore {
    /// Makes an entity of a tuple of components, in the archetype that has these
    /// types; [`BadPlace`](Refusal::BadPlace) where none has. A type of another size
    /// than its column's is refused with [`BadLength`](Refusal::BadLength).
    ///
    /// ```
    /// # use verdict_store::doc::*;
    /// let mut store = Declaration::new(64).of::<(Cost,)>(64).of::<(Cost, Verdict)>(64).build()?;
    /// let candidate = store.spawn((Cost(12),))?;
    /// let known = store.spawn((Verdict::Proven, Cost(3)))?;
    /// assert_eq!(store.read::<Cost>(candidate)?, Cost(12));
    /// assert_eq!(store.read::<Verdict>(known)?, Verdict::Proven);
    /// assert_eq!(store.read::<Verdict>(candidate), Err(Refusal::NoComponent));
    /// # Ok::<(), Box<dyn std::error::Error>>(())
    /// ```
    pub fn spawn(&mut self, components: impl Bundle) -> Result<Entity, Refusal> {
        let row = Row::of(&components);
        let archetype = self.archetype_for(&row)?;
        self.spawn_bytes(archetype, row.bytes())
    }

    /// Makes an entity at a chosen handle. An entity that has the number leaves
    /// first, whatever its generation.
    ///
    /// ```
    /// # use verdict_store::doc::*;
    /// let mut store = Declaration::new(64).of::<(Cost,)>(64).build()?;
    /// let saved = Entity::new(5, 9).unwrap();
    /// store.spawn_at(saved, (Cost(4),))?;
    /// assert_eq!(store.read::<Cost>(saved)?, Cost(4));
    /// # Ok::<(), Box<dyn std::error::Error>>(())
    /// ```
    pub fn spawn_at(&mut self, entity: Entity, components: impl Bundle) -> Result<(), Refusal> {
        let row = Row::of(&components);
        let archetype = self.archetype_for(&row)?;
        self.spawn_at_bytes(entity, archetype, row.bytes())
    }

    /// The archetype that has a row's types. Each component has to be of its own
    /// column's size: the library, which is lent the row as one run, sees their sum alone.
    /// Where none has the types it is one that is not declared, which the library refuses
    /// when its turn comes.
    fn archetype_for(&self, row: &Row) -> Result<u32, Refusal> {
        match row.kinds().and_then(|kinds| self.archetype_and_sizes(kinds)) {
            Some((_, sizes)) if *sizes != row.sizes[..sizes.len()] => Err(Refusal::BadLength),
            Some((archetype, _)) => Ok(archetype),
            None => Ok(NO_ARCHETYPE),
        }
    }

    /// The archetype of a tuple of components, if it is declared.
    pub fn archetype_of<B: Bundle>(&self) -> Option<u32> {
        let mut kinds: Vec<u32> = B::columns().iter().map(|column| column.kind).collect();
        kinds.sort_unstable();
        self.archetype_of_types(&kinds)
    }

    /// Gives an entity a component, which takes it to the archetype with that
    /// type added; one that it has already is overwritten.
    ///
    /// ```
    /// # use verdict_store::doc::*;
    /// let mut cache = Declaration::new(64).of::<(Cost,)>(64).of::<(Cost, Verdict)>(64).build()?;
    /// let e = cache.spawn((Cost(12),))?;
    /// cache.insert(e, Verdict::Proven)?;
    /// assert_eq!(cache.read::<Verdict>(e)?, Verdict::Proven);
    /// assert_eq!(cache.read::<Cost>(e)?, Cost(12));
    /// # Ok::<(), Box<dyn std::error::Error>>(())
    /// ```
    pub fn insert<T: Component>(&mut self, entity: Entity, component: T) -> Result<(), Refusal> {
        self.insert_bytes(entity, T::TYPE, component.to_bytes().as_ref())
    }

    /// Takes a component from an entity and answers it. The entity goes to the
    /// archetype without that type. A type of another size than the declared one
    /// is refused with [`BadLength`](Refusal::BadLength), and nothing is taken.
    ///
    /// ```
    /// # use verdict_store::doc::*;
    /// let mut store = Declaration::new(64).of::<(Cost,)>(64).of::<(Cost, Verdict)>(64).build()?;
    /// let e = store.spawn((Cost(12), Verdict::Refuted))?;
    /// assert_eq!(store.remove::<Verdict>(e)?, Verdict::Refuted);
    /// assert_eq!(store.remove::<Verdict>(e), Err(Refusal::NoComponent));
    /// # Ok::<(), Box<dyn std::error::Error>>(())
    /// ```
    pub fn remove<T: Component>(&mut self, entity: Entity) -> Result<T, Refusal> {
        // A removal is granted only where the entity has the component and no column is
        // borrowed: what it takes could be read before it. Where it is refused, its own
        // refusal is answered, not the read's, but for a size that comes before it.
        let component = self.read(entity);
        if matches!(component, Err(Refusal::BadLength)) {
            return component;
        }
        self.remove_type(entity, T::TYPE)?;
        component
    }

    /// A component of an entity. A type of another size than the declared one is
    /// refused with [`BadLength`](Refusal::BadLength). A reserved entity has none
    /// yet: [`NoComponent`](Refusal::NoComponent) where its number is new,
    /// [`NoSuchEntity`](Refusal::NoSuchEntity) where it was used before.
    pub fn read<T: Component>(&self, entity: Entity) -> Result<T, Refusal> {
        // The size is looked up only where another refusal would be told before it.
        let sized = |refusal| self.of_declared_size::<T>().and(Err(refusal));
        let bytes = self.read_bytes(entity, T::TYPE).or_else(sized)?;
        T::Bytes::from_slice(bytes).map(T::from_bytes).ok_or(Refusal::BadLength)
    }

    /// Overwrites a component that an entity has.
    ///
    /// ```
    /// # use verdict_store::doc::*;
    /// let mut store = Declaration::new(64).of::<(Cost,)>(64).build()?;
    /// let e = store.spawn((Cost(12),))?;
    /// store.write(e, Cost(11))?;
    /// assert_eq!(store.read::<Cost>(e)?, Cost(11));
    /// # Ok::<(), Box<dyn std::error::Error>>(())
    /// ```
    pub fn write<T: Component>(&mut self, entity: Entity, component: T) -> Result<(), Refusal> {
        self.write_bytes(entity, T::TYPE, component.to_bytes().as_ref())
    }

    /// Refuses a type that is declared with another size. That comes before the
    /// library's own refusals, but for 12, which a store that was built never gives.
    fn of_declared_size<T: Component>(&self) -> Result<(), Refusal> {
        match self.size_of_type(T::TYPE) {
            Some(size) if size as usize != T::Bytes::SIZE => Err(Refusal::BadLength),
            _ => Ok(()),
        }
    }
}
