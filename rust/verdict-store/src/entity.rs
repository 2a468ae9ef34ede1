//! Handles and places.

use std::fmt;
use std::num::NonZeroU64;

/// A handle: a number and the generation it was handed out at.
///
/// It shows as number v generation. A handle outlives its entity: once the
/// entity is despawned the generation moves on, and the old handle is refused
/// with [`NoSuchEntity`](crate::Refusal::NoSuchEntity) until its number comes to
/// that generation again. Then it names the entity that has the number now. That
/// happens after [`clear`](crate::VerdictStore::clear), which begins at
/// generation 1 again; by [`spawn_at`](crate::VerdictStore::spawn_at), which
/// takes any generation; and after generation 4,294,967,295, which 1 follows.
///
/// ```
/// use verdict_store::Entity;
///
/// let entity = Entity::from_bits(8_589_934_599).unwrap();
/// assert_eq!(entity.to_string(), "7v2");
/// assert_eq!((entity.id(), entity.generation()), (7, 2));
/// assert_eq!(entity.to_bits().get(), 8_589_934_599);
/// assert_eq!(Entity::from_bits(7), None); // generation 0
/// ```
#[derive(Clone, Copy, PartialEq, Eq, Hash, PartialOrd, Ord)]
pub struct Entity(NonZeroU64);

impl Entity {
    /// A handle that stands for no entity: no store has a number as high as its.
    pub const DANGLING: Entity = Entity(NonZeroU64::MAX);

    /// The handle of these bits, generation in the high half and number in the
    /// low half; none where the generation is 0.
    pub const fn from_bits(bits: u64) -> Option<Entity> {
        if bits >> 32 == 0 {
            return None;
        }
        match NonZeroU64::new(bits) {
            Some(bits) => Some(Entity(bits)),
            None => None,
        }
    }

    /// The handle of a number and a generation; none at generation 0.
    pub const fn new(id: u32, generation: u32) -> Option<Entity> {
        Entity::from_bits((generation as u64) << 32 | id as u64)
    }

    /// The bits, which [`from_bits`](Entity::from_bits) takes back.
    pub const fn to_bits(self) -> NonZeroU64 {
        self.0
    }

    /// The number. Only one live entity has it, but several may have had it.
    pub const fn id(self) -> u32 {
        self.0.get() as u32
    }

    /// The generation, never 0.
    pub const fn generation(self) -> u32 {
        (self.0.get() >> 32) as u32
    }
}

impl fmt::Display for Entity {
    fn fmt(&self, f: &mut fmt::Formatter<'_>) -> fmt::Result {
        write!(f, "{}v{}", self.id(), self.generation())
    }
}

impl fmt::Debug for Entity {
    fn fmt(&self, f: &mut fmt::Formatter<'_>) -> fmt::Result {
        fmt::Display::fmt(self, f)
    }
}

/// Where an entity's components are: a row of an archetype.
#[derive(Clone, Copy, PartialEq, Eq, Hash, Debug)]
pub struct Place {
    /// The archetype, in the order of the declaration.
    pub archetype: u32,
    /// The row, or [`u32::MAX`] for a reserved entity that has none yet.
    pub index: u32,
}
