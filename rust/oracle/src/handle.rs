//! Handles, on the original `Entity`.

use crate::entities::Entity;
use crate::{No, Said};
use core::num::NonZeroU32;

/// Number and generation of a handle.
pub fn from_bits(bits: u64) -> Said<(u32, u32)> {
    let e = Entity::from_bits(bits).ok_or(No::Refused(5))?;
    Ok((e.id(), e.generation.get()))
}

/// The bits of a handle; generation 0 has none.
pub fn to_bits(number: u32, generation: u32) -> Said<u64> {
    let generation = NonZeroU32::new(generation).ok_or(No::Refused(5))?;
    Ok(Entity { id: number, generation }.to_bits().get())
}

/// The bits of `Entity::DANGLING`.
pub fn dangling() -> u64 {
    Entity::DANGLING.to_bits().get()
}
