//! Handles. 01, Step rules: "the generation in the high half, the number in
//! the low half, of 64 bits. A handle whose high half is zero is refused."

use crate::rules::refuse_if;
use crate::{Answer, MAX};

/// A handle taken apart.
#[derive(Clone, Copy, Debug, PartialEq, Eq, Hash, PartialOrd, Ord)]
pub struct Handle {
    pub generation: u32,
    pub number: u32,
}

/// 01, Modules 2: the fixed handle DANGLING.
pub const DANGLING: Handle = Handle { generation: MAX, number: MAX };

/// Bits to handle.
pub fn from_bits(bits: u64) -> Answer<Handle> {
    let generation = (bits / 4_294_967_296) as u32;
    let number = (bits % 4_294_967_296) as u32;
    refuse_if(generation == 0, 5)?; // 01 table, 5
    Ok(Handle { generation, number })
}

/// Handle to bits. A handle of generation 0 is none (OPEN.md, 3).
pub fn to_bits(handle: Handle) -> Answer<u64> {
    refuse_if(handle.generation == 0, 5)?; // 01 table, 5
    Ok(pack(handle.generation, handle.number))
}

/// The number of a handle given as bits.
pub fn id(bits: u64) -> Answer<u32> {
    Ok(from_bits(bits)?.number)
}

/// Generation and number side by side, without a test.
pub(crate) fn pack(generation: u32, number: u32) -> u64 {
    u64::from(generation) * 4_294_967_296 + u64::from(number)
}
