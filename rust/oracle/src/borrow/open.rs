//! `AtomicBorrow` from a plain word and back.

use super::*;

pub(crate) fn build(word: u64) -> AtomicBorrow {
    AtomicBorrow(AtomicUsize::new(word as usize))
}

pub(crate) fn read(b: &AtomicBorrow) -> u64 {
    b.0.load(Ordering::Relaxed) as u64
}

pub(crate) fn write(b: &AtomicBorrow, word: u64) {
    b.0.store(word as usize, Ordering::Relaxed)
}
