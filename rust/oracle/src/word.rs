//! The four calls on a borrow word, on the original `AtomicBorrow`.

use crate::borrow::{open, AtomicBorrow};
use crate::panics::{mapped, must_speak};
use crate::{No, Said};

/// The original `AtomicBorrow` with any 64-bit word in it.
pub struct Word {
    inner: AtomicBorrow,
    left: u64,
}

impl Word {
    pub fn new(word: u64) -> Word {
        must_speak();
        Word { inner: open::build(word), left: word }
    }

    pub fn value(&self) -> u64 {
        open::read(&self.inner)
    }

    /// What the original itself left after the last call, which on a panic
    /// isn't what was there before. `value` then has the word from before.
    pub fn left(&self) -> u64 {
        self.left
    }

    fn run(
        &mut self,
        meanings: &[(&str, u32)],
        f: impl FnOnce(&AtomicBorrow) -> Said<()>,
    ) -> Said<()> {
        let before = self.value();
        let said = mapped(meanings, || f(&self.inner));
        self.left = self.value();
        if said.is_err() {
            open::write(&self.inner, before);
        }
        said?
    }

    pub fn borrow(&mut self) -> Said<()> {
        self.run(&[("immutable borrow counter overflowed", 9)], |b| {
            b.borrow().then_some(()).ok_or(No::Refused(7))
        })
    }

    pub fn borrow_mut(&mut self) -> Said<()> {
        self.run(&[], |b| b.borrow_mut().then_some(()).ok_or(No::Refused(8)))
    }

    pub fn release(&mut self) -> Said<()> {
        let meanings = [("unbalanced release", 10), ("shared release of unique borrow", 11)];
        self.run(&meanings, |b| {
            b.release();
            Ok(())
        })
    }

    pub fn release_mut(&mut self) -> Said<()> {
        self.run(&[("unique release of shared borrow", 11)], |b| {
            b.release_mut();
            Ok(())
        })
    }
}
