//! The log of reads that an image carries: kept, or none at all.

use std::cell::Cell;
use std::hash::{Hash, Hasher};

/// One mark for each stored bit, set through a shared reference.
#[derive(Debug, Clone, PartialEq, Eq)]
pub struct Kept(Vec<Cell<usize>>);

impl Kept {
    /// The log of an image without words, for the source's own makers.
    pub const fn none() -> Self {
        Self(Vec::new())
    }

    /// A clear log for so many words.
    pub fn clear(words: usize) -> Self {
        Self(vec![Cell::new(0); words])
    }

    /// Marks the bit that column `x` has in a word.
    #[inline(always)]
    pub fn set(&self, word: usize, x: u32) {
        if let Some(mark) = self.0.get(word) {
            mark.set(mark.get() | 1 << (x % usize::BITS));
        }
    }

    /// Clears the log.
    pub fn reset(&self) {
        self.0.iter().for_each(|mark| mark.set(0));
    }

    /// How many bits are marked.
    pub fn count(&self) -> u32 {
        self.0.iter().map(|mark| mark.get().count_ones()).sum()
    }

    /// Writes the log to as many words.
    pub fn write_to(&self, marks: &mut [u64]) {
        for (mark, cell) in marks.iter_mut().zip(&self.0) {
            *mark = cell.get() as u64;
        }
    }
}

/// An image's hash leaves the log out.
impl Hash for Kept {
    fn hash<H: Hasher>(&self, _: &mut H) {}
}

/// No log: every call is empty.
#[derive(Debug, Clone, PartialEq, Eq, Hash)]
pub struct Off;

impl Off {
    pub const fn none() -> Self {
        Self
    }

    pub fn clear(_: usize) -> Self {
        Self
    }

    #[inline(always)]
    pub fn set(&self, _: usize, _: u32) {}

    pub fn reset(&self) {}

    pub fn count(&self) -> u32 {
        0
    }

    pub fn write_to(&self, _: &mut [u64]) {}
}
