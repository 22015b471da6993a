//! Slices to lend, between guards that nobody may change.

use std::ops::Range;

/// Guards on either side of a slice.
const GUARD: usize = 16;

/// An element of a lent slice, cut out of a number.
pub trait Element: Copy + PartialEq {
    fn cut(number: u64) -> Self;
}

impl Element for u8 {
    fn cut(number: u64) -> Self {
        number as u8
    }
}

impl Element for u32 {
    fn cut(number: u64) -> Self {
        number as u32
    }
}

impl Element for u64 {
    fn cut(number: u64) -> Self {
        number
    }
}

/// A slice to lend. Every element holds its part of a pattern until something is written there.
pub struct Guarded<T> {
    guards: bool,
    salt: u64,
    pattern: Vec<T>,
    elements: Vec<T>,
    lent: Range<usize>,
}

impl<T: Element> Guarded<T> {
    /// Another salt is another pattern. Without guards each slice is a block of memory of its own, so that valgrind sees
    /// every step beyond it.
    pub fn new(guards: bool, salt: u64) -> Self {
        Guarded {
            guards,
            salt,
            pattern: Vec::new(),
            elements: Vec::new(),
            lent: 0..0,
        }
    }

    /// Lends a slice of the pattern, so many elements after the least place.
    pub fn lend(&mut self, length: usize, shift: usize) {
        let (guard, shift) = if self.guards { (GUARD, shift) } else { (0, 0) };
        let start = guard + shift;
        let whole = start + length + guard;
        self.grow(whole);
        if self.guards {
            self.elements[..whole].copy_from_slice(&self.pattern[..whole]);
        } else {
            self.elements = self.pattern[..whole].to_vec();
        }
        self.lent = start..start + length;
    }

    /// Lends a slice with this content.
    pub fn hold(&mut self, content: &[T], shift: usize) {
        self.lend(content.len(), shift);
        self.slice_mut().copy_from_slice(content);
    }

    fn grow(&mut self, whole: usize) {
        let salt = self.salt;
        for place in self.pattern.len()..whole {
            let number = (place as u64 + 1).wrapping_mul(0x9e37_79b9_7f4a_7c15) ^ salt;
            self.pattern.push(T::cut(number ^ number >> 32));
        }
        if self.guards && self.elements.len() < whole {
            self.elements
                .extend(&self.pattern[self.elements.len()..whole]);
        }
    }

    pub fn slice(&self) -> &[T] {
        &self.elements[self.lent.clone()]
    }

    pub fn slice_mut(&mut self) -> &mut [T] {
        &mut self.elements[self.lent.clone()]
    }

    fn as_at_first(&self, elements: Range<usize>) -> bool {
        self.elements[elements.clone()] == self.pattern[elements]
    }

    /// Whether the slice still is the pattern that was lent.
    pub fn untouched(&self) -> bool {
        self.as_at_first(self.lent.clone())
    }

    /// Whether the guards are as they were.
    pub fn guards_hold(&self) -> bool {
        let end = self.lent.end;
        let after = if self.guards { end + GUARD } else { end };
        self.as_at_first(0..self.lent.start) && self.as_at_first(end..after)
    }
}

#[cfg(test)]
mod tests {
    use super::*;

    #[test]
    fn a_written_element_is_noticed() {
        let mut buffer: Guarded<u32> = Guarded::new(true, 0);
        for shift in [0, 3] {
            buffer.lend(5, shift);
            assert!(buffer.untouched() && buffer.guards_hold());
            buffer.slice_mut()[4] ^= 1;
            assert!(!buffer.untouched() && buffer.guards_hold());
            for place in [buffer.lent.start - 1, buffer.lent.end] {
                buffer.lend(5, shift);
                buffer.elements[place] ^= 1;
                assert!(buffer.untouched() && !buffer.guards_hold());
            }
        }
    }

    #[test]
    fn a_held_slice_keeps_its_content() {
        let mut buffer: Guarded<u8> = Guarded::new(true, 0);
        buffer.hold(&[1, 2, 3], 1);
        assert_eq!(buffer.slice(), [1, 2, 3]);
        assert!(buffer.guards_hold());
        let mut bare: Guarded<u8> = Guarded::new(false, 0);
        bare.hold(&[1, 2, 3], 1);
        assert_eq!(bare.slice(), [1, 2, 3]);
        assert_eq!(bare.elements.len(), 3);
    }
}
