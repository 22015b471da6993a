//! Bits and marks.

use super::file::row_words_of;

pub(super) const BLACK: bool = true;
pub(super) const WHITE: bool = false;

/// A place with whole coordinates.
#[derive(Clone, Copy, Debug, PartialEq, Eq)]
pub(super) struct Pixel {
    pub(super) x: u32,
    pub(super) y: u32,
}

/// The image's words with the marks of the bits read.
pub(super) struct Image<'a> {
    pub(super) words: &'a [u64],
    pub(super) marks: &'a mut [u64],
    pub(super) width: u32,
    pub(super) height: u32,
}

/// A place with whole coordinates, x then y.
pub(super) const fn pixel(x: u32, y: u32) -> Pixel {
    Pixel { x, y }
}

impl Image<'_> {
    /// The index of the word that holds a pixel.
    pub(super) fn offset(&self, x: u32, y: u32) -> u64 {
        u64::from(y) * row_words_of(self.width) as u64 + u64::from(x / 64)
    }

    /// `check_in_bounds`: the pixel's word does not exist.
    pub(super) fn is_past_last_word(&self, x: u32, y: u32) -> bool {
        self.offset(x, y) >= self.words.len() as u64
    }

    /// `get`: a stored bit is read and marked, padding and the next row's too; past the last word is white.
    pub(super) fn get(&mut self, x: u32, y: u32) -> bool {
        if self.is_past_last_word(x, y) {
            return WHITE;
        }
        let offset = self.offset(x, y) as usize;
        self.marks[offset] |= 1 << (x % 64);
        self.words[offset] >> (x % 64) & 1 == 1
    }

    /// `try_get`: only pixels of the image are read.
    pub(super) fn try_get(&mut self, x: u32, y: u32) -> Option<bool> {
        if x >= self.width {
            return None;
        }
        if y >= self.height {
            return None;
        }
        Some(self.get(x, y))
    }

    /// `try_get_area` with size 3: black if at least half of the cells about a pixel are.
    pub(super) fn try_get_area(&mut self, x: u32, y: u32) -> Option<bool> {
        let mut cells = 0;
        let mut set = 0;
        for area_x in x.saturating_sub(1)..=x.saturating_add(1) {
            for area_y in y.saturating_sub(1)..=y.saturating_add(1) {
                let colour = self.try_get(area_x, area_y)?;
                cells += 1;
                if colour == BLACK {
                    set += 1;
                }
            }
        }
        Some(2 * set >= cells)
    }

    /// A centre that is not lost: within width and height.
    pub(super) fn holds(&self, place: Pixel) -> bool {
        place.x < self.width && place.y < self.height
    }
}
