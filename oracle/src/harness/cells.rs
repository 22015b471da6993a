// The cells of an accepted image: the source's enclosing rectangle, and the bits that it reads there.

use super::{BitMatrix, read_bits};
use crops::BLANK;

/// Reads the cells of an image that no check refuses into a word for each row.
pub fn cells(words: &[u64], width: u32, height: u32, cells: &mut [u32]) -> u32 {
    cells_of(&BitMatrix::of(words, width, height), cells)
}

/// The same of a prepared image.
pub(super) fn cells_of(image: &BitMatrix, cells: &mut [u32]) -> u32 {
    let Ok(bits) = read_bits(image) else {
        return BLANK;
    };
    for (y, word) in (0..bits.getHeight()).zip(cells) {
        let bit = |x| u32::from(bits.get(x, y)) << x;
        *word = (0..bits.getWidth()).map(bit).sum();
    }
    0
}
