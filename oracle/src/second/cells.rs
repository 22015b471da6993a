//! The cells of a symbol that fills its crop: 33 rows of 30, read in the enclosing rectangle.

use super::file::{
    HEADER_BYTES, check, check_words, image_words_of, read_header, row_words_of, unpack,
};
use super::image::{Pixel, pixel};

const CELL_ROWS: u32 = 33;
const CELL_COLUMNS: u32 = 30;

/// The enclosing rectangle: the least that holds every black pixel.
#[derive(Clone, Copy, Debug, PartialEq, Eq)]
pub struct Rectangle {
    pub left: u32,
    pub top: u32,
    pub width: u32,
    pub height: u32,
}

/// Answers 2 to 6, 10 and 0 for an image given as words.
pub fn cells_words(words: &[u64], width: u32, height: u32, cells: &mut [u32]) -> u32 {
    let refusal = check_words(words, width, height);
    if refusal != 0 {
        return refusal;
    }
    if !is_a_word_for_each_row(cells) {
        return 6;
    }
    read_cells(words, width, height, cells)
}

/// Answers 1 to 6, 10 and 0 for an image given as a file; with 10 and 0 it is unpacked.
pub fn cells_file(file: &[u8], words: &mut [u64], cells: &mut [u32]) -> u32 {
    let refusal = check(file);
    if refusal != 0 {
        return refusal;
    }
    let Some(header) = read_header(file) else {
        return 1;
    };
    let (width, height) = (header.width, header.height);
    if words.len() != image_words_of(width, height) {
        return 6;
    }
    if !is_a_word_for_each_row(cells) {
        return 6;
    }
    unpack(&file[HEADER_BYTES..], width, words);
    read_cells(words, width, height, cells)
}

/// Number 6 is for any other length.
fn is_a_word_for_each_row(cells: &[u32]) -> bool {
    cells.len() == CELL_ROWS as usize
}

/// The cells of an accepted image, or 10. The cap on the row comes after the top is added, so it can reach above the rectangle.
fn read_cells(words: &[u64], width: u32, height: u32, cells: &mut [u32]) -> u32 {
    let Some(rectangle) = enclosing_rectangle(words, width, height) else {
        return 10;
    };
    for row in 0..CELL_ROWS {
        let down = (row * rectangle.height + rectangle.height / 2) / CELL_ROWS;
        let y = (rectangle.top + down).min(rectangle.height - 1);
        let half_column = (row % 2) * rectangle.width / 2;
        let mut bits = 0;
        for column in 0..CELL_COLUMNS {
            let across =
                (column * rectangle.width + rectangle.width / 2 + half_column) / CELL_COLUMNS;
            let x = rectangle.left + across.min(rectangle.width - 1);
            if is_black(words, width, pixel(x, y)) {
                bits |= 1 << column;
            }
        }
        cells[row as usize] = bits;
    }
    0
}

/// Least and greatest column and row of the black pixels; none where all are white.
pub fn enclosing_rectangle(words: &[u64], width: u32, height: u32) -> Option<Rectangle> {
    let places = || (0..height).flat_map(|y| (0..width).map(move |x| pixel(x, y)));
    let black = || places().filter(|place| is_black(words, width, *place));
    let left = black().map(|place| place.x).min()?;
    let right = black().map(|place| place.x).max()?;
    let top = black().map(|place| place.y).min()?;
    let bottom = black().map(|place| place.y).max()?;
    Some(Rectangle {
        left,
        top,
        width: right - left + 1,
        height: bottom - top + 1,
    })
}

/// A pixel of the image.
fn is_black(words: &[u64], width: u32, place: Pixel) -> bool {
    let word = words[place.y as usize * row_words_of(width) + (place.x / 64) as usize];
    word >> (place.x % 64) & 1 == 1
}
