//! The crop file: its header, the numbers that refuse an image, and unpacking.

pub(super) const HEADER_BYTES: usize = 4;
const SMALLEST_SIDE: u32 = 33;
const LARGEST_SIDE: u32 = 2048;
const MOST_WORDS: usize = 8000;

/// The fields of a file's first four bytes.
pub(super) struct Header {
    kind: u8,
    pub(super) width: u32,
    pub(super) height: u32,
    last_bits: u8,
}

/// The file's refusal: numbers 1 to 5, or 0.
pub fn check(file: &[u8]) -> u32 {
    let Some(header) = read_header(file) else {
        return 1;
    };
    if header.kind != 1 {
        return 1;
    }
    if header.last_bits != 0 {
        return 1;
    }
    let refusal = check_dimensions(header.width, header.height);
    if refusal != 0 {
        return refusal;
    }
    let row_bytes = row_bytes_of(header.width);
    if file.len() != HEADER_BYTES + row_bytes * header.height as usize {
        return 4;
    }
    if file_padding_is_set(&file[HEADER_BYTES..], header.width) {
        return 5;
    }
    0
}

/// The header's fields, from the top bits down; none if it is not whole.
pub(super) fn read_header(file: &[u8]) -> Option<Header> {
    if file.len() < HEADER_BYTES {
        return None;
    }
    let bits = u32::from_be_bytes([file[0], file[1], file[2], file[3]]);
    Some(Header {
        kind: (bits >> 28) as u8,
        width: (bits >> 16) & 0xFFF,
        height: (bits >> 4) & 0xFFF,
        last_bits: (bits & 0xF) as u8,
    })
}

/// Numbers 2 and 3, or 0.
fn check_dimensions(width: u32, height: u32) -> u32 {
    if !(SMALLEST_SIDE..=LARGEST_SIDE).contains(&width) {
        return 2;
    }
    if !(SMALLEST_SIDE..=LARGEST_SIDE).contains(&height) {
        return 2;
    }
    if image_words_of(width, height) > MOST_WORDS {
        return 3;
    }
    0
}

/// Numbers 2 to 5 of an image given as words, or 0.
pub(super) fn check_words(words: &[u64], width: u32, height: u32) -> u32 {
    let refusal = check_dimensions(width, height);
    if refusal != 0 {
        return refusal;
    }
    if words.len() != image_words_of(width, height) {
        return 4;
    }
    if word_padding_is_set(words, width) {
        return 5;
    }
    0
}

/// Bytes of a row in the file.
pub(super) fn row_bytes_of(width: u32) -> usize {
    width.div_ceil(8) as usize
}

/// Words of a row in memory.
pub(super) fn row_words_of(width: u32) -> usize {
    width.div_ceil(64) as usize
}

/// Words of the whole image.
pub(super) fn image_words_of(width: u32, height: u32) -> usize {
    row_words_of(width) * height as usize
}

/// Number 5 for a file: a one bit among those that fill up a row's last byte.
fn file_padding_is_set(rows: &[u8], width: u32) -> bool {
    for row in rows.chunks_exact(row_bytes_of(width)) {
        for column in width..row.len() as u32 * 8 {
            if file_bit(row, column) {
                return true;
            }
        }
    }
    false
}

/// Number 5 for words: the bits of each row from width on.
fn word_padding_is_set(words: &[u64], width: u32) -> bool {
    for row in words.chunks_exact(row_words_of(width)) {
        for column in width..row.len() as u32 * 64 {
            let word = row[(column / 64) as usize];
            if word >> (column % 64) & 1 == 1 {
                return true;
            }
        }
    }
    false
}

/// A pixel of a row of the file: the top bit of a byte is the leftmost.
fn file_bit(row: &[u8], column: u32) -> bool {
    let byte = row[(column / 8) as usize];
    byte >> (7 - column % 8) & 1 == 1
}

/// The file's rows as words: a column is a bit, the lowest leftmost.
pub(super) fn unpack(rows: &[u8], width: u32, words: &mut [u64]) {
    words.fill(0);
    let file_rows = rows.chunks_exact(row_bytes_of(width));
    let word_rows = words.chunks_exact_mut(row_words_of(width));
    for (file_row, word_row) in file_rows.zip(word_rows) {
        for column in 0..width {
            if file_bit(file_row, column) {
                word_row[(column / 64) as usize] |= 1 << (column % 64);
            }
        }
    }
}
