//! The crop file: its header, packing and unpacking, and an image's pixels.

use crate::{HEADER_BYTES, WORD_BITS};

/// Words of one row.
pub fn row_words(width: u32) -> usize {
    (width as usize).div_ceil(WORD_BITS)
}

/// Bytes of one row in a file.
pub fn row_bytes(width: u32) -> usize {
    (width as usize).div_ceil(8)
}

/// Words of an image.
pub fn image_words(width: u32, height: u32) -> usize {
    row_words(width) * height as usize
}

/// Whether a pixel of an unpacked image is black.
pub fn pixel(words: &[u64], width: u32, x: u32, y: u32) -> bool {
    let (x, y) = (x as usize, y as usize);
    words[y * row_words(width) + x / WORD_BITS] >> (x % WORD_BITS) & 1 != 0
}

/// Makes a pixel of an unpacked image black.
pub fn set_pixel(words: &mut [u64], width: u32, x: u32, y: u32) {
    let (x, y) = (x as usize, y as usize);
    words[y * row_words(width) + x / WORD_BITS] |= 1 << (x % WORD_BITS);
}

/// Makes a pixel of an unpacked image white.
pub fn clear_pixel(words: &mut [u64], width: u32, x: u32, y: u32) {
    let (x, y) = (x as usize, y as usize);
    words[y * row_words(width) + x / WORD_BITS] &= !(1 << (x % WORD_BITS));
}

/// The bits of a file's first bytes.
fn header(file: &[u8]) -> Option<u32> {
    file.first_chunk::<HEADER_BYTES>()
        .map(|bytes| u32::from_be_bytes(*bytes))
}

/// Width and height that stand in a header's bits.
fn sides(header: u32) -> (u32, u32) {
    (header >> 16 & 0xfff, header >> 4 & 0xfff)
}

/// Width and height of a file's header, if the header is one.
pub fn dimensions(file: &[u8]) -> Option<(u32, u32)> {
    let header = header(file).filter(|header| header >> 28 == 1 && header & 0xf == 0)?;
    Some(sides(header))
}

/// The words that the dimensions in a file's first bytes need, whatever else stands there; 0 where there are not as many bytes.
pub fn words_of(file: &[u8]) -> usize {
    let (width, height) = header(file).map(sides).unwrap_or_default();
    image_words(width, height)
}

/// The words of a file that no check refuses.
pub fn unpacked(file: &[u8]) -> Vec<u64> {
    let mut words = vec![0; words_of(file)];
    unpack(file, &mut words);
    words
}

/// Unpacks a file that no check refuses into as many words as the image has.
pub fn unpack(file: &[u8], words: &mut [u64]) {
    let Some((width, _)) = dimensions(file) else {
        return;
    };
    let rows = file[HEADER_BYTES..].chunks_exact(row_bytes(width));
    for (row, bytes) in words.chunks_exact_mut(row_words(width)).zip(rows) {
        for (word, eight) in row.iter_mut().zip(bytes.chunks(8)) {
            *word = eight.iter().enumerate().fold(0, |word, (place, byte)| {
                word | u64::from(byte.reverse_bits()) << (8 * place)
            });
        }
    }
}

/// The file of an unpacked image. Dimensions are cut to the header's twelve bits, rows to the words given.
pub fn pack(words: &[u64], width: u32, height: u32) -> Vec<u8> {
    let header = 1 << 28 | (width & 0xfff) << 16 | (height & 0xfff) << 4;
    let mut file = header.to_be_bytes().to_vec();
    for row in words.chunks_exact(row_words(width).max(1)) {
        let bytes = row.iter().flat_map(|word| word.to_le_bytes());
        file.extend(bytes.take(row_bytes(width)).map(u8::reverse_bits));
    }
    file
}

#[cfg(test)]
mod tests {
    use super::*;

    /// An image whose pixels come from a small generator.
    fn noise(width: u32, height: u32) -> Vec<u64> {
        let mut words = vec![0; image_words(width, height)];
        let mut state = u64::from(width) << 32 | u64::from(height);
        for y in 0..height {
            for x in 0..width {
                state = state
                    .wrapping_mul(6364136223846793005)
                    .wrapping_add(1442695040888963407);
                if state >> 63 != 0 {
                    set_pixel(&mut words, width, x, y);
                }
            }
        }
        words
    }

    #[test]
    fn unpacking_reverses_packing() {
        for width in [33, 40, 63, 64, 65, 127, 128, 129, 130] {
            let words = noise(width, 35);
            let file = pack(&words, width, 35);
            assert_eq!(dimensions(&file), Some((width, 35)));
            assert_eq!(words_of(&file), words.len());
            assert_eq!(unpacked(&file), words);
            let mut over = vec![!0; words.len()];
            unpack(&file, &mut over);
            assert_eq!(over, words);
        }
    }
}
