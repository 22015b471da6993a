//! The checks that refuse an input: the judge's own decisions.

use crops::{
    GREATEST_SIDE, HEADER_BYTES, LEAST_SIDE, MOST_WORDS, WORD_BITS, dimensions, image_words,
    row_bytes, row_words, unpack, words_of,
};

/// Answers 1 to 5 for a file, or 0.
pub fn check_file(file: &[u8]) -> u32 {
    let Some((width, height)) = dimensions(file) else {
        return 1;
    };
    let refusal = check_dimensions(width, height);
    if refusal != 0 {
        refusal
    } else if file.len() != HEADER_BYTES + row_bytes(width) * height as usize {
        4
    } else if file_padding_set(file, width) {
        5
    } else {
        0
    }
}

/// Unpacks a file into as many words as its image has; answers 1 to 6, or 0.
pub fn unpack_file(file: &[u8], words: &mut [u64]) -> u32 {
    let refusal = check_file(file);
    if refusal != 0 {
        return refusal;
    }
    if words.len() != words_of(file) {
        return 6;
    }
    unpack(file, words);
    0
}

/// Answers 2 to 5 for an unpacked image, or 0.
pub fn check_words(words: &[u64], width: u32, height: u32) -> u32 {
    let refusal = check_dimensions(width, height);
    if refusal != 0 {
        refusal
    } else if words.len() != image_words(width, height) {
        4
    } else if word_padding_set(words, width) {
        5
    } else {
        0
    }
}

/// Answers 2 and 3, or 0.
fn check_dimensions(width: u32, height: u32) -> u32 {
    let sides = LEAST_SIDE..=GREATEST_SIDE;
    if !sides.contains(&width) || !sides.contains(&height) {
        2
    } else if image_words(width, height) > MOST_WORDS {
        3
    } else {
        0
    }
}

/// Whether a bit after a row's last pixel is 1 in a file of the right length.
fn file_padding_set(file: &[u8], width: u32) -> bool {
    let bytes = row_bytes(width);
    let padding = 8 * bytes - width as usize;
    let mask = (1u8 << padding) - 1;
    file[HEADER_BYTES..]
        .chunks_exact(bytes)
        .any(|row| row[bytes - 1] & mask != 0)
}

/// Whether a bit after a row's last pixel is 1 in an unpacked image of the right length.
fn word_padding_set(words: &[u64], width: u32) -> bool {
    let row = row_words(width);
    let used = width as usize - WORD_BITS * (row - 1);
    let mask = !(u64::MAX >> (WORD_BITS - used));
    words
        .chunks_exact(row)
        .any(|words| words[row - 1] & mask != 0)
}

#[cfg(test)]
mod tests {
    use super::*;
    use crops::{pack, set_pixel};

    /// An image whose pixels come from a small generator.
    fn noise(width: u32, height: u32) -> Vec<u64> {
        let mut words = vec![0; image_words(width, height)];
        let mut state = u64::from(width) << 32 | u64::from(height);
        for y in 0..height {
            for x in 0..width {
                state = state
                    .wrapping_mul(6364136223846793005)
                    .wrapping_add(1442695040888963407);
                if state >> 63 != 0 {
                    set_pixel(&mut words, width, x, y);
                }
            }
        }
        words
    }

    #[test]
    fn refusals_in_order() {
        let good = pack(&noise(33, 33), 33, 33);
        assert_eq!(check_file(&[]), 1);
        assert_eq!(check_file(&[0x20, 0x21, 0x02, 0x10]), 1);
        assert_eq!(check_file(&[0x10, 0x21, 0x02, 0x11]), 1);
        assert_eq!(check_file(&[0x10, 0x20, 0x02, 0x10]), 2);
        assert_eq!(check_file(&[0x18, 0x01, 0x80, 0x10]), 2);
        assert_eq!(check_file(&[0x18, 0x00, 0x80, 0x00]), 3);
        assert_eq!(check_file(&good[..good.len() - 1]), 4);
        assert_eq!(check_file(&[good.as_slice(), &[0]].concat()), 4);
        let mut padded = good.clone();
        padded[HEADER_BYTES + 4] |= 1;
        assert_eq!(check_file(&padded), 5);
        assert_eq!(check_file(&good), 0);
    }

    #[test]
    fn refusals_of_words() {
        let words = noise(65, 33);
        assert_eq!(check_words(&words, 32, 33), 2);
        assert_eq!(check_words(&words, 65, u32::MAX), 2);
        assert_eq!(check_words(&words, 2048, 251), 3);
        assert_eq!(check_words(&words[1..], 65, 33), 4);
        let mut padded = words.clone();
        padded[1] |= 2;
        assert_eq!(check_words(&padded, 65, 33), 5);
        assert_eq!(check_words(&words, 65, 33), 0);
    }
}
