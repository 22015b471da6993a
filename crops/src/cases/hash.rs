//! FNV-1a, 64 bit.

const BASIS: u64 = 0xcbf2_9ce4_8422_2325;
const PRIME: u64 = 0x0100_0000_01b3;

/// The hash of some bytes.
pub fn hash(bytes: impl IntoIterator<Item = u8>) -> u64 {
    let step = |hash: u64, byte: u8| (hash ^ u64::from(byte)).wrapping_mul(PRIME);
    bytes.into_iter().fold(BASIS, step)
}

/// The hash of words, each little-endian.
pub fn hash_u32(words: &[u32]) -> u64 {
    hash(words.iter().flat_map(|word| word.to_le_bytes()))
}

/// The same of longer words.
pub fn hash_u64(words: &[u64]) -> u64 {
    hash(words.iter().flat_map(|word| word.to_le_bytes()))
}

#[cfg(test)]
mod tests {
    use super::*;

    #[test]
    fn known_hashes() {
        assert_eq!(hash([]), BASIS);
        assert_eq!(hash(*b"a"), 0xaf63_dc4c_8601_ec8c);
        assert_eq!(hash(*b"foobar"), 0x8594_4171_f739_67e8);
        assert_eq!(hash_u32(&[0x0403_0201]), hash([1, 2, 3, 4]));
        assert_eq!(hash_u64(&[1 << 56]), hash([0, 0, 0, 0, 0, 0, 0, 1]));
    }
}
