//! Compares `check` and `unpack` with a judge on valid, damaged and random files, around each boundary of "Crop file and answer numbers".
use bullseye::{check, unpack};

/// The judge's number; the second reading gives the same.
fn judge(file: &[u8]) -> u32 {
    let number = oracle::crop::check_file(file);
    assert_eq!(number, oracle::second::check(file));
    number
}

/// Width and height of a file with a whole header.
fn dimensions(file: &[u8]) -> (usize, usize) {
    let head = u32::from_be_bytes([file[0], file[1], file[2], file[3]]);
    ((head >> 16 & 0xfff) as usize, (head >> 4 & 0xfff) as usize)
}

/// A small generator of numbers (xorshift).
struct Numbers(u64);

impl Numbers {
    fn next(&mut self) -> u64 {
        self.0 ^= self.0 << 13;
        self.0 ^= self.0 >> 7;
        self.0 ^= self.0 << 17;
        self.0
    }

    fn below(&mut self, n: usize) -> usize {
        (self.next() % n as u64) as usize
    }

    fn bytes(&mut self, n: usize) -> Vec<u8> {
        (0..n).map(|_| self.next() as u8).collect()
    }
}

fn header(kind: u32, width: u32, height: u32, last: u32) -> [u8; 4] {
    (kind << 28 | width << 16 | height << 4 | last).to_be_bytes()
}

/// A file with random pixels and clear padding.
fn crop(numbers: &mut Numbers, width: usize, height: usize) -> Vec<u8> {
    let mut file = header(1, width as u32, height as u32, 0).to_vec();
    let row = width.div_ceil(8);
    file.extend(numbers.bytes(row * height));
    for last in file[4..].iter_mut().skip(row - 1).step_by(row) {
        *last &= 0xffu8 << (row * 8 - width);
    }
    file
}

/// One change, which may leave the file accepted.
fn damage(numbers: &mut Numbers, file: &mut Vec<u8>) {
    let (width, height) = dimensions(file);
    let any = numbers.below(file.len());
    match numbers.below(8) {
        0 => file.truncate(any),
        1 => file.truncate(file.len() - 1),
        2 => file.push(numbers.next() as u8),
        3 => file.extend(numbers.bytes(9)),
        4 => file[any % 4] = numbers.next() as u8,
        5 => file[any % 4] ^= 1 << numbers.below(8),
        6 => file[any] ^= 1 << numbers.below(8),
        _ => {
            let last = 3 + width.div_ceil(8) * (1 + numbers.below(height.max(1)));
            if let Some(byte) = file.get_mut(last) {
                *byte ^= 1 << numbers.below(8);
            }
        }
    }
}

/// Compares one file, and counts its number.
fn compare(file: &[u8], seen: &mut [usize; 6]) {
    let number = judge(file);
    assert_eq!(
        check(file),
        number,
        "length {}, start {:02x?}",
        file.len(),
        &file[..file.len().min(8)]
    );
    seen[number as usize] += 1;
    let needed = match number {
        0 => {
            let (width, height) = dimensions(file);
            width.div_ceil(64) * height
        }
        _ => 3,
    };
    for length in [needed, needed + 1, needed - 1] {
        let mut words = vec![PATTERN; length];
        let mut expected = words.clone();
        let answer = match number {
            0 if length == needed => {
                crops::unpack(file, &mut expected);
                0
            }
            0 => 6,
            _ => number,
        };
        assert_eq!(unpack(file, &mut words), answer, "{length} words");
        assert_eq!(words, expected, "{length} words");
    }
}

/// What a word holds before it is lent.
const PATTERN: u64 = 0xa5a5_a5a5_a5a5_a5a5;

const EDGES: [u32; 16] = [
    0, 1, 31, 32, 33, 34, 63, 64, 65, 250, 251, 2047, 2048, 2049, 4094, 4095,
];

#[test]
fn short_files_and_header_bits() {
    let mut seen = [0; 6];
    for kind in 0..16 {
        for last in 0..16 {
            for (width, height) in [(33, 33), (32, 33), (33, 2049), (2048, 251), (0, 0)] {
                let mut file = header(kind, width, height, last).to_vec();
                file.extend([0; 4]);
                for length in 0..=8 {
                    compare(&file[..length], &mut seen);
                }
            }
        }
    }
    for first in 0..=255 {
        for second in 0..=255 {
            compare(&[first, second, 0x02, 0x10], &mut seen);
            compare(&[0x10, 0x21, first, second], &mut seen);
        }
    }
    assert!(seen[1] > 0 && seen[2] > 0 && seen[3] > 0 && seen[4] > 0);
}

#[test]
fn dimensions_at_their_edges() {
    let mut seen = [0; 6];
    let mut numbers = Numbers(1);
    for width in EDGES.into_iter().chain((0..4096).step_by(61)) {
        for height in EDGES {
            let needed = 4 + (width as usize).div_ceil(8) * height as usize;
            let mut file = header(1, width, height, 0).to_vec();
            file.resize(needed + 1, 0);
            for length in [needed - 1, needed, needed + 1] {
                compare(&file[..length], &mut seen);
            }
            let at = 4 + numbers.below(needed - 3);
            file[at] = 1 << numbers.below(8);
            compare(&file[..needed], &mut seen);
        }
    }
    assert!(seen.iter().all(|&count| count > 0), "{seen:?}");
}

#[test]
fn words_around_eight_thousand() {
    let mut seen = [0; 6];
    for row_words in 1..=32u32 {
        for width in [row_words * 64 - 63, row_words * 64 - 1, row_words * 64] {
            for height in [8000 / row_words - 1, 8000 / row_words, 8000 / row_words + 1] {
                let length = 4 + (width.div_ceil(8) * height.min(4095)) as usize;
                let mut file = header(1, width, height.min(4095), 0).to_vec();
                file.resize(length, 0);
                compare(&file, &mut seen);
            }
        }
    }
    assert!(seen[0] > 0 && seen[2] > 0 && seen[3] > 0);
}

#[test]
fn every_padding_bit() {
    let mut seen = [0; 6];
    let mut numbers = Numbers(2);
    for width in 33..=72 {
        let file = crop(&mut numbers, width, 33 + width % 5);
        compare(&file, &mut seen);
        let row = width.div_ceil(8);
        for last in (3 + row..file.len()).step_by(row) {
            for place in 0..8 {
                let mut damaged = file.clone();
                damaged[last] ^= 1 << place;
                compare(&damaged, &mut seen);
            }
        }
    }
    assert!(seen[0] > 0 && seen[5] > 0);
}

#[test]
fn valid_damaged_and_random_files() {
    let mut seen = [0; 6];
    let mut numbers = Numbers(3);
    for round in 0..100_000 {
        let (width, height) = match round % 50 {
            0 => (33 + numbers.below(2016), 33 + numbers.below(218)),
            _ => (33 + numbers.below(100), 33 + numbers.below(40)),
        };
        let mut file = crop(&mut numbers, width, height);
        for _ in 0..round % 4 {
            if file.len() > 4 {
                damage(&mut numbers, &mut file);
            }
        }
        compare(&file, &mut seen);
        let length = numbers.below(12);
        let mut random = numbers.bytes(length);
        compare(&random, &mut seen);
        if let Some(first) = random.first_mut() {
            *first = 0x10 | *first & 15;
            compare(&random, &mut seen);
        }
    }
    assert!(seen.iter().all(|&count| count > 100), "{seen:?}");
}

#[test]
fn generated_files() {
    let mut seen = [0; 6];
    for seed in 0..50_000 {
        compare(&oracle::generate::bad_file(seed), &mut seen);
    }
    assert!(seen.iter().all(|&count| count > 100), "{seen:?}");
}

#[test]
fn a_long_file_has_the_number_of_its_start() {
    let mut seen = [0; 6];
    for (width, height) in [(33, 33), (2048, 250), (2048, 251), (32, 33)] {
        let mut file = header(1, width, height, 0).to_vec();
        file.resize(crops::LONGEST + 9, 0);
        compare(&file, &mut seen);
        assert_eq!(check(&file), check(&file[..crops::LONGEST]));
    }
}
