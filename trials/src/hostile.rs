//! Calls that are mostly refused: each condition on the image and on the buffers is spoilt by itself or with others.

use crops::{CELL_ROWS, GREATEST_SIDE, LEAST_SIDE, MOST_WORDS, WORD_BITS, row_bytes, row_words};
use oracle::RECORD_WORDS;
use oracle::generate::{CELLS_SALT, Random};

use crate::call::{Asked, Call, Input};

/// Sides next to a limit, and the largest that a header holds.
const SIDES: [u32; 14] = [
    0, 1, 31, 32, 33, 34, 63, 64, 65, 2047, 2048, 2049, 4094, 4095,
];

/// Sides that only a caller with words can name.
const LARGE: [u32; 10] = [
    4096,
    65_535,
    65_536,
    1 << 26,
    (1 << 26) + 33,
    1 << 31,
    (1 << 31) + 33,
    u32::MAX - 63,
    u32::MAX - 1,
    u32::MAX,
];

/// Bytes of a file that is longer than any accepted one.
const LONG_FILE: usize = 70_000;

/// Centres of small eyes that fit the smallest image: one, three, and three that are all set aside.
const EYES: [&[(usize, usize)]; 3] = [
    &[(12, 12)],
    &[(12, 12), (12, 24), (20, 12)],
    &[(13, 6), (13, 18), (12, 26)],
];

/// Names for the number of conditions that were spoilt.
pub const SPOILT: [&str; 8] = ["0", "1", "2", "3", "4", "5", "6", "7"];

/// Makes calls; the image it holds is white between them.
pub struct Caller {
    file: Vec<u8>,
    words: Vec<u64>,
    random: Random,
    /// Whether the call asks for cells, not for a search.
    cells: bool,
    /// A condition is spoilt once in so many.
    rarity: u32,
    spoilt: usize,
}

impl Default for Caller {
    fn default() -> Self {
        Caller {
            file: vec![0; LONG_FILE],
            words: vec![0; LONG_FILE / 8],
            random: Random::new(0),
            cells: false,
            rarity: 1,
            spoilt: 0,
        }
    }
}

impl Caller {
    /// Hands the search of a seed to `call`, with the number of conditions that were spoilt.
    pub fn with_search<T>(&mut self, seed: u64, call: impl FnOnce(&Call, usize) -> T) -> T {
        self.cells = false;
        self.with_call(seed, call)
    }

    /// The same with the cells of a seed.
    pub fn with_cells<T>(&mut self, seed: u64, call: impl FnOnce(&Call, usize) -> T) -> T {
        self.cells = true;
        self.with_call(seed ^ CELLS_SALT, call)
    }

    fn with_call<T>(&mut self, seed: u64, call: impl FnOnce(&Call, usize) -> T) -> T {
        self.random = Random::new(seed);
        self.rarity = self.random.pick(&[2, 4, 8, 32]);
        self.spoilt = 0;
        if self.random.one_in(2) {
            self.with_file(call)
        } else {
            self.with_words(call)
        }
    }

    fn spoil(&mut self) -> bool {
        if !self.random.one_in(self.rarity) {
            return false;
        }
        self.spoilt += 1;
        true
    }

    fn with_file<T>(&mut self, call: impl FnOnce(&Call, usize) -> T) -> T {
        let (width, height) = self.sides(&SIDES);
        let needed = 4 + row_bytes(width) * height as usize;
        let length = self.length(needed, row_bytes(width)).min(LONG_FILE);
        let header = self.header(width, height);
        self.file[..4].copy_from_slice(&header);
        let black = self.file_pixels(width, height, length);
        let needed = row_words(width) * height as usize;
        let words = self.buffer(needed);
        let asked = self.asked(needed);
        let input = Input::File(&self.file[..length]);
        let result = call(&lent(input, words, asked), self.spoilt);
        for (place, _) in black {
            self.file[place] = 0;
        }
        result
    }

    fn with_words<T>(&mut self, call: impl FnOnce(&Call, usize) -> T) -> T {
        let (width, height) = self.word_sides();
        let row = row_words(width);
        let needed = row.saturating_mul(height as usize);
        let length = self.length(needed, row).min(self.words.len());
        let black = self.word_pixels(width, height, length);
        let asked = self.asked(needed);
        let input = Input::Words(&self.words[..length], width, height);
        let result = call(&lent(input, 0, asked), self.spoilt);
        for (place, _) in black {
            self.words[place] = 0;
        }
        result
    }

    /// Sides that are accepted and mostly small, or some of the given ones.
    fn sides(&mut self, wrong: &[u32]) -> (u32, u32) {
        if self.spoil() {
            return match self.random.below(4) {
                0 => (self.random.pick(wrong), self.small_side()),
                1 => (self.small_side(), self.random.pick(wrong)),
                2 => (self.random.pick(wrong), self.random.pick(wrong)),
                _ => self.about_most_words(),
            };
        }
        match self.random.below(64) {
            0 => (GREATEST_SIDE, 250),
            1 => (self.random.pick(&[2047, 2048]), LEAST_SIDE),
            2 => (LEAST_SIDE, GREATEST_SIDE),
            _ => (self.small_side(), self.small_side()),
        }
    }

    fn word_sides(&mut self) -> (u32, u32) {
        if self.random.one_in(4) {
            self.sides(&LARGE)
        } else {
            self.sides(&SIDES)
        }
    }

    fn small_side(&mut self) -> u32 {
        self.random
            .pick(&[33, 33, 33, 34, 39, 40, 41, 63, 64, 65, 72, 129])
    }

    /// Row words times height next to the most words.
    fn about_most_words(&mut self) -> (u32, u32) {
        let row = self.random.between(4, 32) as u32;
        let width = WORD_BITS as u32 * row - self.random.below(WORD_BITS as u32);
        (width, MOST_WORDS as u32 / row + self.random.below(3))
    }

    /// The needed length, or one near it, near nothing, or beyond all.
    fn length(&mut self, needed: usize, row: usize) -> usize {
        if !self.spoil() {
            return needed;
        }
        let some = self.random.below(10) as usize;
        match self.random.below(8) {
            0 => some,
            1 => needed.saturating_sub(row),
            2 => needed.saturating_add(row),
            3 | 4 => needed.saturating_sub(some),
            5 | 6 => needed.saturating_add(some),
            _ => crops::LONGEST + some,
        }
    }

    /// A header of these sides; spoilt, of another kind or with other last bits, or any.
    fn header(&mut self, width: u32, height: u32) -> [u8; 4] {
        let mut header = 1 << 28 | (width & 0xfff) << 16 | (height & 0xfff) << 4;
        if self.spoil() {
            match self.random.below(3) {
                0 => header = header & !0 >> 4 | self.random.below(16) << 28,
                1 => header |= self.random.below(16),
                _ => header = self.random.next() as u32,
            }
        }
        header.to_be_bytes()
    }

    /// Sets some pixels, and padding bits if that is spoilt; gives the places of the bytes.
    fn file_pixels(&mut self, width: u32, height: u32, length: usize) -> Vec<(usize, u8)> {
        let row = row_bytes(width);
        let mut black: Vec<(usize, u8)> = (self.eye(width, height).into_iter())
            .map(|(x, y)| (4 + y * row + x / 8, 0x80 >> (x % 8)))
            .collect();
        let spare = 8 * row - width as usize;
        if spare > 0 && height > 0 && self.spoil() {
            let y = self.some_row(height);
            let bit = 1 << self.random.below(spare as u32);
            black.push((4 + y * row + row - 1, bit));
        }
        black.retain(|&(place, _)| place < length);
        for &(place, bit) in &black {
            self.file[place] |= bit;
        }
        black
    }

    /// The same in words.
    fn word_pixels(&mut self, width: u32, height: u32, length: usize) -> Vec<(usize, u64)> {
        let row = row_words(width);
        let mut black: Vec<(usize, u64)> = (self.eye(width, height).into_iter())
            .map(|(x, y)| (y * row + x / WORD_BITS, 1 << (x % WORD_BITS)))
            .collect();
        let spare = WORD_BITS * row - width as usize;
        if spare > 0 && height > 0 && self.spoil() {
            let y = self.some_row(height);
            let bit = 1 << (WORD_BITS - 1 - self.random.below(spare as u32) as usize);
            black.push((y.saturating_mul(row).saturating_add(row - 1), bit));
        }
        black.retain(|&(place, _)| place < length);
        for &(place, bit) in &black {
            self.words[place] |= bit;
        }
        black
    }

    fn some_row(&mut self, height: u32) -> usize {
        match self.random.below(3) {
            0 => 0,
            1 => height as usize - 1,
            _ => self.random.below(height) as usize,
        }
    }

    /// Pixels of small eyes, where there is room; mostly none.
    fn eye(&mut self, width: u32, height: u32) -> Vec<(usize, usize)> {
        let sides = LEAST_SIDE..=GREATEST_SIDE;
        let fits = sides.contains(&width) && sides.contains(&height);
        if !fits || !self.random.one_in(4) {
            return Vec::new();
        }
        let eyes = self.random.pick(&EYES);
        let mut pixels = Vec::with_capacity(12 * eyes.len());
        for &(x, y) in eyes {
            for arm in [1, 3, 5] {
                pixels.extend([(x - arm, y), (x + arm, y), (x, y - arm), (x, y + arm)]);
            }
        }
        pixels
    }

    /// What is asked, with lengths of its buffers.
    fn asked(&mut self, needed: usize) -> Asked {
        if self.cells {
            let cells = self.cells_length();
            return Asked::Cells { cells };
        }
        let records = if self.spoil() {
            self.random.below(RECORD_WORDS as u32) as usize
        } else {
            self.random.pick(&[40, 40, 41, 79, 80, 119, 120, 1480])
        };
        Asked::Search {
            records,
            marks: self.buffer(needed),
            ellipse: self.random.one_in(2),
        }
    }

    /// A word for each row of cells, or another length up to twice as many, or beyond.
    fn cells_length(&mut self) -> usize {
        if !self.spoil() {
            return CELL_ROWS;
        }
        match self.random.below(4) {
            0 => self.random.pick(&[0, 1, 32, 34, 40, 1320]),
            _ => self.random.below(2 * CELL_ROWS as u32 + 1) as usize,
        }
    }

    /// The needed length of a buffer, or one near it or near nothing; never much more than an image may need.
    fn buffer(&mut self, needed: usize) -> usize {
        let needed = needed.min(MOST_WORDS + 1);
        if !self.spoil() {
            return needed;
        }
        let some = self.random.below(9) as usize;
        match self.random.below(4) {
            0 => some,
            1 => needed.saturating_sub(some),
            2 => needed + some,
            _ => 2 * needed,
        }
    }
}

/// A call whose buffers begin at a place that varies with their lengths.
fn lent(input: Input<'_>, words: usize, asked: Asked) -> Call<'_> {
    let more = match asked {
        Asked::Search { records, marks, .. } => records + marks,
        Asked::Cells { cells } => cells,
    };
    Call {
        input,
        words,
        asked,
        shift: (words + more) % 8,
    }
}
