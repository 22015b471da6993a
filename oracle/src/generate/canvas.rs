//! An image that is being drawn.

use super::random::Random;
use crops::{MOST_WORDS, row_words};

#[derive(Clone, Debug)]
pub struct Canvas {
    pub width: u32,
    pub height: u32,
    row: usize,
    pub words: Vec<u64>,
}

impl Canvas {
    /// White; the sides are brought into the limits, the height cut to the most words.
    pub fn new(width: i32, height: i32) -> Self {
        let width = width.clamp(33, 2048) as u32;
        let row = row_words(width);
        let height = (height.clamp(33, 2048) as usize).min(MOST_WORDS / row);
        Canvas {
            width,
            height: height as u32,
            row,
            words: vec![0; row * height],
        }
    }

    fn inside(&self, x: i32, y: i32) -> bool {
        x >= 0 && y >= 0 && (x as u32) < self.width && (y as u32) < self.height
    }

    /// The colour, white outside the image.
    pub fn get(&self, x: i32, y: i32) -> bool {
        self.inside(x, y)
            && self.words[y as usize * self.row + x as usize / 64] >> (x % 64) & 1 == 1
    }

    /// Paint a pixel; outside the image nothing happens.
    pub fn set(&mut self, x: i32, y: i32, black: bool) {
        if self.inside(x, y) {
            let word = &mut self.words[y as usize * self.row + x as usize / 64];
            *word = *word & !(1 << (x % 64)) | (black as u64) << (x % 64);
        }
    }

    /// The stored bit that a walk looks at, padding and next row included.
    pub fn stored(&self, x: u32, y: u32) -> Option<bool> {
        let word = y as usize * self.row + x as usize / 64;
        self.words.get(word).map(|w| w >> (x % 64) & 1 == 1)
    }

    /// Ones of the pixels of word `k` of a row.
    fn mask(&self, k: usize) -> u64 {
        match self.width as usize - 64 * k {
            left if left < 64 => (1 << left) - 1,
            _ => !0,
        }
    }

    /// Replace every word by a function of it, keeping the padding white.
    pub fn each_word(&mut self, mut f: impl FnMut(u64) -> u64) {
        for at in 0..self.words.len() {
            self.words[at] = f(self.words[at]) & self.mask(at % self.row);
        }
    }

    pub fn fill(&mut self, black: bool) {
        self.each_word(|_| if black { !0 } else { 0 });
    }

    /// Independent pixels, black with probability `density`/65536.
    pub fn noise(&mut self, random: &mut Random, density: u32) {
        self.each_word(|_| random.bits(density));
    }

    /// Invert each pixel with probability `density`/65536.
    pub fn flip(&mut self, random: &mut Random, density: u32) {
        if density > 0 {
            self.each_word(|w| w ^ random.bits(density));
        }
    }

    /// Paint a rectangle, corners included.
    pub fn block(&mut self, left: i32, top: i32, right: i32, bottom: i32, black: bool) {
        for y in top.max(0)..=bottom.min(self.height as i32 - 1) {
            for x in left.max(0)..=right.min(self.width as i32 - 1) {
                self.set(x, y, black);
            }
        }
    }

    pub fn copy_row(&mut self, from: usize, to: usize) {
        self.words
            .copy_within(from * self.row..(from + 1) * self.row, to * self.row);
    }
}
