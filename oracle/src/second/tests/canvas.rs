//! Images that the tests paint.

use crate::Report;
use crate::second::file::{image_words_of, row_bytes_of, row_words_of};
use crate::second::image::{BLACK, Image, Pixel, pixel};
use crate::second::search::search_words;
use crate::second::sweep::Candidate;

/// An image's words, marks and sides for one test.
pub struct Canvas {
    pub words: Vec<u64>,
    pub marks: Vec<u64>,
    pub width: u32,
    pub height: u32,
}

impl Canvas {
    pub fn white(width: u32, height: u32) -> Canvas {
        let length = image_words_of(width, height);
        Canvas {
            words: vec![0; length],
            marks: vec![0; length],
            width,
            height,
        }
    }

    pub fn paint(&mut self, x: u32, y: u32, colour: bool) {
        let index = y as usize * row_words_of(self.width) + (x / 64) as usize;
        let bit = 1 << (x % 64);
        if colour == BLACK {
            self.words[index] |= bit;
        } else {
            self.words[index] &= !bit;
        }
    }

    pub fn image(&mut self) -> Image<'_> {
        Image {
            words: &self.words,
            marks: &mut self.marks,
            width: self.width,
            height: self.height,
        }
    }

    pub fn paint_rings(&mut self, center: Pixel, module: f64) {
        for y in 0..self.height {
            for x in 0..self.width {
                let dx = f64::from(x) - f64::from(center.x);
                let dy = f64::from(y) - f64::from(center.y);
                let ring = ((dx * dx + dy * dy).sqrt() / module) as u32;
                if ring <= 5 {
                    self.paint(x, y, ring % 2 == 1);
                }
            }
        }
    }

    pub fn paint_blob(&mut self, middle: Pixel, colour: bool) {
        for y in middle.y - 1..=middle.y + 1 {
            for x in middle.x - 1..=middle.x + 1 {
                self.paint(x, y, colour);
            }
        }
    }

    pub fn search(&mut self, records: &mut [u32]) -> Report {
        self.search_with(records, false)
    }

    pub fn search_with(&mut self, records: &mut [u32], ellipse: bool) -> Report {
        search_words(
            &self.words,
            self.width,
            self.height,
            records,
            &mut self.marks,
            ellipse,
        )
    }

    pub fn file(&self) -> Vec<u8> {
        let mut file = header_bytes(1, self.width, self.height, 0);
        for row in self.words.chunks(row_words_of(self.width)) {
            for byte in 0..row_bytes_of(self.width) {
                file.push(((row[byte / 8] >> (8 * (byte % 8))) as u8).reverse_bits());
            }
        }
        file
    }
}

pub fn header_bytes(kind: u32, width: u32, height: u32, last_bits: u32) -> Vec<u8> {
    let bits = kind << 28 | width << 16 | height << 4 | last_bits;
    bits.to_be_bytes().to_vec()
}

pub fn candidate_at(x: u32, y: u32) -> Candidate {
    Candidate {
        center: pixel(x, y),
        radius: 6,
        row_runs: [1; 11],
        column_runs: [1; 11],
    }
}
