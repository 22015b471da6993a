//! A crop as its pixels: from a crop file's bytes and back.
use crate::run::refusal;
use crops::{GREATEST_SIDE, HEADER_BYTES, LEAST_SIDE, MOST_WORDS};

/// An image that the checks accept.
#[derive(Clone)]
pub struct Image {
    pub width: u32,
    pub height: u32,
    words: Vec<u64>,
}

impl Image {
    /// The image of a file, or in words why it is refused.
    pub fn of_file(file: &[u8]) -> Result<Self, String> {
        let number = bullseye::check(file);
        match crops::dimensions(file).filter(|_| number == 0) {
            None => Err(crops::answer(number).map_or_else(|unknown| unknown.to_string(), refusal)),
            Some((width, height)) => Ok(Image {
                width,
                height,
                words: crops::unpacked(file),
            }),
        }
    }

    /// A white image, or in words why there is none of these dimensions.
    pub fn white(width: usize, height: usize) -> Result<Self, String> {
        let [width, height] = [(width, "width"), (height, "height")].map(|(side, name)| {
            let number = u32::try_from(side).unwrap_or(u32::MAX);
            match (LEAST_SIDE..=GREATEST_SIDE).contains(&number) {
                true => Ok(number),
                false => Err(format!(
                    "{name} {side} is outside {LEAST_SIDE} to {GREATEST_SIDE}"
                )),
            }
        });
        let (width, height) = (width?, height?);
        let words = crops::image_words(width, height);
        match words > MOST_WORDS {
            true => Err(format!(
                "{width} by {height} pixels are {words} words, more than {MOST_WORDS}"
            )),
            false => Ok(Image {
                width,
                height,
                words: vec![0; words],
            }),
        }
    }

    /// The crop file.
    pub fn file(&self) -> Vec<u8> {
        crops::pack(&self.words, self.width, self.height)
    }

    /// The rows as a crop file has them, and a portable bitmap too.
    pub fn rows(&self) -> Vec<u8> {
        self.file().split_off(HEADER_BYTES)
    }

    /// Rows of words, as a search takes them.
    pub fn words(&self) -> &[u64] {
        &self.words
    }

    pub fn words_mut(&mut self) -> &mut [u64] {
        &mut self.words
    }

    pub fn is_black(&self, x: u32, y: u32) -> bool {
        crops::pixel(&self.words, self.width, x, y)
    }

    pub fn set(&mut self, x: u32, y: u32, black: bool) {
        match black {
            true => crops::set_pixel(&mut self.words, self.width, x, y),
            false => crops::clear_pixel(&mut self.words, self.width, x, y),
        }
    }
}
