//! Test images and crop files from a seed: the same ones on every machine.

mod aim;
mod angle;
mod canvas;
mod coverage;
mod draw;
mod ellipses;
mod families;
mod files;
mod filling;
mod half_disc;
mod painted;
mod random;
mod rectangles;
mod rows;
mod shares;
mod windows;

pub use coverage::Coverage;
pub use ellipses::near_ellipses;
pub use files::{BAD_FAMILIES, BadFile, bad, bad_file};
pub use random::Random;
pub use rectangles::{CellCoverage, rectangle_rows};
pub use rows::{RowSearch, row_search};
pub use windows::RowCoverage;

use canvas::Canvas;
use families::Made;
use shares::{Family, names, picked};

/// Parts the numbers of a seed's calls for cells from those of its crop and its search.
pub const CELLS_SALT: u64 = 0x63_656c_6c73;

/// An image, and the length in u32 words of a record buffer to search it with.
#[derive(Clone, Debug, PartialEq, Eq)]
pub struct Crop {
    pub family: &'static str,
    pub width: u32,
    pub height: u32,
    /// Rows of ceil(width/64) words; column c is bit c mod 64, padding zero.
    pub words: Vec<u64>,
    pub capacity_words: usize,
}

impl Crop {
    /// The crop file of the image.
    pub fn file(&self) -> Vec<u8> {
        crops::pack(&self.words, self.width, self.height)
    }
}

/// Parts the numbers of `filling` from those of `crop`.
const FILLING_SALT: u64 = 0x66_696c_6c69_6e67;

/// Parts the numbers of `ellipse` from those of `crop`.
const ELLIPSE_SALT: u64 = 0x65_6c6c_6970_7365;

/// The families of images that are searched.
const MAKERS: [Family<Made>; 13] = [
    ("noise", 11, families::noise),
    ("runs", 8, families::runs),
    ("sizes", 2, families::sizes),
    ("eyes", 10, families::eyes),
    ("lines", 9, families::lines),
    ("uneven", 7, families::uneven),
    ("symbols", 11, families::symbols),
    ("painted", 20, families::painted),
    ("lost", 7, families::lost),
    ("padding", 6, families::padding),
    ("capacity", 4, families::capacity),
    ("scattered", 4, families::scattered),
    ("plain", 1, families::plain),
];

/// The names that `family` takes.
pub const FAMILIES: &[&str] = &names(&MAKERS);

/// The names of the families that `filling` picks from.
pub const FILLING: &[&str] = &names(&filling::MAKERS);

/// The names of the families that `ellipse` picks from.
pub const ELLIPSES: &[&str] = &names(&ellipses::MAKERS);

/// The names of the families that `row_search` picks from.
pub const ROW_FAMILIES: &[&str] = &names(&rows::MAKERS);

/// The image of a seed, of a family that the seed picks.
pub fn crop(seed: u64) -> Crop {
    let mut random = Random::new(seed);
    let at = picked(&mut random, &MAKERS);
    build(at, random)
}

/// The image of a seed for cells, of a family that the seed picks.
pub fn filling(seed: u64) -> Crop {
    with_usual_capacity(seed ^ FILLING_SALT, &filling::MAKERS)
}

/// The image of a seed for the ellipse check, of a family that the seed picks.
pub fn ellipse(seed: u64) -> Crop {
    with_usual_capacity(seed ^ ELLIPSE_SALT, &ellipses::MAKERS)
}

/// The image of a family that a seed picks, with a capacity that owes nothing to it.
fn with_usual_capacity(seed: u64, makers: &[Family<Canvas>]) -> Crop {
    let mut random = Random::new(seed);
    let (family, _, maker) = makers[picked(&mut random, makers)];
    let usual = usual_capacity(&mut random);
    finished(family, maker(&mut random), usual)
}

/// The image of a seed within a named family; panics on an unknown name.
pub fn family(name: &str, seed: u64) -> Crop {
    let mut random = Random::new(seed);
    random.next();
    let at = FAMILIES.iter().position(|&known| known == name);
    build(at.expect("a name out of FAMILIES"), random)
}

fn build(at: usize, mut random: Random) -> Crop {
    let (family, _, maker) = MAKERS[at];
    let usual = usual_capacity(&mut random);
    let (canvas, wanted) = maker(&mut random);
    finished(family, canvas, wanted.unwrap_or(usual))
}

fn finished(family: &'static str, canvas: Canvas, capacity_words: usize) -> Crop {
    Crop {
        family,
        width: canvas.width,
        height: canvas.height,
        words: canvas.words,
        capacity_words,
    }
}

/// Mostly room enough; sometimes one to three records, rarely none.
fn usual_capacity(random: &mut Random) -> usize {
    match random.below(64) {
        0 => random.between(0, 39) as usize,
        1 => random.pick(&[40, 41, 79, 80, 81, 119, 120]),
        2 => 40 * 400,
        3..=15 => 40 * 100,
        16..=31 => 40 * 20 + random.between(0, 39) as usize,
        _ => 40 * 12,
    }
}
