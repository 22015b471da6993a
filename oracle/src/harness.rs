//! The source's own search and its reading of cells, compiled from its text by the replacements that `build.rs` lists.
//!
//! [`logged`] marks every stored bit that the source reads; [`plain`] is the same text without the log.

use crate::Report;
use crate::crop;

pub mod logged;
mod marks;
pub mod plain;
mod record;
mod shims;
#[cfg(test)]
mod tests;

pub use logged::{cells_file, cells_words, steps};
pub use record::class;

/// The source's points; they need no image, so both searches share them.
#[allow(dead_code, non_snake_case)]
mod point {
    use super::shims::{ResultPoint, num};

    include!(concat!(env!("OUT_DIR"), "/point.rs"));
}

const _: () = assert!(
    usize::BITS == 64,
    "the source is compared with 64-bit words"
);

/// Answers 1 to 5 for a crop file, or 0.
pub fn check(file: &[u8]) -> u32 {
    crop::check_file(file)
}

/// The logged search of an unpacked image, with the ellipse check or without.
pub fn search_words(
    words: &[u64],
    width: u32,
    height: u32,
    records: &mut [u32],
    marks: &mut [u64],
    ellipse: bool,
) -> Report {
    logged::search_words(words, width, height, records, marks, ellipse)
}

/// The logged search of a crop file, unpacked into `words`, with the ellipse check or without.
pub fn search_file(
    file: &[u8],
    words: &mut [u64],
    records: &mut [u32],
    marks: &mut [u64],
    ellipse: bool,
) -> Report {
    logged::search_file(file, words, records, marks, ellipse)
}
