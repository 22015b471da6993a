// The source's files in the places that they have in their crate. Included twice, with `Marks` kept or not.

use super::point::{Point, PointU, point, point_i};
use super::record::{Record, capacity};
use super::shims::Exceptions;
use crate::{Report, crop};

pub use maxicode::detector::steps;

mod common {
    use super::{Exceptions, Marks, Point};

    pub type Result<T, E = Exceptions> = std::result::Result<T, E>;
    pub use super::super::shims::BitArray;
    pub type BitFieldBaseType = usize;
    pub const BIT_FIELD_BASE_BITS: usize = 64;
    pub const BIT_FIELD_SHIFT_BITS: usize = 63;

    #[allow(dead_code, non_snake_case)]
    pub trait DetectorRXingResult {
        fn getBits(&self) -> &BitMatrix;
        fn getPoints(&self) -> &[Point];
    }

    pub use bit_matrix::BitMatrix;

    #[allow(dead_code, non_snake_case, clippy::all)]
    mod bit_matrix {
        use super::Marks;

        include!(concat!(env!("OUT_DIR"), "/bit_matrix.rs"));

        impl BitMatrix {
            /// An image with these words and a clear log.
            pub fn of(words: &[u64], width: u32, height: u32) -> Self {
                Self {
                    width,
                    height,
                    row_size: (width as usize).div_ceil(BASE_BITS),
                    bits: words.iter().map(|word| *word as usize).collect(),
                    marks: Marks::clear(words.len()),
                }
            }

            /// The log.
            pub fn marks(&self) -> &Marks {
                &self.marks
            }
        }
    }
}

mod maxicode {
    use super::super::shims::{ELLIPSE, LOST, Square, TURNED, Trace, Turn, num};

    /// The symbol's columns and rows; `build.rs` checks them against the source.
    struct MaxiCodeReader;

    impl MaxiCodeReader {
        const MATRIX_WIDTH: u32 = 30;
        const MATRIX_HEIGHT: u32 = 33;
    }

    #[allow(dead_code, non_snake_case, private_interfaces, clippy::all)]
    pub mod detector {
        use super::{LOST, Square, TURNED, Trace, Turn, num};

        include!(concat!(env!("OUT_DIR"), "/detector.rs"));

        #[warn(dead_code, non_snake_case, private_interfaces, clippy::all)]
        pub(in super::super) mod cells {
            include!("cells.rs");
        }

        #[warn(dead_code, non_snake_case, private_interfaces, clippy::all)]
        pub(in super::super) mod search {
            include!("search.rs");
        }

        #[warn(dead_code, non_snake_case, private_interfaces, clippy::all)]
        pub mod steps {
            include!("steps.rs");
        }
    }
}

/// The search of an unpacked image, with the ellipse check or without.
pub fn search_words(
    words: &[u64],
    width: u32,
    height: u32,
    records: &mut [u32],
    marks: &mut [u64],
    ellipse: bool,
) -> Report {
    let refusal = crop::check_words(words, width, height);
    if refusal != 0 {
        return refused(refusal);
    }
    if marks.len() != words.len() || capacity(records) == 0 {
        return refused(6);
    }
    maxicode::detector::search::search(words, width, height, records, marks, ellipse)
}

/// The search of a crop file, unpacked into `words`, with the ellipse check or without.
pub fn search_file(
    file: &[u8],
    words: &mut [u64],
    records: &mut [u32],
    marks: &mut [u64],
    ellipse: bool,
) -> Report {
    let refusal = crop::check_file(file);
    if refusal != 0 {
        return refused(refusal);
    }
    let (width, height) = crops::dimensions(file).unwrap_or_default();
    let length = crops::image_words(width, height);
    if words.len() != length || marks.len() != length || capacity(records) == 0 {
        return refused(6);
    }
    crops::unpack(file, words);
    maxicode::detector::search::search(words, width, height, records, marks, ellipse)
}

/// The cells of an unpacked image.
pub fn cells_words(words: &[u64], width: u32, height: u32, cells: &mut [u32]) -> u32 {
    match crop::check_words(words, width, height) {
        0 if cells.len() != crops::CELL_ROWS => 6,
        0 => maxicode::detector::cells::cells(words, width, height, cells),
        refusal => refusal,
    }
}

/// The cells of a crop file, unpacked into `words`.
pub fn cells_file(file: &[u8], words: &mut [u64], cells: &mut [u32]) -> u32 {
    match crop::check_file(file) {
        0 if cells.len() != crops::CELL_ROWS => return 6,
        0 => (),
        refusal => return refusal,
    }
    let refusal = crop::unpack_file(file, words);
    if refusal != 0 {
        return refusal;
    }
    let (width, height) = crops::dimensions(file).unwrap_or_default();
    maxicode::detector::cells::cells(words, width, height, cells)
}

/// The report of a refused input.
fn refused(answer: u32) -> Report {
    Report {
        answer,
        ..Report::default()
    }
}
