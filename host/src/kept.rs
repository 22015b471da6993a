//! How much of a crop its search read: what a blanked crop keeps.
use crate::{image::Image, run::Run};

/// Columns at each side that do not count: the sweep begins after six, and of the last six it reads one at most.
pub const MARGIN: u32 = 6;

/// The pixels that a blanked crop keeps, by number.
#[derive(Debug, PartialEq, Eq)]
pub struct Kept {
    pub pixels: usize,
    pub of_pixels: usize,
    /// Rows that are kept from side to side, but for the margins: whatever stood there can still be seen.
    pub rows: usize,
    pub of_rows: usize,
}

impl Kept {
    pub fn of(image: &Image, run: &Run) -> Self {
        let (width, height) = (image.width as usize, image.height as usize);
        let read = |y: u32| (0..image.width).filter(move |&x| run.has_read(x, y));
        let across = MARGIN..image.width - MARGIN;
        let whole = |&y: &u32| across.clone().all(|x| run.has_read(x, y));
        Kept {
            pixels: (0..image.height).map(|y| read(y).count()).sum(),
            of_pixels: width * height,
            rows: (0..image.height).filter(whole).count(),
            of_rows: height,
        }
    }
}

/// A crop whose black pixels are those that the search read.
pub fn map(image: &Image, run: &Run) -> Image {
    let mut map = image.clone();
    for y in 0..image.height {
        for x in 0..image.width {
            map.set(x, y, run.has_read(x, y));
        }
    }
    map
}
