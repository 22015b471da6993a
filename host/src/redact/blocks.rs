//! Blocks of pixels, and the words that they cover.
use crops::{
    Outcome, WORD_BITS,
    places::{CENTER_X, CENTER_Y, CORNERS, OUTCOME, RADIUS},
    row_words,
};

/// The pixels from column `left` and row `top` to before `right` and `bottom`.
#[derive(Clone, Copy, Debug, PartialEq, Eq)]
pub struct Block {
    pub left: u32,
    pub top: u32,
    pub right: u32,
    pub bottom: u32,
}

impl Block {
    /// The whole image.
    pub fn of(width: u32, height: u32) -> Self {
        Block {
            left: 0,
            top: 0,
            right: width,
            bottom: height,
        }
    }

    /// The smallest block about the bits of one word of an image of a width, if there are any.
    pub fn of_bits(place: usize, bits: u64, width: u32) -> Option<Self> {
        let row = row_words(width);
        let (y, start) = ((place / row) as u32, (place % row * WORD_BITS) as u32);
        (bits != 0).then(|| Block {
            left: start + bits.trailing_zeros(),
            top: y,
            right: start + u64::BITS - bits.leading_zeros(),
            bottom: y + 1,
        })
    }

    /// The smallest block about two.
    pub fn joined(self, other: Block) -> Self {
        Block {
            left: self.left.min(other.left),
            top: self.top.min(other.top),
            right: self.right.max(other.right),
            bottom: self.bottom.max(other.bottom),
        }
    }

    /// The rectangle about a record's box, or about the circle of an ellipse, which has no box; cut to the image.
    pub fn about(record: &[u32], width: u32, height: u32) -> Self {
        let corner = |number: usize| {
            let corner = CORNERS + 2 * number;
            [record[corner], record[corner + 1]].map(f32::from_bits)
        };
        let corners = match record[OUTCOME] == Outcome::Ellipse.number() {
            true => about_circle(record),
            false => [0, 1, 2, 3].map(corner),
        };
        let (left, right) = between(corners.map(|[x, _]| x), width);
        let (top, bottom) = between(corners.map(|[_, y]| y), height);
        Block {
            left,
            top,
            right,
            bottom,
        }
    }

    pub fn is_pixel(self) -> bool {
        self.right - self.left == 1 && self.bottom - self.top == 1
    }

    /// Both halves of the longer side.
    pub fn halves(self) -> [Block; 2] {
        let (mut first, mut second) = (self, self);
        if self.right - self.left >= self.bottom - self.top {
            first.right = self.left.midpoint(self.right);
            second.left = first.right;
        } else {
            first.bottom = self.top.midpoint(self.bottom);
            second.top = first.bottom;
        }
        [first, second]
    }

    /// The words that the block covers in an image of a width: each one's place, and the block's bits in it.
    pub fn words(self, width: u32) -> impl Iterator<Item = (usize, u64)> {
        let (left, right) = (self.left as usize, self.right as usize);
        let columns = left / WORD_BITS..right.div_ceil(WORD_BITS);
        (self.top as usize..self.bottom as usize).flat_map(move |row| {
            columns.clone().map(move |column| {
                let start = column * WORD_BITS;
                let from = left.saturating_sub(start);
                let to = (right - start).min(WORD_BITS);
                let bits = u64::MAX << from & u64::MAX >> (WORD_BITS - to);
                (row * row_words(width) + column, bits)
            })
        })
    }
}

/// The corners of the square about a record's circle.
fn about_circle(record: &[u32]) -> [[f32; 2]; 4] {
    let [x, y, radius] = [CENTER_X, CENTER_Y, RADIUS].map(|place| record[place] as f32);
    let signs = [[-1.0, -1.0], [-1.0, 1.0], [1.0, -1.0], [1.0, 1.0]];
    signs.map(|[across, down]| [x + across * radius, y + down * radius])
}

/// The pixels from the least to the greatest coordinate, within a side.
fn between(coordinates: [f32; 4], side: u32) -> (u32, u32) {
    let ends = coordinates
        .into_iter()
        .fold((f32::MAX, 0.0f32), |(least, most), at| {
            (least.min(at), most.max(at))
        });
    let last = side - 1;
    let (from, to) = (ends.0.floor() as u32, ends.1.ceil() as u32);
    (from.min(last), to.min(last) + 1)
}

#[cfg(test)]
mod tests {
    use super::*;

    #[test]
    fn a_block_covers_its_pixels() {
        let width = 150;
        let block = Block {
            left: 3,
            top: 2,
            right: 140,
            bottom: 5,
        };
        let mut words = vec![0; crops::image_words(width, 7)];
        for (place, bits) in block.words(width) {
            words[place] |= bits;
        }
        for y in 0..7 {
            for x in 0..width {
                let inside = (3..140).contains(&x) && (2..5).contains(&y);
                assert_eq!(crops::pixel(&words, width, x, y), inside, "{x} {y}");
            }
        }
    }

    #[test]
    fn halves_are_the_block_and_end_at_a_pixel() {
        let area = |block: Block| (block.right - block.left) * (block.bottom - block.top);
        let mut block = Block::of(2048, 2047);
        for _ in 0..22 {
            let [first, second] = block.halves();
            assert_eq!(area(first) + area(second), area(block));
            assert_eq!(first.joined(second), block);
            assert!(area(first) > 0 && area(first) <= area(second));
            block = second;
        }
        assert!(block.is_pixel());
    }

    #[test]
    fn the_rectangle_about_a_box_is_cut_to_the_image() {
        let mut record = [0; crops::RECORD_WORDS];
        let corners = [10.5f32, 40.0, 7.0, 12.2, 300.0, 39.9, 55.5, 0.0];
        for (place, corner) in corners.iter().enumerate() {
            record[CORNERS + place] = corner.to_bits();
        }
        let block = Block::about(&record, 100, 80);
        assert_eq!((block.left, block.right), (7, 100));
        assert_eq!((block.top, block.bottom), (0, 41));
    }

    /// An ellipse's corners are zeros: the square about its circle is taken instead.
    #[test]
    fn the_rectangle_about_an_ellipse_is_that_of_its_circle() {
        let mut record = [0; crops::RECORD_WORDS];
        record[..3].copy_from_slice(&[12, 70, 20]);
        record[OUTCOME] = Outcome::Ellipse.number();
        let block = Block::about(&record, 100, 80);
        assert_eq!((block.left, block.right), (0, 33));
        assert_eq!((block.top, block.bottom), (50, 80));
    }
}
