//! Images for cells: a symbol that fills them, and enclosing rectangles at every edge.

use super::Family;
use super::canvas::Canvas;
use super::families::side;
use super::random::Random;
use crops::{CELL_COLUMNS, CELL_ROWS};

/// Name, share of 100 and maker of each family.
pub const MAKERS: [Family<Canvas>; 10] = [
    ("hexagons", 22, hexagons),
    ("blocks", 12, blocks),
    ("speckled", 18, speckled),
    ("frame", 10, frame),
    ("corners", 8, corners),
    ("row", 8, row),
    ("column", 6, column),
    ("pixel", 6, pixel),
    ("full", 6, full),
    ("blank", 4, canvas),
];

/// First and last column and row of a part of an image.
struct Part {
    left: i32,
    top: i32,
    right: i32,
    bottom: i32,
}

/// White; mostly small, some of the longest sides.
fn canvas(random: &mut Random) -> Canvas {
    let (width, height) = match random.below(40) {
        0 => (
            random.pick(&[512, 513, 1985, 2047, 2048]),
            random.between(33, 250),
        ),
        1 => (side(random), random.between(160, 2048)),
        2 => (random.between(160, 700), random.between(160, 700)),
        _ => (side(random), side(random)),
    };
    Canvas::new(width, height)
}

/// Pixels left free at one end of a side: mostly none or a few.
fn margin(random: &mut Random, side: i32) -> i32 {
    match random.below(8) {
        0..=3 => 0,
        4 => random.pick(&[1, 1, 2]),
        5 => random.between(0, 12),
        _ => random.between(0, side - 1),
    }
}

/// First and last pixel of a side between two margins, which may overlap.
fn ends(random: &mut Random, side: u32) -> (i32, i32) {
    let side = side as i32;
    let (first, last) = (margin(random, side), side - 1 - margin(random, side));
    (first.min(last), first.max(last))
}

/// An image and a part of it.
fn parted(random: &mut Random) -> (Canvas, Part) {
    let canvas = canvas(random);
    let (left, right) = ends(random, canvas.width);
    let (top, bottom) = ends(random, canvas.height);
    let part = Part {
        left,
        top,
        right,
        bottom,
    };
    (canvas, part)
}

impl Part {
    fn fill(&self, canvas: &mut Canvas) {
        canvas.block(self.left, self.top, self.right, self.bottom, true);
    }

    /// Each pixel black where `black` holds; the rest of the image stays.
    fn paint(&self, canvas: &mut Canvas, mut black: impl FnMut(i32, i32) -> bool) {
        for y in self.top..=self.bottom {
            for x in self.left..=self.right {
                if black(x, y) {
                    canvas.set(x, y, true);
                }
            }
        }
    }

    /// Where a pixel's middle lies, in cells from the left and from the top.
    fn cells_to(&self, x: i32, y: i32) -> (f64, f64) {
        let width = (self.right - self.left + 1) as f64;
        let height = (self.bottom - self.top + 1) as f64;
        let (across, down) = (x - self.left, y - self.top);
        (
            (across as f64 + 0.5) * CELL_COLUMNS as f64 / width,
            (down as f64 + 0.5) * CELL_ROWS as f64 / height,
        )
    }
}

/// The cells of a symbol, a word for each row, mostly with black ones at every edge.
fn grid(random: &mut Random) -> [u64; CELL_ROWS] {
    let density = random.pick(&[3000, 20000, 32768, 32768, 50000]);
    let mut rows = [0; CELL_ROWS];
    for row in &mut rows {
        *row = random.bits(density);
    }
    if !random.one_in(4) {
        rows[0] |= 1;
        rows[CELL_ROWS - 1] |= 1 << (CELL_COLUMNS - 1);
    }
    rows
}

/// A symbol of cells with their corners cut off, those of odd rows half a cell further and one fewer.
fn hexagons(random: &mut Random) -> Canvas {
    let (mut canvas, part) = parted(random);
    let rows = grid(random);
    part.paint(&mut canvas, |x, y| {
        let (across, down) = part.cells_to(x, y);
        let row = down as usize;
        let across = across - 0.5 * (row % 2) as f64;
        let (dx, dy) = (across - across.floor() - 0.5, down - down.floor() - 0.5);
        let last = row % 2 == 1 && across >= CELL_COLUMNS as f64 - 1.0;
        let inside = across >= 0.0 && !last && dx.abs() + 2.0 * dy.abs() <= 1.1;
        inside && rows[row] >> across as usize & 1 == 1
    });
    canvas
}

/// A symbol whose cells are blocks.
fn blocks(random: &mut Random) -> Canvas {
    let (mut canvas, part) = parted(random);
    let rows = grid(random);
    part.paint(&mut canvas, |x, y| {
        let (across, down) = part.cells_to(x, y);
        rows[down as usize] >> across as usize & 1 == 1
    });
    canvas
}

/// Independent pixels, few or many.
fn speckled(random: &mut Random) -> Canvas {
    let (mut canvas, part) = parted(random);
    let density = random.pick(&[100, 600, 3000, 12000, 32768, 60000]);
    let mut noise = canvas.clone();
    noise.noise(random, density);
    part.paint(&mut canvas, |x, y| noise.get(x, y));
    canvas
}

/// The border of a part, of one to three pixels.
fn frame(random: &mut Random) -> Canvas {
    let (mut canvas, part) = parted(random);
    let thick = random.between(1, 3);
    part.paint(&mut canvas, |x, y| {
        let across = (x - part.left).min(part.right - x);
        across.min((y - part.top).min(part.bottom - y)) < thick
    });
    canvas
}

/// Two pixels, which are the ends of a diagonal.
fn corners(random: &mut Random) -> Canvas {
    let (mut canvas, part) = parted(random);
    canvas.set(part.left, part.top, true);
    canvas.set(part.right, part.bottom, true);
    canvas
}

fn row(random: &mut Random) -> Canvas {
    let (mut canvas, part) = parted(random);
    let bottom = part.top;
    Part { bottom, ..part }.fill(&mut canvas);
    canvas
}

fn column(random: &mut Random) -> Canvas {
    let (mut canvas, part) = parted(random);
    let right = part.left;
    Part { right, ..part }.fill(&mut canvas);
    canvas
}

fn pixel(random: &mut Random) -> Canvas {
    let (mut canvas, part) = parted(random);
    canvas.set(part.left, part.top, true);
    canvas
}

/// All black, or all of a part.
fn full(random: &mut Random) -> Canvas {
    let (mut canvas, part) = parted(random);
    match random.one_in(2) {
        true => canvas.fill(true),
        false => part.fill(&mut canvas),
    }
    canvas
}
