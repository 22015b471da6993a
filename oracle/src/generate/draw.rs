//! Bull's-eyes and whole symbols on a canvas.

use super::angle::{cosine, sine};
use super::canvas::Canvas;
use super::random::Random;

/// How the distance from the centre is measured.
#[derive(Clone, Copy, Debug, PartialEq, Eq)]
pub enum Shape {
    Round,
    Square,
    Diamond,
    /// Squares, drawn only near the row and the column of the centre.
    Cross,
}

/// A bull's-eye: white centre, then five rings, black first.
#[derive(Clone, Copy, Debug)]
pub struct Eye {
    pub x: f64,
    pub y: f64,
    /// Half extent of the white centre.
    pub disc: f64,
    /// Width of a ring.
    pub module: f64,
    /// Width of the white zone around the rings.
    pub quiet: f64,
    pub shape: Shape,
    /// Turns an offset in the image into an offset in the eye.
    pub skew: [f64; 4],
    /// The white centre is longer by this half extent in x and y.
    pub stretch: (f64, f64),
}

impl Eye {
    pub fn new(x: f64, y: f64, disc: f64, module: f64, shape: Shape) -> Self {
        Eye {
            x,
            y,
            disc,
            module,
            quiet: 1.0,
            shape,
            skew: [1.0, 0.0, 0.0, 1.0],
            stretch: (0.0, 0.0),
        }
    }

    pub fn radius(&self) -> f64 {
        self.disc + 5.0 * self.module
    }

    fn distance(&self, x: f64, y: f64) -> f64 {
        let [a, b, c, d] = self.skew;
        let u = ((a * x + b * y).abs() - self.stretch.0).max(0.0);
        let v = ((c * x + d * y).abs() - self.stretch.1).max(0.0);
        match self.shape {
            Shape::Round => (u * u + v * v).sqrt(),
            Shape::Square => u.max(v),
            Shape::Diamond => u + v,
            Shape::Cross if x.abs() <= self.module || y.abs() <= self.module => u.max(v),
            Shape::Cross => 1e9,
        }
    }

    /// The colour at an offset from the centre, none beyond the quiet zone.
    fn colour(&self, x: f64, y: f64) -> Option<bool> {
        let distance = self.distance(x, y);
        if distance < self.disc {
            return Some(false);
        }
        if distance >= self.radius() {
            return (distance < self.radius() + self.quiet).then_some(false);
        }
        let ring = ((distance - self.disc) / self.module) as u32;
        Some(ring & 1 == 0)
    }

    pub fn draw(&self, canvas: &mut Canvas) {
        let [a, b, c, d] = self.skew.map(f64::abs);
        let grow = (a + b).max(c + d).max(1.0) / (a * d - b * c).abs().max(0.25);
        let reach = (self.radius() + self.quiet) * grow + 1.0;
        let (dx, dy) = (reach + self.stretch.0, reach + self.stretch.1);
        for y in (self.y - dy).max(0.0) as i32..=(self.y + dy).min(canvas.height as f64) as i32 {
            for x in (self.x - dx).max(0.0) as i32..=(self.x + dx).min(canvas.width as f64) as i32 {
                if let Some(black) = self.colour(x as f64 - self.x, y as f64 - self.y) {
                    canvas.set(x, y, black);
                }
            }
        }
    }
}

/// The orientation patterns: column, row and colour of 18 modules, in the order tested.
pub const PATTERNS: [(u32, u32, bool); 18] = [
    (10, 9, true),
    (11, 9, true),
    (11, 10, true),
    (17, 9, false),
    (17, 10, false),
    (18, 10, false),
    (7, 15, true),
    (7, 16, false),
    (8, 16, true),
    (20, 16, true),
    (21, 16, false),
    (20, 17, true),
    (10, 22, true),
    (11, 22, false),
    (10, 23, true),
    (17, 22, true),
    (16, 23, false),
    (17, 23, true),
];

/// A whole symbol of 30 by 33 modules about a centre, turned by whole degrees.
#[derive(Clone, Copy, Debug)]
pub struct Symbol {
    pub x: f64,
    pub y: f64,
    pub width: f64,
    pub height: f64,
    pub degree: u32,
}

impl Symbol {
    /// Column and row of the module at an offset from the centre.
    fn module(&self, x: f64, y: f64) -> Option<(usize, usize)> {
        let v = (y / self.height + 0.5) * 33.0;
        if !(0.0..33.0).contains(&v) {
            return None;
        }
        let row = v as usize;
        let u = (x / self.width + 0.47) * 30.0 - 0.5 * (row % 2) as f64;
        (0.0..30.0).contains(&u).then_some((u as usize, row))
    }

    /// Random modules and the orientation patterns; the eye is drawn afterwards.
    pub fn draw(&self, canvas: &mut Canvas, random: &mut Random, density: u32) {
        let mut rows = [0_u64; 33];
        for row in rows.iter_mut() {
            *row = random.bits(density);
        }
        for (column, row, black) in PATTERNS {
            let word = &mut rows[row as usize];
            *word = *word & !(1 << column) | (black as u64) << column;
        }
        let (s, c) = (sine(self.degree), cosine(self.degree));
        for y in 0..canvas.height as i32 {
            for x in 0..canvas.width as i32 {
                let (dx, dy) = (x as f64 - self.x, y as f64 - self.y);
                if let Some((column, row)) = self.module(c * dx + s * dy, c * dy - s * dx) {
                    canvas.set(x, y, rows[row] >> column & 1 == 1);
                }
            }
        }
    }
}
