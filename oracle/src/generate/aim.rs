//! Where the turn looks: boxes, sampled points and the corrected centre of one candidate.

use std::sync::OnceLock;

use super::angle::{cosine, sine};
use super::canvas::Canvas;
use super::draw::PATTERNS;

pub const SCALES: [f64; 5] = [0.065, 0.069, 0.07, 0.075, 0.08];

/// A candidate: the centre of its row runs and half their sum.
#[derive(Clone, Copy, Debug, PartialEq, Eq)]
pub struct Target {
    pub x: u32,
    pub y: u32,
    pub radius: u32,
}

/// What the scales of a candidate end with; scales count from 0.
#[derive(Clone, Copy, Debug, PartialEq, Eq)]
pub enum End {
    Turned(usize, u32),
    Plain,
    Lost(usize),
}

/// Length from a pixel to the first pixel of its seventh run in one direction.
fn six_runs(canvas: &Canvas, x: i32, y: i32, step: i32) -> Option<i32> {
    let (mut at, mut runs, mut last) = (x, 0, false);
    while at >= 0 && at < canvas.width as i32 {
        if canvas.get(at, y) != last {
            last = !last;
            runs += 1;
        }
        if runs == 6 {
            return Some((at - x) * step);
        }
        at += step;
    }
    None
}

/// The candidate whose white centre run holds a pixel, whatever its widths.
pub fn measure(canvas: &Canvas, x: i32, y: i32) -> Option<Target> {
    let right = x + six_runs(canvas, x, y, 1)?;
    let left = x - six_runs(canvas, x, y, -1)?;
    let radius = (right - left) / 2;
    Some(Target {
        x: (right - radius) as u32,
        y: y as u32,
        radius: radius as u32,
    })
}

/// Runs 1 to 5 from a white pixel in one direction.
fn five_runs(canvas: &Canvas, at: (i32, i32), step: (i32, i32)) -> [i32; 5] {
    let (mut x, mut y, mut run, mut last) = (at.0, at.1, 0, false);
    let mut all = [0; 5];
    while x >= 0 && y > 0 && x < canvas.width as i32 && y < canvas.height as i32 {
        if canvas.get(x, y) != last {
            last = !last;
            run += 1;
        }
        match run {
            0 => (),
            1..=5 => all[run - 1] += 1,
            _ => break,
        }
        (x, y) = (x + step.0, y + step.1);
    }
    all
}

/// The width test on the runs to both sides of a white pixel.
fn even_widths(canvas: &Canvas, at: (i32, i32), step: (i32, i32)) -> bool {
    let one = five_runs(canvas, at, step);
    let two = five_runs(canvas, at, (-step.0, -step.1));
    let both = || one.iter().zip(two).enumerate();
    let sum = |odd: usize| -> i32 {
        both()
            .filter(|(k, _)| k % 2 == odd)
            .map(|(_, (a, b))| a + b)
            .sum()
    };
    let totals = [sum(0), sum(1)];
    let good = |total: i32, run: i32| total < 10 * run && 10 * run < 3 * total;
    both().all(|(k, (&a, b))| good(totals[k % 2], a) && good(totals[k % 2], b))
}

/// Whether a candidate passes the width test in its row and in its column.
pub fn passes(canvas: &Canvas, target: Target) -> bool {
    let at = (target.x as i32, target.y as i32);
    even_widths(canvas, at, (1, 0)) && even_widths(canvas, at, (0, 1))
}

/// Width of the symbol that goes with a radius and a scale.
pub fn symbol_side(radius: f64, scale: f64) -> f64 {
    (std::f64::consts::PI * (radius * radius) / scale / 0.95).sqrt()
}

/// Left, right, top and bottom of the tight box, cut at the image.
fn boundary(canvas: &Canvas, target: Target, scale: f64) -> [u32; 4] {
    let side = symbol_side(target.radius as f64, scale);
    let (width, half) = (side as u32 as f32, (side * 0.95) as i32 / 2);
    let (across, down) = (canvas.width as i32, canvas.height as i32);
    let (x, y) = (target.x as i32, target.y as i32);
    let left = x - (width / 2.0 - width * 0.03) as i32;
    let right = x + (width / 2.0 + width * 0.03) as i32;
    [
        left.clamp(0, across - 33) as u32,
        right.clamp(33, across) as u32,
        (y + half).clamp(33, down) as u32,
        (y - half).clamp(0, down - 30) as u32,
    ]
}

/// The 18 points of a scale, before they are turned.
pub fn points(canvas: &Canvas, target: Target, scale: f64) -> [(u32, u32); 18] {
    let [left, right, top, bottom] = boundary(canvas, target, scale);
    let (width, height) = (right - left, top - bottom);
    PATTERNS.map(|(x, y, _)| {
        let across = (x * width + width / 2 + (y & 1) * width / 2) / 30;
        let down = bottom + (y * height + height / 2) / 33;
        (left + across.min(width - 1), down.min(height - 1))
    })
}

/// Single-precision sine and cosine of the degrees 0 to 359.
pub struct Turns([(f32, f32); 360]);

/// The table, computed once.
pub fn turns() -> &'static Turns {
    static TABLE: OnceLock<Turns> = OnceLock::new();
    TABLE.get_or_init(Turns::new)
}

impl Turns {
    fn new() -> Self {
        let mut all = [(0.0, 1.0); 360];
        for (degree, entry) in all.iter_mut().enumerate() {
            *entry = (sine(degree as u32) as f32, cosine(degree as u32) as f32);
        }
        Turns(all)
    }

    /// A point turned about a centre, signs dropped.
    pub fn turn(&self, centre: (u32, u32), point: (u32, u32), degree: u32) -> (f32, f32) {
        let (s, c) = self.0[degree as usize % 360];
        let (cx, cy) = (centre.0 as f32, centre.1 as f32);
        let (dx, dy) = (point.0 as f32 - cx, point.1 as f32 - cy);
        ((c * dx - s * dy + cx).abs(), (s * dx + c * dy + cy).abs())
    }

    fn white(&self, canvas: &Canvas, target: Target, x: u32, degree: u32) -> bool {
        let (px, py) = self.turn((target.x, target.y), (x, target.y), degree);
        canvas.stored(px as u32, py as u32) == Some(false)
    }

    /// Where the walks left and right end, as columns before the turn.
    pub fn walk(&self, canvas: &Canvas, target: Target, degree: u32) -> [u32; 2] {
        let (mut left, mut right) = (target.x, target.x + 1);
        while self.white(canvas, target, left, degree) && left > 0 {
            left -= 1;
        }
        while self.white(canvas, target, right, degree) {
            right += 1;
        }
        [left, right]
    }

    /// The point of a column of the target's row, turned.
    fn of_column(&self, target: Target, column: u32, degree: u32) -> (f32, f32) {
        self.turn((target.x, target.y), (column, target.y), degree)
    }

    /// The pixel in which that point lies.
    pub fn pixel(&self, target: Target, column: u32, degree: u32) -> (i32, i32) {
        let (x, y) = self.of_column(target, column, degree);
        (x as i32, y as i32)
    }

    /// The corrected centre, none when it lies outside the image.
    pub fn correct(&self, canvas: &Canvas, target: Target) -> Option<Target> {
        let ends = |degree| {
            let columns = self.walk(canvas, target, degree);
            columns.map(|column| self.of_column(target, column, degree))
        };
        let ([one, two], [three, _]) = (ends(7), ends(97));
        let (x, y) = circle_centre(one, two, three);
        let (x, y) = (x.round() as u32, y.round() as u32);
        let inside = x < canvas.width && y < canvas.height;
        inside.then_some(Target { x, y, ..target })
    }

    /// The pixel about which point `at` of a degree is sampled.
    pub fn sample(&self, target: Target, point: (u32, u32), degree: u32) -> (i32, i32) {
        let (x, y) = self.turn((target.x, target.y), point, degree);
        (x as i32, y as i32)
    }

    /// True, false, or none when a sampled area leaves the image.
    fn fits(
        &self,
        canvas: &Canvas,
        target: Target,
        at: &[(u32, u32); 18],
        degree: u32,
    ) -> Option<bool> {
        for (point, (_, _, black)) in at.iter().zip(PATTERNS) {
            let (x, y) = self.sample(target, *point, degree);
            if area(canvas, x, y)? != black {
                return Some(false);
            }
        }
        Some(true)
    }

    fn degree(&self, canvas: &Canvas, target: Target, scale: f64) -> Option<u32> {
        let at = points(canvas, target, scale);
        for degree in (0..350).step_by(2) {
            if self.fits(canvas, target, &at, degree)? {
                return Some(degree);
            }
        }
        None
    }

    /// All scales of a candidate.
    pub fn end(&self, canvas: &Canvas, target: Target) -> End {
        let mut now = target;
        for (k, scale) in SCALES.into_iter().enumerate() {
            match self.correct(canvas, now) {
                Some(better) => now = better,
                None => return End::Lost(k),
            }
            if let Some(degree) = self.degree(canvas, now, scale) {
                return End::Turned(k, degree);
            }
        }
        End::Plain
    }
}

/// Centre of the circle through three points, signs dropped.
fn circle_centre(one: (f32, f32), two: (f32, f32), three: (f32, f32)) -> (f32, f32) {
    let ((x1, y1), (x2, y2), (x3, y3)) = (one, two, three);
    let [s1, s2, s3] = [one, two, three].map(|(x, y)| x * x + y * y);
    let a = x1 * (y2 - y3) - y1 * (x2 - x3) + (x2 * y3 - x3 * y2);
    let bx = s1 * (y3 - y2) + s2 * (y1 - y3) + s3 * (y2 - y1);
    let by = s1 * (x2 - x3) + s2 * (x3 - x1) + s3 * (x1 - x2);
    ((bx / (2.0 * a)).abs(), (by / (2.0 * a)).abs())
}

/// Majority of the 3 by 3 pixels about a pixel, cut at 0; none past the far borders.
fn area(canvas: &Canvas, x: i32, y: i32) -> Option<bool> {
    if x + 1 >= canvas.width as i32 || y + 1 >= canvas.height as i32 {
        return None;
    }
    let (mut black, mut all) = (0, 0);
    for cx in (x - 1).max(0)..=x + 1 {
        for cy in (y - 1).max(0)..=y + 1 {
            black += canvas.get(cx, cy) as u32;
            all += 1;
        }
    }
    Some(2 * black >= all)
}
