//! The ellipse check: walks all round a centre, and where their end points lie.

use super::center::walk;
use super::image::{Image, Pixel, pixel};
use super::sines::Point;

const WALKS: u32 = 72;
const DEGREES_BETWEEN_WALKS: u32 = 5;
const END_POINTS: u32 = 144;

/// Longest and shortest length of the walks, and how many end points pass with their halves.
#[derive(Clone, Copy, Debug, PartialEq, Eq)]
pub struct EllipseWidths {
    pub longest: u32,
    pub shortest: u32,
    pub good: u32,
}

/// What the ellipse check says.
#[derive(Clone, Copy, Debug, PartialEq, Eq)]
pub enum EllipseVerdict {
    EqualHalves,
    TooFewPoints,
    Ellipse,
}

impl EllipseWidths {
    /// `detect_ellipse`'s two tests: the halves, then four fifths of the end points.
    pub fn verdict(&self) -> EllipseVerdict {
        if self.longest / 2 == self.shortest / 2 {
            return EllipseVerdict::EqualHalves;
        }
        if 5 * self.good < 4 * END_POINTS {
            return EllipseVerdict::TooFewPoints;
        }
        EllipseVerdict::Ellipse
    }
}

/// `check_ellipse_point`, in f64: an end point fails only above 1, so one whose sum is no number passes.
pub(super) fn passes(center: Pixel, end: Point, longest_half: u32, shortest_half: u32) -> bool {
    let dx = f64::from(end.x) - f64::from(center.x);
    let dy = f64::from(end.y) - f64::from(center.y);
    let long = f64::from(longest_half);
    let short = f64::from(shortest_half);
    let fails = dx * dx / (long * long) + dy * dy / (short * short) > 1.0;
    !fails
}

/// `detect_ellipse`'s walks and end points.
fn widths_about(image: &mut Image, center: Pixel) -> EllipseWidths {
    let mut lengths = Vec::new();
    let mut ends = Vec::new();
    for number in 0..WALKS {
        let found = walk(image, center, number * DEGREES_BETWEEN_WALKS);
        lengths.push(found.length);
        ends.push(found.left);
        ends.push(found.right);
    }
    lengths.sort();
    let shortest = lengths[0];
    let longest = lengths[lengths.len() - 1];
    let mut good = 0;
    for end in ends {
        if passes(center, end, longest / 2, shortest / 2) {
            good += 1;
        }
    }
    EllipseWidths {
        longest,
        shortest,
        good,
    }
}

/// `detect_ellipse`: whether the widths about a centre are those of an ellipse.
pub(super) fn is_ellipse(image: &mut Image, center: Pixel) -> bool {
    widths_about(image, center).verdict() == EllipseVerdict::Ellipse
}

/// What the ellipse check goes by, from a centre of an accepted image.
pub fn ellipse_widths(words: &[u64], width: u32, height: u32, (x, y): (u32, u32)) -> EllipseWidths {
    let mut image = Image {
        words,
        marks: &mut vec![0; words.len()],
        width,
        height,
    };
    widths_about(&mut image, pixel(x, y))
}
