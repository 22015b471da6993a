//! The corrected centre: walks from a centre to the first black pixel.

use super::image::{Image, Pixel, WHITE, pixel};
use super::sines::{Point, truncate, turn_about};

/// The two ends of the walks at one degree, and the steps of both together.
pub(super) struct WalkEnds {
    pub(super) left: Point,
    pub(super) right: Point,
    pub(super) length: u32,
}

/// One look of a walk: true when the walk goes on, being inside the words and on white.
fn walk_goes_on(image: &mut Image, center: Pixel, x: u32, degree: u32) -> bool {
    let place = truncate(turn_about(center, pixel(x, center.y), degree));
    if image.is_past_last_word(place.x, place.y) {
        return false;
    }
    image.get(place.x, place.y) == WHITE
}

/// `find_width_at_degree`: both walks, for their ends, their length and their reads.
pub(super) fn walk(image: &mut Image, center: Pixel, degree: u32) -> WalkEnds {
    let mut left = center.x;
    while walk_goes_on(image, center, left, degree) && left > 0 {
        left -= 1;
    }
    let mut right = center.x + 1;
    while walk_goes_on(image, center, right, degree) {
        right += 1;
    }
    WalkEnds {
        left: turn_about(center, pixel(left, center.y), degree),
        right: turn_about(center, pixel(right, center.y), degree),
        length: (center.x - left) + (right - center.x - 1),
    }
}

/// `find_center`: the centre of the circle through three points, signs dropped.
pub(super) fn circle_center(p1: Point, p2: Point, p3: Point) -> Point {
    let square1 = p1.x * p1.x + p1.y * p1.y;
    let square2 = p2.x * p2.x + p2.y * p2.y;
    let square3 = p3.x * p3.x + p3.y * p3.y;
    let cross = p2.x * p3.y - p3.x * p2.y;
    let a = p1.x * (p2.y - p3.y) - p1.y * (p2.x - p3.x) + cross;
    let bx = square1 * (p3.y - p2.y) + square2 * (p1.y - p3.y) + square3 * (p2.y - p1.y);
    let by = square1 * (p2.x - p3.x) + square2 * (p3.x - p1.x) + square3 * (p1.x - p2.x);
    let x = bx / (2.0 * a);
    let y = by / (2.0 * a);
    Point {
        x: x.abs(),
        y: y.abs(),
    }
}

/// `calculate_high_accuracy_center`: from three walk ends.
pub(super) fn corrected_center(image: &mut Image, center: Pixel) -> Pixel {
    let across = walk(image, center, 7);
    let along = walk(image, center, 97);
    let middle = circle_center(across.left, across.right, along.left);
    pixel(middle.x.round() as u32, middle.y.round() as u32)
}
