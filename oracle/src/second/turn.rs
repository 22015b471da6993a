//! The turn: six groups of three points at each scale and degree.

use super::boundary::{Boundary, boundary_of, scaled_size};
use super::center::corrected_center;
use super::ellipse::is_ellipse;
use super::image::{BLACK, Image, Pixel, WHITE, pixel};
use super::sines::{truncate, turn_about};
use super::sweep::Candidate;

const SYMBOL_COLUMNS: u32 = 30;
const SYMBOL_ROWS: u32 = 33;
pub(super) const SCALES: [f64; 5] = [0.065, 0.069, 0.07, 0.075, 0.08];

const ORIENTATION_POINTS: [[Pixel; 3]; 6] = [
    [pixel(10, 9), pixel(11, 9), pixel(11, 10)],
    [pixel(17, 9), pixel(17, 10), pixel(18, 10)],
    [pixel(7, 15), pixel(7, 16), pixel(8, 16)],
    [pixel(20, 16), pixel(21, 16), pixel(20, 17)],
    [pixel(10, 22), pixel(11, 22), pixel(10, 23)],
    [pixel(17, 22), pixel(16, 23), pixel(17, 23)],
];

pub(super) const ORIENTATION_COLOURS: [[bool; 3]; 6] = [
    [BLACK, BLACK, BLACK],
    [WHITE, WHITE, WHITE],
    [BLACK, WHITE, BLACK],
    [BLACK, WHITE, BLACK],
    [BLACK, WHITE, BLACK],
    [BLACK, WHITE, BLACK],
];

/// What the six groups say at one degree.
enum Sight {
    Match,
    WrongColour,
    Outside,
}

/// How the search for a turn ended; an ellipse is not searched for one.
#[derive(Clone, Copy, Debug, PartialEq, Eq)]
pub(super) enum Outcome {
    Turned(u32),
    NoTurn,
    LostCenter,
    Ellipse,
}

/// The outcome with the scale number and the last centre inside the image.
pub(super) struct Orientation {
    pub(super) outcome: Outcome,
    pub(super) scale: u32,
    pub(super) center: Pixel,
}

/// `adjust_point_alternate`: the row is capped with the bottom already added.
pub(super) fn adjust_point(point: Pixel, boundary: &Boundary) -> Pixel {
    let width = boundary.right - boundary.left;
    let height = boundary.top - boundary.bottom;
    let half_cell = (point.y % 2) * width / 2;
    let column = (point.x * width + width / 2 + half_cell) / SYMBOL_COLUMNS;
    let row = (point.y * height + height / 2) / SYMBOL_ROWS;
    Pixel {
        x: boundary.left + column.min(width - 1),
        y: (boundary.bottom + row).min(height - 1),
    }
}

/// `get_adjusted_points` for all six groups.
pub(super) fn adjusted_points(boundary: &Boundary) -> [[Pixel; 3]; 6] {
    ORIENTATION_POINTS.map(|group| group.map(|point| adjust_point(point, boundary)))
}

/// The eighteen points at one degree, in order, until one has the wrong colour or lies outside.
fn look(image: &mut Image, center: Pixel, points: &[[Pixel; 3]; 6], degree: u32) -> Sight {
    for group in 0..6 {
        for member in 0..3 {
            let place = truncate(turn_about(center, points[group][member], degree));
            let Some(colour) = image.try_get_area(place.x, place.y) else {
                return Sight::Outside;
            };
            if colour != ORIENTATION_COLOURS[group][member] {
                return Sight::WrongColour;
            }
        }
    }
    Sight::Match
}

/// `attempt_rotation_box` after the correction: the first degree that matches.
fn turn_at_scale(image: &mut Image, center: Pixel, radius: u32, scale: f64) -> Option<u32> {
    let size = scaled_size(radius, scale);
    let boundary = boundary_of(center, &size, image.width, image.height);
    let points = adjusted_points(&boundary);
    for degree in (0..=348).step_by(2) {
        match look(image, center, &points, degree) {
            Sight::Match => return Some(degree),
            Sight::WrongColour => {}
            Sight::Outside => return None,
        }
    }
    None
}

/// `box_symbol`: the ellipse check if the option is on, from the centre as found, then the turn.
pub(super) fn orientation_of(
    image: &mut Image,
    candidate: &Candidate,
    ellipse: bool,
) -> Orientation {
    if ellipse && is_ellipse(image, candidate.center) {
        return Orientation {
            outcome: Outcome::Ellipse,
            scale: 0,
            center: candidate.center,
        };
    }
    turned(image, candidate)
}

/// `box_symbol`'s loop over the scales, each from the centre before it.
fn turned(image: &mut Image, candidate: &Candidate) -> Orientation {
    let mut center = candidate.center;
    for (index, scale) in SCALES.into_iter().enumerate() {
        let number = index as u32 + 1;
        let corrected = corrected_center(image, center);
        if !image.holds(corrected) {
            return Orientation {
                outcome: Outcome::LostCenter,
                scale: number,
                center,
            };
        }
        center = corrected;
        if let Some(degree) = turn_at_scale(image, center, candidate.radius, scale) {
            return Orientation {
                outcome: Outcome::Turned(degree),
                scale: number,
                center,
            };
        }
    }
    Orientation {
        outcome: Outcome::NoTurn,
        scale: 0,
        center,
    }
}
