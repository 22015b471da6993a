//! The table of sines, and a place turned about a centre.

use std::sync::LazyLock;

use super::image::{Pixel, pixel};

/// The stand-in for sine: an f32 for every whole degree.
static SINES: LazyLock<[f32; 360]> =
    LazyLock::new(|| std::array::from_fn(|degree| sine_of_degree(degree as u32)));

/// A place with f32 coordinates: a corner, a walk's end, a circle's centre.
#[derive(Clone, Copy, Debug, PartialEq)]
pub(super) struct Point {
    pub(super) x: f32,
    pub(super) y: f32,
}

/// A sine by the first quarter's.
fn sine_of_degree(degree: u32) -> f32 {
    match degree {
        0 => 0.0,
        1..=90 => first_quarter_sine(degree),
        91..=179 => first_quarter_sine(180 - degree),
        180 => 0.0,
        181..=270 => -first_quarter_sine(degree - 180),
        _ => -first_quarter_sine(360 - degree),
    }
}

/// The f32 nearest to the sine of 1 to 90 degrees.
fn first_quarter_sine(degree: u32) -> f32 {
    match degree {
        30 => 0.5,
        90 => 1.0,
        _ => f64::from(degree).to_radians().sin() as f32,
    }
}

/// The sine of a whole degree below 360.
pub(super) fn sine(degree: u32) -> f32 {
    SINES[degree as usize]
}

/// The cosine of a whole degree below 360.
pub(super) fn cosine(degree: u32) -> f32 {
    SINES[((degree + 90) % 360) as usize]
}

/// `get_point`: turn a place about the centre, then drop the signs.
pub(super) fn turn_about(center: Pixel, place: Pixel, degree: u32) -> Point {
    let center_x = center.x as f32;
    let center_y = center.y as f32;
    let dx = place.x as f32 - center_x;
    let dy = place.y as f32 - center_y;
    let x = cosine(degree) * dx - sine(degree) * dy + center_x;
    let y = sine(degree) * dx + cosine(degree) * dy + center_y;
    Point {
        x: x.abs(),
        y: y.abs(),
    }
}

/// The cast of a point to whole coordinates.
pub(super) fn truncate(point: Point) -> Pixel {
    pixel(point.x as u32, point.y as u32)
}
