//! The size of a symbol and its boundaries.

use super::image::{Pixel, pixel};

/// Width and height of the symbol.
#[derive(Debug, PartialEq, Eq)]
pub(super) struct SymbolSize {
    pub(super) width: u32,
    pub(super) height: u32,
}

/// The four symbol boundaries.
#[derive(Clone, Copy, Debug, PartialEq, Eq)]
pub(super) struct Boundary {
    pub(super) left: u32,
    pub(super) right: u32,
    pub(super) top: u32,
    pub(super) bottom: u32,
}

/// `guess_barcode_size_general`, in f64.
fn symbol_size(
    radius: u32,
    height_adjust: f64,
    circle_share: f64,
    height_factor: f64,
) -> SymbolSize {
    let circle_area = std::f64::consts::PI * f64::from(radius * radius);
    let symbol_area = circle_area / circle_share / (1.0 - height_adjust);
    let side = symbol_area.sqrt();
    SymbolSize {
        width: side as u32,
        height: (side * height_factor) as u32,
    }
}

/// The size for the plain box.
pub(super) fn plain_size(radius: u32) -> SymbolSize {
    symbol_size(radius, 0.03, 0.066, 1.0)
}

/// The size for the points of one scale.
pub(super) fn scaled_size(radius: u32, scale: f64) -> SymbolSize {
    symbol_size(radius, 0.05, scale, 0.95)
}

/// `calculate_simple_boundary`: shifts from the centre, in i32, clamped to the image.
pub(super) fn boundary_of(center: Pixel, size: &SymbolSize, width: u32, height: u32) -> Boundary {
    let x = center.x as i32;
    let y = center.y as i32;
    let width = width as i32;
    let height = height as i32;
    let half_width = size.width as f32 / 2.0;
    let adjust = size.width as f32 * 0.03;
    let left_shift = (half_width - adjust) as i32;
    let right_shift = (half_width + adjust) as i32;
    let vertical_shift = size.height as i32 / 2;
    Boundary {
        left: (x - left_shift).clamp(0, width - 33) as u32,
        right: (x + right_shift).clamp(33, width) as u32,
        top: (y + vertical_shift).clamp(33, height) as u32,
        bottom: (y - vertical_shift).clamp(0, height - 30) as u32,
    }
}

/// The four corners of a boundary.
pub(super) fn plain_box(boundary: &Boundary) -> [Pixel; 4] {
    [
        pixel(boundary.left, boundary.bottom),
        pixel(boundary.left, boundary.top),
        pixel(boundary.right, boundary.bottom),
        pixel(boundary.right, boundary.top),
    ]
}
