//! What the ellipse check saw, as a part of a picture.
use crate::{ellipse::Check, image::Image};
use crops::Point;

/// The ellipse of the halves with the half axes, and the end points, those that pass as dots and the others as crosses; all inside the
/// crop. The rank tells its clip from others.
pub fn drawn(rank: usize, check: &Check, image: &Image, zoom: f64) -> String {
    let (width, height) = (image.width, image.height);
    let ((x, y), longest, shortest) = (check.centre, check.longest, check.shortest);
    let (dot, arm) = (6.0 / zoom, 4.0 / zoom);
    let cross = format!("m-{arm:.3} 0h{0:.3}m-{arm:.3} -{arm:.3}v{0:.3}", 2.0 * arm);
    let (mut dots, mut crosses) = (String::new(), String::new());
    for &end in &check.ends {
        let Point { x, y } = end;
        match check.passes(end) {
            true => dots += &format!("M{x:.2} {y:.2}h0"),
            false => crosses += &format!("M{x:.2} {y:.2}{cross}"),
        }
    }
    format!(
        "<clipPath id=\"crop-{rank}\"><rect x=\"-0.5\" y=\"-0.5\" width=\"{width}\" height=\"{height}\"/></clipPath>\n\
<g clip-path=\"url(#crop-{rank})\">\n\
<ellipse cx=\"{x}\" cy=\"{y}\" rx=\"{longest}\" ry=\"{shortest}\"/>\n\
<path class=\"halves\" d=\"M{x} {y}h{longest}M{x} {y}v{shortest}\"/>\n\
<path class=\"passing\" stroke-width=\"{dot:.3}\" stroke-linecap=\"round\" d=\"{dots}\"/>\n\
<path class=\"failing\" d=\"{crosses}\"/>\n</g>\n"
    )
}
