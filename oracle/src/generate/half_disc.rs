//! White half discs at the upper edge, where walks are mirrored back into the image: many end points pass in them.

use super::aim::{Target, turns};
use super::canvas::Canvas;
use super::ellipses::{seen, slit, worn};
use super::random::Random;

/// A white half disc about a point of row 0, where walks are mirrored, with the rings of one eye about a pixel below that, in its row
/// so far from it.
fn half_disc(random: &mut Random, half: i32, side: i32) -> (Canvas, Target) {
    let (x, y) = (2 * half + 8, random.pick(&[8, 10, 12, 12, 14]));
    let mut canvas = Canvas::new(x + side + 14, y + 2 * half + 8);
    canvas.fill(true);
    let radius = half as f64 + random.real(0.3, 1.3);
    for row in 0..=half + 1 {
        let down = row as f64 + 0.5;
        let wide = (radius * radius - down * down).max(0.0).sqrt() as i32;
        canvas.block(x - wide, row, x + wide - 1, row, false);
    }
    ring_marks(&mut canvas, (x, y), side, half + random.between(0, 1));
    let target = Target {
        x: x as u32,
        y: y as u32,
        radius: side as u32 + 5,
    };
    (canvas, target)
}

/// A half disc whose lengths are about the same, but for a longer one: mirrored end points lie inside, so it often is an ellipse.
pub fn mirrored(random: &mut Random) -> Canvas {
    let half = random.between(15, 36);
    let side = half + 1 + random.between(0, 10);
    let (mut canvas, target) = half_disc(random, half, side);
    for _ in 0..random.between(30, 90) {
        evened(random, &mut canvas, target, 2 * half as u32);
    }
    if random.one_in(2) {
        slit(random, &mut canvas, (target.x as i32, target.y as i32));
    }
    worn(random, canvas)
}

/// A half disc all of whose lengths have the same half, though 116 end points pass or more, if changes lead there.
pub fn equal_halves(random: &mut Random) -> Canvas {
    let half = random.between(34, 40);
    let length = 2 * half as u32;
    let (mut canvas, target) = half_disc(random, half, half + 1);
    let mut all = (0..120).any(|_| evened(random, &mut canvas, target, length));
    for _ in 0..90 {
        let good = seen(&canvas, target).good;
        if all && good >= 116 {
            break;
        }
        let mut other = canvas.clone();
        shifted(random, &mut other, target);
        let even = (0..8).any(|_| evened(random, &mut other, target, length));
        if even && (!all || seen(&other, target).good >= good) {
            (canvas, all) = (other, true);
        }
    }
    canvas
}

/// Move both ends of some width, left and right, one pixel to the right.
fn shifted(random: &mut Random, canvas: &mut Canvas, target: Target) {
    let degree = 5 * (1 + random.below(35));
    let [left, right] = turns().walk(canvas, target, degree);
    for (column, black) in [(left + 1, true), (right, false)] {
        let at = turns().pixel(target, column, degree);
        if !ringed(target, at) {
            canvas.set(at.0, at.1, black);
        }
    }
}

/// Whether a pixel lies in the row or the column of a half disc's rings.
fn ringed(target: Target, (x, y): (i32, i32)) -> bool {
    x == target.x as i32 + 1 || y == target.y as i32
}

/// The rings' pixels in the row of a place and in the column beside it, each a pixel of white from the next.
fn ring_marks(canvas: &mut Canvas, (x, y): (i32, i32), side: i32, edge: i32) {
    canvas.block(0, y, canvas.width as i32 - 1, y, false);
    canvas.block(x + 1, 1, x + 1, edge + 5, false);
    for ring in [0, 2, 4] {
        canvas.set(x - side - ring, y, true);
        canvas.set(x + side + ring, y, true);
        canvas.set(x + 1, 5 - ring, true);
        canvas.set(x + 1, edge + ring, true);
    }
}

/// Bring each width that is not of this length, or one more, one pixel nearer to it, sparing the rings; true where all are.
fn evened(random: &mut Random, canvas: &mut Canvas, target: Target, length: u32) -> bool {
    let mut all = true;
    for degree in (0..180).step_by(5) {
        let [left, right] = turns().walk(canvas, target, degree);
        let now = right - 1 - left;
        if (length..=length + 1).contains(&now) {
            continue;
        }
        all = false;
        let columns = match now < length {
            true => [left, right],
            false => [left + 1, right - 1],
        };
        let at = turns().pixel(target, random.pick(&columns), degree);
        if !ringed(target, at) {
            canvas.set(at.0, at.1, now > length);
        }
    }
    all
}
