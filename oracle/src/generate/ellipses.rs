//! Images for the ellipse check: eyes stretched, sheared, cut off, thin and long, and end points at the edges of its two tests.

use crops::RECORD_WORDS;
use crops::cases::Stock;

use super::aim::{Target, measure, passes, turns};
use super::angle::{cosine, sine};
use super::canvas::Canvas;
use super::draw::{Eye, Shape};
use super::painted::{Wish, aimed};
use super::random::Random;
use super::{Crop, Family, half_disc};
use crate::second::{EllipseVerdict, EllipseWidths, ellipse_widths};

/// Name, share of 100 and maker of each family.
pub const MAKERS: [Family<Canvas>; 11] = [
    ("stretched", 15, stretched),
    ("sheared", 10, sheared),
    ("diamonds", 12, diamonds),
    ("mirrored", 16, half_disc::mirrored),
    ("cut off", 10, cut_off),
    ("thin", 8, thin),
    ("long", 2, long),
    ("four fifths", 12, four_fifths),
    ("equal halves", 4, half_disc::equal_halves),
    ("turned", 3, turned),
    ("several", 8, several),
];

/// Crops next to the edges of the check, by name: end points that pass, 116 and one or two fewer by a pixel; equal halves with 116
/// of them, and halves apart by a pixel; sums so near to 1 that f32 would let four end points more pass.
const NEAR: &str = include_str!("../../cases/ellipses.txt");

/// These crops, each with its name, and one with long walks.
pub fn near_ellipses() -> Vec<(&'static str, Crop)> {
    let stock = Stock::parse(NEAR).unwrap_or_else(|problem| panic!("{problem}"));
    let names = NEAR.lines().filter_map(|line| line.split(' ').next());
    let named = |name| {
        let image = stock.image(name).expect("a crop of this name");
        (name, near(image))
    };
    names.map(named).chain([("tall", tall())]).collect()
}

/// The rings of an eye, single pixels, near the lower edge of an image that is as high as may be and white else: one walk goes up
/// through all rows, is mirrored and comes down again.
fn tall() -> Crop {
    let mut canvas = Canvas::new(64, 2048);
    let (x, y) = (32, 2036);
    for ring in [0, 2, 4] {
        for side in [-1, 1] {
            canvas.set(x + side * (12 + ring), y, true);
            canvas.set(x + 1, y + side * (4 + ring), true);
        }
    }
    near((canvas.words, canvas.width, canvas.height))
}

fn near((words, width, height): (Vec<u64>, u32, u32)) -> Crop {
    Crop {
        family: "near",
        width,
        height,
        words,
        capacity_words: 12 * RECORD_WORDS,
    }
}

/// A stretch by a factor in a direction, as the eye's matrix from image to eye.
fn stretch(factor: f64, degree: u32) -> [f64; 4] {
    let (s, c) = (sine(degree), cosine(degree));
    let less = 1.0 / factor - 1.0;
    [
        1.0 + c * c * less,
        c * s * less,
        c * s * less,
        1.0 + s * s * less,
    ]
}

/// An eye about no place yet, mostly with a wide white centre.
fn eye(random: &mut Random) -> Eye {
    let module = match random.below(3) {
        0 => 1.0,
        1 => random.between(1, 3) as f64,
        _ => random.real(1.0, 3.0),
    };
    let disc = match random.below(3) {
        0 => random.real(0.6, 2.0) * module,
        1 => random.real(2.0, 12.0),
        _ => random.real(6.0, 24.0),
    };
    let shapes = [Shape::Round, Shape::Round, Shape::Diamond, Shape::Square];
    let mut eye = Eye::new(0.0, 0.0, disc, module, random.pick(&shapes));
    eye.quiet = random.real(0.5, 2.0);
    eye
}

/// The same, stretched by 1.05 to 3 in any direction, often along a row.
fn oval(random: &mut Random) -> Eye {
    let mut eye = eye(random);
    let degree = match random.below(3) {
        0 => 0,
        1 => random.pick(&[0, 5, 45, 90, 135, 175]),
        _ => random.below(180),
    };
    eye.skew = stretch(random.real(1.05, 3.0), degree);
    eye
}

/// A diamond two to three times as wide as high: walks from its centre end well inside the ellipse of the halves, but for those near
/// its corners.
fn wide_diamond(random: &mut Random) -> Eye {
    let disc = random.real(10.0, 30.0);
    let module = random.pick(&[1.0, 1.0, 1.5, 2.0]);
    let mut eye = Eye::new(0.0, 0.0, disc, module, Shape::Diamond);
    eye.skew = stretch(random.real(2.0, 3.0), 0);
    eye.quiet = random.real(0.5, 2.0);
    eye
}

/// How far an eye reaches from its centre along the row and along the column.
fn reach(eye: &Eye) -> (f64, f64) {
    let [a, b, c, d] = eye.skew;
    let along = |u: f64, v: f64| match eye.shape {
        Shape::Round => (u * u + v * v).sqrt(),
        Shape::Diamond => u.abs() + v.abs(),
        Shape::Square | Shape::Cross => u.abs().max(v.abs()),
    };
    let (row, column) = (along(a, c), along(b, d));
    (
        eye.radius() / row + eye.stretch.0,
        eye.radius() / column + eye.stretch.1,
    )
}

/// The eye drawn in an image with so many pixels on each side of what its row and its column need, and its place.
fn alone(random: &mut Random, mut eye: Eye, spare: i32) -> (Canvas, (i32, i32)) {
    let (across, down) = reach(&eye);
    let mut room = |need: f64, least: i32| {
        let need = need as i32 + least;
        [(); 2].map(|()| need + random.between(0, spare))
    };
    let [left, right] = room(across, 8);
    let [above, below] = room(down, 3);
    let y = (above.max(6) + 1) & !1;
    let mut canvas = Canvas::new(left + right, y + below.max(7));
    (eye.x, eye.y) = (left as f64, y as f64);
    eye.draw(&mut canvas);
    (canvas, (left, y))
}

/// Some pixels inverted, mostly none.
pub fn worn(random: &mut Random, mut canvas: Canvas) -> Canvas {
    let density = random.pick(&[0, 0, 0, 0, 0, 40, 200, 600]);
    canvas.flip(random, density);
    canvas
}

/// An eye stretched in any direction, with all of its rings.
fn stretched(random: &mut Random) -> Canvas {
    let eye = oval(random);
    let (canvas, _) = alone(random, eye, 30);
    worn(random, canvas)
}

/// An eye sheared along the row or the column, perhaps stretched before.
fn sheared(random: &mut Random) -> Canvas {
    let mut eye = match random.one_in(2) {
        true => oval(random),
        false => eye(random),
    };
    let [a, b, c, d] = eye.skew;
    let shear = random.real(-0.8, 0.8);
    eye.skew = match random.one_in(2) {
        true => [a + shear * c, b + shear * d, c, d],
        false => [a, b, c + shear * a, d + shear * b],
    };
    let (canvas, _) = alone(random, eye, 30);
    worn(random, canvas)
}

/// A wide diamond, sometimes an ellipse to the check, perhaps sheared a little.
fn diamonds(random: &mut Random) -> Canvas {
    let mut eye = wide_diamond(random);
    if random.one_in(3) {
        eye.skew[1] = random.real(-0.3, 0.3);
    }
    let (mut canvas, (x, y)) = alone(random, eye, 20);
    if random.one_in(4) {
        slit(random, &mut canvas, (x, y));
    }
    worn(random, canvas)
}

/// An eye stretched across the row, in an image that has room for its row and its column alone, so that walks leave it.
fn cut_off(random: &mut Random) -> Canvas {
    let mut eye = eye(random);
    eye.disc = eye.disc.max(random.real(2.0, 20.0));
    let degree = random.pick(&[20, 30, 40, 45, 50, 60, 70]) + 90 * random.below(2);
    eye.skew = stretch(random.real(1.5, 3.0), degree);
    let spare = random.between(0, 3);
    let (mut canvas, (x, y)) = alone(random, eye, spare);
    if random.one_in(2) {
        slit(random, &mut canvas, (x, y));
    }
    worn(random, canvas)
}

/// Clear a ray from a place in a direction that misses its row and its column.
pub fn slit(random: &mut Random, canvas: &mut Canvas, (x, y): (i32, i32)) {
    let degree = 5 * random.below(72);
    let (s, c) = (sine(degree), cosine(degree));
    let length = random.between(2, canvas.width as i32);
    for step in 1..length {
        let (dx, dy) = (step as f64 * c, step as f64 * s);
        let at = ((x as f64 + dx) as i32, (y as f64 + dy) as i32);
        if at.0 != x && at.1 != y {
            canvas.set(at.0, at.1, false);
        }
    }
}

/// A white centre one pixel wide or high, so that the shortest half is 0, with some openings.
fn thin(random: &mut Random) -> Canvas {
    let shape = random.pick(&[Shape::Square, Shape::Cross, Shape::Round]);
    let mut eye = Eye::new(0.0, 0.0, 0.6, random.pick(&[1.0, 1.0, 2.0]), shape);
    match random.below(3) {
        0 => eye.stretch.0 = random.real(0.0, 24.0),
        1 => eye.stretch.1 = random.real(0.0, 24.0),
        _ => (),
    }
    let (mut canvas, (x, y)) = alone(random, eye, 20);
    for _ in 0..random.below(4) {
        slit(random, &mut canvas, (x, y));
    }
    if random.one_in(8) {
        canvas.set(x, y, true);
    }
    worn(random, canvas)
}

/// Eyes almost as long as the longest side, along the row or along the column.
fn long(random: &mut Random) -> Canvas {
    let mut eye = eye(random);
    eye.module = 1.0;
    eye.disc = random.real(2.0, 16.0);
    let (width, height) = match random.below(3) {
        0 => (random.between(80, 256), 2048),
        _ => (random.between(1990, 2048), random.between(60, 250)),
    };
    let mut canvas = Canvas::new(width, height);
    let (width, height) = (canvas.width as i32, canvas.height as i32);
    let spare = random.between(0, 20) as f64;
    match width > height {
        true => eye.stretch.0 = width as f64 / 2.0 - eye.radius() - 8.0 - spare,
        false => eye.stretch.1 = height as f64 / 2.0 - eye.radius() - 4.0 - spare,
    }
    let (x, y) = (width / 2, (height / 2) & !1);
    (eye.x, eye.y) = (x as f64, y as f64);
    eye.draw(&mut canvas);
    if random.one_in(2) {
        slit(random, &mut canvas, (x, y));
    }
    canvas
}

/// What the check sees from a target.
pub fn seen(canvas: &Canvas, target: Target) -> EllipseWidths {
    let (width, height) = (canvas.width, canvas.height);
    ellipse_widths(&canvas.words, width, height, (target.x, target.y))
}

/// A wide diamond, of which most end points pass, brought to 115 or 116 of them or about so many, if changes at the ends of walks
/// lead there.
fn four_fifths(random: &mut Random) -> Canvas {
    let wanted = random.pick(&[115, 115, 115, 116, 116, 114, 117]);
    let mut last = Canvas::new(33, 33);
    for _ in 0..3 {
        let eye = wide_diamond(random);
        let (canvas, (x, y)) = alone(random, eye, 6);
        last = canvas;
        for _ in 0..random.below(3) {
            slit(random, &mut last, (x, y));
        }
        let Some(target) = measure(&last, x, y).filter(|&target| passes(&last, target)) else {
            continue;
        };
        if brought_to(random, &mut last, target, wanted) {
            break;
        }
    }
    last
}

/// Change pixels at the ends of walks for as long as that brings the number of passing end points nearer.
fn brought_to(random: &mut Random, canvas: &mut Canvas, target: Target, wanted: u32) -> bool {
    let mut away = seen(canvas, target).good.abs_diff(wanted);
    for _ in 0..100 {
        if away == 0 {
            return true;
        }
        let mut other = canvas.clone();
        at_an_end(random, &mut other, target);
        let widths = seen(&other, target);
        let now = widths.good.abs_diff(wanted);
        let unequal = widths.verdict() != EllipseVerdict::EqualHalves;
        let found = measure(&other, target.x as i32, target.y as i32) == Some(target);
        if now <= away && unequal && found && passes(&other, target) {
            (*canvas, away) = (other, now);
        }
    }
    away == 0
}

/// Move the end of some walk: blacken a pixel before it, or clear the one that ended it.
fn at_an_end(random: &mut Random, canvas: &mut Canvas, target: Target) {
    let degree = 5 * random.below(72);
    let [left, right] = turns().walk(canvas, target, degree);
    let back = random.pick(&[0, 0, 1, 2, 4]);
    let column = match random.one_in(2) {
        true => (left + back).min(target.x),
        false => right - back.min(right - target.x),
    };
    let (x, y) = turns().pixel(target, column, degree);
    canvas.set(x, y, back > 0);
}

/// A wide diamond among points that are painted so that without the check it is turned.
fn turned(random: &mut Random) -> Canvas {
    let wish = Wish::any(random);
    let mut last = Canvas::new(33, 33);
    for _ in 0..4 {
        let mut eye = wide_diamond(random);
        eye.disc = random.real(18.0, 24.0);
        eye.module = 1.0;
        eye.skew = stretch(random.real(2.6, 3.0), 0);
        let side = (1.8 * reach(&eye).0) as i32 + 4;
        let (x, y) = (side, side & !1);
        last = Canvas::new(2 * side, 2 * side + random.between(0, side));
        (eye.x, eye.y) = (x as f64, y as f64);
        eye.draw(&mut last);
        let Some(target) = measure(&last, x, y).filter(|&target| passes(&last, target)) else {
            continue;
        };
        let ellipse = seen(&last, target).verdict() == EllipseVerdict::Ellipse;
        if ellipse && aimed(random, turns(), &mut last, target, wish) {
            break;
        }
    }
    last
}

/// Two to four eyes side by side or one below the other, some round, some stretched.
fn several(random: &mut Random) -> Canvas {
    let (count, below) = (random.between(2, 4), random.one_in(2));
    let eyes: Vec<Eye> = (0..count)
        .map(|_| match random.below(4) {
            0 => eye(random),
            1 => oval(random),
            _ => wide_diamond(random),
        })
        .collect();
    let most = |side: fn((f64, f64)) -> f64| {
        let sides = eyes.iter().map(|eye| side(reach(eye)));
        sides.fold(0.0, f64::max) as i32
    };
    let (across, down) = (2 * most(|sides| sides.0) + 6, 2 * most(|sides| sides.1) + 6);
    let (columns, rows) = if below { (1, count) } else { (count, 1) };
    let mut canvas = Canvas::new(across * columns + 14, down * rows + 8);
    for (mut eye, place) in eyes.into_iter().zip(0..) {
        let (column, row) = if below { (0, place) } else { (place, 0) };
        eye.x = (7 + across / 2 + across * column) as f64;
        eye.y = ((4 + down / 2 + down * row) & !1) as f64;
        eye.draw(&mut canvas);
    }
    worn(random, canvas)
}
