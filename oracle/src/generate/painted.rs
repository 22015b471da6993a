//! Images that are aimed: turns at a chosen scale and degree, and lost centres.

use super::aim::{End, SCALES, Target, Turns, measure, passes, points, turns};
use super::canvas::Canvas;
use super::draw::{Eye, PATTERNS, Shape};
use super::families::side;
use super::random::Random;

/// Scale (from 0) and degree that an image shall end with.
#[derive(Clone, Copy)]
pub struct Wish {
    scale: usize,
    degree: u32,
}

impl Wish {
    /// Any scale, and any degree that a turn can have.
    pub fn any(random: &mut Random) -> Self {
        Wish {
            scale: random.below(5) as usize,
            degree: 2 * random.below(175),
        }
    }
}

/// An image whose centre eye gets a wanted turn, if one of several tries succeeds.
pub fn painted(random: &mut Random) -> Canvas {
    let turns = turns();
    let most = random.pick(&[175, 175, 175, 175, 175, 175, 175, 180]);
    let wish = Wish {
        scale: random.below(5) as usize,
        degree: 2 * random.below(most),
    };
    let mut last = Canvas::new(33, 33);
    for _ in 0..12 {
        let (canvas, target) = eye_alone(random, wish);
        last = canvas;
        let Some(target) = target.filter(|&target| passes(&last, target)) else {
            continue;
        };
        if aimed(random, turns, &mut last, target, wish) {
            break;
        }
    }
    if random.one_in(8) {
        last.flip(random, 200);
    }
    last
}

/// Room about the centre in one dimension: pixels before it and after it.
fn room(random: &mut Random, radius: f64, least: f64, wish: Wish) -> (i32, i32) {
    let reach = 1.7 * radius + 3.0;
    let extra = if random.one_in(4) && wish.scale == 0 {
        0.0
    } else {
        2.0 * radius
    };
    let mut before = reach + random.real(0.0, 1.0) * extra;
    let mut after = reach + random.real(0.5, 1.0) * extra;
    match random.below(10) {
        0 => before = random.real(1.0, 1.6) * radius + least,
        1 => after = random.real(1.0, 1.65) * radius + least,
        _ => (),
    }
    (before as i32, after as i32)
}

/// A bull's-eye with room for the sampled points, and its candidate.
fn eye_alone(random: &mut Random, wish: Wish) -> (Canvas, Option<Target>) {
    let mut eye = wished_eye(random, wish);
    let (x, right) = room(random, eye.radius(), 7.0, wish);
    let (mut y, lower) = room(random, eye.radius(), 2.0, wish);
    if random.one_in(6) {
        y = (random.real(4.6, 7.2) * eye.radius()) as i32;
    }
    let y = (y + 1).max(6) & !1;
    let mut canvas = Canvas::new(x + right, y + lower);
    if random.one_in(4) {
        let density = random.pick(&[4000, 12000, 24000, 32768, 44000]);
        canvas.noise(random, density);
    }
    (eye.x, eye.y) = (x as f64, y as f64);
    eye.draw(&mut canvas);
    let target = measure(&canvas, x, y);
    (canvas, target)
}

/// An eye about no place yet; larger where neighbouring scales are close.
fn wished_eye(random: &mut Random, wish: Wish) -> Eye {
    let module = match wish.scale {
        2 => random.real(2.0, 4.0),
        _ if random.one_in(6) => 1.0,
        _ => random.real(1.0, 3.2),
    };
    let shape = random.pick(&[Shape::Round, Shape::Round, Shape::Square]);
    let disc = (module * random.real(0.8, 1.6)).max(1.0);
    let mut eye = Eye::new(0.0, 0.0, disc, module, shape);
    eye.quiet = 1.5;
    eye
}

/// The corrected centre with which a scale works.
fn centre_at(turns: &Turns, canvas: &Canvas, target: Target, scale: usize) -> Option<Target> {
    let mut now = target;
    for _ in 0..=scale {
        now = turns.correct(canvas, now)?;
    }
    Some(now)
}

/// Paint and repair until the candidate ends as wished; kept too if a border forbids it.
pub fn aimed(
    random: &mut Random,
    turns: &Turns,
    canvas: &mut Canvas,
    target: Target,
    wish: Wish,
) -> bool {
    let Some(centre) = centre_at(turns, canvas, target, wish.scale) else {
        return false;
    };
    let at = samples(turns, canvas, centre, wish);
    let all = |(x, y): &(i32, i32)| x + 1 < canvas.width as i32 && y + 1 < canvas.height as i32;
    if !at.iter().all(all) {
        return false;
    }
    for _ in 0..40 {
        if !repair(random, canvas, &at) {
            return false;
        }
        match turns.end(canvas, target) {
            End::Turned(scale, degree) if (scale, degree) == (wish.scale, wish.degree) => {
                return true;
            }
            End::Turned(scale, degree) => {
                let Some(centre) = centre_at(turns, canvas, target, scale) else {
                    return false;
                };
                let other = samples(turns, canvas, centre, Wish { scale, degree });
                part(random, canvas, &at, &other);
            }
            End::Lost(_) => return false,
            End::Plain => return wish.degree > 348 || random.one_in(2),
        }
    }
    false
}

/// The 18 pixels about which a scale and degree sample.
fn samples(turns: &Turns, canvas: &Canvas, centre: Target, wish: Wish) -> [(i32, i32); 18] {
    points(canvas, centre, SCALES[wish.scale]).map(|p| turns.sample(centre, p, wish.degree))
}

/// The pixels of an area, cut at 0.
fn cells(at: (i32, i32)) -> impl Iterator<Item = (i32, i32)> {
    let columns = (at.0 - 1).max(0)..=at.0 + 1;
    columns.flat_map(move |x| ((at.1 - 1).max(0)..=at.1 + 1).map(move |y| (x, y)))
}

fn majority(canvas: &Canvas, at: (i32, i32)) -> bool {
    let black = cells(at).filter(|&(x, y)| canvas.get(x, y)).count();
    2 * black >= cells(at).count()
}

/// Paint random pixels of wrong areas until all 18 have their colours, or give up.
fn repair(random: &mut Random, canvas: &mut Canvas, at: &[(i32, i32); 18]) -> bool {
    for _ in 0..12 {
        let mut right = true;
        for (&middle, (_, _, black)) in at.iter().zip(PATTERNS) {
            while majority(canvas, middle) != black {
                right = false;
                let x = (middle.0 + random.between(-1, 1)).max(0);
                let y = (middle.1 + random.between(-1, 1)).max(0);
                canvas.set(x, y, black);
            }
        }
        if right {
            return true;
        }
    }
    false
}

/// Make one area of an unwanted match wrong, sparing the pixels that the wish needs.
fn part(random: &mut Random, canvas: &mut Canvas, at: &[(i32, i32); 18], other: &[(i32, i32); 18]) {
    let apart: Vec<usize> = (0..18).filter(|&i| at[i] != other[i]).collect();
    if apart.is_empty() {
        return;
    }
    let i = random.pick(&apart);
    let black = PATTERNS[i].2;
    for (x, y) in cells(at[i]) {
        canvas.set(x, y, black);
    }
    for (x, y) in cells(other[i]) {
        let wanted = cells(at[i]).any(|cell| cell == (x, y));
        canvas.set(x, y, black != (!wanted || !random.one_in(3)));
    }
}

/// An eye whose corrected centre leaves the image at a wanted scale, if a try succeeds.
pub fn lost(random: &mut Random) -> Canvas {
    let turns = turns();
    let wanted = random.below(5) as usize;
    let mut best = (0, Canvas::new(33, 33));
    for _ in 0..12 {
        let (canvas, x, y) = open_eye(random);
        let end = measure(&canvas, x, y).map(|target| turns.end(&canvas, target));
        let rank = match end {
            Some(End::Lost(scale)) if scale == wanted => 9,
            Some(End::Lost(scale)) if scale > 0 => 2,
            Some(End::Lost(_)) => 1,
            _ => 0,
        };
        if rank >= best.0 {
            best = (rank, canvas);
        }
        if best.0 == 9 {
            break;
        }
    }
    best.1
}

/// A flat eye, or one with openings in its rings, and the pixel of its centre.
fn open_eye(random: &mut Random) -> (Canvas, i32, i32) {
    let mut canvas = Canvas::new(side(random), side(random));
    if random.one_in(2) {
        let density = random.pick(&[600, 2000, 4000, 9000, 30000]);
        canvas.noise(random, density);
    }
    let module = random.pick(&[1.0, 1.0, 1.0, 2.0, 3.0]);
    let shape = random.pick(&[Shape::Square, Shape::Square, Shape::Round]);
    let mut eye = Eye::new(0.0, 0.0, random.real(0.6, 2.5), module, shape);
    let half = canvas.width as f64 / 2.0 - 8.0 - eye.radius();
    eye.stretch.0 = random.real(0.0, 30.0).min(half).max(0.0);
    let reach = (eye.radius() + eye.stretch.0) as i32 + 7;
    let x = random.between(reach, canvas.width as i32 - reach);
    let edge = eye.radius() as i32 + 2;
    let y = random.between(edge.max(6), canvas.height as i32 - edge.max(7)) & !1;
    (eye.x, eye.y) = (x as f64, y as f64);
    eye.draw(&mut canvas);
    for _ in 0..random.below(4) {
        opening(random, &mut canvas, &eye);
    }
    if random.one_in(2) {
        let (dx, dy) = (random.between(-2, 2), random.between(-2, 2));
        canvas.set(x + dx, y + dy, dx != 0 && dy != 0);
    }
    (canvas, x, y)
}

/// Clear or blacken a short stroke that misses the row and the column of the centre.
fn opening(random: &mut Random, canvas: &mut Canvas, eye: &Eye) {
    let reach = (eye.radius() + eye.stretch.0) as i32 + 1;
    let dx = random.between(1, reach) * random.pick(&[-1, 1]);
    let dy = random.between(1, 3) * random.pick(&[-1, 1]);
    let length = random.between(1, reach) * dx.signum();
    let black = random.one_in(3);
    for step in 0..length.abs() {
        let x = eye.x as i32 + dx + step * length.signum();
        canvas.set(x, eye.y as i32 + dy + (step / 8) * dx.signum(), black);
    }
}
