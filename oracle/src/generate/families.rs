//! The families of images, each a function of the random stream.

use super::canvas::Canvas;
use super::draw::{Eye, Shape, Symbol};
use super::random::Random;
use super::{aim, painted};
use crops::{MOST_WORDS, row_words};

/// Image and record buffer length, where the family has one to suggest.
pub type Made = (Canvas, Option<usize>);

/// A typical side: often next to a multiple of 64, otherwise 33 to 160.
pub fn side(random: &mut Random) -> i32 {
    match random.below(8) {
        0 => random.pick(&[63, 64, 65]),
        1 => random.pick(&[127, 128, 129]),
        2 => random.between(33, 40),
        3 => random.between(100, 160),
        _ => random.between(33, 100),
    }
}

fn blank(random: &mut Random) -> Canvas {
    let width = side(random);
    Canvas::new(width, side(random))
}

/// Independent pixels of 1 to 99 percent black.
pub fn noise(random: &mut Random) -> Made {
    let mut canvas = blank(random);
    let percent = random.pick(&[1, 2, 5, 10, 20, 30, 40, 45, 50, 55, 60, 70, 80, 90, 98, 99]);
    canvas.noise(random, percent * 65536 / 100);
    (canvas, None)
}

/// Runs of random lengths; rows may repeat so that columns have runs too.
pub fn runs(random: &mut Random) -> Made {
    let mut canvas = blank(random);
    let (short, long) = (random.between(1, 3), random.between(0, 4));
    let repeat = random.between(0, 7) as u32;
    for y in 0..canvas.height as i32 {
        if y > 0 && random.below(8) < repeat {
            canvas.copy_row(y as usize - 1, y as usize);
            continue;
        }
        let (mut x, mut black) = (0, random.one_in(2));
        while x < canvas.width as i32 {
            let length = random.between(short, short + long);
            if black {
                canvas.block(x, y, x + length - 1, y, true);
            }
            x += length;
            black = !black;
        }
    }
    spoil(random, &mut canvas, 1);
    (canvas, None)
}

/// Invert some pixels, or none; less with a larger divisor.
fn spoil(random: &mut Random, canvas: &mut Canvas, divisor: u32) {
    let levels = [
        0, 0, 0, 0, 0, 0, 16, 64, 128, 256, 512, 1024, 2048, 3000, 4000, 6000,
    ];
    let density = random.pick(&levels) / divisor;
    canvas.flip(random, density);
}

/// Smallest, longest and fullest images, with some content.
pub fn sizes(random: &mut Random) -> Made {
    let width = match random.below(12) {
        0 => 2048,
        1 => 2047,
        2 => 1985,
        3 => random.pick(&[191, 192, 193, 255, 256, 257, 319, 320, 321]),
        4..=6 => 33,
        _ => random.pick(&[33, 34, 63, 64, 65, 127, 128, 129, 191, 192, 193]),
    };
    let fullest = (MOST_WORDS / row_words(width as u32)).min(2048) as i32;
    let height = match random.below(6) {
        0 if random.one_in(4) => fullest,
        1 if width < 66 => random.between(33, 400),
        2 => 34,
        _ => 33,
    };
    let mut canvas = Canvas::new(width, height);
    let density = random.pick(&[0, 600, 20000, 32768, 50000, 65000]);
    canvas.noise(random, density);
    for _ in 0..random.below(6) {
        let (x, y) = spot(random, &canvas, 6);
        let shape = random.pick(&[Shape::Square, Shape::Cross]);
        Eye::new(x as f64, y as f64, 0.5, 1.0, shape).draw(&mut canvas);
    }
    (canvas, None)
}

/// A pixel on an even row, mostly at least `margin` from the borders.
fn spot(random: &mut Random, canvas: &Canvas, margin: i32) -> (i32, i32) {
    let margin = if random.one_in(8) { margin - 2 } else { margin };
    let x = random.between(margin, canvas.width as i32 - 1 - margin);
    let y = random.between(margin, canvas.height as i32 - 1 - margin);
    (x, y & !1)
}

/// An eye of a given module about a pixel.
fn eye_at(random: &mut Random, at: (i32, i32), module: f64, shape: Shape) -> Eye {
    let disc = (module * random.real(0.4, 1.6)).max(0.5);
    let (x, y) = (at.0 as f64, at.1 as f64);
    let mut eye = Eye::new(x, y, disc, module, shape);
    eye.quiet = random.real(0.0, 1.5) * module;
    eye
}

fn skew(random: &mut Random, eye: &mut Eye) {
    let small = random.real(0.0, 0.4);
    let other = random.real(-0.3, 0.3);
    let (a, d) = (random.real(0.75, 1.25), random.real(0.75, 1.25));
    eye.skew = [a, small, other, d];
}

/// A ring width that fits the image: mostly small, up to 20.
fn module_for(random: &mut Random, canvas: &Canvas) -> f64 {
    let most = (canvas.width.min(canvas.height) as f64 - 14.0) / 13.0;
    let wanted = match random.below(4) {
        0 => 1.0,
        1 => random.between(1, 4) as f64,
        2 => random.real(1.0, 4.0),
        _ => random.real(1.0, 20.0),
    };
    wanted.min(most).max(1.0)
}

/// One to several round bull's-eyes, some skewed, some cut by a border, some noisy.
pub fn eyes(random: &mut Random) -> Made {
    let mut canvas = match random.below(24) {
        0 => {
            let width = random.between(150, 330);
            Canvas::new(width, random.between(150, 300))
        }
        _ => blank(random),
    };
    background(random, &mut canvas);
    for _ in 0..random.pick(&[1, 1, 1, 2, 3, 5]) {
        let module = module_for(random, &canvas);
        let at = spot(random, &canvas, (module * 6.0) as i32);
        let shape = random.pick(&[Shape::Round, Shape::Round, Shape::Round, Shape::Diamond]);
        let mut eye = eye_at(random, at, module, shape);
        if random.one_in(3) {
            skew(random, &mut eye);
        }
        eye.draw(&mut canvas);
    }
    spoil(random, &mut canvas, 2);
    (canvas, None)
}

/// White, black, or noise.
fn background(random: &mut Random, canvas: &mut Canvas) {
    match random.below(6) {
        0 => grain(random, canvas, &[3000, 12000, 26000, 40000]),
        1 if random.one_in(4) => canvas.fill(true),
        _ => (),
    }
}

/// Noise of one of some densities.
fn grain(random: &mut Random, canvas: &mut Canvas, densities: &[u32]) {
    let density = random.pick(densities);
    canvas.noise(random, density);
}

/// Eyes of straight lines: squares and crosses, of whole and of uneven rings.
pub fn lines(random: &mut Random) -> Made {
    let mut canvas = blank(random);
    background(random, &mut canvas);
    for _ in 0..random.pick(&[1, 1, 2, 3, 4, 6]) {
        let module = module_for(random, &canvas);
        let module = if random.one_in(3) {
            module
        } else {
            module.floor()
        };
        let at = spot(random, &canvas, (module * 6.0) as i32);
        let shape = random.pick(&[Shape::Square, Shape::Cross]);
        let mut eye = eye_at(random, at, module, shape);
        if random.one_in(4) {
            eye.stretch = (random.real(0.0, 8.0), random.real(0.0, 4.0));
        }
        eye.draw(&mut canvas);
    }
    if random.one_in(4) {
        let (x, y) = spot(random, &canvas, 6);
        canvas.block(
            x,
            y,
            x + random.between(0, 2),
            y + random.between(0, 2),
            true,
        );
    }
    spoil(random, &mut canvas, 4);
    (canvas, None)
}

/// A whole symbol at any degree, of modules of 3 to 20 pixels.
pub fn symbols(random: &mut Random) -> Made {
    let module = match random.below(32) {
        0 => random.real(10.0, 20.0),
        1..=4 => random.real(5.0, 9.0),
        _ => random.real(2.6, 4.5),
    };
    let scale = random.pick(&aim::SCALES);
    let width = 30.0 * module;
    let radius = width / aim::symbol_side(1.0, scale);
    let height = 0.95 * width;
    let (mx, my) = match random.below(12) {
        0 => (random.real(0.0, 0.5), random.real(0.0, 0.5)),
        _ => (random.real(0.0, 0.12), random.real(0.0, 0.12)),
    };
    let mut canvas = Canvas::new(
        (width * (1.0 + mx)) as i32 + random.between(0, 20),
        (height * (1.0 + my)) as i32 + random.between(0, 20),
    );
    let mut symbol = Symbol {
        x: (width * (0.47 + mx)).floor() + random.pick(&[0.0, 0.0, 0.5]),
        y: (height * (0.5 + my)).floor(),
        width,
        height,
        degree: random.below(360),
    };
    if random.one_in(8) {
        symbol.x = symbol.x.min(canvas.width as f64 - 1.8 * radius - 3.0);
    }
    symbol.draw(&mut canvas, random, 30000);
    symbol_eye(random, &mut canvas, &symbol, radius);
    spoil(random, &mut canvas, 2);
    (canvas, None)
}

/// The bull's-eye of a symbol, about its centre.
fn symbol_eye(random: &mut Random, canvas: &mut Canvas, symbol: &Symbol, radius: f64) {
    let ring = radius / random.real(5.6, 6.4);
    let mut eye = Eye::new(symbol.x, symbol.y, radius - 5.0 * ring, ring, Shape::Round);
    eye.quiet = 0.12 * radius;
    eye.draw(canvas);
}

/// A grid of single-pixel eyes and a buffer that just holds them, or just not.
pub fn capacity(random: &mut Random) -> Made {
    let pitch = random.pick(&[12, 12, 14, 16]);
    let most = if random.one_in(64) { 33 } else { 6 };
    let (across, down) = match most {
        33 => (32, random.between(31, 33)),
        _ => (random.between(1, most), random.between(1, most)),
    };
    let mut canvas = Canvas::new(across * pitch + 13, down * pitch + 13);
    for row in 0..down {
        for column in 0..across {
            let (x, y) = (12 + column * pitch, 12 + row * pitch);
            Eye::new(x as f64, y as f64, 0.5, 1.0, Shape::Square).draw(&mut canvas);
        }
    }
    if most == 33 && random.one_in(2) {
        canvas.set(12, 12, true);
    }
    let held = (across * down + random.between(-2, 1)).max(1) as usize;
    let over = random.pick(&[0, 0, 1, 20, 39]);
    let most_held = if random.one_in(2) { held } else { 2000 };
    let words = if most == 33 {
        most_held * 40
    } else {
        held * 40 + over
    };
    (canvas, Some(words))
}

/// Eyes on the four sides of an empty middle: found, and mostly all set aside.
pub fn scattered(random: &mut Random) -> Made {
    let exact = random.one_in(8);
    let (a, b) = if exact {
        (12, 12)
    } else {
        (random.between(10, 30), random.between(10, 30) & !1)
    };
    let (cx, cy) = if exact { (24, 24) } else { (a + 12, b + 12) };
    let mut canvas = Canvas::new(cx + a + 13, cy + b + 13);
    let jitter = if exact { 0 } else { random.between(0, 2) };
    for (dx, dy) in [(-a, 0), (a, 0), (0, -b), (0, b)] {
        if jitter == 2 && random.one_in(6) {
            continue;
        }
        let x = cx + dx + random.between(-jitter, jitter);
        let y = (cy + dy) & !1;
        let shape = random.pick(&[Shape::Square, Shape::Square, Shape::Cross]);
        let shape = if exact { Shape::Square } else { shape };
        Eye::new(x as f64, y as f64, 0.5, 1.0, shape).draw(&mut canvas);
    }
    (canvas, None)
}

/// Blank, black, checkerboards, stripes of single and of several pixels.
pub fn plain(random: &mut Random) -> Made {
    let mut canvas = blank(random);
    let kind = random.below(7);
    let step = random.between(1, 3);
    for y in 0..canvas.height as i32 {
        for x in 0..canvas.width as i32 {
            let (column, row) = (x / step % 2, y / step % 2);
            let black = match kind {
                0 => false,
                1 => true,
                2 => column == 1,
                3 => row == 1,
                4 => column != row,
                5 => column == 1 || row == 1,
                _ => column == 1 && y % 12 != 0,
            };
            canvas.set(x, y, black);
        }
    }
    (canvas, None)
}

/// Eleven run lengths that mostly pass the width test; the sixth is free.
fn eleven(random: &mut Random) -> [i32; 11] {
    let (even, odd) = (random.between(1, 4), random.between(1, 7));
    let more = [random.between(0, 2), random.pick(&[0, 0, 0, 1])];
    let mut all = [0; 11];
    for (k, run) in all.iter_mut().enumerate() {
        let base = if k % 2 == 0 { even } else { odd };
        *run = base + random.between(0, more[k % 2]);
    }
    all[5] = random.pick(&[1, 1, 2, 3, 5, 8, 12]);
    all
}

/// Crosses of uneven runs: centres off the middle, also on black pixels.
pub fn uneven(random: &mut Random) -> Made {
    let mut canvas = blank(random);
    for _ in 0..random.pick(&[1, 1, 2, 3]) {
        let (row, column) = (eleven(random), eleven(random));
        let length: i32 = row.iter().sum();
        let left = random.between(6, canvas.width as i32 - 7 - length);
        let y = spot(random, &canvas, 2 + column.iter().sum::<i32>() / 2).1;
        canvas.block(left - 1, y, left + length, y, false);
        let mut x = left;
        for (k, run) in row.into_iter().enumerate() {
            canvas.block(x, y, x + run - 1, y, k % 2 == 0);
            x += run;
        }
        let centre = left + length - (length + 1) / 2;
        upright(random, &mut canvas, (centre, y), &column);
    }
    if random.one_in(4) {
        spoil(random, &mut canvas, 8);
    }
    (canvas, None)
}

/// The column of a cross, at its centre or one beside it, sparing the centre row.
fn upright(random: &mut Random, canvas: &mut Canvas, at: (i32, i32), runs: &[i32; 11]) {
    let x = at.0 + random.pick(&[0, 0, 0, 1, -1]);
    let wide = random.pick(&[0, 0, 1]);
    let black = canvas.get(x, at.1);
    for direction in [-1, 1] {
        let mut y = at.1 + direction;
        for k in 0..6 {
            let run = match k {
                0 if black => 0,
                0 => runs[5] / 2,
                1 if black => runs[(5 + direction) as usize] - 1,
                _ => runs[(5 + direction * k) as usize],
            };
            let end = y + direction * (run - 1);
            if run > 0 {
                canvas.block(x - wide, y.min(end), x + wide, y.max(end), k % 2 == 1);
            }
            y += direction * run;
        }
    }
}

/// Points sampled by the turn, painted for a chosen scale and degree.
pub fn painted(random: &mut Random) -> Made {
    (painted::painted(random), None)
}

/// Eyes whose corrected centre may leave the image.
pub fn lost(random: &mut Random) -> Made {
    (painted::lost(random), None)
}

/// Eyes at the right border whose centre is open along the walk at 7 degrees.
pub fn padding(random: &mut Random) -> Made {
    let width = side(random);
    let width = if width % 64 == 0 {
        width - random.between(0, 1)
    } else {
        width
    };
    let mut canvas = match random.below(100) {
        0 => Canvas::new(random.between(100, 192), random.between(600, 2048)),
        _ => Canvas::new(width, side(random)),
    };
    let width = canvas.width as i32;
    if random.one_in(3) {
        grain(random, &mut canvas, &[3000, 12000]);
    }
    let module = random.between(1, 3).min((width - 14) / 13) as f64;
    let shape = random.pick(&[Shape::Square, Shape::Round]);
    let mut eye = eye_at(random, (0, 0), module, shape);
    eye.disc = random
        .real(1.0, 6.0)
        .min((width as f64 - 14.0) / 2.0 - 5.0 * module);
    eye.x = (width as f64 - 7.0 - eye.radius()).floor() - random.between(0, 4) as f64;
    eye.y = spot(random, &canvas, (eye.radius() + 1.0) as i32).1 as f64;
    eye.draw(&mut canvas);
    for direction in [1.0, -1.0] {
        if direction > 0.0 || random.one_in(4) {
            channel(&mut canvas, &eye, direction);
        }
    }
    (canvas, None)
}

/// Clear the ray at 7 degrees from the centre, outside the centre row.
fn channel(canvas: &mut Canvas, eye: &Eye, direction: f64) {
    let thick = 1 + (eye.module > 1.0) as i32;
    for step in 0..canvas.width as i32 {
        let x = eye.x + direction * step as f64;
        let y = eye.y + direction * step as f64 * 0.122_784_56;
        for dy in 0..=thick {
            if (y as i32 + dy - eye.y as i32) != 0 {
                canvas.set(x as i32, y as i32 + dy, false);
            }
        }
    }
}
