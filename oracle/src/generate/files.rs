//! Crop files that are damaged on purpose.

use super::canvas::Canvas;
use super::random::Random;
use crops::{MOST_WORDS, pack};

/// Header bytes of kind 1 with the given last bits.
fn header(kind: u32, width: u32, height: u32, tail: u32) -> [u8; 4] {
    (kind << 28 | (width & 4095) << 16 | (height & 4095) << 4 | tail & 15).to_be_bytes()
}

/// A crop file, mostly one to be refused.
#[derive(Clone, Debug, PartialEq, Eq)]
pub struct BadFile {
    pub family: &'static str,
    pub file: Vec<u8>,
}

type Maker = fn(&mut Random) -> Vec<u8>;

const MAKERS: [(&str, Maker); 10] = [
    ("short", short),
    ("kind", kind),
    ("tail", tail),
    ("dimension", dimension),
    ("words", words),
    ("length", length),
    ("padding", padding),
    ("valid", valid),
    ("random", random_bytes),
    ("several", several),
];

const fn names() -> [&'static str; 10] {
    let mut all = [""; 10];
    let mut k = 0;
    while k < 10 {
        all[k] = MAKERS[k].0;
        k += 1;
    }
    all
}

/// The names of the families of files.
pub const BAD_FAMILIES: &[&str] = &names();

/// The file of a seed and its family.
pub fn bad(seed: u64) -> BadFile {
    let mut random = Random::new(!seed);
    let (family, maker) = random.pick(&MAKERS);
    BadFile {
        family,
        file: maker(&mut random),
    }
}

/// The file of a seed.
pub fn bad_file(seed: u64) -> Vec<u8> {
    bad(seed).file
}

fn small_side(random: &mut Random) -> i32 {
    random.pick(&[33, 34, 39, 40, 41, 63, 64, 65, 71, 72, 73])
}

/// An acceptable file with some noise.
fn valid(random: &mut Random) -> Vec<u8> {
    let width = if random.one_in(32) {
        2048
    } else {
        small_side(random)
    };
    let mut canvas = Canvas::new(width, small_side(random));
    canvas.noise(random, 32768);
    pack(&canvas.words, canvas.width, canvas.height)
}

/// No whole header.
fn short(random: &mut Random) -> Vec<u8> {
    let mut file = valid(random);
    file.truncate(random.below(5) as usize);
    file
}

fn kind(random: &mut Random) -> Vec<u8> {
    let mut file = valid(random);
    file[0] = file[0] & 15 | (random.below(16) as u8) << 4;
    file
}

fn tail(random: &mut Random) -> Vec<u8> {
    let mut file = valid(random);
    file[3] |= random.below(16) as u8;
    file
}

/// A header with its pixels, as many as it asks for, up to a limit.
fn sized(width: u32, height: u32, fill: u8) -> Vec<u8> {
    let pixels = (width.div_ceil(8) as usize * height as usize).min(70_000);
    let mut file = header(1, width, height, 0).to_vec();
    file.resize(4 + pixels, fill);
    file
}

/// One side or both next to a limit.
fn dimension(random: &mut Random) -> Vec<u8> {
    let sides = [0, 1, 31, 32, 33, 34, 2047, 2048, 2049, 2050, 4094, 4095];
    let mut width = random.pick(&sides);
    let mut height = random.pick(&sides);
    match random.below(3) {
        0 => width = small_side(random) as u32,
        1 => height = small_side(random) as u32,
        _ => (),
    }
    let mut file = sized(width, height, 0);
    if random.one_in(4) {
        file.truncate(4 + random.below(64) as usize);
    }
    file
}

/// Row words times height next to 8,000.
fn words(random: &mut Random) -> Vec<u8> {
    let row = random.between(4, 32) as u32;
    let width = 64 * row - random.below(64);
    let fullest = MOST_WORDS as u32 / row;
    let height = (fullest + random.below(3)).min(2049);
    let mut file = sized(width, height, 0);
    if random.one_in(2) {
        let cut = file.len() - random.below(3) as usize;
        file.truncate(if random.one_in(2) { cut } else { 4 + cut % 64 });
    }
    file
}

/// One byte too few or too many, a row too few or too many, or the header alone.
fn length(random: &mut Random) -> Vec<u8> {
    let mut file = valid(random);
    let width = (file[0] as usize & 15) << 8 | file[1] as usize;
    let row = width.div_ceil(8);
    let whole = file.len();
    let lengths = [whole - 1, whole + 1, whole - row, whole + row, 4, 5, whole];
    file.resize(random.pick(&lengths), random.pick(&[0, 255]));
    file
}

/// A padding bit set in one row, or in several.
fn padding(random: &mut Random) -> Vec<u8> {
    let width = random.pick(&[33, 39, 41, 63, 65, 71, 127, 129]);
    let mut canvas = Canvas::new(width, random.between(33, 70));
    canvas.noise(random, 32768);
    let mut file = pack(&canvas.words, canvas.width, canvas.height);
    let (row, spare) = ((width as usize).div_ceil(8), (8 - width % 8) as u32);
    for _ in 0..random.pick(&[1, 1, 1, 2, 5]) {
        let y = match random.below(4) {
            0 => 0,
            1 => canvas.height - 1,
            _ => random.below(canvas.height),
        };
        file[4 + y as usize * row + row - 1] |= 1 << random.below(spare);
    }
    file
}

fn random_bytes(random: &mut Random) -> Vec<u8> {
    let length = random.below(40) + if random.one_in(4) { 160 } else { 0 };
    let mut file: Vec<u8> = (0..length).map(|_| random.next() as u8).collect();
    if length > 0 && random.one_in(2) {
        file[0] = file[0] & 15 | 16;
    }
    if length > 3 && random.one_in(2) {
        file[3] &= 0xf0;
    }
    file
}

/// Up to three kinds of damage to one file.
fn several(random: &mut Random) -> Vec<u8> {
    let makers: [Maker; 5] = [dimension, words, length, padding, valid];
    let mut file = random.pick(&makers)(random);
    for _ in 0..random.between(1, 3) {
        match random.below(5) {
            0 => file[0] = file[0] & 15 | (random.below(4) as u8) << 4,
            1 => file[3] |= random.below(4) as u8,
            2 => file[1] = random.pick(&[0, 32, 33, 65, 255]),
            3 => file.truncate(file.len() - random.below(2) as usize),
            _ => file.push(random.next() as u8),
        }
        if file.len() < 4 {
            break;
        }
    }
    file
}
