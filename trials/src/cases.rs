//! What is searched: the generator's crops, those for the ellipse check among them, grids of eyes about a capacity, and lengths of
//! record buffers.

use crops::RECORD_WORDS;
use oracle::generate::{self, Crop, Random};

/// Capacities that each crop is searched with, and their names.
pub const CAPACITIES: [(usize, &str); 5] =
    [(1, "1"), (2, "2"), (37, "37"), (400, "400"), (1024, "1024")];

/// One crop of so many is a grid, and one of so many others is for the ellipse check.
const GRIDS: u32 = 256;
const ELLIPSES: u32 = 3;

/// The crop of a seed.
pub fn crop(seed: u64) -> Crop {
    let mut random = Random::new(!seed);
    if random.one_in(GRIDS) {
        grid(&mut random)
    } else if random.one_in(ELLIPSES) {
        generate::ellipse(seed)
    } else {
        generate::crop(seed)
    }
}

/// Single-pixel eyes, one fewer than a capacity, as many, or one more.
fn grid(random: &mut Random) -> Crop {
    let capacity = random.pick(&[37, 37, 37, 37, 37, 37, 37, 400, 400, 1024]);
    let eyes = capacity - 1 + random.below(3);
    let across = random.between(12, 36) as u32;
    let down = eyes.div_ceil(across);
    let pitch = random.pick(&[12, 14, 16]);
    let width = across * pitch + 13;
    let height = (down * pitch + 13).max(crops::LEAST_SIDE);
    let mut words = vec![0; crops::image_words(width, height)];
    for eye in 0..eyes {
        let (x, y) = (12 + eye % across * pitch, 12 + eye / across * pitch);
        draw(&mut words, width, x, y);
    }
    Crop {
        family: "grids",
        width,
        height,
        words,
        capacity_words: RECORD_WORDS * eyes as usize,
    }
}

/// A cross of eleven single pixels, black and white in turn.
fn draw(words: &mut [u64], width: u32, x: u32, y: u32) {
    for step in [1, 3, 5] {
        for (x, y) in [(x - step, y), (x + step, y), (x, y - step), (x, y + step)] {
            crops::set_pixel(words, width, x, y);
        }
    }
}

/// The record words of a capacity, sometimes with some that make no whole record.
pub fn length_of(random: &mut Random, capacity: usize) -> usize {
    let more = if random.one_in(2) {
        random.below(RECORD_WORDS as u32) as usize
    } else {
        0
    };
    RECORD_WORDS * capacity + more
}

/// Another length: the crop's own, one about the candidates found, or an odd one.
pub fn odd_length(random: &mut Random, crop: &Crop, found: u32) -> usize {
    let all = RECORD_WORDS * found as usize;
    let some = random.below(RECORD_WORDS as u32) as usize;
    match random.below(4) {
        0 => crop.capacity_words,
        1 => all + some,
        2 => all.saturating_sub(1 + some),
        _ => random.pick(&[
            39, 41, 79, 81, 119, 121, 1479, 1481, 1519, 15_999, 16_001, 40_959, 40_961, 41_000,
            50_000,
        ]),
    }
}

/// A length that holds a record, for a crop of which nothing is known.
pub fn any_length(random: &mut Random, crop: &Crop) -> usize {
    match random.below(6) {
        0 => odd_length(random, crop, 12).max(RECORD_WORDS),
        _ => {
            let (capacity, _) = random.pick(&CAPACITIES);
            length_of(random, capacity)
        }
    }
}

#[cfg(test)]
mod tests {
    use std::collections::BTreeSet;

    use oracle::vectors::accepted;
    use oracle::{MOST_CANDIDATES, SECOND};

    use super::*;

    /// Every grid is accepted, and with room for 1,024 just so many candidates are found as it has eyes, or 1,025.
    #[test]
    fn grids_have_their_candidates() {
        let mut seen = BTreeSet::new();
        for seed in 0..150 {
            let grid = grid(&mut Random::new(seed));
            let mut records = vec![0; RECORD_WORDS * MOST_CANDIDATES];
            let mut marks = vec![0; grid.words.len()];
            let report = (SECOND.words)(
                &grid.words,
                grid.width,
                grid.height,
                &mut records,
                &mut marks,
                false,
            );
            assert!(accepted(report.answer), "seed {seed}");
            assert_eq!(report.found as usize * RECORD_WORDS, grid.capacity_words);
            seen.insert(report.found);
        }
        let about = |n| [n - 1, n, n + 1];
        assert!(
            seen.into_iter()
                .eq([37, 400, 1024].into_iter().flat_map(about))
        );
    }
}
