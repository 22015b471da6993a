//! Left sides of cells: crops for them beside those that are searched, and calls with lengths, kinds, dimensions and bits that are
//! right and wrong.

use std::collections::BTreeMap;

use crops::{HEADER_BYTES, words_of};

use super::left::{CHANGES, TOO_LONG, kind, length, painted, size};
use crate::generate::{self, Random, rectangle_rows};
use crate::second::enclosing_rectangle;

/// Calls beside the two that each crop has.
const MORE: usize = 2;

/// Lengths of a cell buffer, mostly the right one.
const CELLS: [usize; 8] = [33, 33, 33, 33, 0, 32, 34, 40];

/// A rectangle of black and white pixels, so that a cell read beside its place shows; the first and the last pixel are black.
fn textured(width: u32, height: u32, first: (u32, u32), last: (u32, u32)) -> Vec<u8> {
    painted(width, height, |x, y| {
        let inside = (first.0..=last.0).contains(&x) && (first.1..=last.1).contains(&y);
        inside && ((3 * (x - first.0) + 5 * (y - first.1)) % 7 < 3 || (x, y) == last)
    })
}

/// Crops next to each other in the rule: a pixel, a row, a column, all black, none; rectangles at an edge and one pixel from it, of
/// which the cap takes no row, some, and all.
fn near_pairs() -> Vec<Vec<u8>> {
    let pixel = |x, y| painted(40, 50, move |column, row| (column, row) == (x, y));
    let mut files = vec![textured(33, 33, (0, 0), (32, 32))];
    files.extend([(0, 0), (20, 0), (20, 1), (20, 15), (39, 49)].map(|(x, y)| pixel(x, y)));
    files.extend([0, 1, 40].map(|row| painted(50, 50, move |_, y| y == row)));
    files.extend([0, 1, 40].map(|column| painted(50, 50, move |x, _| x == column)));
    let sides = [(33, 33), (63, 40), (64, 40), (65, 40), (128, 33)];
    files.extend(sides.map(|(width, height)| painted(width, height, |_, _| true)));
    files.push(painted(65, 40, |_, _| false));
    let corners = [(0, 0), (1, 0), (0, 1), (0, 2), (3, 10), (2, 20), (1, 45)];
    files.extend(corners.map(|(x, y)| textured(70, 90, (x, y), (x + 59, y + 43))));
    let lasts = [(29, 32), (28, 32), (30, 32), (29, 31), (29, 33), (3, 2)];
    files.extend(lasts.map(|last| textured(64, 40, (0, 0), last)));
    files
}

/// The near pairs, and small crops that fill: one for each row of the coverage table that a family reaches.
pub fn files(seed: u64, seeds: u64) -> Vec<Vec<u8>> {
    let mut files = near_pairs();
    let mut taken: BTreeMap<(&str, &str), u64> = BTreeMap::new();
    for (crop, at) in (seed..seed + seeds).map(generate::filling).zip(seed..) {
        let (width, height) = (crop.width, crop.height);
        let rectangle = enclosing_rectangle(&crop.words, width, height);
        let rows = rectangle.map_or(vec!["blank"], |rectangle| {
            rectangle_rows(width, height, rectangle)
        });
        let file = crop.file();
        if file.len() >= TOO_LONG {
            continue;
        }
        let mut first = false;
        for row in rows {
            first |= *taken.entry((crop.family, row)).or_insert(at) == at;
        }
        if first {
            files.push(file);
        }
    }
    files
}

/// The calls of a crop: one of each entry, then some in which one thing is changed.
pub fn calls(random: &mut Random, id: usize, file: &[u8]) -> Vec<String> {
    let n = words_of(file);
    let mut calls = vec![format!("cells file={id} unpack={n} cells=33")];
    if file.len() < HEADER_BYTES {
        return calls;
    }
    calls.push(format!("cells words={id} cells=33"));
    for _ in 0..MORE {
        calls.push(match random.one_in(2) {
            true => file_call(random, id, n),
            false => words_call(random, id, file),
        });
    }
    calls
}

fn file_call(random: &mut Random, id: usize, n: usize) -> String {
    let kind = kind(random);
    let unpack = length(random, n);
    let cells = random.pick(&CELLS);
    match random.below(3) {
        0 => format!("cells file={id} unpack={n} cells={cells}"),
        1 => format!("cells file={id} unpack={unpack} cells=33"),
        _ => format!("cells file={id} unpack={unpack} cells={cells}{kind}"),
    }
}

fn words_call(random: &mut Random, id: usize, file: &[u8]) -> String {
    let n = words_of(file);
    let cells = random.pick(&CELLS);
    match random.below(5) {
        0 => format!("cells words={id} size={} cells=33", size(random, file)),
        1 => format!("cells words={id} cut={} cells={cells}", length(random, n)),
        2 | 3 if n > 0 => {
            let bit = random.below(64 * n as u32);
            format!("cells words={id} flip={bit} cells=33")
        }
        _ => format!("cells words={id} cells={cells}"),
    }
}

/// Calls at the edges of each number, of a crop of 33 by 33 pixels: bit 32 is the last pixel of its first row, bit 33 padding.
pub fn edges(id: usize) -> Vec<String> {
    let words = CHANGES.map(|change| format!("cells words={id} {change} cells=33"));
    let lent = [0, 32, 34, 40].map(|cells| format!("cells words={id} cells={cells}"));
    let unpacks = [0, 32, 33, 34].into_iter().flat_map(|unpack| {
        [0, 32, 33, 34, 40].map(|cells| format!("cells file={id} unpack={unpack} cells={cells}"))
    });
    let kinds = [0, 2, 15].map(|kind| format!("cells file={id} unpack=33 cells=33 kind={kind}"));
    let before = [
        format!("cells file={id} unpack=0 cells=0 kind=2"),
        format!("cells words={id} cut=32 flip=33 cells=0"),
        format!("cells words={id} flip=33 cells=0"),
    ];
    let words = words.into_iter().chain(lent);
    words.chain(unpacks).chain(kinds).chain(before).collect()
}
