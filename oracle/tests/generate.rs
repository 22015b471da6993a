//! The generator: the same images everywhere, within the limits, of every family.

use std::collections::BTreeSet;

use oracle::generate::{
    BAD_FAMILIES, CellCoverage, Coverage, Crop, ELLIPSES, FAMILIES, FILLING, bad, bad_file, crop,
    ellipse, family, filling, row_search,
};
use oracle::second::{
    EllipseVerdict, EllipseWidths, Rectangle, ellipse_widths, enclosing_rectangle, search_words,
};

/// FNV-1a over bytes.
fn digest(mut hash: u64, bytes: &[u8]) -> u64 {
    for &byte in bytes {
        hash = (hash ^ byte as u64).wrapping_mul(0x0000_0100_0000_01b3);
    }
    hash
}

const START: u64 = 0xcbf2_9ce4_8422_2325;

/// The digest of the first crops that a maker gives.
fn first_crops(maker: fn(u64) -> Crop) -> u64 {
    (0..200).fold(START, |hash, seed| {
        let made = maker(seed);
        let hash = digest(hash, made.family.as_bytes());
        let hash = digest(hash, &(made.capacity_words as u64).to_le_bytes());
        digest(hash, &made.file())
    })
}

#[test]
fn first_crops_have_a_fixed_digest() {
    assert_eq!(first_crops(crop), 0x48a9_29e3_5d60_3358);
    assert_eq!(first_crops(filling), 0xcea1_f40c_4bad_31a7);
    assert_eq!(first_crops(ellipse), 0x4d43_28ef_3dec_8e1b);
}

#[test]
fn first_files_have_a_fixed_digest() {
    let all = (0..200).fold(START, |hash, seed| digest(hash, &bad_file(seed)));
    assert_eq!(all, 0xe240_cc8b_4196_8603);
}

#[test]
fn first_rows_have_a_fixed_digest() {
    let all = (0..200).map(row_search).fold(START, |hash, made| {
        let hash = digest(hash, made.family.as_bytes());
        let hash = digest(hash, &(made.row << 16 | made.start).to_le_bytes());
        digest(hash, &crops::pack(&made.words, made.width, made.height))
    });
    assert_eq!(all, 0x451d_2852_fcc1_4c0c);
}

fn check_limits(made: &Crop, name: &str) {
    let row = made.width.div_ceil(64) as usize;
    assert!((33..=2048).contains(&made.width), "{name}");
    assert!((33..=2048).contains(&made.height), "{name}");
    assert_eq!(made.words.len(), row * made.height as usize, "{name}");
    assert!(made.words.len() <= 8000, "{name}");
    let used = made.width as usize % 64;
    if used != 0 {
        let last = made.words.chunks_exact(row).map(|line| line[row - 1]);
        assert!(last.into_iter().all(|word| word >> used == 0), "{name}");
    }
}

#[test]
fn limits_hold_and_padding_is_zero() {
    for seed in 0..5000 {
        check_limits(&crop(seed), &format!("seed {seed}"));
        check_limits(&filling(seed), &format!("filling {seed}"));
        if seed < 1000 {
            check_limits(&ellipse(seed), &format!("ellipse {seed}"));
        }
    }
    for name in FAMILIES {
        for seed in 0..200 {
            check_limits(&family(name, seed), &format!("{name} {seed}"));
        }
    }
}

#[test]
fn every_family_is_picked_and_can_be_named() {
    let mut seen = BTreeSet::new();
    for seed in 0..2000 {
        let made = crop(seed);
        seen.insert(made.family);
        if seed < 200 {
            assert_eq!(made, family(made.family, seed));
        }
    }
    assert_eq!(seen, FAMILIES.iter().copied().collect());
}

#[test]
fn fullest_images_occur() {
    let fullest = |seed| family("sizes", seed).words.len() == 8000;
    assert!((0..2000).any(fullest));
}

/// Pixels of a file are those of the words.
#[test]
fn a_file_holds_the_pixels() {
    for seed in 0..300 {
        let made = crop(seed);
        let file = made.file();
        let (row, bytes) = (made.width.div_ceil(64), made.width.div_ceil(8));
        let header = 1 << 28 | made.width << 16 | made.height << 4;
        assert_eq!(file[..4], header.to_be_bytes());
        assert_eq!(file.len(), 4 + (bytes * made.height) as usize);
        for y in 0..made.height {
            for x in 0..8 * bytes {
                let word = made.words[(y * row + x / 64) as usize] >> (x % 64) & 1;
                let byte = file[(4 + y * bytes + x / 8) as usize] >> (7 - x % 8) & 1;
                assert_eq!(word, byte as u64, "seed {seed}, pixel {x}, {y}");
            }
        }
    }
}

/// The first refusal of a file, or 0.
fn refusal(file: &[u8]) -> usize {
    if file.len() < 4 || file[0] >> 4 != 1 || file[3] & 15 != 0 {
        return 1;
    }
    let width = (file[0] as usize & 15) << 8 | file[1] as usize;
    let height = (file[2] as usize) << 4 | file[3] as usize >> 4;
    let row = width.div_ceil(8);
    if !(33..=2048).contains(&width) || !(33..=2048).contains(&height) {
        2
    } else if width.div_ceil(64) * height > 8000 {
        3
    } else if file.len() != 4 + row * height {
        4
    } else {
        let ends = file[4..].chunks_exact(row).map(|line| line[row - 1]);
        let padding = (1_u32 << (8 * row - width)) - 1;
        if ends.into_iter().any(|byte| byte as u32 & padding != 0) {
            5
        } else {
            0
        }
    }
}

#[test]
fn files_reach_every_refusal() {
    let mut counts = [0; 6];
    let mut seen = BTreeSet::new();
    for seed in 0..2000 {
        let made = bad(seed);
        counts[refusal(&made.file)] += 1;
        seen.insert(made.family);
    }
    assert!(counts.iter().all(|&count| count > 50), "{counts:?}");
    assert_eq!(seen, BAD_FAMILIES.iter().copied().collect());
    assert!((0..300).all(|seed| refusal(&crop(seed).file()) == 0));
}

#[test]
fn coverage_counts_a_record() {
    let mut coverage = Coverage::new();
    let rows = coverage.missing().len();
    let mut record = [0; 80];
    (record[26], record[27], record[28], record[39]) = (1, 3, 46_f32.to_bits(), 1);
    coverage.add(0, 2, 1, &record);
    assert_eq!(coverage.missing().len(), rows - 5);
    assert_eq!(
        (
            coverage.turned[2],
            coverage.degrees[23],
            coverage.classes[1]
        ),
        (1, 1, 1)
    );
    assert_eq!(coverage.outcomes, [0, 1, 0, 0]);
    coverage.add(9, 4, 0, &[]);
    assert_eq!((coverage.answers[9], coverage.found[3]), (1, 1));
    assert!(coverage.table().contains("turn at scale 3 | 1\n"));
}

/// Every family of crops for cells, and every row of their table but those of refusals.
#[test]
fn filling_crops_have_every_rectangle() {
    let mut seen = BTreeSet::new();
    let mut coverage = CellCoverage::default();
    for made in (0..1000).map(filling) {
        seen.insert(made.family);
        match enclosing_rectangle(&made.words, made.width, made.height) {
            Some(rectangle) => {
                coverage.add(0);
                coverage.add_rectangle(made.width, made.height, rectangle);
            }
            None => coverage.add(crops::BLANK),
        }
    }
    assert_eq!(seen, FILLING.iter().copied().collect());
    let refusals = (1..=6).map(|number| format!("cells answer {number}"));
    assert_eq!(coverage.missing(), refusals.collect::<Vec<_>>());
}

#[test]
fn rectangles_are_told_apart() {
    let told = |top, height| {
        let mut coverage = CellCoverage::default();
        let rectangle = Rectangle {
            left: 0,
            top,
            width: 40,
            height,
        };
        coverage.add_rectangle(64, 200, rectangle);
        coverage.table()
    };
    assert!(told(0, 200).contains("rectangle at the bottom edge | 1\n"));
    assert!(told(1, 199).contains("rectangle below the top edge, no row capped | 1\n"));
    assert!(told(1, 33).contains("rectangle below the top edge, some rows capped | 1\n"));
    assert!(told(32, 33).contains("rectangle below the top edge, some rows capped | 1\n"));
    assert!(told(33, 33).contains("rectangle below the top edge, all rows capped | 1\n"));
    assert!(told(40, 1).contains("rectangle lower than 33 | 1\n"));
}

/// What the ellipse check goes by, for each kept record of a crop.
fn kept_widths(made: &Crop) -> Vec<EllipseWidths> {
    let (words, width, height) = (&made.words, made.width, made.height);
    let mut records = vec![0; 40 * 1024];
    let mut marks = vec![0; words.len()];
    let report = search_words(words, width, height, &mut records, &mut marks, false);
    let kept = records.chunks_exact(40).take(report.kept as usize);
    kept.map(|record| ellipse_widths(words, width, height, (record[0], record[1])))
        .collect()
}

/// Every family of crops for the ellipse check, every verdict, both sides of four fifths, and the limits of halves and lengths.
#[test]
fn crops_for_the_ellipse_check_reach_its_edges() {
    let mut seen = BTreeSet::new();
    let mut reached = BTreeSet::new();
    for made in (0..1000).map(ellipse) {
        seen.insert(made.family);
        for widths in kept_widths(&made) {
            let unequal = widths.verdict() != EllipseVerdict::EqualHalves;
            let edges = [
                (widths.verdict() == EllipseVerdict::Ellipse, "an ellipse"),
                (unequal && widths.good == 115, "115 points"),
                (unequal && widths.good == 116, "116 points"),
                (!unequal && widths.good >= 116, "equal halves, 116 points"),
                (unequal && widths.shortest < 2, "shortest half 0"),
                (widths.longest > 1_900, "a long one"),
            ];
            reached.extend(edges.into_iter().filter(|edge| edge.0).map(|edge| edge.1));
        }
    }
    assert_eq!(seen, ELLIPSES.iter().copied().collect());
    assert_eq!(reached.len(), 6, "{reached:?}");
}

#[test]
fn coverage_counts_a_verdict() {
    let mut coverage = Coverage::new();
    let widths = EllipseWidths {
        longest: 20,
        shortest: 10,
        good: 116,
    };
    coverage.add_verdict(&widths);
    assert_eq!(coverage.verdicts, [0, 0, 1]);
    assert!(coverage.table().contains("ellipse check: an ellipse | 1\n"));
}
