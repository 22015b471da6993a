//! The row search: the source's own, the second reading by scan and the second reading by runs.

use std::collections::BTreeSet;

use oracle::generate::{ROW_FAMILIES, RowCoverage, RowSearch, row_search};
use oracle::rows::{READINGS, compared};

/// The example: a start inside a black run, two windows, and eleven runs that would close at column width - 6.
const EXAMPLE: &str = "....#####.#...#.#.#.#.#.#.#.#......";

/// A row of up to 64 pixels in an image that is white else.
fn painted(row: &str, at: u32, start: u32) -> RowSearch {
    let black = row.char_indices().filter(|(_, pixel)| *pixel == '#');
    let mut words = vec![0; 33];
    words[at as usize] = black.map(|(column, _)| 1 << column).sum();
    RowSearch {
        family: "painted",
        width: row.len() as u32,
        height: 33,
        words,
        row: at,
        start,
    }
}

#[test]
fn readings_agree_and_every_row_of_the_table_is_hit() {
    let mut coverage = RowCoverage::default();
    let mut seen = BTreeSet::new();
    for seed in 0..10_000 {
        let search = row_search(seed);
        assert_eq!(compared(&search).err(), None, "seed {seed}");
        coverage.add(&search);
        seen.insert(search.family);
    }
    assert_eq!(coverage.missing(), [""; 0]);
    assert_eq!(seen, ROW_FAMILIES.iter().copied().collect());
}

/// All rows, the odd ones and those at the border too, and all starts up to column width - 7.
#[test]
fn readings_agree_at_every_row_and_start() {
    for seed in 0..60 {
        let mut search = row_search(seed);
        if search.width > 160 {
            continue;
        }
        for (row, start) in (0..33).flat_map(|row| (0..search.width - 6).map(move |c| (row, c))) {
            (search.row, search.start) = (row, start);
            let difference = compared(&search).err();
            assert_eq!(difference, None, "seed {seed}, row {row}, start {start}");
        }
    }
}

#[test]
fn rows_and_starts_are_within_the_limits() {
    for seed in 0..10_000 {
        let made = row_search(seed);
        let words = made.width.div_ceil(64);
        assert!((33..=2048).contains(&made.width), "seed {seed}");
        assert_eq!(made.words.len() as u32, words * made.height);
        assert!(made.row < made.height && made.start <= made.width - 7);
        if !made.width.is_multiple_of(64) {
            let mut ends = made
                .words
                .chunks_exact(words as usize)
                .map(|row| row[row.len() - 1]);
            assert!(ends.all(|word| word >> (made.width % 64) == 0));
        }
    }
}

/// Place 4 of the list is the window: it closes at column 25, after two places that fail and before one more window.
#[test]
fn the_example_is_read_alike() {
    for row in [0, 7, 10, 32] {
        let (window, marks) = compared(&painted(EXAMPLE, row, 6)).expect("one answer");
        assert_eq!(window, Some((19, 6, [1; 11])));
        assert_eq!(marks[row as usize], (1 << 26) - (1 << 6));
        assert!((0..33).all(|at| at == row || marks[at as usize] == 0));
    }
    let (window, marks) = compared(&painted(EXAMPLE, 10, 15)).expect("one answer");
    assert_eq!(
        (window, marks[10]),
        (Some((21, 6, [1; 11])), (1 << 28) - (1 << 15))
    );
    let (window, marks) = compared(&painted(EXAMPLE, 10, 17)).expect("one answer");
    assert_eq!((window, marks[10]), (None, (1 << 29) - (1 << 17)));
}

#[test]
fn the_judge_is_among_the_readings() {
    assert_eq!(READINGS.len(), if cfg!(source) { 3 } else { 2 });
}
