//! The list of runs, and the row search over it.

use crate::second::image::{BLACK, WHITE};
use crate::second::runs::{
    Run, passes_from, row_search_by_runs, runs_of, searched_runs, window_at, window_by_runs,
};
use crate::second::sweep::Window;
use crate::second::widths::widths_pass;

/// A row of width 35: no window at places 0 and 2, windows at 4 and 6, and at 8 one that would close at column 29.
const EXAMPLE: &str = "....#####.#...#.#.#.#.#.#.#.#......";
const START: u32 = 6;
const LIMIT: u32 = 29;

fn colours(row: &str) -> Vec<bool> {
    row.chars().map(|pixel| pixel == '#').collect()
}

fn lengths(runs: &[Run]) -> Vec<u32> {
    runs.iter().map(|run| run.length).collect()
}

fn run(colour: bool, first: u32, length: u32) -> Run {
    Run {
        colour,
        first,
        length,
    }
}

fn ones(center: u32) -> Option<Window> {
    Some(Window {
        center,
        radius: 6,
        runs: [1; 11],
    })
}

#[test]
fn runs_of_a_span_are_cut_by_it() {
    let colours = colours("##..###.#");
    let whole = [(BLACK, 0, 2), (WHITE, 2, 2), (BLACK, 4, 3), (WHITE, 7, 1)];
    let whole = whole.map(|(colour, first, length)| run(colour, first, length));
    assert_eq!(runs_of(&colours, 0, 9)[..4], whole);
    assert_eq!(runs_of(&colours, 0, 9)[4..], [run(BLACK, 8, 1)]);
    let cut = [run(BLACK, 1, 1), run(WHITE, 2, 2), run(BLACK, 4, 2)];
    assert_eq!(runs_of(&colours, 1, 6), cut);
    assert_eq!(runs_of(&colours, 5, 6), [run(BLACK, 5, 1)]);
    assert_eq!(runs_of(&colours, 5, 5), []);
}

#[test]
fn runs_of_the_example() {
    let runs = searched_runs(&colours(EXAMPLE), START);
    let head = [(BLACK, 6, 3), (WHITE, 9, 1), (BLACK, 10, 1), (WHITE, 11, 3)];
    let head = head.map(|(colour, first, length)| run(colour, first, length));
    assert_eq!(runs[..4], head);
    for (place, single) in (4..).zip(&runs[4..19]) {
        assert_eq!(*single, run(place % 2 == 0, 10 + place, 1));
    }
    assert_eq!(runs[19..], [run(WHITE, 29, 6)]);
}

/// Place 0 fails by its even run of 3, also with no odd one; place 2 fails by its odd run of 3.
#[test]
fn places_0_and_2_of_the_example_fail() {
    let runs = searched_runs(&colours(EXAMPLE), START);
    assert_eq!(lengths(&runs[..11]), [3, 1, 1, 3, 1, 1, 1, 1, 1, 1, 1]);
    assert!(!widths_pass(&[3, 1, 1, 1, 1, 1, 1, 1, 1, 1, 1]));
    assert_eq!(lengths(&runs[2..13]), [1, 3, 1, 1, 1, 1, 1, 1, 1, 1, 1]);
    assert!(!passes_from(&runs, 0) && !passes_from(&runs, 2));
    assert_eq!(window_at(&runs, 0, LIMIT), None);
    assert_eq!(window_at(&runs, 2, LIMIT), None);
}

#[test]
fn windows_of_the_example() {
    let runs = searched_runs(&colours(EXAMPLE), START);
    assert_eq!(window_at(&runs, 4, LIMIT), ones(19));
    assert_eq!(runs[4 + 11].first, 25);
    assert_eq!(window_at(&runs, 6, LIMIT), ones(21));
    assert_eq!(runs[6 + 11].first, 27);
    assert!(passes_from(&runs, 8));
    assert_eq!(runs[8 + 11].first, LIMIT);
    assert_eq!(window_at(&runs, 8, LIMIT), None);
    assert_eq!(window_at(&runs, 8, LIMIT + 1), ones(23));
    for place in [1, 3, 5, 7] {
        assert_eq!(runs[place].colour, WHITE);
        assert_eq!(window_at(&runs, place, LIMIT), None);
    }
    assert!(passes_from(&runs, 5) && passes_from(&runs, 7));
    let (window, columns) = window_by_runs(&colours(EXAMPLE), START);
    assert_eq!((window, columns), (ones(19), 6..=25));
}

/// The black run of columns 4 to 8 counts from the start on; starts after column 14 leave the first window out.
#[test]
fn the_example_from_other_starts() {
    for (start, first) in [(0, 5), (4, 5), (5, 4), (6, 3), (8, 1)] {
        let runs = searched_runs(&colours(EXAMPLE), start);
        assert_eq!(runs[0], run(BLACK, 9 - first, first));
        let (window, columns) = window_by_runs(&colours(EXAMPLE), start);
        assert_eq!((window, columns), (ones(19), start..=25));
    }
    let (window, columns) = window_by_runs(&colours(EXAMPLE), 15);
    assert_eq!((window, columns), (ones(21), 15..=27));
    let (window, columns) = window_by_runs(&colours(EXAMPLE), 17);
    assert_eq!((window, columns), (None, 17..=28));
}

#[test]
fn eleven_runs_up_to_the_right_edge_close_nothing() {
    let edge = colours("........................#.#.#.#.#.#");
    let runs = searched_runs(&edge, 0);
    assert_eq!(runs.len(), 11);
    assert!(passes_from(&runs, 0));
    assert_eq!(window_at(&runs, 0, u32::MAX), None);
}

/// Width 35: columns 28 and 29 are the last before the limit and the limit.
#[test]
fn columns_read_without_a_window() {
    let mut row = vec![WHITE; 35];
    assert_eq!(window_by_runs(&row, 3), (None, 3..=29));
    assert_eq!(window_by_runs(&row, 28), (None, 28..=29));
    row[29] = BLACK;
    assert_eq!(window_by_runs(&row, 3), (None, 3..=29));
    row[2] = BLACK;
    assert_eq!(window_by_runs(&row, 3), (None, 3..=29));
    row[28] = BLACK;
    assert_eq!(window_by_runs(&row, 3), (None, 3..=28));
    assert_eq!(window_by_runs(&row, 28), (None, 28..=28));
}

#[test]
fn only_the_searched_row_is_marked() {
    let mut words = vec![!0; 33];
    words[4] = 0;
    let (window, marks) = row_search_by_runs(&words, 64, 33, 4, 50);
    assert_eq!(window, None);
    assert_eq!(marks[4], 0x1ff << 50);
    assert_eq!(marks.iter().filter(|mark| **mark != 0).count(), 1);
}
