//! Candidates: the sweep over the rows.

use super::image::{BLACK, Image, Pixel, WHITE, pixel};
use super::widths::widths_pass;

const MARGIN: u32 = 6;
const ROW_STEP: u32 = 2;

/// An eleven-run window of a row that passed.
#[derive(Debug, PartialEq, Eq)]
pub(super) struct Window {
    pub(super) center: u32,
    pub(super) radius: u32,
    pub(super) runs: [u32; 11],
}

impl Window {
    /// Centre column, radius and runs.
    pub(super) fn parts(self) -> (u32, u32, [u32; 11]) {
        (self.center, self.radius, self.runs)
    }
}

/// Centre column, radius and runs of a window, if there is one, and the marks of the bits read.
pub type RowAnswer = (Option<(u32, u32, [u32; 11])>, Vec<u64>);

/// What the sweep finds.
#[derive(Clone, Debug, PartialEq, Eq)]
pub(super) struct Candidate {
    pub(super) center: Pixel,
    pub(super) radius: u32,
    pub(super) row_runs: [u32; 11],
    pub(super) column_runs: [u32; 11],
}

/// `find_concentric_circles`: every second row, until one candidate too many is found.
pub(super) fn sweep(image: &mut Image, capacity: usize) -> Vec<Candidate> {
    let mut found = Vec::new();
    let mut row = MARGIN;
    while row < image.height - MARGIN {
        sweep_row(image, row, capacity, &mut found);
        if found.len() > capacity {
            break;
        }
        row += ROW_STEP;
    }
    found
}

/// One row of `find_concentric_circles`: windows one after another, each checked by its columns.
fn sweep_row(image: &mut Image, row: u32, capacity: usize, found: &mut Vec<Candidate>) {
    let mut column = MARGIN;
    while let Some(window) = next_window(image, row, column) {
        if let Some(column_runs) = verified_column_runs(image, row, window.center) {
            found.push(Candidate {
                center: pixel(window.center, row),
                radius: window.radius,
                row_runs: window.runs,
                column_runs,
            });
            if found.len() > capacity {
                return;
            }
            column = window.center + window.radius;
        } else {
            let next_column = window.center - window.radius + window.radius / 4;
            if next_column == column {
                return;
            }
            column = next_column;
        }
    }
}

/// `find_next_bullseye_horizontal`: leading white is skipped, then runs are counted.
pub(super) fn next_window(image: &mut Image, row: u32, start_column: u32) -> Option<Window> {
    let end_column = image.width - MARGIN;
    let mut column = start_column;
    while image.get(column, row) == WHITE && column < end_column {
        column += 1;
    }
    let mut closed_runs: Vec<u32> = Vec::new();
    let mut open_run = 0;
    let mut colour = BLACK;
    while column < end_column {
        let local = image.get(column, row);
        if local != colour {
            closed_runs.push(open_run);
            open_run = 0;
            colour = local;
            if let Some(runs) = window_before(&closed_runs, colour)
                && widths_pass(&runs)
            {
                return Some(close_window(runs, column));
            }
        }
        open_run += 1;
        column += 1;
    }
    None
}

/// Answer and marks of a search by scan in a row of an accepted image.
pub fn row_search_by_scan(
    words: &[u64],
    width: u32,
    height: u32,
    row: u32,
    start: u32,
) -> RowAnswer {
    let mut marks = vec![0; words.len()];
    let mut image = Image {
        words,
        marks: &mut marks,
        width,
        height,
    };
    let window = next_window(&mut image, row, start);
    (window.map(Window::parts), marks)
}

/// The last eleven runs, if a white pixel follows them.
fn window_before(closed_runs: &[u32], colour_after: bool) -> Option<[u32; 11]> {
    if colour_after == BLACK {
        return None;
    }
    closed_runs.last_chunk::<11>().copied()
}

/// `get_bullseye_metadata`: centre and radius of a window by the column that closes it.
fn close_window(runs: [u32; 11], closing_column: u32) -> Window {
    let sum: u32 = runs.iter().sum();
    let radius = sum.div_ceil(2);
    Window {
        center: closing_column - radius,
        radius,
        runs,
    }
}

/// `verify_bullseye_vertical`: the first of three columns whose runs pass.
fn verified_column_runs(image: &mut Image, row: u32, center: u32) -> Option<[u32; 11]> {
    for column in [center, center + 1, center - 1] {
        let runs = column_runs(image, column, row);
        if widths_pass(&runs) {
            return Some(runs);
        }
    }
    None
}

/// `build_potential_bullsey_array`: the runs of a column from the lowest row up.
pub(super) fn column_runs(image: &mut Image, column: u32, row: u32) -> [u32; 11] {
    let up = column_vector(image, column, row, 1);
    let down = column_vector(image, column, row, -1);
    let mut runs = [0; 11];
    for index in 1..6 {
        runs[5 - index] = down[index];
        runs[5 + index] = up[index];
    }
    runs[5] = down[0] + up[0];
    runs
}

/// `get_column_vector`: six runs in one direction, the first white.
fn column_vector(image: &mut Image, column: u32, center_row: u32, step: i64) -> [u32; 6] {
    let mut runs = [0; 6];
    let mut index = 0;
    let mut colour = WHITE;
    let mut row = i64::from(center_row);
    while row > 0 && row < i64::from(image.height) {
        let local = image.get(column, row as u32);
        if local != colour {
            colour = local;
            index += 1;
        }
        if index == 6 {
            break;
        }
        runs[index] += 1;
        row += step;
    }
    runs
}
