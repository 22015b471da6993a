//! The row search over the list of a row's colour runs, without a scan.

use std::ops::RangeInclusive;

use super::image::{BLACK, Image, WHITE};
use super::sweep::{RowAnswer, Window};
use super::widths::widths_pass;

/// Columns at the row's right end in which no window closes.
const FREE_COLUMNS: u32 = 6;
const WINDOW_RUNS: usize = 11;

/// Neighbouring pixels of one colour.
#[derive(Clone, Copy, Debug, PartialEq, Eq)]
pub struct Run {
    pub colour: bool,
    pub first: u32,
    pub length: u32,
}

/// The runs of the columns from `first` up to `end`, without `end`. A run that the span cuts has the length that lies in it.
pub(super) fn runs_of(colours: &[bool], first: u32, end: u32) -> Vec<Run> {
    let begins = |column: &u32| {
        let at = *column as usize;
        *column == first || colours[at] != colours[at - 1]
    };
    let firsts: Vec<u32> = (first..end).filter(begins).collect();
    let ends = firsts.iter().copied().skip(1).chain([end]);
    let run = |(first, end): (u32, u32)| Run {
        colour: colours[first as usize],
        first,
        length: end - first,
    };
    firsts.iter().copied().zip(ends).map(run).collect()
}

/// The list of a search: from the first black pixel at or after the start to the row's right edge.
pub(super) fn searched_runs(colours: &[bool], start: u32) -> Vec<Run> {
    let edge = colours.len() as u32;
    let is_black = |column: &u32| colours[*column as usize] == BLACK;
    let first = (start..edge).find(is_black).unwrap_or(edge);
    runs_of(colours, first, edge)
}

/// The lengths of the eleven runs from a place of the list on; none where it has fewer.
fn eleven_from(runs: &[Run], place: usize) -> Option<[u32; WINDOW_RUNS]> {
    let lengths = runs.get(place..)?.first_chunk::<WINDOW_RUNS>()?;
    Some(lengths.map(|run| run.length))
}

/// Whether eleven runs stand from a place of the list on, and pass the width test.
pub fn passes_from(runs: &[Run], place: usize) -> bool {
    eleven_from(runs, place).is_some_and(|lengths| widths_pass(&lengths))
}

/// The window at a place of the list: eleven runs, the first black, that pass, and a twelfth that begins before the limit.
pub(super) fn window_at(runs: &[Run], place: usize, limit: u32) -> Option<Window> {
    let lengths = eleven_from(runs, place)?;
    let closing = runs.get(place + WINDOW_RUNS)?.first;
    if runs[place].colour == WHITE {
        return None;
    }
    if !widths_pass(&lengths) || closing >= limit {
        return None;
    }
    let whole: u32 = lengths.iter().sum();
    let radius = whole.div_ceil(2);
    Some(Window {
        center: closing - radius,
        radius,
        runs: lengths,
    })
}

/// The leftmost window of a row from a start on, and the columns that the search reads.
pub(super) fn window_by_runs(
    colours: &[bool],
    start: u32,
) -> (Option<Window>, RangeInclusive<u32>) {
    let limit = colours.len() as u32 - FREE_COLUMNS;
    let runs = searched_runs(colours, start);
    let window = (0..runs.len()).find_map(|place| window_at(&runs, place, limit));
    let columns = columns_read(colours, start, limit, window.as_ref());
    (window, columns)
}

/// From the start to the closing column. Without a window to the last column before the limit, and where all of these are white
/// to the limit.
fn columns_read(
    colours: &[bool],
    start: u32,
    limit: u32,
    window: Option<&Window>,
) -> RangeInclusive<u32> {
    let black_before_limit = colours[start as usize..limit as usize].contains(&BLACK);
    match window {
        Some(window) => start..=window.center + window.radius,
        None if black_before_limit => start..=limit - 1,
        None => start..=limit,
    }
}

/// The colours of a row's pixels; none of them is marked.
fn row_colours(image: &Image, row: u32) -> Vec<bool> {
    let colour = |column: u32| {
        let word = image.words[image.offset(column, row) as usize];
        word >> (column % 64) & 1 == 1
    };
    (0..image.width).map(colour).collect()
}

/// The list of a search in a row of an accepted image.
pub fn row_runs(words: &[u64], width: u32, height: u32, row: u32, start: u32) -> Vec<Run> {
    let image = Image {
        words,
        marks: &mut [],
        width,
        height,
    };
    searched_runs(&row_colours(&image, row), start)
}

/// Answer and marks of a search by runs in a row of an accepted image, from a column up to width - 7 on.
pub fn row_search_by_runs(
    words: &[u64],
    width: u32,
    height: u32,
    row: u32,
    start: u32,
) -> RowAnswer {
    let mut marks = vec![0; words.len()];
    let image = Image {
        words,
        marks: &mut marks,
        width,
        height,
    };
    let (window, columns) = window_by_runs(&row_colours(&image, row), start);
    for column in columns {
        image.marks[image.offset(column, row) as usize] |= 1 << (column % 64);
    }
    (window.map(Window::parts), marks)
}
