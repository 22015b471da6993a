//! Which rows, starts and windows a set of row searches has reached.

use std::fmt::Write;

use super::rows::RowSearch;
use crate::second::{Run, passes_from, row_runs};

/// A row of the table: its name, and whether a search belongs to it.
type Row = (&'static str, fn(&Told) -> bool);

/// What is told of a search.
const ROWS: [Row; 28] = [
    ("no window", |told| told.windows.is_empty()),
    ("white up to column width - 7, the next white", |told| {
        told.white && !told.black_at(told.limit)
    }),
    ("white up to column width - 7, the next black", |told| {
        told.white && told.black_at(told.limit)
    }),
    ("no window, some black up to column width - 7", |told| {
        told.windows.is_empty() && !told.white
    }),
    ("window at place 0", |told| told.leftmost(0, 0)),
    ("window at place 2", |told| told.leftmost(2, 2)),
    ("window at place 4", |told| told.leftmost(4, 4)),
    ("window at a later place", |told| told.leftmost(6, !0)),
    ("another window to the right", |told| told.windows.len() > 1),
    ("a failing eleven between two windows", |told| told.gap()),
    ("window closed at column width - 8", |told| {
        told.closed_at(8)
    }),
    ("window closed at column width - 7", |told| {
        told.closed_at(7)
    }),
    ("passing eleven closed at column width - 6", |told| {
        told.unclosed(|closing| closing == Some(told.limit))
    }),
    ("passing eleven closed at a later column", |told| {
        told.unclosed(|closing| closing > Some(told.limit))
    }),
    ("passing eleven cut by the right edge", |told| {
        told.unclosed(|closing| closing.is_none())
    }),
    ("no window, a passing eleven that begins white", |told| {
        told.windows.is_empty() && told.begins_white(usize::MAX)
    }),
    (
        "a passing eleven that begins white before a window",
        |told| {
            told.windows
                .first()
                .is_some_and(|first| told.begins_white(*first))
        },
    ),
    ("start in a black run", |told| told.before > 0),
    ("window whose first run the start cuts", |told| {
        told.before > 0 && told.leftmost(0, 0)
    }),
    ("eleven that pass because the start cuts them", |told| {
        told.passes() && !told.passes_uncut()
    }),
    ("eleven that fail because the start cuts them", |told| {
        !told.passes() && told.passes_uncut()
    }),
    ("start 0", |told| told.search.start == 0),
    ("start at column width - 7", |told| {
        told.search.start == told.limit - 1
    }),
    ("width a multiple of 64", |told| {
        told.search.width.is_multiple_of(64)
    }),
    ("width over 1,000", |told| told.search.width > 1_000),
    ("odd row", |told| told.search.row % 2 == 1),
    ("row above the sweep's", |told| told.search.row < 6),
    ("row below the sweep's", |told| {
        told.search.row >= told.search.height - 6
    }),
];

/// A search with the list of its runs.
struct Told<'a> {
    search: &'a RowSearch,
    /// Column width - 6.
    limit: u32,
    runs: Vec<Run>,
    /// Places of the list whose eleven runs pass, of any colour.
    passing: Vec<usize>,
    /// Those of them that are windows.
    windows: Vec<usize>,
    /// Black pixels next to the start on its left, if the start is black.
    before: u32,
    /// No pixel from the start to column width - 7 is black.
    white: bool,
}

impl Told<'_> {
    fn new(search: &RowSearch) -> Told<'_> {
        let (words, width, height) = (&search.words, search.width, search.height);
        let runs = row_runs(words, width, height, search.row, search.start);
        let limit = width - 6;
        let places = 0..runs.len();
        let passing: Vec<usize> = places.filter(|place| passes_from(&runs, *place)).collect();
        let mut told = Told {
            search,
            limit,
            white: runs.first().is_none_or(|run| run.first >= limit),
            runs,
            passing,
            windows: Vec::new(),
            before: 0,
        };
        let closes = |place: usize| told.closing(place).is_some_and(|column| column < limit);
        let is_window = |place: &usize| told.runs[*place].colour && closes(*place);
        told.windows = told.passing.iter().copied().filter(is_window).collect();
        if told.black_at(search.start) {
            let left = (0..search.start).rev();
            told.before = left.take_while(|column| told.black_at(*column)).count() as u32;
        }
        told
    }

    fn black_at(&self, column: u32) -> bool {
        let words = self.search.width.div_ceil(64);
        let word = self.search.words[(self.search.row * words + column / 64) as usize];
        word >> (column % 64) & 1 == 1
    }

    /// The first column after the eleven runs from a place on; none at the right edge.
    fn closing(&self, place: usize) -> Option<u32> {
        self.runs.get(place + 11).map(|run| run.first)
    }

    /// The leftmost window has a place from `low` to `high`.
    fn leftmost(&self, low: usize, high: usize) -> bool {
        let first = self.windows.first();
        first.is_some_and(|place| (low..=high).contains(place))
    }

    /// The leftmost window is closed so many columns from the right edge.
    fn closed_at(&self, from_edge: u32) -> bool {
        let first = self.windows.first();
        first.is_some_and(|place| self.closing(*place) == Some(self.search.width - from_edge))
    }

    /// Between the first window and the next stands an eleven that begins black and is none.
    fn gap(&self) -> bool {
        let next = self.windows.get(1);
        next.is_some_and(|next| *next > self.windows[0] + 2)
    }

    /// Without a window, some eleven that begins black and passes has such a closing column.
    fn unclosed(&self, closing: impl Fn(Option<u32>) -> bool) -> bool {
        let mut black = self
            .passing
            .iter()
            .filter(|place| self.runs[**place].colour);
        self.windows.is_empty() && black.any(|place| closing(self.closing(*place)))
    }

    /// Some eleven that begins white, before a place, passes and is followed by a pixel.
    fn begins_white(&self, before: usize) -> bool {
        let mut passing = self.passing.iter().filter(|place| **place < before);
        passing.any(|place| !self.runs[*place].colour && self.closing(*place).is_some())
    }

    fn passes(&self) -> bool {
        passes_from(&self.runs, 0)
    }

    /// Whether the first eleven would pass with the whole of the run that the start cuts.
    fn passes_uncut(&self) -> bool {
        let mut runs = self.runs.clone();
        if let Some(first) = runs.first_mut() {
            first.length += self.before;
        }
        passes_from(&runs, 0)
    }
}

/// Counts over all searches added.
#[derive(Clone, Debug, Default)]
pub struct RowCoverage([u64; ROWS.len()]);

impl RowCoverage {
    /// Counts a search.
    pub fn add(&mut self, search: &RowSearch) {
        let told = Told::new(search);
        for (count, (_, holds)) in self.0.iter_mut().zip(ROWS) {
            *count += u64::from(holds(&told));
        }
    }

    /// The rows with count 0.
    pub fn missing(&self) -> Vec<&'static str> {
        let rows = ROWS.iter().zip(self.0);
        rows.filter(|row| row.1 == 0).map(|row| row.0.0).collect()
    }

    /// All counts in Markdown.
    pub fn table(&self) -> String {
        let mut text = String::from("Row | Count\n---|---\n");
        for ((name, _), count) in ROWS.iter().zip(self.0) {
            let _ = writeln!(text, "{name} | {count}");
        }
        text
    }
}
