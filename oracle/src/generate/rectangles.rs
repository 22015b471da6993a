//! Which answers of cells, and which enclosing rectangles, a set of calls has reached.

use std::collections::BTreeMap;
use std::fmt::Write;

use crate::second::Rectangle;
use crops::{CELL_COLUMNS, CELL_ROWS};

/// What is told of a rectangle in an image.
const ROWS: [&str; 11] = [
    "rectangle at the left edge",
    "rectangle at the right edge",
    "rectangle at the top edge",
    "rectangle at the bottom edge",
    "rectangle of the whole crop",
    "rectangle below the top edge, no row capped",
    "rectangle below the top edge, some rows capped",
    "rectangle below the top edge, all rows capped",
    "rectangle narrower than 30",
    "rectangle lower than 33",
    "rectangle of one pixel",
];

/// The rows that a rectangle in an image of a width and a height belongs to.
pub fn rectangle_rows(width: u32, height: u32, rectangle: Rectangle) -> Vec<&'static str> {
    let rows = CELL_ROWS as u32;
    let down = |row: u32| (row * rectangle.height + rectangle.height / 2) / rows;
    let capped = (0..rows).filter(|row| rectangle.top + down(*row) >= rectangle.height);
    let capped = capped.count();
    let below = rectangle.top > 0;
    let [left, right] = [
        rectangle.left == 0,
        rectangle.left + rectangle.width == width,
    ];
    let [top, bottom] = [!below, rectangle.top + rectangle.height == height];
    let holds = [
        left,
        right,
        top,
        bottom,
        left && right && top && bottom,
        below && capped == 0,
        below && (1..CELL_ROWS).contains(&capped),
        below && capped == CELL_ROWS,
        (rectangle.width as usize) < CELL_COLUMNS,
        (rectangle.height as usize) < CELL_ROWS,
        rectangle.width * rectangle.height == 1,
    ];
    let told = ROWS.into_iter().zip(holds);
    told.filter_map(|(row, holds)| holds.then_some(row))
        .collect()
}

/// Counts over all calls added.
#[derive(Clone, Debug, Default)]
pub struct CellCoverage {
    answers: BTreeMap<u32, u64>,
    rectangles: BTreeMap<&'static str, u64>,
}

impl CellCoverage {
    /// Counts an answer.
    pub fn add(&mut self, answer: u32) {
        *self.answers.entry(answer).or_default() += 1;
    }

    /// Counts the rectangle of an image of a width and a height.
    pub fn add_rectangle(&mut self, width: u32, height: u32, rectangle: Rectangle) {
        for row in rectangle_rows(width, height, rectangle) {
            *self.rectangles.entry(row).or_default() += 1;
        }
    }

    /// Every row, with its count.
    fn rows(&self) -> Vec<(String, u64)> {
        let numbers = (0..=crops::BLANK).filter(|number| crops::cells_meaning(*number).is_ok());
        let count = |number: u32| self.answers.get(&number).copied().unwrap_or_default();
        let answers = numbers.map(|number| (format!("cells answer {number}"), count(number)));
        let count = |row: &str| self.rectangles.get(row).copied().unwrap_or_default();
        let rectangles = ROWS.map(|row| (row.to_string(), count(row)));
        answers.chain(rectangles).collect()
    }

    /// The rows with count 0.
    pub fn missing(&self) -> Vec<String> {
        let rows = self.rows().into_iter();
        rows.filter(|row| row.1 == 0).map(|row| row.0).collect()
    }

    /// All counts in Markdown.
    pub fn table(&self) -> String {
        let mut text = String::from("Row | Count\n---|---\n");
        for (name, count) in self.rows() {
            let _ = writeln!(text, "{name} | {count}");
        }
        text
    }
}
