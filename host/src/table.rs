//! The table of a run: a line for each file and record, as CSV or JSON, and a table read back.
use crate::run::Seen;
use std::ffi::OsString;

mod line;
mod read;
mod write;

pub use read::read;
pub use write::{Cell, csv_line, header, rows};

/// The columns: those of the file, of a record from RECORD on, and why a file could not be read; then, where it is there, ELLIPSE.
pub const COLUMNS: [&str; 25] = [
    "file",
    "answer",
    "found",
    "kept",
    "marked",
    "record",
    "x",
    "y",
    "radius",
    "outcome",
    "scale",
    "rotation",
    "class",
    "variance",
    "last_x",
    "last_y",
    "left_bottom_x",
    "left_bottom_y",
    "left_top_x",
    "left_top_y",
    "right_bottom_x",
    "right_bottom_y",
    "right_top_x",
    "right_top_y",
    "problem",
];

/// The last column of a table that was made with the ellipse check, 1 in each line; others do not have it.
pub const ELLIPSE: &str = "ellipse";

/// What is wrong with tables that cannot be one.
pub const BOTH_SETTINGS: &str = "a table made with --ellipse beside one made without";

/// The column of a record's number.
const RECORD: usize = 5;

/// The columns of a record after its number.
const FIELDS: usize = 18;

/// A file and what was seen of it, or why it could not be read.
pub struct Entry {
    pub name: OsString,
    pub seen: Result<Seen, String>,
}
