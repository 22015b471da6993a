//! A second reading of the rules: the finder in plain Rust, with none of the source's functions.

mod boundary;
mod cells;
mod center;
mod ellipse;
mod file;
mod image;
mod kept;
mod record;
mod runs;
mod search;
mod sines;
mod sweep;
#[cfg(test)]
mod tests;
mod turn;
mod widths;

pub use cells::{Rectangle, cells_file, cells_words, enclosing_rectangle};
pub use ellipse::{EllipseVerdict, EllipseWidths, ellipse_widths};
pub use file::check;
pub use runs::{Run, passes_from, row_runs, row_search_by_runs};
pub use search::{search_file, search_words, unpack_file};
pub use sweep::{RowAnswer, row_search_by_scan};
