//! The judge of the finder: the Rust's own functions, built from its text, and a second reading of the rules.

pub mod cases;
pub mod crop;
mod entries;
pub mod generate;
#[cfg(source)]
pub mod harness;
pub mod lines;
pub mod options;
pub mod rows;
pub mod second;
pub mod sines;
pub mod upright;
pub mod vectors;

pub use crops::{MOST_CANDIDATES, RECORD_WORDS, Report};
pub use entries::{CellsFile, CellsWords, Entries, JUDGE, SECOND, SearchWords};
