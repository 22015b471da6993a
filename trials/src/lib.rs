//! Holds the proved finder, through host/, against the judge on many inputs, and against itself on pairs of them.

mod buffers;
pub mod call;
pub mod cases;
pub mod hostile;
pub mod pairs;
mod product;
pub mod run;
pub mod shrink;
pub mod tally;

pub use product::PRODUCT;
