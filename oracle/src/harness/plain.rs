//! The source without a log; the marks that it reports are clear. For timing.

pub(super) use super::marks::Off as Marks;

include!("tree.rs");
