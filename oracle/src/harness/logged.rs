//! The source with its reads logged.

pub(super) use super::marks::Kept as Marks;

include!("tree.rs");
