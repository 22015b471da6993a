//! Cases in text: the entries of the judge and of the second reading, and left sides made from the generator's crops.

mod cells;
mod ellipses;
mod left;
mod second;

pub use left::made;
pub use second::SECOND;

#[cfg(source)]
use crate::{harness, lines};
use crops::cases::Entries;

/// The judge's, if the source's text was here when this was built.
#[cfg(source)]
pub const JUDGE: Option<Entries> = Some(Entries {
    host: harness::check,
    unpack: crate::crop::unpack_file,
    search_file: harness::search_file,
    search_words: harness::search_words,
    cells_file: harness::cells_file,
    cells_words: harness::cells_words,
    program: Some(&|file| Ok(lines::of_file(file, harness::search_file).into_bytes())),
});

#[cfg(not(source))]
pub const JUDGE: Option<Entries> = None;
