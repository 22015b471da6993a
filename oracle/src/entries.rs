//! The entries of a search and those of cells, and whose they are here.

#[cfg(source)]
use crate::harness;
use crate::vectors::SearchFile;
use crate::{Report, second};

/// An entry that searches an unpacked image of a width and a height, with the ellipse check or without.
pub type SearchWords = fn(&[u64], u32, u32, &mut [u32], &mut [u64], bool) -> Report;

/// An entry that reads the cells of a crop file, which it unpacks.
pub type CellsFile = fn(&[u8], &mut [u64], &mut [u32]) -> u32;

/// An entry that reads the cells of an unpacked image of a width and a height.
pub type CellsWords = fn(&[u64], u32, u32, &mut [u32]) -> u32;

#[derive(Clone, Copy)]
pub struct Entries {
    pub file: SearchFile,
    pub words: SearchWords,
    pub cells_file: CellsFile,
    pub cells_words: CellsWords,
}

/// The judge's: the source's own functions, if its text was here when this was built.
#[cfg(source)]
pub const JUDGE: Option<Entries> = Some(Entries {
    file: harness::search_file,
    words: harness::search_words,
    cells_file: harness::cells_file,
    cells_words: harness::cells_words,
});

#[cfg(not(source))]
pub const JUDGE: Option<Entries> = None;

/// Those of the second reading.
pub const SECOND: Entries = Entries {
    file: second::search_file,
    words: second::search_words,
    cells_file: second::cells_file,
    cells_words: second::cells_words,
};
