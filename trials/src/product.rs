//! The entries of the proved finder.

use oracle::Entries;

pub const PRODUCT: Entries = Entries {
    file: bullseye::search_file,
    words: bullseye::search_words,
    cells_file: bullseye::cells_file,
    cells_words: bullseye::cells_words,
};
