//! The entries of the second reading.

use crate::{lines, second};
use crops::cases::Entries;

pub const SECOND: Entries = Entries {
    host: second::check,
    unpack: second::unpack_file,
    search_file: second::search_file,
    search_words: second::search_words,
    cells_file: second::cells_file,
    cells_words: second::cells_words,
    program: Some(&|file| Ok(lines::of_file(file, second::search_file).into_bytes())),
};
