//! The sizes of images, files and buffers.

/// Bits of a stored word.
pub const WORD_BITS: usize = 64;

/// Bytes of a file's header.
pub const HEADER_BYTES: usize = 4;

/// The least width and height.
pub const LEAST_SIDE: u32 = 33;

/// The greatest width and height.
pub const GREATEST_SIDE: u32 = 2048;

/// The most words that an image may have.
pub const MOST_WORDS: usize = 8000;

/// A file's number does not depend on what follows these bytes (`refusal_prefix` of the proved crate `crop`): no accepted file is as
/// long.
pub const LONGEST: usize = 65_536;

/// Words of one record.
pub const RECORD_WORDS: usize = 40;

/// Rows of a symbol's cells, a word each, and the cells of a row.
pub const CELL_ROWS: usize = 33;
pub const CELL_COLUMNS: usize = 30;

/// Records that the program holds.
pub const RECORDS: usize = 400;

/// The most candidates that a search holds, whatever the buffer.
pub const MOST_CANDIDATES: usize = 1024;

/// Bytes that hold the line of any report, and those of one record.
pub const REPORT_BYTES: usize = 80;
pub const RECORD_BYTES: usize = 200;

/// Bytes that hold the lines of any run with so many kept records.
pub fn text_room(kept: u32) -> usize {
    REPORT_BYTES + RECORD_BYTES * kept as usize
}
