//! Safe functions over the proved library `tunnel`. None of its functions has a `requires`, so nothing is left to test here.
//! The tables of answers, of the record's fields and of sizes are those of [`crops`].

pub use crops;
pub use crops::Report;

pub mod redact;

mod tunnel {
    // A slice crosses as its pointer and its length.
    unsafe extern "C" {
        pub fn maxicode_check(file: *const u8, file_len: usize) -> u32;

        pub fn maxicode_unpack(
            file: *const u8,
            file_len: usize,
            words: *mut u64,
            words_len: usize,
        ) -> u32;

        pub fn maxicode_search_words(
            words: *const u64,
            words_len: usize,
            width: u32,
            height: u32,
            records: *mut u32,
            records_len: usize,
            marks: *mut u64,
            marks_len: usize,
            ellipse: u32,
        ) -> super::Report;

        pub fn maxicode_search_file(
            file: *const u8,
            file_len: usize,
            words: *mut u64,
            words_len: usize,
            records: *mut u32,
            records_len: usize,
            marks: *mut u64,
            marks_len: usize,
            ellipse: u32,
        ) -> super::Report;

        pub fn maxicode_cells_words(
            words: *const u64,
            words_len: usize,
            width: u32,
            height: u32,
            cells: *mut u32,
            cells_len: usize,
        ) -> u32;

        pub fn maxicode_cells_file(
            file: *const u8,
            file_len: usize,
            words: *mut u64,
            words_len: usize,
            cells: *mut u32,
            cells_len: usize,
        ) -> u32;

        pub fn maxicode_lines(
            answer: u32,
            found: u32,
            kept: u32,
            marked: u32,
            records: *const u32,
            records_len: usize,
            text: *mut u8,
            text_len: usize,
        ) -> usize;
    }
}

/// The first of the numbers 1 to 5 that names what is wrong with a crop file, or 0.
pub fn check(file: &[u8]) -> u32 {
    // SAFETY: the pointer and the length are one slice's, lent for the call.
    unsafe { tunnel::maxicode_check(file.as_ptr(), file.len()) }
}

/// Unpacks a crop file into `words`, as many as its image has: they are written only when the answer is 0. Otherwise it is the number
/// that `check` gives, or 6 for words of another length.
pub fn unpack(file: &[u8], words: &mut [u64]) -> u32 {
    // SAFETY: each pointer and the length after it are one slice's, lent for the call.
    unsafe { tunnel::maxicode_unpack(file.as_ptr(), file.len(), words.as_mut_ptr(), words.len()) }
}

/// Searches an unpacked image for bull's-eyes: rows of ceil(width/64) words, column c at bit c mod 64. A record is 40 words; the
/// marks, as many words as the image has, tell which of its bits were read. With `ellipse` each kept record is first checked for an
/// ellipse, which has no box ([`crops::Outcome::Ellipse`]).
pub fn search_words(
    words: &[u64],
    width: u32,
    height: u32,
    records: &mut [u32],
    marks: &mut [u64],
    ellipse: bool,
) -> Report {
    // SAFETY: each pointer and the length after it are one slice's, lent for the call.
    unsafe {
        tunnel::maxicode_search_words(
            words.as_ptr(),
            words.len(),
            width,
            height,
            records.as_mut_ptr(),
            records.len(),
            marks.as_mut_ptr(),
            marks.len(),
            ellipse.into(),
        )
    }
}

/// Searches a crop file, which it unpacks into `words`: as many as the image has; `ellipse` as of [`search_words`].
pub fn search_file(
    file: &[u8],
    words: &mut [u64],
    records: &mut [u32],
    marks: &mut [u64],
    ellipse: bool,
) -> Report {
    // SAFETY: each pointer and the length after it are one slice's, lent for the call.
    unsafe {
        tunnel::maxicode_search_file(
            file.as_ptr(),
            file.len(),
            words.as_mut_ptr(),
            words.len(),
            records.as_mut_ptr(),
            records.len(),
            marks.as_mut_ptr(),
            marks.len(),
            ellipse.into(),
        )
    }
}

/// Reads the cells of a lone symbol in an unpacked image: 33 rows of 30 in the enclosing rectangle of the black pixels, a word to a
/// row, column c at bit c. The answer is that of [`crops::cells_meaning`]; the cells, 33 words, are written only when it is 0.
pub fn cells_words(words: &[u64], width: u32, height: u32, cells: &mut [u32]) -> u32 {
    // SAFETY: each pointer and the length after it are one slice's, lent for the call.
    unsafe {
        tunnel::maxicode_cells_words(
            words.as_ptr(),
            words.len(),
            width,
            height,
            cells.as_mut_ptr(),
            cells.len(),
        )
    }
}

/// Reads the cells of a crop file, which it unpacks into `words`, as many as the image has: with 0 and with [`crops::BLANK`].
///
/// ```
/// use bullseye::crops;
/// # let file = include_bytes!("../../examples/lone.crop");
/// let mut words = vec![0; crops::words_of(file)];
/// let mut cells = [0; crops::CELL_ROWS];
/// let answer = bullseye::cells_file(file, &mut words, &mut cells);
/// assert_eq!(crops::cells_meaning(answer), Ok(crops::READ));
/// let is_black = |column: usize, row: usize| cells[row] >> column & 1 != 0;
/// assert!(is_black(5, 0) && !is_black(4, 0));
/// ```
pub fn cells_file(file: &[u8], words: &mut [u64], cells: &mut [u32]) -> u32 {
    // SAFETY: each pointer and the length after it are one slice's, lent for the call.
    unsafe {
        tunnel::maxicode_cells_file(
            file.as_ptr(),
            file.len(),
            words.as_mut_ptr(),
            words.len(),
            cells.as_mut_ptr(),
            cells.len(),
        )
    }
}

/// Puts the lines of a run, as the program `find` prints them, at the start of `text`, and answers how long they are. A buffer of less
/// than `crops::text_room` bytes, or fewer records lent than kept: nothing is written, and the length is 0.
pub fn put_lines(report: Report, records: &[u32], text: &mut [u8]) -> usize {
    // SAFETY: each pointer and the length after it are one slice's, lent for the call.
    unsafe {
        tunnel::maxicode_lines(
            report.answer,
            report.found,
            report.kept,
            report.marked,
            records.as_ptr(),
            records.len(),
            text.as_mut_ptr(),
            text.len(),
        )
    }
}

/// The lines of a run: the report's, then one for each kept record; none where fewer records are lent than kept.
pub fn lines(report: Report, records: &[u32]) -> Vec<u8> {
    let lent = report.kept as usize <= records.len() / crops::RECORD_WORDS;
    let mut text = vec![
        0;
        if lent {
            crops::text_room(report.kept)
        } else {
            0
        }
    ];
    let length = put_lines(report, records, &mut text);
    text.truncate(length);
    text
}
