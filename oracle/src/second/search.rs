//! The entries: an image is refused with a number, or searched.

use crate::Report;

use super::file::{HEADER_BYTES, check, check_words, image_words_of, read_header, unpack};
use super::image::Image;
use super::kept::{keep_within_deviation, rank};
use super::record::record_of;
use super::sweep::{Candidate, sweep};

pub(super) const WORDS_PER_RECORD: usize = 40;
const MOST_RECORDS: usize = 1024;

/// Crop file and answer numbers, from number 2 on, for an image given as words.
pub fn search_words(
    words: &[u64],
    width: u32,
    height: u32,
    records: &mut [u32],
    marks: &mut [u64],
    ellipse: bool,
) -> Report {
    let refusal = check_words(words, width, height);
    if refusal != 0 {
        return refused(refusal);
    }
    if marks.len() != words.len() {
        return refused(6);
    }
    if records.len() < WORDS_PER_RECORD {
        return refused(6);
    }
    search(words, width, height, records, marks, ellipse)
}

/// Crop file and answer numbers, all of them, for an image given as a file.
pub fn search_file(
    file: &[u8],
    words: &mut [u64],
    records: &mut [u32],
    marks: &mut [u64],
    ellipse: bool,
) -> Report {
    let refusal = check(file);
    if refusal != 0 {
        return refused(refusal);
    }
    let Some(header) = read_header(file) else {
        return refused(1);
    };
    let image_words = image_words_of(header.width, header.height);
    if words.len() != image_words {
        return refused(6);
    }
    if marks.len() != image_words {
        return refused(6);
    }
    if records.len() < WORDS_PER_RECORD {
        return refused(6);
    }
    unpack(&file[HEADER_BYTES..], header.width, words);
    search(words, header.width, header.height, records, marks, ellipse)
}

/// Crop file and answer numbers, without a search: a file unpacked.
pub fn unpack_file(file: &[u8], words: &mut [u64]) -> u32 {
    let refusal = check(file);
    if refusal != 0 {
        return refusal;
    }
    let Some(header) = read_header(file) else {
        return 1;
    };
    if words.len() != image_words_of(header.width, header.height) {
        return 6;
    }
    unpack(&file[HEADER_BYTES..], header.width, words);
    0
}

/// A refusal has no counts.
pub(super) fn refused(answer: u32) -> Report {
    Report {
        answer,
        found: 0,
        kept: 0,
        marked: 0,
    }
}

/// How many candidates the record buffer can take.
pub(super) fn capacity_of(record_words: usize) -> usize {
    (record_words / WORDS_PER_RECORD).min(MOST_RECORDS)
}

/// The search of an accepted image, on marks that start clear, with the ellipse check or without.
pub(super) fn search(
    words: &[u64],
    width: u32,
    height: u32,
    records: &mut [u32],
    marks: &mut [u64],
    ellipse: bool,
) -> Report {
    marks.fill(0);
    let capacity = capacity_of(records.len());
    let mut image = Image {
        words,
        marks,
        width,
        height,
    };
    let candidates = sweep(&mut image, capacity);
    let overfull = candidates.len() > capacity;
    let ranked = if overfull {
        Vec::new()
    } else {
        rank(keep_within_deviation(&candidates))
    };
    write_records(&mut image, &ranked, capacity, records, ellipse);
    Report {
        answer: answer_of(overfull, candidates.len(), ranked.len()),
        found: candidates.len() as u32,
        kept: ranked.len() as u32,
        marked: count_marks(image.marks),
    }
}

/// Numbers 7, 8, 9 and 0.
fn answer_of(overfull: bool, found: usize, kept: usize) -> u32 {
    if overfull {
        return 7;
    }
    if found == 0 {
        return 8;
    }
    if kept == 0 {
        return 9;
    }
    0
}

/// The number of marked bits.
pub(super) fn count_marks(marks: &[u64]) -> u32 {
    marks.iter().map(|mark| mark.count_ones()).sum()
}

/// The kept records, and zeros up to the capacity.
fn write_records(
    image: &mut Image,
    ranked: &[Candidate],
    capacity: usize,
    records: &mut [u32],
    ellipse: bool,
) {
    records[..capacity * WORDS_PER_RECORD].fill(0);
    for (index, candidate) in ranked.iter().enumerate() {
        let start = index * WORDS_PER_RECORD;
        let record = record_of(image, candidate, ellipse);
        records[start..start + WORDS_PER_RECORD].copy_from_slice(&record);
    }
}
