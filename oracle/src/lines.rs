//! The lines that the program `find` prints.

use std::fmt::{LowerHex, Write};

use crate::crop;
use crate::vectors::SearchFile;
use crops::places::{
    CENTER_X, CENTER_Y, CLASS, CORNERS, OUTCOME, RADIUS, ROTATION, SCALE, VARIANCE,
};
use crops::{RECORD_WORDS, RECORDS, Report, words_of};

/// What the program prints for a file, by this search of it; the program has the ellipse check off.
pub fn of_file(file: &[u8], search: SearchFile) -> String {
    let length = match crop::check_file(file) {
        0 => words_of(file),
        _ => 0,
    };
    let (mut words, mut marks) = (vec![0; length], vec![0; length]);
    let mut records = vec![0; RECORD_WORDS * RECORDS];
    let report = search(file, &mut words, &mut records, &mut marks, false);
    of_report(report, &records)
}

/// Answer and counts, then a line for each kept record.
pub fn of_report(report: Report, records: &[u32]) -> String {
    let Report {
        answer,
        found,
        kept,
        marked,
    } = report;
    let mut text = format!("answer {answer} found {found} kept {kept} marked {marked}\n");
    for record in records.chunks_exact(RECORD_WORDS).take(kept as usize) {
        text += &of_record(record);
    }
    text
}

/// Centre, radius, outcome, scale, rotation and class in decimal, variance and corners in hex.
fn of_record(record: &[u32]) -> String {
    let rotation = f32::from_bits(record[ROTATION]);
    let mut line = String::new();
    for place in [CENTER_X, CENTER_Y, RADIUS, OUTCOME, SCALE] {
        let _ = write!(line, "{} ", record[place]);
    }
    let _ = write!(line, "{rotation} {} ", record[CLASS]);
    let _ = write!(line, "{:08x} ", record[VARIANCE]);
    line + &hex(&record[CORNERS..CORNERS + 8], 8)
}

/// Words in hex with so many digits, parted by spaces.
pub fn hex<T: LowerHex>(words: &[T], digits: usize) -> String {
    let words: Vec<String> = (words.iter())
        .map(|word| format!("{word:0digits$x}"))
        .collect();
    words.join(" ") + "\n"
}
