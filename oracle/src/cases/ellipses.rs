//! Left sides of searches with the ellipse check: crops for it beside those that are searched, and calls with lengths, kinds,
//! dimensions and bits that are right and wrong.

use std::collections::BTreeMap;

use crops::places::{CENTER_X, CENTER_Y, OUTCOME};
use crops::{HEADER_BYTES, RECORD_WORDS, words_of};

use super::left::{CHANGES, RECORDS, TOO_LONG, kind, length, size};
use crate::generate::{self, Crop, Random};
use crate::second::{EllipseVerdict, ellipse_widths, search_words};

/// How many crops are taken of a row.
const OF_A_ROW: usize = 2;

/// Calls beside the three that each crop for the check has.
const MORE: usize = 3;

/// Lengths of words to unpack into, of marks and of records for a crop of 33 by 33 pixels: the right ones, and others.
const LENGTHS: [[usize; 3]; 12] = [
    [33, 33, 40],
    [33, 33, 16_000],
    [32, 33, 40],
    [34, 33, 40],
    [0, 33, 40],
    [33, 32, 40],
    [33, 34, 40],
    [33, 0, 40],
    [33, 33, 39],
    [33, 33, 0],
    [33, 33, 41_003],
    [0, 0, 0],
];

/// What a crop comes to in a search with the check: its family with what the check says of each kept record and the record's
/// outcome, end points about four fifths, and an ellipse before another outcome.
fn rows(crop: &Crop) -> Vec<String> {
    let (words, width, height) = (&crop.words, crop.width, crop.height);
    let mut marks = vec![0; words.len()];
    let mut records = vec![0; RECORD_WORDS * crops::RECORDS];
    let report = search_words(words, width, height, &mut records, &mut marks, true);
    let kept = || {
        records
            .chunks_exact(RECORD_WORDS)
            .take(report.kept as usize)
    };
    let mut rows = Vec::new();
    for record in kept() {
        let widths = ellipse_widths(words, width, height, (record[CENTER_X], record[CENTER_Y]));
        let (verdict, outcome) = (widths.verdict(), record[OUTCOME]);
        rows.push(format!("{} {verdict:?} {outcome}", crop.family));
        let enough = verdict == EllipseVerdict::EqualHalves && widths.good >= 116;
        if enough || (114..=117).contains(&widths.good) {
            rows.push(format!("{verdict:?} with {}", widths.good.min(117)));
        }
    }
    let ellipses: Vec<bool> = kept().map(|record| record[OUTCOME] == 3).collect();
    if ellipses.windows(2).any(|pair| pair[0] && !pair[1]) {
        rows.push("an ellipse before another".to_string());
    }
    rows
}

/// The near pairs, and small crops for the check, some for each row.
pub fn files(seed: u64, seeds: u64) -> Vec<Vec<u8>> {
    let mut taken: BTreeMap<String, usize> = BTreeMap::new();
    let near = generate::near_ellipses().into_iter();
    let mut files: Vec<Vec<u8>> = near.map(|(_, crop)| crop.file()).collect();
    for crop in (seed..seed + seeds).map(generate::ellipse) {
        let file = crop.file();
        if file.len() >= TOO_LONG {
            continue;
        }
        let mut first = false;
        for row in rows(&crop) {
            let count = taken.entry(row).or_default();
            first |= *count < OF_A_ROW;
            *count += 1;
        }
        if first {
            files.push(file);
        }
    }
    files
}

/// The calls of a crop for the check: as a file and as words with it, as words without, then some in which one thing is changed.
pub fn calls(random: &mut Random, id: usize, file: &[u8]) -> Vec<String> {
    let n = words_of(file);
    let mut calls = vec![
        format!("search file={id} unpack={n} marks={n} records=480 ellipse=1"),
        format!("search words={id} marks={n} records=16000 ellipse=1"),
        format!("search words={id} marks={n} records=16000"),
    ];
    calls.extend((0..MORE).map(|_| changed(random, id, file)));
    calls
}

/// A call of a crop that was made for another purpose.
pub fn call(random: &mut Random, id: usize, file: &[u8]) -> String {
    let n = words_of(file);
    match file.len() < HEADER_BYTES || random.one_in(2) {
        true => format!("search file={id} unpack={n} marks={n} records=480 ellipse=1"),
        false => changed(random, id, file),
    }
}

/// A search with the check in which one thing or another is changed.
fn changed(random: &mut Random, id: usize, file: &[u8]) -> String {
    let n = words_of(file);
    let records = random.pick(&RECORDS);
    let call = match random.below(8) {
        0 => {
            let [unpack, marks] = [(); 2].map(|()| length(random, n));
            let kind = kind(random);
            format!("file={id} unpack={unpack} marks={marks} records={records}{kind}")
        }
        1 => {
            let size = size(random, file);
            format!("words={id} size={size} marks={n} records={records}")
        }
        2 => {
            let cut = length(random, n);
            format!("words={id} cut={cut} marks={cut} records={records}")
        }
        3..=5 if n > 0 => {
            let bit = random.below(64 * n as u32);
            format!("words={id} flip={bit} marks={n} records=480")
        }
        _ => format!("file={id} unpack={n} marks={n} records={records}"),
    };
    format!("search {call} ellipse=1")
}

/// Calls with the check at the edges of each number, of a crop of 33 by 33 pixels.
pub fn edges(id: usize) -> Vec<String> {
    let lent = LENGTHS.map(|[unpack, marks, records]| {
        format!("search file={id} unpack={unpack} marks={marks} records={records} ellipse=1")
    });
    let words =
        CHANGES.map(|change| format!("search words={id} {change} marks=33 records=40 ellipse=1"));
    let kinds = [0, 2, 15].map(|kind| {
        format!("search file={id} unpack=33 marks=33 records=40 kind={kind} ellipse=1")
    });
    lent.into_iter().chain(words).chain(kinds).collect()
}
