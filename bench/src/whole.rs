//! The tables of whole searches, without the ellipse check and with it.

use crops::places::OUTCOME;
use crops::{Outcome, RECORD_WORDS};
use oracle::generate::Crop;
use oracle::{Report, harness};

use crate::sets::Set;
use crate::source::{Logged, Plain, Source, prepared};
use crate::table;

const HEADER: &str = "\
| Crops | Size | Answers | Found | Kept | Product, µs | Logged Rust, µs | Ratio | Rust without log, µs | Ratio |
|---|---|---|---|---|---|---|---|---|---|";

const ELLIPSE_HEADER: &str = "\
| Crops | Size | Answers | Found | Kept | Ellipses | Product, µs | The same without the check, µs | Ratio | Logged Rust, µs | Ratio \
| Rust without log, µs | Ratio |
|---|---|---|---|---|---|---|---|---|---|---|---|---|";

/// What a search leaves: its report, its records and its marks.
#[derive(Debug, PartialEq)]
struct Left {
    report: Report,
    records: Vec<u32>,
    marks: Vec<u64>,
}

/// What one of the searches leaves of a crop, in buffers that were not clear, with the ellipse check or without.
fn left(crop: &Crop, search: oracle::SearchWords, ellipse: bool) -> Left {
    let mut records = vec![!0; crop.capacity_words];
    let mut marks = vec![!0; crop.words.len()];
    let report = search(
        &crop.words,
        crop.width,
        crop.height,
        &mut records,
        &mut marks,
        ellipse,
    );
    Left {
        report,
        records,
        marks,
    }
}

/// What the function of the source that is timed leaves of a crop: its report and its records.
fn timed<S: Source>(crop: &Crop, ellipse: bool) -> (Report, Vec<u32>) {
    let mut records = vec![!0; crop.capacity_words];
    let report = S::new(crop).search(&mut records, ellipse);
    (report, records)
}

/// Stops unless all searches agree on a crop; the one without a log has no marks. Gives their report, and how many ellipses there are.
pub fn agreed(crop: &Crop, ellipse: bool) -> (Report, usize) {
    let ours = left(crop, bullseye::search_words, ellipse);
    assert_eq!(ours, left(crop, harness::search_words, ellipse));
    let (logged, records) = timed::<Logged>(crop, ellipse);
    assert_eq!((ours.report, &ours.records), (logged, &records));
    let (plain, records) = timed::<Plain>(crop, ellipse);
    let marked = ours.report.marked;
    let plain = Report { marked, ..plain };
    assert_eq!((ours.report, &ours.records), (plain, &records));
    let kept = (records.chunks_exact(RECORD_WORDS)).take(ours.report.kept as usize);
    let ellipses = kept.filter(|record| record[OUTCOME] == Outcome::Ellipse.number());
    (ours.report, ellipses.count())
}

/// The answers, and how many were found and kept; with the ellipse check how many ellipses there are.
fn results(crops: &[Crop], ellipse: bool) -> String {
    let all: Vec<_> = crops.iter().map(|crop| agreed(crop, ellipse)).collect();
    let answers: Vec<_> = all.iter().map(|(report, _)| report.answer).collect();
    let found: u32 = all.iter().map(|(report, _)| report.found).sum();
    let kept: u32 = all.iter().map(|(report, _)| report.kept).sum();
    let results = format!("{} | {found} | {kept}", table::answers(&answers));
    match ellipse {
        true => format!(
            "{results} | {}",
            all.iter().map(|(_, count)| count).sum::<usize>()
        ),
        false => results,
    }
}

/// The record buffers of crops.
fn buffers(crops: &[Crop]) -> Vec<Vec<u32>> {
    (crops.iter())
        .map(|crop| vec![0; crop.capacity_words])
        .collect()
}

/// All crops searched by the product.
fn ours(crops: &[Crop], ellipse: bool) -> impl FnMut() {
    let mut records = buffers(crops);
    let mut marks: Vec<_> = crops.iter().map(|crop| vec![0; crop.words.len()]).collect();
    move || {
        for ((crop, records), marks) in crops.iter().zip(&mut records).zip(&mut marks) {
            let (width, height) = (crop.width, crop.height);
            bullseye::search_words(&crop.words, width, height, records, marks, ellipse);
        }
    }
}

/// The same by the source.
fn theirs<S: Source>(crops: &[Crop], ellipse: bool) -> impl FnMut() {
    let images: Vec<S> = prepared(crops);
    let mut records = buffers(crops);
    move || {
        for (image, records) in images.iter().zip(&mut records) {
            image.search(records, ellipse);
        }
    }
}

/// The product and the source with one setting of the ellipse check; with it on, the product without it too.
fn columns(crops: &[Crop], ellipse: bool) -> String {
    let mut ours_now = ours(crops, ellipse);
    let mut logged = theirs::<Logged>(crops, ellipse);
    let mut plain = theirs::<Plain>(crops, ellipse);
    match ellipse {
        true => {
            let mut without = ours(crops, false);
            let runs: [&mut dyn FnMut(); 4] =
                [&mut ours_now, &mut without, &mut logged, &mut plain];
            table::columns(crops.len(), runs)
        }
        false => {
            let runs: [&mut dyn FnMut(); 3] = [&mut ours_now, &mut logged, &mut plain];
            table::columns(crops.len(), runs)
        }
    }
}

/// Prints the table of the sets, without the ellipse check or with it.
pub fn print(sets: &[Set], ellipse: bool) {
    let header = if ellipse { ELLIPSE_HEADER } else { HEADER };
    table::print(header, sets, |set| {
        let (results, columns) = (results(&set.crops, ellipse), columns(&set.crops, ellipse));
        format!("| {} | {} | {results} | {columns} |", set.name, set.size())
    });
}
