// The accepted search: the source's sweep, its retain and sort, and for each kept circle its ellipse check, if the option is on, and
// its box.

use super::super::super::{Record, Report, capacity};
use super::super::ELLIPSE;
use super::{BitMatrix, Circle, box_symbol, detect, find_concentric_circles};
use crate::RECORD_WORDS;

/// Searches an image that no check refuses.
pub fn search(
    words: &[u64],
    width: u32,
    height: u32,
    records: &mut [u32],
    marks: &mut [u64],
    ellipse: bool,
) -> Report {
    let image = BitMatrix::of(words, width, height);
    let report = search_image(&image, records, ellipse);
    marks.fill(0);
    image.marks().write_to(marks);
    report
}

/// The same of a prepared image, whose log is cleared first and counted at the end.
pub(super) fn search_image(image: &BitMatrix, records: &mut [u32], ellipse: bool) -> Report {
    image.marks().reset();
    let capacity = capacity(records);
    let sweep = find_concentric_circles(image, capacity);
    let found = sweep.as_ref().map_or(0, Vec::len);
    let full = found > capacity;
    let mut kept = if full {
        Vec::new()
    } else {
        detect(sweep).unwrap_or_default()
    };
    let whole = &mut records[..RECORD_WORDS * capacity];
    whole.fill(0);
    for (circle, record) in kept.iter_mut().zip(whole.chunks_exact_mut(RECORD_WORDS)) {
        circle.trace.ellipse = ellipse;
        boxed(image, circle).write_to(record);
    }
    Report {
        answer: match (found, kept.len()) {
            _ if full => 7,
            (0, _) => 8,
            (_, 0) => 9,
            _ => 0,
        },
        found: found as u32,
        kept: kept.len() as u32,
        marked: image.marks().count(),
    }
}

/// The record of a kept circle, after its box and turn; the source's error is an ellipse, which has neither.
pub(super) fn boxed(image: &BitMatrix, circle: &mut Circle) -> Record {
    let found = [circle.center.x, circle.center.y];
    let (corners, rotation) = box_symbol(image, circle).unwrap_or_else(|_| {
        assert!(circle.trace.ellipse, "no other error");
        circle.trace.outcome = ELLIPSE;
        Default::default()
    });
    Record {
        found,
        radius: circle.radius,
        row_runs: circle.horizontal_buckets,
        column_runs: circle.vertical_buckets,
        variance: circle.calculate_circle_variance(),
        outcome: circle.trace.outcome,
        scale: circle.trace.scale,
        rotation,
        centre: [circle.center.x, circle.center.y],
        corners,
    }
}
