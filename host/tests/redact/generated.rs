//! Generated crops of all answers.
use super::*;
use oracle::generate;
use std::{collections::BTreeMap, fs, thread};

const MOST_RECORDS: usize = 12;

/// A generated crop, searched with the ellipse check or without, with room for few records, so that a crowded one is done soon.
fn picture(seed: u64, ellipse: bool) -> Picture {
    let crop = match ellipse && seed % 4 < 2 {
        true => generate::ellipse(seed),
        false => generate::crop(seed),
    };
    Picture {
        width: crop.width,
        height: crop.height,
        words: crop.words,
        records_len: crop.capacity_words.min(MOST_RECORDS * RECORD_WORDS),
        ellipse,
    }
}

/// How often each kind of crop was seen.
type Seen = BTreeMap<String, usize>;

/// The kinds that a search's result belongs to.
fn kinds(found: &Found) -> Vec<String> {
    let mut kinds = vec![format!("answer {}", found.report.answer)];
    let outcomes = found.kept().map(|record| record[OUTCOME]);
    kinds.extend(outcomes.map(|outcome| format!("outcome {outcome}")));
    if found.report.kept > 1 {
        kinds.push("several eyes".into());
    }
    if found.report.found > found.report.kept {
        kinds.push("set aside".into());
    }
    kinds
}

/// What is to hold of a crop and what its search found, and of the redacted one.
type Test = fn(&Picture, &Found, &Picture, &Redacted);

/// Redacts the crops of these seeds, in two threads, and hands each to a test.
fn each(seeds: u64, extent: Extent, ellipse: bool, test: Test) -> Seen {
    let half = |first: u64| {
        let mut seen = Seen::new();
        for seed in (first..seeds).step_by(2) {
            let before = picture(seed, ellipse);
            let found = before.search();
            let (after, done) = before.redacted(extent);
            test(&before, &found, &after, &done);
            for kind in kinds(&found) {
                *seen.entry(kind).or_default() += 1;
            }
        }
        seen
    };
    thread::scope(|scope| {
        let other = scope.spawn(|| half(1));
        let mut seen = half(0);
        for (kind, count) in other.join().expect("no test failed") {
            *seen.entry(kind).or_default() += count;
        }
        seen
    })
}

/// Each kind was seen so often at least.
fn expect(seen: &Seen, kinds: &[(&str, usize)]) {
    for (kind, least) in kinds {
        let count = seen.get(*kind).copied().unwrap_or_default();
        assert!(count >= *least, "{kind}: {count} in {seen:?}");
    }
}

/// In the rectangles about the boxes just what was not read is white; what the search finds nothing in is white.
fn spares_the_boxes(before: &Picture, found: &Found, after: &Picture, done: &Redacted) {
    for (x, y) in before.pixels().filter(|&(x, y)| found.in_a_box(x, y)) {
        let read = crops::pixel(&found.marks, before.width, x, y);
        let left = before.is_black(x, y) && read;
        assert_eq!(after.is_black(x, y), left, "{x} {y}");
    }
    if found.report.answer == 8 {
        assert_eq!((done.black_after, done.searches <= 2), (0, true));
    }
    if matches!(found.report.answer, 1..=6) {
        assert_eq!((&after.words, done.searches), (&before.words, 1));
    }
}

#[test]
fn the_same_result_with_less_black() {
    let seen = each(2000, Extent::Outside, false, spares_the_boxes);
    expect(
        &seen,
        &[
            ("answer 0", 500),
            ("answer 6", 5),
            ("answer 7", 20),
            ("answer 8", 100),
            ("answer 9", 50),
        ],
    );
    expect(
        &seen,
        &[("outcome 0", 100), ("outcome 1", 100), ("outcome 2", 50)],
    );
    expect(&seen, &[("several eyes", 50), ("set aside", 50)]);
}

#[test]
fn the_same_result_with_the_ellipse_check() {
    let seen = each(120, Extent::Outside, true, spares_the_boxes);
    expect(&seen, &[("outcome 0", 5), ("outcome 1", 5)]);
}

/// Of an ellipse the square about its circle is spared; redacted further, it is still one.
#[test]
fn an_ellipse_stays_one() {
    let path = concat!(env!("CARGO_MANIFEST_DIR"), "/../examples/ellipse.crop");
    let eye = Picture {
        ellipse: true,
        ..Picture::of_file(&fs::read(path).expect("the example"))
    };
    let found = eye.search();
    assert_eq!(found.records[OUTCOME], Outcome::Ellipse.number());
    let (spared, done) = eye.redacted(Extent::Outside);
    spares_the_boxes(&eye, &found, &spared, &done);
    let (least, done) = eye.redacted(Extent::Least);
    is_least(&eye, &found, &least, &done);
    assert!(done.black_after < black(&spared.words));
}

/// The bound ends the tries in a crowded crop, and the result is the same all the same.
#[test]
fn the_bound_ends_the_tries() {
    let mut crowded = Picture::white(96, 96);
    for (x, y) in crowded.pixels() {
        let ring = (x % 12).abs_diff(6).max((y % 12).abs_diff(6));
        if ring % 2 == 1 && ring < 6 {
            crops::set_pixel(&mut crowded.words, 96, x, y);
        }
    }
    let (_, done) = crowded.redacted(Extent::Least);
    assert_eq!((done.searches, done.least), (most_searches(96, 96), false));
    assert!(done.black_after < done.black_before / 2);
}

#[test]
fn a_refused_image_stays() {
    let mut short = Picture::white(40, 40);
    short.words = vec![1; 39];
    let (after, done) = short.redacted(Extent::Least);
    assert_eq!((done.report.answer, done.searches), (4, 1));
    assert_eq!(after.words, short.words);
}

/// The search does without no black pixel that is left.
fn is_least(_: &Picture, found: &Found, after: &Picture, done: &Redacted) {
    if found.report.answer == 6 || !done.least {
        return;
    }
    for (x, y) in after.pixels().filter(|&(x, y)| after.is_black(x, y)) {
        assert!(!after.does_without(x, y), "{x} {y}");
    }
}

#[test]
fn the_least_black() {
    let seen = each(120, Extent::Least, false, is_least);
    expect(
        &seen,
        &[
            ("answer 0", 50),
            ("answer 7", 1),
            ("answer 8", 5),
            ("answer 9", 3),
            ("outcome 2", 1),
        ],
    );
    expect(&seen, &[("several eyes", 3), ("set aside", 3)]);
}
