//! The ellipse check on the source's functions: its lengths, its end points, its reads, and what it changes of a search.
#![cfg(source)]

use crops::places::{CENTER_X, CLASS, CORNERS, LAST_CENTER_X, OUTCOME, SCALE};
use oracle::generate::{self, Crop};
use oracle::harness::{self, steps};
use oracle::second::{EllipseVerdict, ellipse_widths};
use oracle::{MOST_CANDIDATES, RECORD_WORDS, Report};
use steps::Image;

fn image(crop: &Crop) -> Image<'_> {
    Image {
        words: &crop.words,
        width: crop.width,
        height: crop.height,
    }
}

/// Crops that are searched, and crops for the check.
fn crops(seeds: u64) -> impl Iterator<Item = Crop> {
    (0..seeds).flat_map(|seed| [generate::crop(seed), generate::ellipse(seed)])
}

/// Report, kept records and marks of a search with room for all candidates.
fn searched(crop: &Crop, ellipse: bool) -> (Report, Vec<u32>, Vec<u64>) {
    let (words, width, height) = (&crop.words, crop.width, crop.height);
    let mut records = vec![7; RECORD_WORDS * MOST_CANDIDATES];
    let mut marks = vec![7; words.len()];
    let report = harness::search_words(words, width, height, &mut records, &mut marks, ellipse);
    records.truncate(RECORD_WORDS * report.kept as usize);
    (report, records, marks)
}

/// Left and right steps together, at all 72 degrees: far below what a square of 32 bits holds.
#[test]
fn lengths_from_found_centres_are_under_50_000() {
    let mut longest = 0;
    for crop in crops(1_500) {
        for found in steps::sweep(image(&crop), MOST_CANDIDATES).0 {
            let widths = steps::ellipse_widths(image(&crop), found.centre);
            assert!(widths.longest < 50_000, "{}: {widths:?}", crop.family);
            longest = longest.max(widths.longest);
        }
    }
    assert!(longest > 1_900, "{longest}");
}

/// From a centre that no window has, in a white row, the walk at 0 degrees goes on through all later rows.
#[test]
fn a_length_from_another_centre_is_far_longer() {
    let words = vec![0; 8_000];
    let white = Image {
        words: &words,
        width: 2_048,
        height: 250,
    };
    let ((length, _), _) = steps::width_at_degree(white, (11, 6), 0);
    assert!(length > 131_071, "{length}");
}

/// The source's f32 test of four fifths, and the one in whole numbers.
#[test]
fn four_fifths_in_whole_numbers() {
    for good in 0..=144 {
        assert_eq!((good as f32 / 144_f32) < 0.8, 5 * good < 576, "{good}");
    }
}

#[test]
fn sums_of_end_points() {
    let sum = |end, halves| steps::ellipse_sum((50, 60), end, halves);
    assert_eq!(sum((60.0, 60.0), [10, 4]), 1.0);
    assert_eq!(sum((50.0, 64.0), [10, 4]), 1.0);
    assert_eq!(sum((55.0, 62.0), [10, 4]), 0.5);
    assert!(sum((50.0, 60.0), [10, 0]).is_nan());
    assert!(sum((80.0, 60.0), [10, 0]).is_nan());
    assert_eq!(sum((50.0, 61.0), [10, 0]), f64::INFINITY);
}

/// Longest and shortest length, passing end points and outcome of the near pairs.
#[test]
fn near_pairs() {
    let expected = [
        ("points-116", [148, 28, 116, 3]),
        ("points-115", [133, 28, 115, 2]),
        ("points-114", [148, 28, 114, 2]),
        ("halves-equal", [79, 78, 116, 2]),
        ("halves-apart", [80, 78, 122, 3]),
        ("sum-in-f64", [183, 42, 112, 2]),
        ("tall", [39_682, 16, 31, 2]),
    ];
    let near = generate::near_ellipses();
    assert_eq!(near.len(), expected.len());
    for ((name, crop), (named, numbers)) in near.iter().zip(expected) {
        let (report, records, _) = searched(crop, true);
        assert_eq!((*name, report.answer, report.kept), (named, 0, 1));
        let widths = steps::ellipse_widths(image(crop), (records[0], records[1]));
        let seen = [widths.longest, widths.shortest, widths.good];
        assert_eq!(
            (&seen[..], records[OUTCOME]),
            (&numbers[..3], numbers[3]),
            "{name}"
        );
    }
}

/// The source's verdict is the one by the lengths and end points that its functions give, and its reads are those of the 72 walks.
#[test]
fn verdicts_and_reads_are_those_of_the_walks() {
    let mut said = [0; 2];
    for crop in crops(1_000) {
        let (_, records, _) = searched(&crop, false);
        for record in records.chunks_exact(RECORD_WORDS).take(4) {
            let centre = (record[0], record[1]);
            let (ellipse, marks) = steps::detect_ellipse(image(&crop), centre);
            let widths = ellipse_widths(&crop.words, crop.width, crop.height, centre);
            assert_eq!(ellipse, widths.verdict() == EllipseVerdict::Ellipse);
            let mut walks = vec![0; marks.len()];
            for degree in (0..360).step_by(5) {
                let (_, read) = steps::width_at_degree(image(&crop), centre, degree);
                walks
                    .iter_mut()
                    .zip(read)
                    .for_each(|(all, one)| *all |= one);
            }
            assert_eq!(marks, walks);
            said[usize::from(ellipse)] += 1;
        }
    }
    assert!(said.iter().all(|count| *count > 30), "{said:?}");
}

/// With the check, answer and counts are as without it. A record is an ellipse's, with zeros, its centre as found and class 4, or it is the
/// very record without the check, also after an ellipse.
#[test]
fn an_ellipse_changes_its_record_alone() {
    let mut seen = [0; 3];
    for crop in crops(1_500) {
        let (off, plain, _) = searched(&crop, false);
        let (on, checked, _) = searched(&crop, true);
        assert_eq!(
            (on.answer, on.found, on.kept),
            (off.answer, off.found, off.kept)
        );
        let mut before = false;
        let pairs = plain.chunks_exact(RECORD_WORDS);
        for (plain, checked) in pairs.zip(checked.chunks_exact(RECORD_WORDS)) {
            if checked[OUTCOME] == 3 {
                assert_eq!(checked[..OUTCOME], plain[..OUTCOME]);
                assert_eq!(checked[SCALE..LAST_CENTER_X], [0; 2]);
                assert_eq!(
                    checked[LAST_CENTER_X..LAST_CENTER_X + 2],
                    checked[CENTER_X..CENTER_X + 2]
                );
                assert_eq!(checked[CORNERS..CLASS], [0; 8]);
                assert_eq!(checked[CLASS], 4);
                seen[0] += 1;
            } else {
                assert_eq!(checked, plain);
                seen[1 + usize::from(before)] += 1;
            }
            before |= checked[OUTCOME] == 3;
        }
    }
    assert!(seen.iter().all(|count| *count > 5), "{seen:?}");
}
