//! The entries: refusals, buffers, capacity, cells, and that the log changes no result.

use super::steps::{Image, Prepared, enclosing_rectangle};
use super::{cells_file, cells_words, check, plain, search_file, search_words};
use crate::{RECORD_WORDS, Report};

/// Noise of the given density in 1/256.
fn noise(width: u32, height: u32, density: u64, seed: u64) -> Vec<u64> {
    let mut words = vec![0; crops::image_words(width, height)];
    let mut state = seed;
    for (x, y) in (0..height).flat_map(|y| (0..width).map(move |x| (x, y))) {
        state = state
            .wrapping_mul(6364136223846793005)
            .wrapping_add(1442695040888963407);
        if state >> 56 < density {
            crops::set_pixel(&mut words, width, x, y);
        }
    }
    words
}

/// So many single-pixel crosses side by side in a row of their own.
fn crosses(count: u32) -> (Vec<u64>, u32, u32) {
    let (width, height) = (33 + 16 * count, 40);
    let mut words = vec![0; crops::image_words(width, height)];
    for x in (0..count).map(|place| 20 + 16 * place) {
        for distance in [1, 3, 5] {
            crops::set_pixel(&mut words, width, x - distance, 20);
            crops::set_pixel(&mut words, width, x + distance, 20);
            crops::set_pixel(&mut words, width, x, 20 - distance);
            crops::set_pixel(&mut words, width, x, 20 + distance);
        }
    }
    (words, width, height)
}

/// A report's refusal.
fn refused(answer: u32) -> Report {
    Report {
        answer,
        ..Report::default()
    }
}

#[test]
fn refusals_change_no_buffer() {
    let words = noise(65, 40, 100, 1);
    let file = crops::pack(&words, 65, 40);
    let cases = [
        (&file[..3], 80, 40, 80, 1),
        (&file[..9], 80, 40, 80, 4),
        (&file[..], 79, 40, 80, 6),
        (&file[..], 80, 39, 80, 6),
        (&file[..], 80, 40, 81, 6),
        (&file[..], 80, 0, 80, 6),
    ];
    for (file, to, room, marked, answer) in cases {
        let (mut unpacked, mut records, mut marks) = (vec![7; to], vec![7; room], vec![7; marked]);
        for ellipse in [false, true] {
            let report = search_file(file, &mut unpacked, &mut records, &mut marks, ellipse);
            assert_eq!(report, refused(answer));
            assert!(unpacked.iter().chain(&marks).all(|word| *word == 7));
            assert!(records.iter().all(|word| *word == 7));
        }
    }
    assert_eq!(check(&file), 0);
}

#[test]
fn refusals_of_words() {
    let words = noise(65, 40, 100, 2);
    let report = |words: &[u64], width, height, room, marked| {
        let [off, on] = [false, true].map(|ellipse| {
            let (mut records, mut marks) = (vec![0; room], vec![0; marked]);
            search_words(words, width, height, &mut records, &mut marks, ellipse)
        });
        assert_eq!(on, off);
        off
    };
    assert_eq!(report(&[], 0, 0, 0, 0), refused(2));
    assert_eq!(report(&words, u32::MAX, u32::MAX, 0, 0), refused(2));
    assert_eq!(report(&words, 2048, 251, 0, 0), refused(3));
    assert_eq!(report(&words, 65, 41, 0, 0), refused(4));
    assert_eq!(report(&[u64::MAX; 80], 65, 40, 0, 0), refused(5));
    assert_eq!(report(&words, 65, 40, 39, 80), refused(6));
    assert_eq!(report(&words, 65, 40, 40, 81), refused(6));
}

#[test]
fn words_beyond_the_capacity_stay() {
    let (words, width, height) = crosses(1);
    let mut records = vec![9; 3 * RECORD_WORDS + 5];
    let mut marks = vec![9; words.len()];
    let report = search_words(&words, width, height, &mut records, &mut marks, false);
    assert_eq!((report.answer, report.found, report.kept), (0, 1, 1));
    assert_eq!(records[..3], [20, 20, 6]);
    assert!(
        records[RECORD_WORDS..3 * RECORD_WORDS]
            .iter()
            .all(|word| *word == 0)
    );
    assert!(records[3 * RECORD_WORDS..].iter().all(|word| *word == 9));
    let ones: u32 = marks.iter().map(|word| word.count_ones()).sum();
    assert_eq!(report.marked, ones);
}

#[test]
fn one_candidate_above_the_capacity() {
    let (words, width, height) = crosses(4);
    let search = |room| {
        let (mut records, mut marks) = (vec![9; room * RECORD_WORDS], vec![0; words.len()]);
        (
            search_words(&words, width, height, &mut records, &mut marks, false),
            records,
        )
    };
    let (full, _) = search(4);
    assert_eq!((full.answer, full.found), (0, 4));
    for room in 1..4 {
        let (report, records) = search(room);
        assert_eq!((report.answer, report.kept), (7, 0));
        assert_eq!(report.found as usize, room + 1);
        assert!(report.marked < full.marked);
        assert!(records.iter().all(|word| *word == 0));
    }
}

/// Words and file, logged and plain, agree on noise of many kinds, with the ellipse check and without; nothing panics.
#[test]
fn entries_agree_on_noise() {
    for (seed, ellipse) in (0..600).flat_map(|seed| [(seed, false), (seed, true)]) {
        let width = [33, 63, 64, 65, 127, 128, 129][seed as usize % 7];
        let height = 33 + seed as u32 % 40;
        let words = noise(width, height, seed % 257, seed);
        let (mut records, mut marks) = (vec![1; 50 * RECORD_WORDS], vec![1; words.len()]);
        let logged = search_words(&words, width, height, &mut records, &mut marks, ellipse);
        let (mut other, mut clear) = (vec![2; 50 * RECORD_WORDS], vec![2; words.len()]);
        let plain = plain::search_words(&words, width, height, &mut other, &mut clear, ellipse);
        assert_eq!((plain.answer, plain.found), (logged.answer, logged.found));
        assert_eq!((plain.kept, plain.marked), (logged.kept, 0));
        assert_eq!(other, records);
        let file = crops::pack(&words, width, height);
        let (mut unpacked, mut again) = (vec![3; words.len()], vec![3; words.len()]);
        let from_file = search_file(&file, &mut unpacked, &mut other, &mut again, ellipse);
        assert_eq!((from_file, &other), (logged, &records));
        assert_eq!((unpacked, again), (words, marks));
    }
}

#[test]
fn refusals_of_cells_change_no_buffer() {
    let words = noise(65, 40, 100, 1);
    let file = crops::pack(&words, 65, 40);
    let cases = [
        (&file[..3], 80, 33, 1),
        (&file[..9], 80, 33, 4),
        (&file[..], 79, 33, 6),
        (&file[..], 81, 33, 6),
        (&file[..], 80, 32, 6),
        (&file[..], 80, 34, 6),
    ];
    for (file, to, room, answer) in cases {
        let (mut unpacked, mut cells) = (vec![7; to], vec![7; room]);
        assert_eq!(cells_file(file, &mut unpacked, &mut cells), answer);
        assert!(unpacked.iter().all(|word| *word == 7));
        assert!(cells.iter().all(|word| *word == 7));
    }
    let answer = |words: &[u64], width, height, room| {
        let mut cells = vec![7; room];
        let answer = cells_words(words, width, height, &mut cells);
        assert!(cells.iter().all(|word| *word == 7));
        answer
    };
    assert_eq!(answer(&words, u32::MAX, u32::MAX, 0), 2);
    assert_eq!(answer(&words, 2048, 251, 33), 3);
    assert_eq!(answer(&words, 65, 41, 33), 4);
    assert_eq!(answer(&[u64::MAX; 80], 65, 40, 0), 5);
    for room in [0, 32, 34, 40] {
        assert_eq!(answer(&words, 65, 40, room), 6);
        assert_eq!(answer(&[0; 80], 65, 40, room), 6);
    }
    assert_eq!(answer(&[0; 80], 65, 40, 33), crops::BLANK);
}

/// A blank file is unpacked, and its cells stay.
#[test]
fn a_blank_file_is_unpacked() {
    let (mut words, mut cells) = (vec![7; 80], [7; 33]);
    let file = crops::pack(&[0; 80], 65, 40);
    assert_eq!(cells_file(&file, &mut words, &mut cells), crops::BLANK);
    assert_eq!((words, cells), (vec![0; 80], [7; 33]));
}

/// Words, file and prepared image, logged and plain, have the same cells on noise of many kinds.
#[test]
fn cells_agree_on_noise() {
    for seed in 0..600 {
        let width = [33, 63, 64, 65, 127, 128, 129][seed as usize % 7];
        let height = 33 + seed as u32 % 40;
        let words = noise(width, height, seed % 257, seed);
        let mut all = [[1; 33], [2; 33], [3; 33], [4; 33]];
        let [logged, plain, from_file, prepared] = &mut all;
        let answer = cells_words(&words, width, height, logged);
        assert_eq!(plain::cells_words(&words, width, height, plain), answer);
        let mut unpacked = vec![3; words.len()];
        let file = crops::pack(&words, width, height);
        assert_eq!(cells_file(&file, &mut unpacked, from_file), answer);
        assert_eq!(unpacked, words);
        let image = Image {
            words: &words,
            width,
            height,
        };
        assert_eq!(Prepared::new(image).cells(prepared), answer);
        assert_eq!(enclosing_rectangle(image).is_none(), answer == crops::BLANK);
        if answer == 0 {
            assert!(all.iter().all(|cells| *cells == all[0]));
            assert!(all[0].iter().all(|word| word >> crops::CELL_COLUMNS == 0));
        }
    }
}
