//! The entries: refusals, lengths and reports.

use super::canvas::{Canvas, header_bytes};
use crate::Report;
use crate::second::file::{HEADER_BYTES, check};
use crate::second::image::pixel;
use crate::second::search::{
    WORDS_PER_RECORD, capacity_of, count_marks, refused, search_file, search_words,
};

#[test]
fn sample_line() {
    let mut file = vec![0x10, 0x21, 0x02, 0x10];
    file.extend([0; 165]);
    let mut words = vec![7; 33];
    let mut marks = vec![9; 33];
    let mut records = vec![5; 400 * WORDS_PER_RECORD];
    let report = search_file(&file, &mut words, &mut records, &mut marks, false);
    let expected = Report {
        answer: 8,
        found: 0,
        kept: 0,
        marked: 242,
    };
    assert_eq!(report, expected);
    assert_eq!(check(&file), 0);
    assert!(words.iter().all(|&word| word == 0));
    assert!(records.iter().all(|&word| word == 0));
}

#[test]
fn file_refusals_in_order() {
    let white = Canvas::white(33, 33).file();
    assert_eq!(check(&white), 0);
    assert_eq!(check(&[]), 1);
    assert_eq!(check(&white[..3]), 1);
    assert_eq!(check(&header_bytes(2, 0, 0, 0)), 1);
    assert_eq!(check(&header_bytes(1, 33, 33, 1)), 1);
    assert_eq!(check(&header_bytes(1, 32, 33, 0)), 2);
    assert_eq!(check(&header_bytes(1, 33, 32, 0)), 2);
    assert_eq!(check(&header_bytes(1, 2049, 33, 0)), 2);
    assert_eq!(check(&header_bytes(1, 33, 2049, 0)), 2);
    assert_eq!(check(&header_bytes(1, 2048, 251, 0)), 3);
    assert_eq!(check(&header_bytes(1, 2048, 250, 0)), 4);
    assert_eq!(check(&white[..white.len() - 1]), 4);
    assert_eq!(check(&[&white[..], &[0]].concat()), 4);
    let mut padded = white.clone();
    padded[HEADER_BYTES + 4] = 0x80;
    assert_eq!(check(&padded), 0);
    padded[HEADER_BYTES + 4] = 0x40;
    assert_eq!(check(&padded), 5);
    padded[HEADER_BYTES + 4] = 0x01;
    assert_eq!(check(&padded), 5);
}

#[test]
fn refused_files_leave_buffers() {
    let file = Canvas::white(33, 33).file();
    for (words, marks, records) in [(32, 33, 40), (34, 33, 40), (33, 32, 40), (33, 33, 39)] {
        let mut words = vec![7; words];
        let mut marks = vec![9; marks];
        let mut records = vec![5; records];
        for ellipse in [false, true] {
            let report = search_file(&file, &mut words, &mut records, &mut marks, ellipse);
            assert_eq!(report, refused(6));
            assert!(words.iter().all(|&word| word == 7));
            assert!(marks.iter().all(|&word| word == 9));
            assert!(records.iter().all(|&word| word == 5));
        }
    }
}

#[test]
fn word_refusals_in_order() {
    let mut words = vec![0; 33];
    let mut marks = vec![9; 33];
    let mut records = vec![5; 40];
    let sides = [
        (0, 33, 2),
        (32, 33, 2),
        (u32::MAX, u32::MAX, 2),
        (33, 2049, 2),
        (2048, 2048, 3),
        (65, 33, 4),
        (33, 34, 4),
    ];
    for (width, height, answer) in sides {
        let report = search_words(&words, width, height, &mut records, &mut marks, true);
        assert_eq!(report, refused(answer));
    }
    words[32] = 1 << 33;
    let report = search_words(&words, 33, 33, &mut records, &mut marks[..5], false);
    assert_eq!(report, refused(5));
    words[32] = 1 << 32;
    let report = search_words(&words, 33, 33, &mut records, &mut marks[..5], false);
    assert_eq!(report, refused(6));
    let report = search_words(&words, 33, 33, &mut records[..39], &mut marks, false);
    assert_eq!(report, refused(6));
    assert!(marks.iter().all(|&word| word == 9));
    assert!(records.iter().all(|&word| word == 5));
}

#[test]
fn capacity_is_bounded() {
    assert_eq!(capacity_of(40), 1);
    assert_eq!(capacity_of(79), 1);
    assert_eq!(capacity_of(80), 2);
    assert_eq!(capacity_of(1024 * 40), 1024);
    assert_eq!(capacity_of(2000 * 40), 1024);
}

#[test]
fn one_more_than_the_capacity_is_seven() {
    let mut canvas = Canvas::white(120, 120);
    canvas.paint_rings(pixel(60, 60), 4.0);
    let mut wide = vec![5; 50 * WORDS_PER_RECORD];
    let whole = canvas.search(&mut wide);
    assert_eq!(whole.answer, 0);
    assert!(whole.found > 1);

    let enough = whole.found as usize;
    let mut exact = vec![5; enough * WORDS_PER_RECORD + 3];
    assert_eq!(canvas.search(&mut exact), whole);
    assert_eq!(exact[enough * WORDS_PER_RECORD..], [5; 3]);
    assert_eq!(
        exact[..enough * WORDS_PER_RECORD],
        wide[..enough * WORDS_PER_RECORD]
    );

    let mut short = vec![5; enough * WORDS_PER_RECORD - 1];
    let report = canvas.search(&mut short);
    assert_eq!(report.answer, 7);
    assert_eq!(report.found, whole.found);
    assert_eq!(report.kept, 0);
    assert_eq!(report.marked, count_marks(&canvas.marks));
    assert!(report.marked < whole.marked);
    let capacity = enough - 1;
    assert!(short[..capacity * WORDS_PER_RECORD].iter().all(|&w| w == 0));
    assert_eq!(short[capacity * WORDS_PER_RECORD..], [5; 39]);
}

#[test]
fn file_and_words_agree_on_rings() {
    let mut canvas = Canvas::white(121, 119);
    canvas.paint_rings(pixel(58, 61), 4.0);
    let mut records = vec![5; 50 * WORDS_PER_RECORD];
    let report = canvas.search(&mut records);
    let mut words = vec![7; canvas.words.len()];
    let mut marks = vec![9; canvas.words.len()];
    let mut file_records = vec![3; 50 * WORDS_PER_RECORD];
    let file_report = search_file(
        &canvas.file(),
        &mut words,
        &mut file_records,
        &mut marks,
        false,
    );
    assert_eq!(file_report, report);
    assert_eq!(words, canvas.words);
    assert_eq!(marks, canvas.marks);
    assert_eq!(file_records, records);
}

#[test]
fn random_images_never_panic() {
    let mut state = 0x9E37_79B9_7F4A_7C15u64;
    for round in 0..300u32 {
        let width = 33 + round * 7 % 100;
        let height = 33 + round * 13 % 90;
        let mut canvas = Canvas::white(width, height);
        let module = 1.0 + f64::from(round % 8) / 2.0;
        canvas.paint_rings(pixel(round % width, round * 3 % height), module);
        canvas.paint_rings(pixel(width / 2, height / 2), module);
        for _ in 0..round % 40 {
            state ^= state << 13;
            state ^= state >> 7;
            state ^= state << 17;
            let x = (state >> 8) as u32 % width;
            let y = (state >> 40) as u32 % height;
            canvas.paint(x, y, state & 1 == 1);
        }
        let mut records = vec![5; 60 * WORDS_PER_RECORD];
        let report = canvas.search(&mut records);
        assert_eq!(report.marked, count_marks(&canvas.marks));
        assert!(report.kept <= report.found);
    }
}
