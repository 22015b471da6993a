//! `cells_file` and `cells_words` against the judge, or the second reading where there is none, on generated crops, damaged files and
//! buffers that do not fit.
use bullseye::{cells_file, cells_words};
use crops::CELL_ROWS;
use oracle::{
    cases::{JUDGE, SECOND},
    generate,
};

/// Each word of a lent buffer before the call.
const LENT: (u64, u32) = (0xa5a5_a5a5_a5a5_a5a5, 0xa5a5_a5a5);

/// Answer, words and cells after a call with buffers of these lengths.
type Seen = (u32, Vec<u64>, Vec<u32>);

fn seen(words: usize, cells: usize, call: impl Fn(&mut [u64], &mut [u32]) -> u32) -> Seen {
    let (mut words, mut cells) = (vec![LENT.0; words], vec![LENT.1; cells]);
    (call(&mut words, &mut cells), words, cells)
}

/// Compares both entries on one file, and counts the answers.
fn compare(file: &[u8], (words, cells): (usize, usize), answers: &mut [usize; 11]) {
    let judge = JUDGE.unwrap_or(SECOND);
    let ours = seen(words, cells, |words, cells| cells_file(file, words, cells));
    let theirs = seen(words, cells, |words, cells| {
        (judge.cells_file)(file, words, cells)
    });
    assert_eq!(
        ours,
        theirs,
        "{} bytes, {words} words, {cells} cells",
        file.len()
    );
    let (answer, unpacked, read) = &ours;
    answers[*answer as usize] += 1;
    if (1..=6).contains(answer) {
        assert!(unpacked.iter().all(|&word| word == LENT.0));
    }
    match answer {
        0 => assert!(read.iter().all(|row| row >> crops::CELL_COLUMNS == 0)),
        _ => assert!(read.iter().all(|&row| row == LENT.1)),
    }
    let (width, height) = crops::dimensions(file).unwrap_or((40, 40));
    let ours = seen(0, cells, |_, cells| {
        cells_words(unpacked, width, height, cells)
    });
    let theirs = seen(0, cells, |_, cells| {
        (judge.cells_words)(unpacked, width, height, cells)
    });
    assert_eq!(ours, theirs);
}

/// An image that is all white, and with one to four black pixels.
fn compare_nearly_white(width: u32, height: u32, answers: &mut [usize; 11]) {
    let mut image = vec![0; crops::image_words(width, height)];
    let lent = (image.len(), CELL_ROWS);
    compare(&crops::pack(&image, width, height), lent, answers);
    for (x, y) in [(0, 0), (width - 1, height - 1), (5, 20), (width - 1, 0)] {
        crops::set_pixel(&mut image, width, x, y);
        compare(&crops::pack(&image, width, height), lent, answers);
    }
}

#[test]
fn the_judges_cells() {
    let mut answers = [0; 11];
    for seed in 0..400 {
        let crop = generate::crop(seed).file();
        let words = crops::words_of(&crop);
        compare(&crop, (words, CELL_ROWS), &mut answers);
        let unfit = [
            (words + 1, CELL_ROWS),
            (words, 32),
            (words, 34),
            (words, 0),
            (words - 1, 40),
        ];
        compare(&crop, unfit[seed as usize % unfit.len()], &mut answers);
        let damaged = generate::bad_file(seed);
        let words = crops::words_of(&damaged);
        compare(&damaged, (words, CELL_ROWS), &mut answers);
    }
    for (width, height) in [(33, 33), (64, 40), (65, 100), (200, 33)] {
        compare_nearly_white(width, height, &mut answers);
    }
    for answer in [0, 1, 2, 3, 4, 5, 6, 10] {
        assert!(answers[answer] > 0, "no crop has {answer}: {answers:?}");
    }
    assert_eq!(answers[7..10], [0; 3]);
}
