//! Cells: the answers, the rectangle, and where a cell is read.

use super::canvas::{Canvas, header_bytes};
use crate::second::cells::{Rectangle, cells_file, cells_words, enclosing_rectangle};
use crate::second::image::BLACK;

/// All thirty cells of a row.
const ALL: u32 = (1 << 30) - 1;

/// What a cell word holds before a call.
const BEFORE: u32 = 0x5a5a_5a5a;

/// An image of these sides whose black pixels are those where `black` holds.
fn painted(width: u32, height: u32, black: impl Fn(u32, u32) -> bool) -> Canvas {
    let mut canvas = Canvas::white(width, height);
    for (x, y) in (0..height).flat_map(|y| (0..width).map(move |x| (x, y))) {
        if black(x, y) {
            canvas.paint(x, y, BLACK);
        }
    }
    canvas
}

/// Answer and cells, the same from words and from the file.
fn read(canvas: &Canvas) -> (u32, [u32; 33]) {
    let (mut cells, mut again) = ([BEFORE; 33], [!BEFORE; 33]);
    let answer = cells_words(&canvas.words, canvas.width, canvas.height, &mut cells);
    let mut words = vec![7; canvas.words.len()];
    assert_eq!(cells_file(&canvas.file(), &mut words, &mut again), answer);
    assert_eq!(words, canvas.words);
    if answer == 0 {
        assert_eq!(again, cells);
    }
    (answer, cells)
}

/// The enclosing rectangle of an image: left, top, width, height.
fn rectangle_of(canvas: &Canvas) -> Option<[u32; 4]> {
    let found = enclosing_rectangle(&canvas.words, canvas.width, canvas.height);
    found.map(
        |Rectangle {
             left,
             top,
             width,
             height,
         }| [left, top, width, height],
    )
}

#[test]
fn one_black_pixel_is_seen_in_row_0_alone() {
    for (x, y) in [(0, 0), (20, 0), (63, 0), (64, 0), (65, 0)] {
        let canvas = painted(66, 40, |column, row| (column, row) == (x, y));
        assert_eq!(rectangle_of(&canvas), Some([x, y, 1, 1]));
        assert_eq!(read(&canvas), (0, [ALL; 33]));
    }
    for (x, y) in [(0, 1), (20, 15), (65, 39)] {
        let canvas = painted(66, 40, |column, row| (column, row) == (x, y));
        assert_eq!(rectangle_of(&canvas), Some([x, y, 1, 1]));
        assert_eq!(read(&canvas), (0, [0; 33]));
    }
}

#[test]
fn one_black_row_at_row_40_is_read_in_row_0() {
    let canvas = painted(50, 50, |_, y| y == 40);
    assert_eq!(rectangle_of(&canvas), Some([0, 40, 50, 1]));
    assert_eq!(read(&canvas), (0, [0; 33]));
    assert_eq!(read(&painted(50, 50, |_, y| y == 0)), (0, [ALL; 33]));
}

#[test]
fn all_black_has_all_cells() {
    for (width, height) in [
        (33, 33),
        (63, 50),
        (64, 33),
        (65, 34),
        (128, 99),
        (2048, 33),
    ] {
        let canvas = painted(width, height, |_, _| true);
        assert_eq!(rectangle_of(&canvas), Some([0, 0, width, height]));
        assert_eq!(read(&canvas), (0, [ALL; 33]));
    }
}

/// Cells of 2 by 1 pixels at the left and the top edge: a cell is the pixel in its middle, half a cell further in odd rows, and
/// the last one of an odd row is held in the rectangle.
#[test]
fn a_rectangle_at_the_left_edge() {
    let black = |x: u32, y: u32| x < 60 && y < 33 && (x == 0 || x == 59 || x == 2 * y % 60);
    let canvas = painted(70, 40, black);
    assert_eq!(rectangle_of(&canvas), Some([0, 0, 60, 33]));
    let (answer, cells) = read(&canvas);
    assert_eq!(answer, 0);
    for (row, word) in (0..33).zip(cells) {
        let at = |column: u32| (2 * column + 1 + row % 2).min(59);
        let expected = (0..30).filter(|column| black(at(*column), row));
        assert_eq!(word, expected.fold(0, |word, column| word | 1 << column));
    }
    assert_eq!(cells[0], 1 << 29);
    assert_eq!(cells[1], 1 << 0 | 1 << 29);
}

/// A rectangle of 66 rows below the top edge: a row of cells is read where it lies until the cap, the rectangle's height less one, and there
/// again and again.
#[test]
fn a_rectangle_below_the_top_edge_is_read_up_to_its_height() {
    let black = |x: u32, y: u32| (10..40).contains(&x) && (20..86).contains(&y) && y % 4 < 2;
    let canvas = painted(50, 90, black);
    assert_eq!(rectangle_of(&canvas), Some([10, 20, 30, 66]));
    let (answer, cells) = read(&canvas);
    assert_eq!(answer, 0);
    for (row, word) in (0..33).zip(cells) {
        let y = (20 + 2 * row + 1).min(65);
        assert_eq!(word, if y % 4 < 2 { ALL } else { 0 }, "row {row}");
    }
}

#[test]
fn a_blank_image_is_10_with_its_words_and_no_cells() {
    let canvas = Canvas::white(65, 33);
    assert_eq!(rectangle_of(&canvas), None);
    assert_eq!(read(&canvas), (10, [BEFORE; 33]));
}

#[test]
fn refusals_come_in_order_and_change_nothing() {
    let canvas = painted(33, 33, |x, _| x == 5);
    let file = canvas.file();
    let mut padded = file.clone();
    padded[8] |= 1;
    let files = [
        (vec![], 33, 33, 1),
        (header_bytes(1, 32, 33, 0), 33, 33, 2),
        (header_bytes(1, 2048, 251, 0), 33, 33, 3),
        (file[..100].to_vec(), 0, 0, 4),
        (padded, 0, 0, 5),
        (file.clone(), 32, 33, 6),
        (file.clone(), 34, 33, 6),
        (file.clone(), 33, 32, 6),
        (file.clone(), 33, 34, 6),
        (Canvas::white(33, 33).file(), 33, 40, 6),
    ];
    for (file, lent, room, answer) in files {
        let (mut words, mut cells) = (vec![7; lent], vec![BEFORE; room]);
        assert_eq!(cells_file(&file, &mut words, &mut cells), answer);
        assert!(words.iter().all(|word| *word == 7));
        assert!(cells.iter().all(|word| *word == BEFORE));
    }
}

#[test]
fn refusals_of_words_come_in_order_and_change_nothing() {
    let right = painted(33, 33, |x, _| x == 5).words;
    let padded = vec![1 << 33; 33];
    let all = [
        (&right, 32, 33, 0, 2),
        (&right, u32::MAX, u32::MAX, 33, 2),
        (&right, 2048, 251, 33, 3),
        (&right, 33, 34, 0, 4),
        (&padded, 33, 33, 0, 5),
        (&right, 33, 33, 0, 6),
        (&right, 33, 33, 32, 6),
        (&right, 33, 33, 34, 6),
        (&vec![0; 33], 33, 33, 34, 6),
    ];
    for (words, width, height, room, answer) in all {
        let mut cells = vec![BEFORE; room];
        assert_eq!(cells_words(words, width, height, &mut cells), answer);
        assert!(cells.iter().all(|word| *word == BEFORE));
    }
}
