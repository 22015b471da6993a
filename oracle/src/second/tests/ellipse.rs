//! The ellipse check: the edges of its two tests, and the record of an ellipse.

use super::canvas::Canvas;
use crate::second::ellipse::{EllipseVerdict, EllipseWidths, passes};
use crate::second::image::{BLACK, pixel};
use crate::second::search::WORDS_PER_RECORD;
use crate::second::sines::Point;

fn verdict(longest: u32, shortest: u32, good: u32) -> EllipseVerdict {
    let widths = EllipseWidths {
        longest,
        shortest,
        good,
    };
    widths.verdict()
}

#[test]
fn halves_are_whole() {
    for (longest, shortest) in [(7, 7), (7, 6), (1, 0), (2001, 2000)] {
        let said = verdict(longest, shortest, 144);
        assert_eq!(said, EllipseVerdict::EqualHalves);
    }
    for (longest, shortest) in [(8, 7), (7, 5), (2, 1), (2000, 0)] {
        assert_eq!(verdict(longest, shortest, 144), EllipseVerdict::Ellipse);
    }
}

#[test]
fn four_fifths_are_116_of_144() {
    assert_eq!(verdict(20, 10, 115), EllipseVerdict::TooFewPoints);
    assert_eq!(verdict(20, 10, 116), EllipseVerdict::Ellipse);
    assert_eq!(verdict(20, 10, 0), EllipseVerdict::TooFewPoints);
}

#[test]
fn the_longest_half_lies_along_the_row() {
    let center = pixel(50, 60);
    let end = |x, y| passes(center, Point { x, y }, 10, 4);
    assert!(end(60.0, 60.0) && end(40.0, 60.0) && end(50.0, 64.0) && end(50.0, 56.0));
    assert!(!end(60.5, 60.0) && !end(50.0, 65.0) && !end(57.0, 63.0));
    assert!(end(56.0, 63.0));
}

#[test]
fn no_number_passes_and_infinity_does_not() {
    let center = pixel(50, 60);
    let end = |x, y, longest| passes(center, Point { x, y }, longest, 0);
    assert!(end(50.0, 60.0, 10) && end(80.0, 60.0, 10) && end(50.0, 60.0, 0));
    assert!(!end(50.0, 61.0, 10) && !end(50.0, 59.5, 10));
}

/// The edge of a white diamond three times as wide as high about a pixel, with rings of one pixel in its row and its column.
fn diamond() -> Canvas {
    let mut canvas = Canvas::white(241, 81);
    for (x, y) in (0..81_u32).flat_map(|y| (0..241_u32).map(move |x| (x, y))) {
        let (dx, dy) = (x.abs_diff(120), y.abs_diff(40));
        let edge = dx > 0 && dy > 0 && (90..94).contains(&(dx + 3 * dy));
        let ring = matches!((dx, dy), (90 | 92 | 94, 0) | (0, 30 | 32 | 34));
        if edge || ring {
            canvas.paint(x, y, BLACK);
        }
    }
    canvas
}

#[test]
fn an_ellipse_has_no_box_and_its_centre_as_found() {
    let mut canvas = diamond();
    let [mut off, mut on] = [(); 2].map(|()| vec![5; WORDS_PER_RECORD]);
    let plain = canvas.search_with(&mut off, false);
    let checked = canvas.search_with(&mut on, true);
    assert_eq!((plain.answer, plain.found, plain.kept), (0, 1, 1));
    assert_eq!((checked.answer, checked.found, checked.kept), (0, 1, 1));
    assert_eq!(on[..26], off[..26]);
    assert!(off[26] != 3);
    assert_eq!(on[26], 3);
    assert_eq!(on[27..31], [0, 0, on[0], on[1]]);
    assert_eq!(on[31..39], [0; 8]);
    assert_eq!(on[39], 4);
}
