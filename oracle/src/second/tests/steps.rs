//! The steps one by one.

use super::canvas::{Canvas, candidate_at};
use crate::second::boundary::{Boundary, SymbolSize, boundary_of, plain_size};
use crate::second::center::circle_center;
use crate::second::image::{BLACK, WHITE, pixel};
use crate::second::kept::{circle_variance, keep_within_deviation};
use crate::second::record::class_of;
use crate::second::search::count_marks;
use crate::second::sines::{Point, cosine, sine};
use crate::second::sweep::{Window, next_window};
use crate::second::turn::{Outcome, adjust_point};
use crate::second::widths::{EVEN_RUNS, widths_pass};

#[test]
fn runs_all_one_pass() {
    assert!(widths_pass(&[1; 11]));
}

#[test]
fn one_even_run_of_one_among_twos_fails() {
    for index in EVEN_RUNS {
        let mut runs = [2; 11];
        runs[index] = 1;
        assert!(!widths_pass(&runs));
    }
    assert!(widths_pass(&[2; 11]));
}

#[test]
fn odd_three_two_two_two_fails() {
    let mut runs = [2; 11];
    runs[1] = 3;
    assert!(!widths_pass(&runs));
    runs[1] = 2;
    runs[5] = 900;
    assert!(widths_pass(&runs));
}

#[test]
fn width_33_from_column_15_closes_and_from_16_does_not() {
    let mut canvas = Canvas::white(33, 33);
    for column in (15..=25).step_by(2) {
        canvas.paint(column, 6, BLACK);
    }
    let window = next_window(&mut canvas.image(), 6, 6);
    let expected = Window {
        center: 20,
        radius: 6,
        runs: [1; 11],
    };
    assert_eq!(window, Some(expected));

    let mut canvas = Canvas::white(33, 33);
    for column in (16..=26).step_by(2) {
        canvas.paint(column, 6, BLACK);
    }
    assert_eq!(next_window(&mut canvas.image(), 6, 6), None);
}

#[test]
fn area_at_the_corner() {
    let mut canvas = Canvas::white(33, 33);
    canvas.paint(1, 1, BLACK);
    assert_eq!(canvas.image().try_get_area(0, 0), Some(WHITE));
    canvas.paint(0, 1, BLACK);
    assert_eq!(canvas.image().try_get_area(0, 0), Some(BLACK));
    assert_eq!(count_marks(&canvas.marks), 4);
}

#[test]
fn area_of_nine() {
    let mut canvas = Canvas::white(33, 33);
    for x in 9..=11 {
        canvas.paint(x, 10, BLACK);
    }
    canvas.paint(10, 9, BLACK);
    assert_eq!(canvas.image().try_get_area(10, 10), Some(WHITE));
    canvas.paint(10, 11, BLACK);
    assert_eq!(canvas.image().try_get_area(10, 10), Some(BLACK));
}

#[test]
fn area_over_the_edge_reads_up_to_the_first_none() {
    let mut canvas = Canvas::white(33, 33);
    assert_eq!(canvas.image().try_get_area(32, 10), None);
    assert_eq!(count_marks(&canvas.marks), 6);
    canvas.marks.fill(0);
    assert_eq!(canvas.image().try_get_area(10, 32), None);
    assert_eq!(count_marks(&canvas.marks), 2);
    canvas.marks.fill(0);
    assert_eq!(canvas.image().try_get_area(u32::MAX, u32::MAX), None);
    assert_eq!(count_marks(&canvas.marks), 0);
}

#[test]
fn get_reads_padding_and_the_next_row() {
    let mut canvas = Canvas::white(33, 33);
    canvas.paint(5, 11, BLACK);
    assert_eq!(canvas.image().get(40, 10), WHITE);
    assert_eq!(canvas.marks[10], 1 << 40);
    assert_eq!(canvas.image().get(64 + 5, 10), BLACK);
    assert_eq!(canvas.marks[11], 1 << 5);
    assert_eq!(canvas.image().get(64, 32), WHITE);
    assert_eq!(canvas.image().get(u32::MAX, u32::MAX), WHITE);
    assert_eq!(count_marks(&canvas.marks), 2);
}

#[test]
fn all_runs_ten_have_variance_ten() {
    let mut candidate = candidate_at(0, 0);
    candidate.row_runs = [10; 11];
    candidate.column_runs = [10; 11];
    assert_eq!(circle_variance(&candidate).to_bits(), 10.0f32.to_bits());
}

#[test]
fn only_the_middle_center_is_kept() {
    let candidates = [
        candidate_at(50, 20),
        candidate_at(50, 22),
        candidate_at(50, 24),
    ];
    let kept = keep_within_deviation(&candidates);
    assert_eq!(kept, [candidate_at(50, 22)]);
}

#[test]
fn four_centers_about_an_empty_middle_are_set_aside() {
    let around = [(12, 24), (36, 24), (24, 12), (24, 36)].map(|(x, y)| candidate_at(x, y));
    assert_eq!(keep_within_deviation(&around), []);
}

/// Of one candidate or two, all cannot be set aside: of any two columns the left one is near, of two rows an even number apart, as
/// the sweep's are, both are, and a candidate is near by its column and its row apart.
#[test]
fn of_one_or_two_at_least_one_is_kept() {
    for a in 0..2048 {
        assert_eq!(keep_within_deviation(&[candidate_at(a, a)]).len(), 1);
        for b in a..2048 {
            let columns = [candidate_at(a, 6), candidate_at(b, 6)];
            assert!(keep_within_deviation(&columns).contains(&columns[0]));
        }
        for b in (a % 2..a).step_by(2) {
            let rows = [candidate_at(11, a), candidate_at(11, b)];
            assert_eq!(keep_within_deviation(&rows).len(), 2);
        }
    }
}

#[test]
fn radius_six_size_and_boundary() {
    let size = plain_size(6);
    let expected_size = SymbolSize {
        width: 42,
        height: 42,
    };
    assert_eq!(size, expected_size);
    let expected = Boundary {
        left: 41,
        right: 82,
        top: 81,
        bottom: 39,
    };
    assert_eq!(boundary_of(pixel(60, 60), &size, 120, 120), expected);
}

#[test]
fn point_10_9_is_capped_after_adding_bottom() {
    let mut boundary = Boundary {
        left: 0,
        right: 60,
        top: 66,
        bottom: 0,
    };
    assert_eq!(adjust_point(pixel(10, 9), &boundary), pixel(22, 19));
    boundary.top = 116;
    boundary.bottom = 50;
    assert_eq!(adjust_point(pixel(10, 9), &boundary), pixel(22, 65));
}

#[test]
fn classes_of_turns() {
    for (degree, class) in [(0, 0), (44, 0), (46, 1), (180, 2), (270, 3), (348, 0)] {
        assert_eq!(class_of(Outcome::Turned(degree)), class);
    }
}

#[test]
fn class_without_a_turn() {
    for outcome in [Outcome::NoTurn, Outcome::LostCenter, Outcome::Ellipse] {
        assert_eq!(class_of(outcome), 4);
    }
}

#[test]
fn sines_are_nearest_and_keep_the_rules() {
    for degree in 0..360 {
        let value = f64::from(sine(degree));
        let exact = f64::from(degree).to_radians().sin();
        let step = f64::from(f32::from_bits(sine(degree).to_bits() + 1)) - value;
        assert!((exact - value).abs() <= step.abs() * 0.49995 || value == 0.0);
        assert_eq!(sine((degree + 180) % 360), 0.0 - sine(degree));
        let whole = value * f64::from(1u32 << 29);
        assert_eq!(whole, whole.trunc());
    }
    assert_eq!(sine(0).to_bits(), 0);
    assert_eq!(sine(180).to_bits(), 0);
    assert_eq!(cosine(90).to_bits(), 0);
    assert_eq!(cosine(270).to_bits(), 0);
    assert_eq!(sine(30), 0.5);
    assert_eq!(sine(330), -0.5);
    assert_eq!(sine(270), -1.0);
}

#[test]
fn centers_of_flat_triples_cast_as_said() {
    let same = Point { x: 3.0, y: 4.0 };
    let center = circle_center(same, same, same);
    assert!(center.x.is_nan());
    assert_eq!(center.x.round() as u32, 0);
}
