//! Turns and lost centres of painted images.

use super::canvas::{Canvas, candidate_at};
use crate::second::boundary::{boundary_of, scaled_size};
use crate::second::center::corrected_center;
use crate::second::image::pixel;
use crate::second::record::class_of;
use crate::second::search::WORDS_PER_RECORD;
use crate::second::sines::{truncate, turn_about};
use crate::second::turn::{ORIENTATION_COLOURS, Outcome, SCALES, adjusted_points, orientation_of};

#[test]
fn painted_turns_are_found() {
    for turn in [0, 44, 46, 90, 180, 348] {
        let middle = pixel(200, 200);
        let mut canvas = Canvas::white(400, 400);
        canvas.paint_rings(middle, 6.0);
        let center = corrected_center(&mut canvas.image(), middle);
        let boundary = boundary_of(center, &scaled_size(36, SCALES[0]), 400, 400);
        let points = adjusted_points(&boundary);
        for group in 0..6 {
            for member in 0..3 {
                let place = truncate(turn_about(center, points[group][member], turn));
                canvas.paint_blob(place, ORIENTATION_COLOURS[group][member]);
            }
        }
        let mut records = vec![5; 50 * WORDS_PER_RECORD];
        let report = canvas.search(&mut records);
        assert_eq!(report.answer, 0);
        let turned = records
            .chunks(WORDS_PER_RECORD)
            .find(|record| record[26] == 1 && record[28] == (turn as f32).to_bits())
            .expect("a record with the painted turn");
        assert_eq!(turned[27], 1);
        assert_eq!(turned[39], class_of(Outcome::Turned(turn)));
    }
}

#[test]
fn a_lost_center_keeps_the_last_one_inside() {
    let mut seen = 0;
    for x in 0..64 {
        for y in 0..64 {
            let mut canvas = Canvas::white(64, 64);
            let candidate = candidate_at(x, y);
            let first = corrected_center(&mut canvas.image(), candidate.center);
            let orientation = orientation_of(&mut canvas.image(), &candidate, false);
            if !canvas.image().holds(first) {
                seen += 1;
                assert_eq!(orientation.outcome, Outcome::LostCenter);
                assert_eq!(orientation.scale, 1);
                assert_eq!(orientation.center, candidate.center);
            }
            assert!(canvas.image().holds(orientation.center));
        }
    }
    assert!(seen > 0);
}
