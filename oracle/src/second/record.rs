//! The class, and the words of a record.

use super::boundary::{boundary_of, plain_box, plain_size};
use super::image::{Image, Pixel};
use super::kept::circle_variance;
use super::search::WORDS_PER_RECORD;
use super::sines::{Point, turn_about};
use super::sweep::Candidate;
use super::turn::{Orientation, Outcome, orientation_of};

/// The outcome's number in the record.
fn outcome_number(outcome: Outcome) -> u32 {
    match outcome {
        Outcome::Turned(_) => 1,
        Outcome::NoTurn => 0,
        Outcome::LostCenter => 2,
        Outcome::Ellipse => 3,
    }
}

/// The rotation in degrees; 0 without a turn.
fn rotation_of(outcome: Outcome) -> u32 {
    match outcome {
        Outcome::Turned(degree) => degree,
        Outcome::NoTurn => 0,
        Outcome::LostCenter => 0,
        Outcome::Ellipse => 0,
    }
}

/// The class by quarter turns; without a turn there is one class for all.
pub(super) fn class_of(outcome: Outcome) -> u32 {
    match outcome {
        Outcome::Turned(degree) => (degree + 45) / 90 % 4,
        Outcome::NoTurn => 4,
        Outcome::LostCenter => 4,
        Outcome::Ellipse => 4,
    }
}

/// A corner of the plain box, turned if there is a turn; an ellipse has none.
fn corner_of(orientation: &Orientation, corner: Pixel) -> Point {
    match orientation.outcome {
        Outcome::Turned(degree) => turn_about(orientation.center, corner, degree),
        Outcome::NoTurn | Outcome::LostCenter => Point {
            x: corner.x as f32,
            y: corner.y as f32,
        },
        Outcome::Ellipse => Point { x: 0.0, y: 0.0 },
    }
}

/// The forty words of a record, with the ellipse check or without.
pub(super) fn record_of(
    image: &mut Image,
    candidate: &Candidate,
    ellipse: bool,
) -> [u32; WORDS_PER_RECORD] {
    let size = plain_size(candidate.radius);
    let boundary = boundary_of(candidate.center, &size, image.width, image.height);
    let orientation = orientation_of(image, candidate, ellipse);
    let rotation = rotation_of(orientation.outcome);
    let mut record = [0; WORDS_PER_RECORD];
    record[0] = candidate.center.x;
    record[1] = candidate.center.y;
    record[2] = candidate.radius;
    record[3..14].copy_from_slice(&candidate.row_runs);
    record[14..25].copy_from_slice(&candidate.column_runs);
    record[25] = circle_variance(candidate).to_bits();
    record[26] = outcome_number(orientation.outcome);
    record[27] = orientation.scale;
    record[28] = (rotation as f32).to_bits();
    record[29] = orientation.center.x;
    record[30] = orientation.center.y;
    for (index, corner) in plain_box(&boundary).into_iter().enumerate() {
        let point = corner_of(&orientation, corner);
        record[31 + 2 * index] = point.x.to_bits();
        record[32 + 2 * index] = point.y.to_bits();
    }
    record[39] = class_of(orientation.outcome);
    record
}
