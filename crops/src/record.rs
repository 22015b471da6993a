//! What a search leaves: its report, and the record's fields by name and place.
use crate::{RECORD_WORDS, Unknown};

/// What a search answers. After a refusal the counts are 0 and no buffer has changed.
#[repr(C)]
#[derive(Clone, Copy, Debug, Default, PartialEq, Eq)]
pub struct Report {
    pub answer: u32,
    /// The sweep's candidates.
    pub found: u32,
    /// Those within the deviation: so many records are filled.
    pub kept: u32,
    /// One bits of the marks.
    pub marked: u32,
}

/// The places of a record's words, under the names that they have in the proved crate `records`.
pub mod places {
    pub const CENTER_X: usize = 0;
    pub const CENTER_Y: usize = 1;
    pub const RADIUS: usize = 2;
    pub const ROW_RUNS: usize = 3;
    pub const COLUMN_RUNS: usize = 14;
    pub const VARIANCE: usize = 25;
    pub const OUTCOME: usize = 26;
    pub const SCALE: usize = 27;
    pub const ROTATION: usize = 28;
    pub const LAST_CENTER_X: usize = 29;
    pub const LAST_CENTER_Y: usize = 30;
    pub const CORNERS: usize = 31;
    pub const CLASS: usize = 39;
}

use places::*;

/// What a word of a field is.
#[derive(Clone, Copy, Debug, PartialEq, Eq)]
pub enum Unit {
    /// A whole number of pixels.
    Pixels,
    /// The bits of an f32 in pixels.
    PixelBits,
    /// The bits of an f32 in degrees.
    DegreeBits,
    /// The bits of an f32 without a unit.
    Bits,
    /// A number out of a list.
    Code,
}

/// A field of a record: so many words from a place on.
#[derive(Clone, Copy, Debug, PartialEq, Eq)]
pub struct Field {
    pub name: &'static str,
    pub place: usize,
    pub words: usize,
    pub unit: Unit,
}

const fn field(name: &'static str, place: usize, words: usize, unit: Unit) -> Field {
    Field {
        name,
        place,
        words,
        unit,
    }
}

/// Every field, in the order of the words.
pub const FIELDS: &[Field] = &[
    field("CENTER_X", CENTER_X, 1, Unit::Pixels),
    field("CENTER_Y", CENTER_Y, 1, Unit::Pixels),
    field("RADIUS", RADIUS, 1, Unit::Pixels),
    field("ROW_RUNS", ROW_RUNS, 11, Unit::Pixels),
    field("COLUMN_RUNS", COLUMN_RUNS, 11, Unit::Pixels),
    field("VARIANCE", VARIANCE, 1, Unit::Bits),
    field("OUTCOME", OUTCOME, 1, Unit::Code),
    field("SCALE", SCALE, 1, Unit::Code),
    field("ROTATION", ROTATION, 1, Unit::DegreeBits),
    field("LAST_CENTER_X", LAST_CENTER_X, 1, Unit::Pixels),
    field("LAST_CENTER_Y", LAST_CENTER_Y, 1, Unit::Pixels),
    field("CORNERS", CORNERS, 8, Unit::PixelBits),
    field("CLASS", CLASS, 1, Unit::Code),
];

/// How a search for the turn ended; an ellipse, with the option on, is not searched for one.
#[derive(Clone, Copy, Debug, PartialEq, Eq)]
pub enum Outcome {
    NoTurn,
    Turned,
    LostCentre,
    Ellipse,
}

impl Outcome {
    /// In the order in which they are shown.
    pub const ALL: [Outcome; 4] = [
        Outcome::Turned,
        Outcome::NoTurn,
        Outcome::LostCentre,
        Outcome::Ellipse,
    ];

    pub fn words(self) -> &'static str {
        match self {
            Outcome::NoTurn => "no turn",
            Outcome::Turned => "turned",
            Outcome::LostCentre => "lost centre",
            Outcome::Ellipse => "ellipse",
        }
    }

    /// The record's word.
    pub fn number(self) -> u32 {
        match self {
            Outcome::NoTurn => 0,
            Outcome::Turned => 1,
            Outcome::LostCentre => 2,
            Outcome::Ellipse => 3,
        }
    }

    pub fn of_word(number: u32) -> Result<Self, Unknown> {
        let what = "outcome";
        (Outcome::ALL.into_iter())
            .find(|outcome| outcome.number() == number)
            .ok_or(Unknown { what, number })
    }
}

/// Handling classes: 0 up to one below.
pub const CLASSES: u32 = 5;

/// The last of them: that of every record without a turn.
pub const CLASS_WITHOUT_TURN: u32 = CLASSES - 1;

/// The class of a record's word, beside its outcome: that without a turn, or one of the others.
pub fn class_of_word(outcome: Outcome, number: u32) -> Result<u32, Unknown> {
    let (what, known) = match outcome {
        Outcome::Turned => ("class of a turn", number < CLASS_WITHOUT_TURN),
        _ => ("class without a turn", number == CLASS_WITHOUT_TURN),
    };
    match known {
        true => Ok(number),
        false => Err(Unknown { what, number }),
    }
}

/// A point of the image; y grows downwards.
#[derive(Clone, Copy, Debug, PartialEq)]
pub struct Point {
    pub x: f32,
    pub y: f32,
}

/// A kept candidate: its circle, its box and its turn.
#[derive(Clone, Copy, Debug, PartialEq)]
pub struct Record {
    /// The centre as found.
    pub x: u32,
    pub y: u32,
    pub radius: u32,
    pub variance: f32,
    pub outcome: Outcome,
    pub scale: u32,
    /// Degrees.
    pub rotation: f32,
    /// The last centre inside the image.
    pub centre: (u32, u32),
    /// (left, bottom), (left, top), (right, bottom), (right, top); zeros for an ellipse.
    pub corners: [Point; 4],
    pub class: u32,
}

impl Record {
    /// The record of its words; an outcome that is not known, or a class that it cannot have, is an error.
    pub fn of_words(words: &[u32; RECORD_WORDS]) -> Result<Self, Unknown> {
        let float = |at: usize| f32::from_bits(words[at]);
        let corner = |number: usize| Point {
            x: float(CORNERS + 2 * number),
            y: float(CORNERS + 2 * number + 1),
        };
        let outcome = Outcome::of_word(words[OUTCOME])?;
        Ok(Record {
            x: words[CENTER_X],
            y: words[CENTER_Y],
            radius: words[RADIUS],
            variance: float(VARIANCE),
            outcome,
            scale: words[SCALE],
            rotation: float(ROTATION),
            centre: (words[LAST_CENTER_X], words[LAST_CENTER_Y]),
            corners: [corner(0), corner(1), corner(2), corner(3)],
            class: class_of_word(outcome, words[CLASS])?,
        })
    }
}

#[cfg(test)]
mod tests {
    use super::*;

    #[test]
    fn the_fields_fill_a_record() {
        let mut next = 0;
        for field in FIELDS {
            assert_eq!(field.place, next, "{}", field.name);
            next += field.words;
        }
        assert_eq!(next, RECORD_WORDS);
    }

    #[test]
    fn an_unknown_outcome_or_class_is_named() {
        let said = |outcome: u32, class: u32| {
            let mut words = [0; RECORD_WORDS];
            (words[OUTCOME], words[CLASS]) = (outcome, class);
            let record = Record::of_words(&words).map_err(|unknown| unknown.to_string())?;
            Ok((record.outcome, record.class))
        };
        for class in 0..4 {
            assert_eq!(said(1, class), Ok((Outcome::Turned, class)));
        }
        let without = [Outcome::NoTurn, Outcome::LostCentre, Outcome::Ellipse];
        for (number, outcome) in [0, 2, 3].into_iter().zip(without) {
            assert_eq!(said(number, 4), Ok((outcome, 4)));
            for class in [0, 1, 3, 5] {
                let unknown = format!("unknown class without a turn: {class}");
                assert_eq!(said(number, class), Err(unknown));
            }
        }
        assert_eq!(said(1, 4), Err("unknown class of a turn: 4".into()));
        assert_eq!(said(4, 4), Err("unknown outcome: 4".into()));
    }

    #[test]
    fn each_outcome_has_its_own_word() {
        for outcome in Outcome::ALL {
            assert_eq!(Outcome::of_word(outcome.number()), Ok(outcome));
        }
    }
}
