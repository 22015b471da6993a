//! What the program, the judge, the trials and the bench agree on: the crop file, the answers, the record and the sizes.

mod answers;
pub mod cases;
mod file;
mod record;
mod sizes;
mod unknown;

pub use answers::{
    ACCEPTED, ANSWERS, Answer, BLANK, Kind, READ, answer, cells_meaning, check_meaning, meaning,
};
pub use file::{
    clear_pixel, dimensions, image_words, pack, pixel, row_bytes, row_words, set_pixel, unpack,
    unpacked, words_of,
};
pub use record::{
    CLASS_WITHOUT_TURN, CLASSES, FIELDS, Field, Outcome, Point, Record, Report, Unit,
    class_of_word, places,
};
pub use sizes::*;
pub use unknown::{Unknown, known};
