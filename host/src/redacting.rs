//! A crop with less black that gives the same result, searched again in the bytes that are to be written.
use crate::{
    arguments::Arguments, blanking::record_difference, commands::Searched, image::Image, run::Run,
};
use bullseye::redact::{Extent, Redacted, black, redact, same_report};
use crops::{RECORD_WORDS, RECORDS, Unknown};

/// A redacted crop.
pub struct Redaction {
    pub file: Vec<u8>,
    pub done: Redacted,
    /// The first thing in which it is no redaction of the crop.
    pub difference: Option<String>,
}

/// Redacts a crop that was searched, and holds what is to be written against it, with the ellipse check where it was on.
pub fn redaction(crop: &Searched, extent: Extent) -> Result<Redaction, Unknown> {
    let mut image = crop.image.clone();
    let (width, height, ellipse) = (image.width, image.height, crop.run.ellipse);
    let mut records = vec![0; RECORD_WORDS * RECORDS];
    let words = image.words_mut();
    let done = redact(words, width, height, &mut records, extent, ellipse);
    let file = image.file();
    Ok(Redaction {
        difference: match Searched::of_file(&file, ellipse)? {
            Ok(after) => difference(crop, &after),
            Err(refusal) => Some(format!("the answer: {refusal}")),
        },
        file,
        done,
    })
}

/// The first thing in which a crop is no redaction of another: its dimensions, a black pixel that the other has not, the result.
pub fn difference(crop: &Searched, redacted: &Searched) -> Option<String> {
    let (before, after) = (&crop.image, &redacted.image);
    if (before.width, before.height) != (after.width, after.height) {
        return Some("the dimensions".into());
    }
    let added = added(before, after);
    if added > 0 {
        return Some(format!("{added} black pixels that the crop has white"));
    }
    result_difference(&crop.run, &redacted.run)
}

/// How many pixels are black that were white.
fn added(before: &Image, after: &Image) -> usize {
    let words = before.words().iter().zip(after.words());
    black(&words.map(|(old, new)| new & !old).collect::<Vec<u64>>())
}

/// The first thing that the results of two searches do not have in common; what was read is not part of them.
fn result_difference(before: &Run, after: &Run) -> Option<String> {
    match same_report(before.seen.report, after.seen.report) {
        false => Some("answer, found or kept".into()),
        true => record_difference(before, after),
    }
}

/// The black pixels of an image.
pub fn black_pixels(image: &Image) -> usize {
    black(image.words())
}

impl Arguments {
    /// How far a redaction goes.
    pub fn extent(&self) -> Extent {
        match self.least {
            true => Extent::Least,
            false => Extent::Outside,
        }
    }
}
