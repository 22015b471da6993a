//! A crop with every pixel white that its search did not read, searched again.
use crate::{
    image::Image,
    kept::Kept,
    run::{self, Run},
};
use crops::{RECORD_WORDS, Unknown};

/// A blanked crop.
pub struct Blanked {
    pub file: Vec<u8>,
    /// Black pixels that became white.
    pub whitened: usize,
    pub kept: Kept,
    /// The first thing in which the searches before and after differ.
    pub difference: Option<String>,
}

/// Blanks an image that was searched, and searches again, with the ellipse check where it was on.
pub fn blanked(mut image: Image, run: &Run) -> Result<Blanked, Unknown> {
    let kept = Kept::of(&image, run);
    let whitened = blank(&mut image, run);
    let file = image.file();
    let after = run::search(&file, run.ellipse)?;
    Ok(Blanked {
        difference: difference(run, &after),
        file,
        whitened,
        kept,
    })
}

/// Makes each pixel white that the search did not read; how many were black.
fn blank(image: &mut Image, run: &Run) -> usize {
    let mut whitened = 0;
    for y in 0..image.height {
        for x in 0..image.width {
            if image.is_black(x, y) && !run.has_read(x, y) {
                image.set(x, y, false);
                whitened += 1;
            }
        }
    }
    whitened
}

/// The first thing that two searches do not have in common.
fn difference(before: &Run, after: &Run) -> Option<String> {
    if before.seen.report != after.seen.report {
        return Some("answer or counts".into());
    }
    let marks = || (before.marks != after.marks).then(|| "the marks".into());
    record_difference(before, after).or_else(marks)
}

/// The first record word that two searches do not have in common.
pub fn record_difference(before: &Run, after: &Run) -> Option<String> {
    let mut words = before.buffer.iter().zip(&after.buffer);
    let at = words.position(|(a, b)| a != b)?;
    let (record, word) = (at / RECORD_WORDS + 1, at % RECORD_WORDS);
    Some(format!("record {record}, word {word}"))
}

#[cfg(test)]
mod tests {
    use super::*;

    /// A change to one of two equal runs is named.
    fn named(change: impl Fn(&mut Run)) -> Option<String> {
        let run = || {
            let mut file = vec![0x10, 0x21, 0x02, 0x10];
            file.resize(169, 0);
            run::search(&file, false).expect("a known answer")
        };
        let mut changed = run();
        change(&mut changed);
        difference(&run(), &changed)
    }

    #[test]
    fn each_difference_is_named() {
        assert_eq!(named(|_| ()), None);
        let report = named(|run| run.seen.report.marked += 1);
        assert_eq!(report.as_deref(), Some("answer or counts"));
        let first = named(|run| run.buffer[0] = 1);
        assert_eq!(first.as_deref(), Some("record 1, word 0"));
        let last = named(|run| run.buffer[15_999] = 1);
        assert_eq!(last.as_deref(), Some("record 400, word 39"));
        let marks = named(|run| run.marks[32] ^= 1);
        assert_eq!(marks.as_deref(), Some("the marks"));
    }
}
