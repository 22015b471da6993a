//! A crop made smaller for as long as it shows a difference.

use std::io;
use std::path::PathBuf;

use crops::{LEAST_SIDE, clear_pixel, image_words, pixel, set_pixel};
use oracle::generate::Crop;

/// Tries after which a crop is left as it is.
const MOST_TRIES: u32 = 20_000;

/// A rectangle of pixels.
#[derive(Clone, Copy)]
struct Part {
    left: u32,
    top: u32,
    width: u32,
    height: u32,
}

/// The smallest crop that was found to pass `differs`, from one that does.
pub fn shrink(crop: &Crop, differs: impl FnMut(&Crop) -> bool) -> Crop {
    let mut search = Shrinking {
        best: crop.clone(),
        differs,
        tries: 0,
    };
    while search.cut() || search.blank() {}
    search.best
}

/// Writes a crop among the system's temporary files.
pub fn write(crop: &Crop, name: &str) -> io::Result<PathBuf> {
    let path = std::env::temp_dir().join(format!("{name}.crop"));
    std::fs::write(&path, crop.file())?;
    Ok(path)
}

/// Prints where a crop is written, and what differs there.
pub fn report(crop: &Crop, name: &str, what: Option<String>) {
    let what = what.unwrap_or_default();
    match write(crop, name) {
        Ok(path) => println!(
            "{} by {} in {}: {what}",
            crop.width,
            crop.height,
            path.display()
        ),
        Err(error) => println!("the crop cannot be written: {error}"),
    }
}

struct Shrinking<F> {
    best: Crop,
    differs: F,
    tries: u32,
}

impl<F: FnMut(&Crop) -> bool> Shrinking<F> {
    /// Takes a smaller crop if it differs too.
    fn take(&mut self, smaller: Crop) -> bool {
        self.tries += 1;
        let taken = self.tries <= MOST_TRIES && (self.differs)(&smaller);
        if taken {
            self.best = smaller;
        }
        taken
    }

    /// Cuts rows and columns from each side, many at first; true if any was cut.
    fn cut(&mut self) -> bool {
        let mut any = false;
        let mut amount = self.best.width.max(self.best.height) / 2;
        while amount > 0 {
            let cut = (0..4).any(|side| {
                let smaller = without(&self.best, side, amount);
                smaller.is_some_and(|smaller| self.take(smaller))
            });
            any |= cut;
            if !cut {
                amount /= 2;
            }
        }
        any
    }

    /// Blanks blocks of pixels, large ones at first; true if any was blanked.
    fn blank(&mut self) -> bool {
        let mut any = false;
        let mut side = self.best.width.max(self.best.height) / 2;
        while side > 0 {
            for top in (0..self.best.height).step_by(side as usize) {
                for left in (0..self.best.width).step_by(side as usize) {
                    let part = Part {
                        left,
                        top,
                        width: side,
                        height: side,
                    };
                    any |= blanked(&self.best, part).is_some_and(|smaller| self.take(smaller));
                }
            }
            side /= 2;
        }
        any
    }
}

/// The crop without so many rows or columns of one side, unless it were too small.
fn without(crop: &Crop, side: u32, amount: u32) -> Option<Crop> {
    let mut part = Part {
        left: 0,
        top: 0,
        width: crop.width,
        height: crop.height,
    };
    match side {
        0 => part.left = amount,
        1 => part.top = amount,
        _ => (),
    }
    let shorter = if side % 2 == 0 {
        &mut part.width
    } else {
        &mut part.height
    };
    *shorter = shorter.checked_sub(amount)?;
    (*shorter >= LEAST_SIDE).then(|| part_of(crop, part))
}

/// The pixels of a part.
fn part_of(crop: &Crop, part: Part) -> Crop {
    let mut words = vec![0; image_words(part.width, part.height)];
    for y in 0..part.height {
        for x in 0..part.width {
            if pixel(&crop.words, crop.width, part.left + x, part.top + y) {
                set_pixel(&mut words, part.width, x, y);
            }
        }
    }
    Crop {
        width: part.width,
        height: part.height,
        words,
        ..crop.clone()
    }
}

/// The crop with a part, which may reach beyond it, made white, unless it is white already.
fn blanked(crop: &Crop, part: Part) -> Option<Crop> {
    let columns = part.left..crop.width.min(part.left + part.width);
    let rows = part.top..crop.height.min(part.top + part.height);
    let pixels = || {
        rows.clone()
            .flat_map(|y| columns.clone().map(move |x| (x, y)))
    };
    if !pixels().any(|(x, y)| pixel(&crop.words, crop.width, x, y)) {
        return None;
    }
    let mut white = crop.clone();
    for (x, y) in pixels() {
        clear_pixel(&mut white.words, crop.width, x, y);
    }
    Some(white)
}

#[cfg(test)]
mod tests {
    use oracle::crop::check_words;
    use oracle::{Entries, Report, SECOND, generate};

    use super::*;
    use crate::call::{Call, Trial};

    /// A search that is right but for the radius of the first record.
    fn wrong_words(
        words: &[u64],
        width: u32,
        height: u32,
        records: &mut [u32],
        marks: &mut [u64],
        ellipse: bool,
    ) -> Report {
        let report = (SECOND.words)(words, width, height, records, marks, ellipse);
        if report.kept > 0 {
            records[2] += 1;
        }
        report
    }

    fn black(crop: &Crop) -> u32 {
        crop.words.iter().map(|word| word.count_ones()).sum()
    }

    #[test]
    fn a_wrong_record_shrinks_to_one_small_eye() {
        let wrong = Entries {
            words: wrong_words,
            ..SECOND
        };
        let mut trial = Trial::new(wrong, SECOND, true);
        let mut differs = |crop: &Crop| {
            let call = Call::fitting(crop, None, 4000, true);
            trial.compare(&call).is_err()
        };
        let mut shrunk = 0;
        for seed in 0..40 {
            let crop = generate::family("eyes", seed);
            if !differs(&crop) {
                continue;
            }
            let small = shrink(&crop, &mut differs);
            assert!(differs(&small));
            assert_eq!(check_words(&small.words, small.width, small.height), 0);
            assert!(small.width <= crop.width && small.height <= crop.height);
            assert!(black(&small) < black(&crop), "seed {seed}");
            assert!(small.width * small.height <= 80 * 80, "seed {seed}");
            shrunk += 1;
        }
        assert!(shrunk > 10, "{shrunk}");
    }

    /// Cells with bit 30 set wherever some pixel is black.
    #[test]
    fn wrong_cells_shrink_to_one_pixel() {
        let wrong = Entries {
            cells_words: |words, width, height, cells| {
                let answer = (SECOND.cells_words)(words, width, height, cells);
                if answer == 0 {
                    cells[4] |= 1 << 30;
                }
                answer
            },
            ..SECOND
        };
        let mut trial = Trial::new(wrong, SECOND, true);
        let mut differs = |crop: &Crop| trial.compare(&Call::cells(crop, None)).is_err();
        let crop = generate::family("noise", 3);
        assert!(differs(&crop));
        let small = shrink(&crop, differs);
        assert_eq!((small.width, small.height, black(&small)), (33, 33, 1));
    }

    #[test]
    fn a_difference_of_one_pixel_shrinks_to_it() {
        let differs = |crop: &Crop| {
            (0..crop.height)
                .any(|y| (0..crop.width).any(|x| x > 20 && pixel(&crop.words, crop.width, x, y)))
        };
        let crop = generate::family("noise", 3);
        assert!(differs(&crop));
        let small = shrink(&crop, differs);
        assert_eq!((small.width, small.height, black(&small)), (33, 33, 1));
    }

    #[test]
    fn a_written_crop_is_the_crop() {
        let crop = generate::family("noise", 3);
        let path = write(&crop, "trials-shrink-test").expect("it is written");
        assert_eq!(std::fs::read(&path).expect("it is read"), crop.file());
        std::fs::remove_file(path).expect("it is removed");
    }
}
