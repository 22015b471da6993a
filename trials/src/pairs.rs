//! The two-run test: an image searched again after all its unmarked pixels were changed.

use crops::{WORD_BITS, row_words};
use oracle::generate::{Crop, Random};
use oracle::{Entries, Report};

use crate::call::{Buffers, Call};

/// What becomes of the unmarked pixels.
pub const CHANGES: [&str; 4] = ["set", "cleared", "flipped", "noise"];

/// The buffers of the two runs; marks, and words to unpack into, begin with other content in the second.
pub struct Pair {
    entries: Entries,
    first: Buffers,
    second: Buffers,
    report: Report,
}

/// An image, the length of its record buffer, whether it is handed over as a file, and whether the ellipse check is on, in both
/// runs.
#[derive(Clone, Copy)]
pub struct Given<'a> {
    pub crop: &'a Crop,
    pub records: usize,
    pub as_file: bool,
    pub ellipse: bool,
}

impl Pair {
    pub fn new(entries: Entries, guards: bool) -> Self {
        Pair {
            entries,
            first: Buffers::new(guards, 0),
            second: Buffers::new(guards, 0x5555_5555_5555_5555),
            report: Report::default(),
        }
    }

    /// The report and the records of the last first run.
    pub fn first(&self) -> (Report, &[u32]) {
        (self.report, self.first.records())
    }

    /// The first difference after a change of all unmarked pixels, if there is one.
    pub fn changed(&mut self, given: Given, change: &str, random: &mut Random) -> Option<String> {
        self.report = run(&mut self.first, &self.entries, given);
        let mut words = given.crop.words.clone();
        let row = row_words(given.crop.width);
        for (place, (word, mark)) in words.iter_mut().zip(self.first.marks()).enumerate() {
            let free = pixels(given.crop.width, place % row) & !mark;
            *word = *word & !free | changed_word(change, *word, random) & free;
        }
        self.again(given, words)
    }

    /// The same after one marked pixel is flipped; none if no pixel is marked.
    pub fn marked_pixel_flipped(
        &mut self,
        given: Given,
        random: &mut Random,
    ) -> Option<Option<String>> {
        self.report = run(&mut self.first, &self.entries, given);
        let row = row_words(given.crop.width);
        let marks = self.first.marks().iter().enumerate();
        let marked: Vec<(usize, u64)> = marks
            .map(|(place, mark)| (place, mark & pixels(given.crop.width, place % row)))
            .filter(|&(_, mark)| mark != 0)
            .collect();
        if marked.is_empty() {
            return None;
        }
        let (place, mut mark) = random.pick(&marked);
        for _ in 0..random.below(mark.count_ones()) {
            mark &= mark - 1;
        }
        let mut words = given.crop.words.clone();
        words[place] ^= mark & mark.wrapping_neg();
        Some(self.again(given, words))
    }

    /// What differs in the second run, of an image with other words.
    fn again(&mut self, given: Given, words: Vec<u64>) -> Option<String> {
        let crop = Crop {
            words,
            ..given.crop.clone()
        };
        let given = Given {
            crop: &crop,
            ..given
        };
        let second = run(&mut self.second, &self.entries, given);
        if second != self.report {
            return Some(format!("{second:?}, not {:?}", self.report));
        }
        self.second.difference(&self.first)
    }
}

fn run(buffers: &mut Buffers, entries: &Entries, given: Given) -> Report {
    let file = given.as_file.then(|| given.crop.file());
    let call = Call::fitting(given.crop, file.as_deref(), given.records, given.ellipse);
    buffers.run(entries, &call)
}

/// Ones for the pixels that a row of this width has in its word k.
fn pixels(width: u32, k: usize) -> u64 {
    match width as usize - WORD_BITS * k {
        rest if rest < WORD_BITS => (1 << rest) - 1,
        _ => !0,
    }
}

fn changed_word(change: &str, word: u64, random: &mut Random) -> u64 {
    match change {
        "set" => !0,
        "cleared" => 0,
        "flipped" => !word,
        _ => random.next(),
    }
}

#[cfg(test)]
mod tests {
    use oracle::{SECOND, generate};

    use super::*;

    /// A search that also looks at the last pixel of the image, which no search marks.
    fn peeking(
        words: &[u64],
        width: u32,
        height: u32,
        records: &mut [u32],
        marks: &mut [u64],
        ellipse: bool,
    ) -> Report {
        let mut report = (SECOND.words)(words, width, height, records, marks, ellipse);
        report.found += words[words.len() - 1].count_ones() & 1;
        report
    }

    #[test]
    fn a_read_without_a_mark_is_noticed() {
        let peeking = Entries {
            words: peeking,
            ..SECOND
        };
        let crop = generate::family("plain", 8);
        let given = Given {
            crop: &crop,
            records: 4000,
            as_file: false,
            ellipse: false,
        };
        let mut random = Random::new(1);
        let [mut right, mut wrong] = [SECOND, peeking].map(|entries| Pair::new(entries, true));
        let mut noticed = 0;
        for change in CHANGES {
            for _ in 0..8 {
                assert_eq!(right.changed(given, change, &mut random), None);
                noticed += u32::from(wrong.changed(given, change, &mut random).is_some());
            }
        }
        assert!(noticed > 0);
    }

    /// A search with the ellipse check that reports the marks of one without.
    fn unmarked(
        words: &[u64],
        width: u32,
        height: u32,
        records: &mut [u32],
        marks: &mut [u64],
        ellipse: bool,
    ) -> Report {
        let mut own = vec![0; words.len()];
        (SECOND.words)(words, width, height, records, &mut own, ellipse);
        (SECOND.words)(words, width, height, &mut vec![0; 4000], marks, false)
    }

    #[test]
    fn reads_of_the_ellipse_check_without_marks_are_noticed() {
        let unmarked = Entries {
            words: unmarked,
            ..SECOND
        };
        let mut random = Random::new(1);
        let [mut right, mut wrong] = [SECOND, unmarked].map(|entries| Pair::new(entries, true));
        let mut noticed = 0;
        for crop in (0..60).map(generate::ellipse) {
            let given = Given {
                crop: &crop,
                records: 4000,
                as_file: false,
                ellipse: true,
            };
            for change in CHANGES {
                assert_eq!(right.changed(given, change, &mut random), None);
                noticed += u32::from(wrong.changed(given, change, &mut random).is_some());
            }
        }
        assert!(noticed > 0);
    }

    #[test]
    fn a_marked_pixel_can_matter() {
        let mut pair = Pair::new(SECOND, true);
        let mut random = Random::new(1);
        let changes = (0..50).filter(|&seed| {
            let crop = generate::family("eyes", seed);
            let given = Given {
                crop: &crop,
                records: 4000,
                as_file: true,
                ellipse: true,
            };
            matches!(pair.marked_pixel_flipped(given, &mut random), Some(Some(_)))
        });
        assert!(changes.count() > 5);
    }

    #[test]
    fn pixels_of_a_word() {
        assert_eq!(pixels(33, 0), (1 << 33) - 1);
        assert_eq!(pixels(64, 0), !0);
        assert_eq!(pixels(65, 0), !0);
        assert_eq!(pixels(65, 1), 1);
    }
}
