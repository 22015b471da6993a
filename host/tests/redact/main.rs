//! The library's redaction: the same result, no black that was not there, and an address that is gone.
use bullseye::{
    Report,
    redact::{Extent, Redacted, black, most_searches, redact, same_report},
};
use crops::{
    Outcome, RECORD_WORDS,
    places::{CENTER_X, CENTER_Y, CORNERS, OUTCOME, RADIUS},
};

mod address;
mod generated;
mod text;

/// An image, the length of the records that it is searched with, and whether the search has the ellipse check.
#[derive(Clone)]
pub struct Picture {
    pub width: u32,
    pub height: u32,
    pub words: Vec<u64>,
    pub records_len: usize,
    pub ellipse: bool,
}

/// What a search of a picture says, and what it read.
#[derive(Clone)]
pub struct Found {
    pub report: Report,
    pub records: Vec<u32>,
    pub marks: Vec<u64>,
}

impl Picture {
    pub fn white(width: u32, height: u32) -> Self {
        Picture {
            width,
            height,
            words: vec![0; crops::image_words(width, height)],
            records_len: crops::RECORDS * RECORD_WORDS,
            ellipse: false,
        }
    }

    pub fn of_file(file: &[u8]) -> Self {
        let (width, height) = crops::dimensions(file).expect("a crop");
        Picture {
            words: crops::unpacked(file),
            ..Picture::white(width, height)
        }
    }

    pub fn is_black(&self, x: u32, y: u32) -> bool {
        crops::pixel(&self.words, self.width, x, y)
    }

    pub fn search(&self) -> Found {
        let mut records = vec![0; self.records_len];
        let mut marks = vec![0; self.words.len()];
        let report = bullseye::search_words(
            &self.words,
            self.width,
            self.height,
            &mut records,
            &mut marks,
            self.ellipse,
        );
        Found {
            report,
            records,
            marks,
        }
    }

    /// The redacted picture, after all that holds of each one was seen to hold.
    pub fn redacted(&self, extent: Extent) -> (Picture, Redacted) {
        let mut after = self.clone();
        let mut records = vec![0; self.records_len];
        let done = redact(
            &mut after.words,
            self.width,
            self.height,
            &mut records,
            extent,
            self.ellipse,
        );
        let (before, found) = (self.search(), after.search());
        assert_eq!((done.report, &records), (before.report, &before.records));
        assert!(found.same(&before));
        let added = self.words.iter().zip(&after.words);
        assert!(added.into_iter().all(|(old, new)| new & !old == 0));
        assert!(done.searches <= most_searches(self.width, self.height));
        let blacks = (done.black_before, done.black_after);
        assert_eq!(blacks, (black(&self.words), black(&after.words)));
        (after, done)
    }

    /// Each pixel of the image.
    pub fn pixels(&self) -> impl Iterator<Item = (u32, u32)> + use<> {
        let width = self.width;
        (0..self.height).flat_map(move |y| (0..width).map(move |x| (x, y)))
    }

    /// Whether the search does without a black pixel.
    pub fn does_without(&self, x: u32, y: u32) -> bool {
        let mut other = self.clone();
        crops::clear_pixel(&mut other.words, self.width, x, y);
        other.search().same(&self.search())
    }
}

impl Found {
    /// The same result; what was read is not part of it.
    pub fn same(&self, other: &Found) -> bool {
        same_report(self.report, other.report) && self.records == other.records
    }

    pub fn kept(&self) -> impl Iterator<Item = &[u32]> {
        (self.records.chunks_exact(RECORD_WORDS)).take(self.report.kept as usize)
    }

    /// Whether a pixel lies in the rectangle about a kept record's box, or about the circle of an ellipse.
    pub fn in_a_box(&self, x: u32, y: u32) -> bool {
        self.kept().any(|record| {
            if record[OUTCOME] == Outcome::Ellipse.number() {
                let near = |at: u32, place: usize| at.abs_diff(record[place]) <= record[RADIUS];
                return near(x, CENTER_X) && near(y, CENTER_Y);
            }
            let corner = |place: usize| f32::from_bits(record[CORNERS + place]);
            let within = |at: u32, all: [f32; 4]| {
                let least = all.iter().copied().fold(f32::MAX, f32::min).floor();
                let most = all.iter().copied().fold(0.0, f32::max).ceil();
                (least..=most).contains(&(at as f32))
            };
            within(x, [0, 2, 4, 6].map(corner)) && within(y, [1, 3, 5, 7].map(corner))
        })
    }
}
