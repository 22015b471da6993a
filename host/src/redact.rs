//! A picture with less black that gives the same result. Blocks are made white, largest first, each halved where the proved search
//! of the picture no longer agrees. What is white stays white.
use crate::{Report, search_words};
use blocks::Block;
use crops::{MOST_CANDIDATES, RECORD_WORDS};
use std::collections::VecDeque;

mod blocks;

/// How far a redaction goes.
#[derive(Clone, Copy, Debug, PartialEq, Eq)]
pub enum Extent {
    /// The rectangle about the box of each kept record, of an ellipse that about its circle, stays as the reads left it: a person still
    /// sees the symbol.
    Outside,
    /// Nothing is spared.
    Least,
}

/// What a redaction did.
#[derive(Clone, Copy, Debug, PartialEq, Eq)]
pub struct Redacted {
    /// Of the image as it was given; that of the result differs in `marked` at most.
    pub report: Report,
    pub black_before: usize,
    pub black_after: usize,
    /// At most [`most_searches`].
    pub searches: usize,
    /// Whether each black pixel that is left and not spared was tried by itself and is needed; if not, the bound ended the tries.
    pub least: bool,
}

/// The bound on the searches of one redaction, by the image's size: 16 for each column and for each row.
pub fn most_searches(width: u32, height: u32) -> usize {
    16 * (width as usize + height as usize)
}

/// Whether two reports say the same; what was read is not part of it.
pub fn same_report(one: Report, other: Report) -> bool {
    let unmarked = |report: Report| Report {
        marked: 0,
        ..report
    };
    unmarked(one) == unmarked(other)
}

/// The black pixels of an image.
pub fn black(words: &[u64]) -> usize {
    words.iter().map(|word| word.count_ones() as usize).sum()
}

/// Makes black pixels of an image white for as long as its search gives the same answer, found, kept and record words. The records are
/// filled by the image's own search; their length decides answer 7. A refused image stays as it is. `ellipse` is that of each search.
pub fn redact(
    words: &mut [u64],
    width: u32,
    height: u32,
    records: &mut [u32],
    extent: Extent,
    ellipse: bool,
) -> Redacted {
    let mut marks = vec![0; words.len()];
    let report = search_words(words, width, height, records, &mut marks, ellipse);
    let black_before = black(words);
    let mut redacted = Redacted {
        report,
        black_before,
        black_after: black_before,
        searches: 1,
        least: true,
    };
    if crops::answer(report.answer).is_ok_and(|answer| !answer.refused()) {
        let mut tries = Tries::new(words, (width, height), (report, records), marks, ellipse);
        redacted.least = tries.outside() && (extent == Extent::Outside || tries.inside());
        redacted.searches = tries.searches;
        redacted.black_after = black(words);
    }
    redacted
}

/// An image that becomes whiter, and what a try of it needs: every buffer is made once.
struct Tries<'a> {
    words: &'a mut [u64],
    width: u32,
    height: u32,
    ellipse: bool,
    report: Report,
    /// The kept records of the image as it was given.
    kept: &'a [u32],
    /// The bits that may be made white.
    free: Vec<u64>,
    /// Words as they were before a try.
    saved: Vec<u64>,
    records: Vec<u32>,
    marks: Vec<u64>,
    searches: usize,
    /// Blocks that could not go, in the order of their tries.
    blocks: VecDeque<Block>,
    /// Pixels that could not go; the last so many failed since something could.
    pixels: VecDeque<Block>,
    failed: usize,
}

impl<'a> Tries<'a> {
    /// Begins with what was not read made white: every picture that agrees at the marked pixels gives the same run.
    fn new(
        words: &'a mut [u64],
        (width, height): (u32, u32),
        (report, records): (Report, &'a [u32]),
        marks: Vec<u64>,
        ellipse: bool,
    ) -> Self {
        let mut tries = Tries {
            width,
            height,
            ellipse,
            report,
            kept: &records[..report.kept as usize * RECORD_WORDS],
            free: vec![u64::MAX; words.len()],
            saved: vec![0; words.len()],
            records: vec![0; RECORD_WORDS * room(report, records.len())],
            marks,
            searches: 1,
            blocks: VecDeque::new(),
            pixels: VecDeque::new(),
            failed: 0,
            words,
        };
        tries.clear_unread();
        // Blocks that wait are apart, and each had a black pixel when it was put.
        let most = black(tries.words);
        tries.blocks.reserve(most);
        tries.pixels.reserve(most);
        tries
    }

    /// Makes white what can be outside the rectangles about the boxes; false when the bound ended it.
    fn outside(&mut self) -> bool {
        for record in self.kept.chunks_exact(RECORD_WORDS) {
            let about = Block::about(record, self.width, self.height);
            for (place, bits) in about.words(self.width) {
                self.free[place] &= !bits;
            }
        }
        self.everywhere()
    }

    /// Goes on with the whole image; false when the bound ended it.
    fn inside(&mut self) -> bool {
        self.free.fill(u64::MAX);
        self.everywhere()
    }

    /// Tries all that may be made white: blocks, then pixels again and again, until all that are left have failed since one could go.
    fn everywhere(&mut self) -> bool {
        self.blocks.clear();
        self.pixels.clear();
        self.failed = 0;
        if self.searches_left() >= 1 {
            self.attempt(Block::of(self.width, self.height));
        }
        while self.searches_left() >= 2
            && let Some(block) = self.blocks.pop_front()
        {
            self.halve(block);
        }
        while self.searches_left() >= 1
            && self.failed < self.pixels.len()
            && let Some(pixel) = self.pixels.pop_front()
        {
            self.attempt(pixel);
        }
        self.blocks.is_empty() && self.failed == self.pixels.len()
    }

    /// Tries both halves of a block that could not go. Where the first can, the second waits untried: both together could not.
    fn halve(&mut self, block: Block) {
        let Some(block) = self.cut(block) else {
            return;
        };
        if block.is_pixel() {
            self.attempt(block);
            return;
        }
        let [first, second] = block.halves();
        match self.attempt(first) {
            true => self.put(second),
            false => {
                self.attempt(second);
            }
        }
    }

    /// Whether a block could go; one that could not waits.
    fn attempt(&mut self, block: Block) -> bool {
        let Some(block) = self.cut(block) else {
            return true;
        };
        let gone = self.whiten(block);
        if gone {
            self.failed = 0;
        } else {
            self.failed += usize::from(block.is_pixel());
            self.put(block);
        }
        gone
    }

    /// Makes a block wait for its next turn.
    fn put(&mut self, block: Block) {
        match block.is_pixel() {
            true => self.pixels.push_back(block),
            false => self.blocks.push_back(block),
        }
    }

    fn searches_left(&self) -> usize {
        most_searches(self.width, self.height).saturating_sub(self.searches)
    }

    /// Makes a block white, and all that is unread then; or leaves all as it was, when the search no longer agrees.
    fn whiten(&mut self, block: Block) -> bool {
        for (place, bits) in block.words(self.width) {
            self.saved[place] = self.words[place];
            self.words[place] &= !(self.free[place] & bits);
        }
        let agrees = self.agrees();
        if agrees {
            self.clear_unread();
        } else {
            for (place, _) in block.words(self.width) {
                self.words[place] = self.saved[place];
            }
        }
        agrees
    }

    /// Whether a search gives what that of the image as given gave.
    fn agrees(&mut self) -> bool {
        self.searches += 1;
        let report = search_words(
            self.words,
            self.width,
            self.height,
            &mut self.records,
            &mut self.marks,
            self.ellipse,
        );
        same_report(report, self.report) && self.records.starts_with(self.kept)
    }

    /// Makes white what the last search did not read.
    fn clear_unread(&mut self) {
        let marks = self.marks.iter().zip(&self.free);
        for (word, (mark, free)) in self.words.iter_mut().zip(marks) {
            *word &= mark | !free;
        }
    }

    /// The smallest block about the black pixels of one that may be made white.
    fn cut(&self, block: Block) -> Option<Block> {
        let black = |(place, bits)| (place, self.words[place] & self.free[place] & bits);
        (block.words(self.width).map(black))
            .filter_map(|(place, bits)| Block::of_bits(place, bits, self.width))
            .reduce(Block::joined)
    }
}

/// How many records a try is lent: as many as were found, since one more is another result; with answer 7, as many as before.
fn room(report: Report, words: usize) -> usize {
    let capacity = (words / RECORD_WORDS).min(MOST_CANDIDATES);
    (report.found as usize).clamp(1, capacity)
}
