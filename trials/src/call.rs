//! One call of an entry: what it is handed, what it is lent, and what it leaves.

use std::fmt::LowerHex;

use crops::{BLANK, CELL_ROWS, known};
use oracle::generate::Crop;
use oracle::{Entries, Report};

use crate::buffers::{Element, Guarded};

/// An image, as a crop file or as words with their width and height.
#[derive(Clone, Copy, Debug)]
pub enum Input<'a> {
    File(&'a [u8]),
    Words(&'a [u64], u32, u32),
}

/// What is asked of an entry, with the lengths of the buffers that it is lent for that.
#[derive(Clone, Copy, Debug)]
pub enum Asked {
    Search {
        records: usize,
        marks: usize,
        /// Whether the ellipse check is on.
        ellipse: bool,
    },
    Cells {
        cells: usize,
    },
}

/// An input, what is asked of it, and the length of the words to unpack into, which are lent only with a file.
#[derive(Clone, Copy, Debug)]
pub struct Call<'a> {
    pub input: Input<'a>,
    pub words: usize,
    pub asked: Asked,
    /// How many elements further than at least the buffers begin.
    pub shift: usize,
}

impl<'a> Call<'a> {
    /// A search with buffers that fit the image, as a file if one is given, with the ellipse check or without.
    pub fn fitting(crop: &'a Crop, file: Option<&'a [u8]>, records: usize, ellipse: bool) -> Self {
        let asked = Asked::Search {
            records,
            marks: crop.words.len(),
            ellipse,
        };
        Self::of(crop, file, asked)
    }

    /// Cells with buffers that fit the image, as a file if one is given.
    pub fn cells(crop: &'a Crop, file: Option<&'a [u8]>) -> Self {
        let cells = CELL_ROWS;
        Self::of(crop, file, Asked::Cells { cells })
    }

    fn of(crop: &'a Crop, file: Option<&'a [u8]>, asked: Asked) -> Self {
        Call {
            input: match file {
                Some(file) => Input::File(file),
                None => Input::Words(&crop.words, crop.width, crop.height),
            },
            words: crop.words.len(),
            asked,
            shift: crop.words.len() % 8,
        }
    }

    /// Whether an answer refuses the image or a buffer; stops at a number that this call's table does not have.
    fn refused(&self, answer: u32) -> bool {
        match self.asked {
            Asked::Search { .. } => known(crops::answer(answer)).refused(),
            Asked::Cells { .. } => {
                known(crops::cells_meaning(answer));
                answer != 0 && answer != BLANK
            }
        }
    }
}

/// Everything that a call may reach.
pub struct Buffers {
    file: Guarded<u8>,
    image: Guarded<u64>,
    words: Guarded<u64>,
    records: Guarded<u32>,
    marks: Guarded<u64>,
    cells: Guarded<u32>,
}

impl Buffers {
    /// Another salt is another first content of the words to unpack into and of the marks.
    pub fn new(guards: bool, salt: u64) -> Self {
        Buffers {
            file: Guarded::new(guards, 0),
            image: Guarded::new(guards, 0),
            words: Guarded::new(guards, salt),
            records: Guarded::new(guards, 0),
            marks: Guarded::new(guards, salt),
            cells: Guarded::new(guards, 0),
        }
    }

    /// Calls an entry in fresh buffers. Cells have an answer alone: the counts are 0.
    pub fn run(&mut self, entries: &Entries, call: &Call) -> Report {
        match call.input {
            Input::File(file) => {
                self.file.hold(file, call.shift);
                self.words.lend(call.words, call.shift);
            }
            Input::Words(image, ..) => {
                self.image.hold(image, call.shift);
                self.words.lend(0, 0);
            }
        }
        let (records, marks, cells) = match call.asked {
            Asked::Search { records, marks, .. } => (records, marks, 0),
            Asked::Cells { cells } => (0, 0, cells),
        };
        self.records.lend(records, call.shift);
        self.marks.lend(marks, call.shift);
        self.cells.lend(cells, call.shift);
        match call.asked {
            Asked::Search { ellipse, .. } => self.search(entries, &call.input, ellipse),
            Asked::Cells { .. } => Report {
                answer: self.read_cells(entries, &call.input),
                ..Report::default()
            },
        }
    }

    fn search(&mut self, entries: &Entries, input: &Input, ellipse: bool) -> Report {
        let (records, marks) = (self.records.slice_mut(), self.marks.slice_mut());
        match *input {
            Input::File(_) => {
                let words = self.words.slice_mut();
                (entries.file)(self.file.slice(), words, records, marks, ellipse)
            }
            Input::Words(_, width, height) => {
                let image = self.image.slice();
                (entries.words)(image, width, height, records, marks, ellipse)
            }
        }
    }

    fn read_cells(&mut self, entries: &Entries, input: &Input) -> u32 {
        let cells = self.cells.slice_mut();
        match *input {
            Input::File(_) => {
                let words = self.words.slice_mut();
                (entries.cells_file)(self.file.slice(), words, cells)
            }
            Input::Words(_, width, height) => {
                (entries.cells_words)(self.image.slice(), width, height, cells)
            }
        }
    }

    pub fn records(&self) -> &[u32] {
        self.records.slice()
    }

    pub fn marks(&self) -> &[u64] {
        self.marks.slice()
    }

    /// Whether the lent buffers are as they were before the call.
    pub fn untouched(&self) -> bool {
        self.words.untouched()
            && self.records.untouched()
            && self.marks.untouched()
            && self.cells.untouched()
    }

    /// What the call changed that nobody lent: its input, or a guard.
    pub fn trespass(&self, call: &Call) -> Option<&'static str> {
        let (input, guards) = match call.input {
            Input::File(file) => (self.file.slice() == file, self.file.guards_hold()),
            Input::Words(image, ..) => (self.image.slice() == image, self.image.guards_hold()),
        };
        [
            (input, "the input is changed"),
            (guards, "an element beside the input is changed"),
            (
                self.words.guards_hold(),
                "an element beside the words is changed",
            ),
            (
                self.records.guards_hold(),
                "an element beside the records is changed",
            ),
            (
                self.marks.guards_hold(),
                "an element beside the marks is changed",
            ),
            (
                self.cells.guards_hold(),
                "an element beside the cells is changed",
            ),
        ]
        .into_iter()
        .find_map(|(holds, what)| (!holds).then_some(what))
    }

    /// The first difference of records, marks or cells.
    pub fn difference(&self, other: &Self) -> Option<String> {
        place("record word", &self.records, &other.records)
            .or_else(|| place("word of marks", &self.marks, &other.marks))
            .or_else(|| place("row of cells", &self.cells, &other.cells))
    }
}

/// The first element that differs, with both contents.
fn place<T: Element + LowerHex>(
    what: &str,
    ours: &Guarded<T>,
    other: &Guarded<T>,
) -> Option<String> {
    let (ours, other) = (ours.slice(), other.slice());
    if ours == other {
        return None;
    }
    let at = ours.iter().zip(other).position(|(a, b)| a != b)?;
    Some(format!("{what} {at}: {:x}, not {:x}", ours[at], other[at]))
}

/// Two entries side by side.
pub struct Trial {
    product: Entries,
    judge: Entries,
    ours: Buffers,
    theirs: Buffers,
}

impl Trial {
    pub fn new(product: Entries, judge: Entries, guards: bool) -> Self {
        Trial {
            product,
            judge,
            ours: Buffers::new(guards, 0),
            theirs: Buffers::new(guards, 0),
        }
    }

    /// The report of both, or the first difference: reports, records, marks, cells, words, and what must stay as it was.
    pub fn compare(&mut self, call: &Call) -> Result<Report, String> {
        let report = self.ours.run(&self.product, call);
        let expected = self.theirs.run(&self.judge, call);
        if report != expected {
            return Err(format!("{report:?}, not {expected:?}"));
        }
        let different = (self.ours.difference(&self.theirs))
            .or_else(|| place("word unpacked", &self.ours.words, &self.theirs.words))
            .or_else(|| self.ours.trespass(call).map(str::to_string))
            .or_else(|| self.left_alone(call, &report));
        match different {
            Some(what) => Err(format!("{report:?}, {what}")),
            None => Ok(report),
        }
    }

    /// What is changed that the answer says is as it was.
    fn left_alone(&self, call: &Call, report: &Report) -> Option<String> {
        let Report {
            answer,
            found,
            kept,
            marked,
        } = *report;
        let refused = call.refused(answer);
        let what = if refused && (found, kept, marked) != (0, 0, 0) {
            "counts after a refusal"
        } else if refused && !self.ours.untouched() {
            "a buffer is changed by a refusal"
        } else if answer == BLANK && !self.ours.cells.untouched() {
            "cells of a blank image"
        } else {
            return None;
        };
        Some(what.to_string())
    }

    /// The records of the last call.
    pub fn records(&self) -> &[u32] {
        self.ours.records()
    }
}

#[cfg(test)]
mod tests {
    use oracle::{CellsFile, SECOND, SearchWords, generate};

    use super::*;

    /// The second reading's search.
    fn right(
        words: &[u64],
        width: u32,
        height: u32,
        records: &mut [u32],
        marks: &mut [u64],
        ellipse: bool,
    ) -> Report {
        (SECOND.words)(words, width, height, records, marks, ellipse)
    }

    /// Searches that are wrong in one place, and what is said of each.
    const WRONG: [(SearchWords, &str); 5] = [
        (
            |words, width, height, records, marks, ellipse| {
                let report = right(words, width, height, records, marks, ellipse);
                Report {
                    marked: report.marked + 1,
                    ..report
                }
            },
            "not Report",
        ),
        (
            |words, width, height, records, marks, ellipse| {
                let report = right(words, width, height, records, marks, ellipse);
                *records.last_mut().expect("a word") ^= 1;
                report
            },
            "record word 4019",
        ),
        (
            |words, width, height, records, marks, ellipse| {
                let report = right(words, width, height, records, marks, ellipse);
                marks[3] ^= 1 << 40;
                report
            },
            "word of marks 3",
        ),
        (
            |words, width, height, records, marks, ellipse| {
                let report = right(words, width, height, records, marks, ellipse);
                records[crops::places::CLASS] ^= 4;
                report
            },
            "record word 39",
        ),
        (
            |words, width, height, records, marks, _| {
                right(words, width, height, records, marks, false)
            },
            "not Report",
        ),
    ];

    #[test]
    fn each_wrong_search_is_noticed() {
        let crop = generate::ellipse(1);
        let call = Call::fitting(&crop, None, 4020, true);
        let compared = |words| {
            let product = Entries { words, ..SECOND };
            Trial::new(product, SECOND, true).compare(&call)
        };
        assert!(compared(right).is_ok());
        for (words, what) in WRONG {
            let difference = compared(words).expect_err(what);
            assert!(difference.contains(what), "{difference}");
        }
    }

    /// Cells that are wrong in one place, of a crop that has black pixels, and what is said of each.
    const WRONG_CELLS: [(CellsFile, &str); 4] = [
        (
            |file, words, cells| (SECOND.cells_file)(file, words, cells) + 6,
            "answer: 6",
        ),
        (
            |file, words, cells| {
                let answer = (SECOND.cells_file)(file, words, cells);
                cells[32] |= 1 << 30;
                answer
            },
            "row of cells 32",
        ),
        (
            |file, words, cells| {
                let answer = (SECOND.cells_file)(file, words, cells);
                cells[7] ^= 1;
                answer
            },
            "row of cells 7",
        ),
        (
            |file, words, cells| {
                let answer = (SECOND.cells_file)(file, words, cells);
                words[5] ^= 1;
                answer
            },
            "word unpacked 5",
        ),
    ];

    #[test]
    fn each_wrong_cell_is_noticed() {
        let crop = generate::family("eyes", 2);
        let file = crop.file();
        let call = Call::cells(&crop, Some(&file));
        let compared = |cells_file| {
            let product = Entries {
                cells_file,
                ..SECOND
            };
            Trial::new(product, SECOND, true).compare(&call)
        };
        let right = compared(SECOND.cells_file).expect("no difference");
        assert_eq!(right, Report::default());
        for (cells_file, what) in WRONG_CELLS {
            let difference = compared(cells_file).expect_err(what);
            assert!(difference.contains(what), "{difference}");
        }
    }

    /// With 10 the words are unpacked; cells that are written then are noticed even if the other side writes them too.
    #[test]
    fn cells_of_a_blank_image_are_noticed() {
        let writing: Entries = Entries {
            cells_file: |file, words, cells| {
                cells.fill(0);
                (SECOND.cells_file)(file, words, cells)
            },
            ..SECOND
        };
        let file = crops::pack(&[0; 33], 33, 33);
        let call = Call {
            input: Input::File(&file),
            words: 33,
            asked: Asked::Cells { cells: 33 },
            shift: 3,
        };
        let right = Trial::new(SECOND, SECOND, true).compare(&call);
        assert_eq!(right.map(|report| report.answer), Ok(BLANK));
        let wrong = Trial::new(writing, writing, true).compare(&call);
        assert!(wrong.is_err_and(|what| what.contains("cells of a blank image")));
    }

    #[test]
    fn a_refusal_that_writes_is_noticed() {
        let writing: Entries = Entries {
            file: |file, words, records, marks, ellipse| {
                marks.fill(0);
                (SECOND.file)(file, words, records, marks, ellipse)
            },
            ..SECOND
        };
        for ellipse in [false, true] {
            let call = Call {
                input: Input::File(&[]),
                words: 0,
                asked: Asked::Search {
                    records: 40,
                    marks: 1,
                    ellipse,
                },
                shift: 0,
            };
            for (product, noticed) in [(SECOND, false), (writing, true)] {
                let compared = Trial::new(product, product, true).compare(&call);
                assert_eq!(compared.is_err(), noticed);
            }
        }
    }
}
