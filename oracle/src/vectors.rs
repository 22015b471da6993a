//! Stored vectors: crop files, the option, the lengths of the lent buffers, and what a search must answer and leave.
//!
//! A pack is a run of vectors. Each is, in little-endian order: a name of 28 bytes padded with zeros; a u32 that is 1 with the
//! ellipse check and 0 without; u32 lengths of the lent words, records and marks and of the file; the u32 report (answer, found,
//! kept, marked); the file's bytes, padded with zeros to a multiple of 8; then, if the image was accepted (answers 0, 7, 8, 9),
//! the kept records as u32 words and the marks as u64 words.

use crate::second::{EllipseWidths, ellipse_widths};
use crops::places::{CENTER_X, CENTER_Y, OUTCOME};
use crops::{MOST_CANDIDATES, RECORD_WORDS, Report, answer, dimensions, known, unpacked};

const NAME_BYTES: usize = 28;

#[derive(Clone, Debug, PartialEq, Eq)]
pub struct Vector {
    pub name: String,
    /// Whether the ellipse check is on.
    pub ellipse: bool,
    pub words_len: usize,
    pub records_len: usize,
    pub marks_len: usize,
    pub file: Vec<u8>,
    pub report: Report,
    pub records: Vec<u32>,
    pub marks: Vec<u64>,
}

/// An entry that searches a crop file, with the ellipse check or without.
pub type SearchFile = fn(&[u8], &mut [u64], &mut [u32], &mut [u64], bool) -> Report;

/// The lent buffers. Their first content is a pattern, so that a word that must stay as it was is told from a zero.
#[derive(Clone, Debug, PartialEq, Eq)]
pub struct Lent {
    pub words: Vec<u64>,
    pub records: Vec<u32>,
    pub marks: Vec<u64>,
}

impl Lent {
    pub fn new(words_len: usize, records_len: usize, marks_len: usize) -> Lent {
        let pattern = |i: usize| (i as u64 + 1).wrapping_mul(0x9e37_79b9_7f4a_7c15);
        Lent {
            words: (0..words_len).map(pattern).collect(),
            records: (0..records_len).map(|i| pattern(i) as u32).collect(),
            marks: (0..marks_len).map(|i| !pattern(i)).collect(),
        }
    }

    /// The report of a search of `file` in these buffers.
    pub fn search(&mut self, search: SearchFile, file: &[u8], ellipse: bool) -> Report {
        let Lent {
            words,
            records,
            marks,
        } = self;
        search(file, words, records, marks, ellipse)
    }
}

/// An image was accepted: the search ran.
pub fn accepted(number: u32) -> bool {
    !known(answer(number)).refused()
}

impl Vector {
    /// The vector that a search of `file` makes.
    pub fn made(
        name: &str,
        file: &[u8],
        lengths: [usize; 3],
        ellipse: bool,
        search: SearchFile,
    ) -> Vector {
        let [words_len, records_len, marks_len] = lengths;
        let mut lent = Lent::new(words_len, records_len, marks_len);
        let report = lent.search(search, file, ellipse);
        let ran = accepted(report.answer);
        lent.records.truncate(report.kept as usize * RECORD_WORDS);
        Vector {
            name: name.to_string(),
            ellipse,
            words_len,
            records_len,
            marks_len,
            file: file.to_vec(),
            report,
            records: if ran { lent.records } else { Vec::new() },
            marks: if ran { lent.marks } else { Vec::new() },
        }
    }

    /// What the buffers hold afterwards, but for the unpacked words.
    fn expected(&self) -> Lent {
        let mut lent = Lent::new(self.words_len, self.records_len, self.marks_len);
        if accepted(self.report.answer) {
            let capacity = MOST_CANDIDATES.min(self.records_len / RECORD_WORDS);
            lent.records[..capacity * RECORD_WORDS].fill(0);
            lent.records[..self.records.len()].copy_from_slice(&self.records);
            lent.marks.copy_from_slice(&self.marks);
            lent.words = unpacked(&self.file);
        }
        lent
    }

    /// The first difference between what the vector says and what a search does.
    pub fn replay(&self, search: SearchFile) -> Result<(), String> {
        let mut lent = Lent::new(self.words_len, self.records_len, self.marks_len);
        let report = lent.search(search, &self.file, self.ellipse);
        let expected = self.expected();
        if report != self.report {
            return Err(format!("{}: {report:?}, not {:?}", self.name, self.report));
        }
        let place = |what: &str, i: Option<usize>| match i {
            Some(i) => Err(format!("{}: {what} differ at {i}", self.name)),
            None => Ok(()),
        };
        place("words", first_difference(&lent.words, &expected.words))?;
        place(
            "records",
            first_difference(&lent.records, &expected.records),
        )?;
        place("marks", first_difference(&lent.marks, &expected.marks))
    }

    /// What the ellipse check goes by, for each kept record where it is on.
    pub fn ellipse_widths(&self) -> Vec<EllipseWidths> {
        if !self.ellipse || self.records.is_empty() {
            return Vec::new();
        }
        let (width, height) = dimensions(&self.file).unwrap_or_default();
        let words = unpacked(&self.file);
        let about = |record: &[u32]| {
            let centre = (record[CENTER_X], record[CENTER_Y]);
            ellipse_widths(&words, width, height, centre)
        };
        let records = self.records.chunks_exact(RECORD_WORDS);
        records.map(about).collect()
    }

    /// In words what another run on the same crop and lengths has otherwise; where both kept as many records, each word of them.
    pub fn changes(&self, new: &Vector) -> Vec<String> {
        let (old, now) = (self.report, new.report);
        let number = |what: &str, a: u32, b: u32| (a != b).then(|| format!("{what} {a} -> {b}"));
        let buffer = |what: &str, differs: bool| differs.then(|| what.to_string());
        let changes = [
            number("answer", old.answer, now.answer),
            number("found", old.found, now.found),
            number("kept", old.kept, now.kept),
            number("marked", old.marked, now.marked),
            buffer("marks", self.marks != new.marks),
        ];
        let records = match old.kept == now.kept {
            true => record_changes(&self.records, &new.records),
            false => Vec::new(),
        };
        changes.into_iter().flatten().chain(records).collect()
    }

    fn write(&self, out: &mut Vec<u8>) {
        let mut name = self.name.clone().into_bytes();
        assert!(name.len() <= NAME_BYTES, "{} is too long", self.name);
        name.resize(NAME_BYTES, 0);
        out.extend(name);
        let given = [
            usize::from(self.ellipse),
            self.words_len,
            self.records_len,
            self.marks_len,
            self.file.len(),
        ];
        out.extend(given.iter().flat_map(|&n| (n as u32).to_le_bytes()));
        let r = self.report;
        out.extend(
            [r.answer, r.found, r.kept, r.marked]
                .iter()
                .flat_map(|n| n.to_le_bytes()),
        );
        out.extend(&self.file);
        out.resize(out.len().next_multiple_of(8), 0);
        out.extend(self.records.iter().flat_map(|n| n.to_le_bytes()));
        out.extend(self.marks.iter().flat_map(|n| n.to_le_bytes()));
    }
}

/// Each word in which one of the records differs from the other list's, with the outcome there.
fn record_changes(old: &[u32], new: &[u32]) -> Vec<String> {
    let records = old.chunks_exact(RECORD_WORDS);
    let mut changes = Vec::new();
    for (old, new) in records.zip(new.chunks_exact(RECORD_WORDS)) {
        for place in (0..RECORD_WORDS).filter(|&place| old[place] != new[place]) {
            let (was, is, outcome) = (old[place], new[place], new[OUTCOME]);
            changes.push(format!(
                "record word {place} {was} -> {is}, outcome {outcome}"
            ));
        }
    }
    changes
}

fn first_difference<T: PartialEq>(a: &[T], b: &[T]) -> Option<usize> {
    (0..a.len().max(b.len())).find(|&i| a.get(i) != b.get(i))
}

pub fn write(vectors: &[Vector]) -> Vec<u8> {
    let mut out = Vec::new();
    vectors.iter().for_each(|v| v.write(&mut out));
    out
}

pub fn read(pack: &[u8]) -> Vec<Vector> {
    let mut rest = Cursor { bytes: pack, at: 0 };
    let mut vectors = Vec::new();
    while rest.at < pack.len() {
        vectors.push(rest.vector());
    }
    vectors
}

struct Cursor<'a> {
    bytes: &'a [u8],
    at: usize,
}

impl<'a> Cursor<'a> {
    fn take(&mut self, n: usize) -> &'a [u8] {
        self.at += n;
        &self.bytes[self.at - n..self.at]
    }

    fn u32(&mut self) -> u32 {
        u32::from_le_bytes(self.take(4).try_into().unwrap())
    }

    fn u64(&mut self) -> u64 {
        u64::from_le_bytes(self.take(8).try_into().unwrap())
    }

    fn vector(&mut self) -> Vector {
        let name = self.take(NAME_BYTES);
        let end = name.iter().position(|&b| b == 0).unwrap_or(NAME_BYTES);
        let ellipse = self.u32() != 0;
        let [words_len, records_len, marks_len, file_len] = [(); 4].map(|()| self.u32() as usize);
        let [answer, found, kept, marked] = [(); 4].map(|()| self.u32());
        let file = self.take(file_len).to_vec();
        self.at = self.at.next_multiple_of(8);
        let (records, marks) = match accepted(answer) {
            true => (kept as usize * RECORD_WORDS, marks_len),
            false => (0, 0),
        };
        Vector {
            name: String::from_utf8_lossy(&name[..end]).into_owned(),
            ellipse,
            words_len,
            records_len,
            marks_len,
            file,
            report: Report {
                answer,
                found,
                kept,
                marked,
            },
            records: (0..records).map(|_| self.u32()).collect(),
            marks: (0..marks).map(|_| self.u64()).collect(),
        }
    }
}
