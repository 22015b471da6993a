//! A search with its buffers, its answer and its records by name.
use bullseye::Report;
use crops::{Answer, RECORD_WORDS, RECORDS, Record, Unknown};

/// What a search says, all of it known to the tables.
#[derive(Clone, Debug)]
pub struct Seen {
    pub report: Report,
    pub answer: &'static Answer,
    /// The kept records, best first.
    pub records: Vec<Record>,
}

impl Seen {
    /// What a report and the buffer of records say; more kept records than it holds are an error too.
    fn of(report: Report, buffer: &[u32]) -> Result<Self, Unknown> {
        let (whole, _) = buffer.as_chunks::<RECORD_WORDS>();
        let kept = whole.get(..report.kept as usize).ok_or(Unknown {
            what: "number of kept records",
            number: report.kept,
        })?;
        Ok(Seen {
            report,
            answer: crops::answer(report.answer)?,
            records: kept
                .iter()
                .map(Record::of_words)
                .collect::<Result<_, _>>()?,
        })
    }

    /// Why the search refused the file, in words; then there is nothing but its number.
    pub fn refusal(&self) -> Option<String> {
        self.answer.refused().then(|| refusal(self.answer))
    }
}

/// The complaint about a refused crop: its number, and what that says.
pub fn refusal(answer: &Answer) -> String {
    format!("refused: {} {}", answer.number, answer.meaning)
}

/// The complaint about a file that was refused, or could not be read for this reason.
pub fn complaint(seen: &Result<Seen, String>) -> Option<String> {
    match seen {
        Ok(seen) => seen.refusal(),
        Err(problem) => Some(problem.clone()),
    }
}

/// What a search of a crop file left.
pub struct Run {
    pub seen: Seen,
    /// All record words, those of kept records first.
    pub buffer: Vec<u32>,
    pub marks: Vec<u64>,
    /// Whether ellipses were told: runs are held against each other under one setting.
    pub ellipse: bool,
    width: u32,
}

/// Searches a crop file, with the ellipse check or without; a refused one has no marks.
pub fn search(file: &[u8], ellipse: bool) -> Result<Run, Unknown> {
    let (width, words) = match bullseye::check(file) {
        0 => (
            crops::dimensions(file).unwrap_or_default().0,
            crops::words_of(file),
        ),
        _ => (0, 0),
    };
    let mut buffer = vec![0; RECORD_WORDS * RECORDS];
    let mut marks = vec![0; words];
    let mut image = vec![0; words];
    let report = bullseye::search_file(file, &mut image, &mut buffer, &mut marks, ellipse);
    Ok(Run {
        seen: Seen::of(report, &buffer)?,
        buffer,
        marks,
        ellipse,
        width,
    })
}

impl Run {
    /// Whether the search read a pixel of the image.
    pub fn has_read(&self, x: u32, y: u32) -> bool {
        crops::pixel(&self.marks, self.width, x, y)
    }
}

#[cfg(test)]
mod tests {
    use super::*;
    use crops::places::{CLASS, OUTCOME};

    /// What is said of this answer and two records without a turn, with this word in the second.
    fn said(answer: u32, kept: u32, (place, word): (usize, u32)) -> Result<usize, String> {
        let mut buffer = [0; 2 * RECORD_WORDS];
        (buffer[CLASS], buffer[RECORD_WORDS + CLASS]) = (4, 4);
        buffer[RECORD_WORDS + place] = word;
        let report = Report {
            answer,
            kept,
            ..Report::default()
        };
        match Seen::of(report, &buffer) {
            Ok(seen) => Ok(seen.records.len()),
            Err(unknown) => Err(unknown.to_string()),
        }
    }

    #[test]
    fn nothing_unknown_passes_and_nothing_kept_is_dropped() {
        assert_eq!(said(0, 2, (OUTCOME, 3)), Ok(2));
        assert_eq!(said(0, 2, (CLASS, 4)), Ok(2));
        assert_eq!(said(0, 1, (CLASS, 0)), Ok(1));
        for (answer, kept, word, error) in [
            (0, 2, (OUTCOME, 4), "unknown outcome: 4"),
            (0, 2, (CLASS, 0), "unknown class without a turn: 0"),
            (0, 2, (OUTCOME, 1), "unknown class of a turn: 4"),
            (0, 3, (CLASS, 4), "unknown number of kept records: 3"),
            (10, 0, (CLASS, 0), "unknown answer: 10"),
            (14, 0, (CLASS, 0), "unknown answer: 14"),
        ] {
            assert_eq!(said(answer, kept, word), Err(error.into()));
        }
    }
}
