//! The readings of the row search, held against each other on generated rows.

use crate::generate::RowSearch;
#[cfg(source)]
use crate::harness::steps;
use crate::second::{self, RowAnswer};

/// A reading of the row search.
type Reading = fn(&RowSearch) -> RowAnswer;

/// Each reading with its name; the judge's is there if the source's text was here when this was built.
pub const READINGS: &[(&str, Reading)] = &[
    #[cfg(source)]
    ("the judge", judge),
    ("the second reading by scan", by_scan),
    ("the second reading by runs", by_runs),
];

#[cfg(source)]
fn judge(search: &RowSearch) -> RowAnswer {
    let image = steps::Image {
        words: &search.words,
        width: search.width,
        height: search.height,
    };
    steps::row_search(image, search.row, search.start)
}

fn by_scan(search: &RowSearch) -> RowAnswer {
    let (words, width, height) = (&search.words, search.width, search.height);
    second::row_search_by_scan(words, width, height, search.row, search.start)
}

fn by_runs(search: &RowSearch) -> RowAnswer {
    let (words, width, height) = (&search.words, search.width, search.height);
    second::row_search_by_runs(words, width, height, search.row, search.start)
}

/// The answer and marks that all readings give, or who differs from whom in what.
pub fn compared(search: &RowSearch) -> Result<RowAnswer, String> {
    let (first, reading) = READINGS[0];
    let given = reading(search);
    for (name, reading) in &READINGS[1..] {
        let other = reading(search);
        if given.0 != other.0 {
            let answers = (given.0, other.0);
            return Err(format!("{first} and {name}: answers {answers:?}"));
        }
        if given.1 != other.1 {
            return Err(format!("{first} and {name}: marks differ"));
        }
    }
    Ok(given)
}
