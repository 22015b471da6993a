//! A text of cases: run and compared, or written again with what was seen.

use std::fmt;

use super::{Call, Entries, Seen, Stock, run};

/// What parts the sides of a line.
const ARROW: &str = " => ";

/// What is wrong with a line of a text.
#[derive(Clone, Debug, PartialEq, Eq)]
pub struct Problem {
    pub number: usize,
    pub message: String,
}

impl fmt::Display for Problem {
    fn fmt(&self, to: &mut fmt::Formatter<'_>) -> fmt::Result {
        write!(to, "line {}: {}", self.number, self.message)
    }
}

/// How many lines passed, how many failed, and how many have no entry here.
#[derive(Clone, Copy, Debug, Default, PartialEq, Eq)]
pub struct Verdict {
    pub passed: usize,
    pub failed: usize,
    pub skipped: usize,
}

impl fmt::Display for Verdict {
    fn fmt(&self, to: &mut fmt::Formatter<'_>) -> fmt::Result {
        let Verdict {
            passed,
            failed,
            skipped,
        } = self;
        write!(to, "{passed} passed, {failed} failed, {skipped} skipped")
    }
}

/// A line that is a call: its left side, and its right side if it has one.
fn sides(line: &str) -> (&str, Option<&str>) {
    match line.split_once(ARROW) {
        Some((left, right)) => (left, Some(right)),
        None => (line, None),
    }
}

fn for_the_reader(line: &str) -> bool {
    line.starts_with(['#', '|'])
}

/// What a line expects, and what was seen unless it is skipped.
fn tried(line: &str, stock: &Stock, entries: &Entries) -> Result<(Seen, Option<Seen>), String> {
    let (left, right) = sides(line);
    let expected = Seen::parse(right.unwrap_or_default())?;
    let call = Call::parse(left)?;
    Ok((expected, run(&call, stock, entries)?))
}

/// Runs every line; `differs` is handed each line whose right side is not what was seen, and that.
pub fn compared(
    cases: &str,
    stock: &Stock,
    entries: &Entries,
    mut differs: impl FnMut(&str, &Seen),
) -> Result<Verdict, Problem> {
    let mut verdict = Verdict::default();
    for (line, number) in cases.lines().zip(1..) {
        if for_the_reader(line) {
            continue;
        }
        let tried = tried(line, stock, entries);
        match tried.map_err(|message| Problem { number, message })? {
            (_, None) => verdict.skipped += 1,
            (expected, Some(seen)) if expected == seen => verdict.passed += 1,
            (_, Some(seen)) => {
                verdict.failed += 1;
                differs(line, &seen);
            }
        }
    }
    Ok(verdict)
}

/// The same text with right sides as seen; a line that is skipped stays as it is.
pub fn written(cases: &str, stock: &Stock, entries: &Entries) -> Result<String, Problem> {
    let mut text = String::new();
    for (line, number) in cases.lines().zip(1..) {
        let seen = match for_the_reader(line) {
            true => None,
            false => {
                let tried = tried(line, stock, entries);
                tried.map_err(|message| Problem { number, message })?.1
            }
        };
        text += &match seen {
            Some(seen) => format!("{}{ARROW}{seen}\n", sides(line).0),
            None => format!("{line}\n"),
        };
    }
    Ok(text)
}

#[cfg(test)]
mod tests;
