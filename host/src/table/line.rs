//! A line of a table, by its columns.
use super::{COLUMNS, ELLIPSE, FIELDS, RECORD};
use crops::{Outcome, Point, Record, Report, Unknown, class_of_word};
use std::str::FromStr;

/// A record with its number in the file.
type Numbered = (usize, Record);

/// A line: its file, and the report with a record, or why the file could not be read.
pub struct Line {
    pub name: Vec<u8>,
    pub seen: Result<(Report, Option<Numbered>), String>,
}

impl Line {
    /// The line of its fields, in a table made with the ellipse check or without, or in words what is wrong with it.
    pub fn of(mut fields: Vec<Vec<u8>>, ellipse: bool) -> Result<Self, String> {
        if ellipse && fields.pop().as_deref() != Some(b"1") {
            return Err(format!("{ELLIPSE} is not 1"));
        }
        if fields.len() != COLUMNS.len() {
            let (columns, all) = (fields.len(), COLUMNS.len());
            return Err(format!("{columns} columns instead of {all}"));
        }
        let problem = &fields[COLUMNS.len() - 1];
        let middle = &fields[1..COLUMNS.len() - 1];
        if !problem.is_empty() {
            let problem = String::from_utf8_lossy(problem).into_owned();
            return match middle.iter().all(Vec::is_empty) {
                true => Ok(Line {
                    name: fields[0].clone(),
                    seen: Err(problem),
                }),
                false => Err("a problem stands beside an answer".into()),
            };
        }
        let report = report(&fields)?;
        let record = match fields[RECORD..].iter().all(Vec::is_empty) {
            true => None,
            false => Some((number(&fields, RECORD)?, record(&fields)?)),
        };
        if !ellipse && record.is_some_and(|(_, record)| record.outcome == Outcome::Ellipse) {
            return Err("an ellipse in a table made without --ellipse".into());
        }
        let name = fields.into_iter().next().unwrap_or_default();
        Ok(Line {
            name,
            seen: Ok((report, record)),
        })
    }
}

/// The report that stands in a line's columns.
fn report(fields: &[Vec<u8>]) -> Result<Report, String> {
    let report = Report {
        answer: number(fields, 1)?,
        found: number(fields, 2)?,
        kept: number(fields, 3)?,
        marked: number(fields, 4)?,
    };
    match is_possible(&report) {
        true => Ok(report),
        false => Err(format!(
            "answer {} does not go with found {} and kept {}",
            report.answer, report.found, report.kept
        )),
    }
}

/// Whether an answer can have these counts; 8 can have found some, since in a table of version 0.1 it is set aside too.
fn is_possible(report: &Report) -> bool {
    match report.answer {
        0 => (1..=report.found).contains(&report.kept),
        1..=6 => [report.found, report.kept, report.marked] == [0; 3],
        7 => report.found > 1 && report.kept == 0,
        8 => report.kept == 0,
        9 => report.found > 0 && report.kept == 0,
        _ => true,
    }
}

/// The number in a column.
fn number<T: FromStr>(fields: &[Vec<u8>], column: usize) -> Result<T, String> {
    let text = String::from_utf8_lossy(&fields[column]);
    text.parse()
        .map_err(|_| format!("{} is no number: {text:?}", COLUMNS[column]))
}

/// The record that stands in a line's columns.
fn record(fields: &[Vec<u8>]) -> Result<Record, String> {
    const FIRST: usize = RECORD + 1;
    const _: () = assert!(FIRST + FIELDS + 1 == COLUMNS.len());
    let whole = |place: usize| number::<u32>(fields, FIRST + place);
    let float = |place: usize| number::<f32>(fields, FIRST + place);
    let corner = |place: usize| -> Result<Point, String> {
        Ok(Point {
            x: float(place)?,
            y: float(place + 1)?,
        })
    };
    let outcome = known(Outcome::of_word(whole(3)?))?;
    Ok(Record {
        x: whole(0)?,
        y: whole(1)?,
        radius: whole(2)?,
        outcome,
        scale: whole(4)?,
        rotation: float(5)?,
        class: known(class(outcome, whole(6)?))?,
        variance: float(7)?,
        centre: (whole(8)?, whole(9)?),
        corners: [corner(10)?, corner(12)?, corner(14)?, corner(16)?],
    })
}

/// What is known, or in words what is not.
fn known<T>(result: Result<T, Unknown>) -> Result<T, String> {
    result.map_err(|unknown| unknown.to_string())
}

/// The class beside its outcome; without a turn it can be 0 too, as in a table of a version before 0.5.
fn class(outcome: Outcome, number: u32) -> Result<u32, Unknown> {
    match (outcome, number) {
        (Outcome::NoTurn | Outcome::LostCentre | Outcome::Ellipse, 0) => Ok(0),
        _ => class_of_word(outcome, number),
    }
}
