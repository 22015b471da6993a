//! A run's lines, cell by cell, and as CSV.
use super::{COLUMNS, ELLIPSE, FIELDS, RECORD};
use crate::{csv, run::Seen};
use crops::{Record, Report};
use std::ffi::OsStr;

/// The header line of a CSV table, made with the ellipse check or without.
pub fn header(ellipse: bool) -> Vec<u8> {
    let mut columns = COLUMNS.to_vec();
    columns.extend(ellipse.then_some(ELLIPSE));
    (columns.join(",") + "\n").into_bytes()
}

/// A cell of a line.
pub enum Cell {
    Empty,
    Number(String),
    Text(Vec<u8>),
}

/// The lines of a file, searched with the ellipse check or without: one for each record, or one without.
pub fn rows(name: &OsStr, seen: &Result<Seen, String>, ellipse: bool) -> Vec<Vec<Cell>> {
    let mut rows = plain_rows(name, seen);
    for row in &mut rows {
        row.extend(ellipse.then(|| Cell::Number("1".into())));
    }
    rows
}

/// The same, up to the problem.
fn plain_rows(name: &OsStr, seen: &Result<Seen, String>) -> Vec<Vec<Cell>> {
    let name = || Cell::Text(name.as_encoded_bytes().to_vec());
    let empty = |count: usize| (0..count).map(|_| Cell::Empty);
    let seen = match seen {
        Ok(seen) => seen,
        Err(problem) => {
            let mut row = vec![name()];
            row.extend(empty(COLUMNS.len() - 2));
            row.push(Cell::Text(problem.clone().into_bytes()));
            return vec![row];
        }
    };
    let Report {
        answer,
        found,
        kept,
        marked,
    } = seen.report;
    let start = || {
        let counts = [answer, found, kept, marked];
        let mut row = vec![name()];
        row.extend(counts.map(|count| Cell::Number(count.to_string())));
        row
    };
    if seen.records.is_empty() {
        let mut row = start();
        row.extend(empty(COLUMNS.len() - RECORD));
        return vec![row];
    }
    let lines = (1..).zip(&seen.records).map(|(number, record)| {
        let mut row = start();
        row.push(Cell::Number(format!("{number}")));
        row.extend(fields(record).map(Cell::Number));
        row.push(Cell::Empty);
        row
    });
    lines.collect()
}

/// The record's columns; an f32 in as many decimal digits as tell it from all others.
fn fields(record: &Record) -> [String; FIELDS] {
    let [a, b, c, d] = record.corners;
    [
        record.x.to_string(),
        record.y.to_string(),
        record.radius.to_string(),
        record.outcome.number().to_string(),
        record.scale.to_string(),
        record.rotation.to_string(),
        record.class.to_string(),
        record.variance.to_string(),
        record.centre.0.to_string(),
        record.centre.1.to_string(),
        a.x.to_string(),
        a.y.to_string(),
        b.x.to_string(),
        b.y.to_string(),
        c.x.to_string(),
        c.y.to_string(),
        d.x.to_string(),
        d.y.to_string(),
    ]
}

/// A line as CSV.
pub fn csv_line(row: &[Cell]) -> Vec<u8> {
    let mut line = Vec::new();
    for (place, cell) in row.iter().enumerate() {
        if place > 0 {
            line.push(b',');
        }
        match cell {
            Cell::Empty => (),
            Cell::Number(number) => line.extend(number.bytes()),
            Cell::Text(text) => csv::push_field(&mut line, text),
        }
    }
    line.push(b'\n');
    line
}
