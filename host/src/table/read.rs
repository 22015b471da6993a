//! A table, read back file by file.
use super::{BOTH_SETTINGS, COLUMNS, ELLIPSE, Entry, line::Line};
use crate::{
    csv::{Error, Reader},
    output::{Problem, of_file, reason},
    run::Seen,
};
use crops::{Record, Report};
use std::{
    ffi::{OsStr, OsString},
    fs::File,
    io::{self, BufRead, BufReader},
    os::unix::ffi::OsStringExt,
};

/// Reads a table and hands each file's entry on; what is not the whole of a table is an error. True when it was made with the ellipse
/// check.
pub fn read(path: &OsStr, take: impl FnMut(Entry)) -> Result<bool, Problem> {
    let system = |error: &io::Error| Problem::Trouble(of_file(path, &reason(error)));
    let from: Box<dyn BufRead> = match path == "-" {
        true => Box::new(io::stdin().lock()),
        false => Box::new(BufReader::new(
            File::open(path).map_err(|error| system(&error))?,
        )),
    };
    let mut reader = Reader::of(from);
    entries(&mut reader, take).map_err(|error| match error {
        Wrong::System(error) => system(&error),
        Wrong::Line(why) => Problem::Trouble(of_file(
            path,
            &format!("line {}: {why}", reader.line.max(1)),
        )),
        Wrong::Whole(why) => Problem::Trouble(of_file(path, &why)),
    })
}

/// What is wrong with a table.
enum Wrong {
    System(io::Error),
    Line(String),
    Whole(String),
}

impl From<Error> for Wrong {
    fn from(error: Error) -> Self {
        match error {
            Error::System(error) => Wrong::System(error),
            Error::Text(why) => Wrong::Line(why.into()),
        }
    }
}

/// All entries, and whether the ellipse check was on; a header may stand again where tables were joined.
fn entries(reader: &mut Reader<impl BufRead>, mut take: impl FnMut(Entry)) -> Result<bool, Wrong> {
    let mut setting = None;
    let mut open: Option<Open> = None;
    while let Some(fields) = reader.next()? {
        if open.is_none()
            && let Some(ellipse) = header_setting(&fields)
        {
            if *setting.get_or_insert(ellipse) != ellipse {
                return Err(Wrong::Line(BOTH_SETTINGS.into()));
            }
            continue;
        }
        let ellipse = setting.ok_or_else(|| Wrong::Whole(other_columns(&fields)))?;
        let line = Line::of(fields, ellipse).map_err(Wrong::Line)?;
        open = match open {
            None => Open::of(line),
            Some(open) => open.with(line),
        }
        .map_err(Wrong::Line)?
        .closed(&mut take);
    }
    match (setting, open) {
        (None, _) => Err(Wrong::Whole("an empty file, no table".into())),
        (_, Some(open)) => Err(Wrong::Whole(format!("it ends before {}", open.next()))),
        (Some(ellipse), None) => Ok(ellipse),
    }
}

/// Whether the table of a header was made with the ellipse check; none for a line that is no header.
fn header_setting(fields: &[Vec<u8>]) -> Option<bool> {
    let (first, rest) = fields.split_at_checked(COLUMNS.len())?;
    match rest {
        _ if first != COLUMNS.map(str::as_bytes) => None,
        [] => Some(false),
        [last] if last == ELLIPSE.as_bytes() => Some(true),
        _ => None,
    }
}

/// Why a first line is not the header.
fn other_columns(fields: &[Vec<u8>]) -> String {
    let there = |column: &&str| fields.iter().any(|field| field == column.as_bytes());
    let known = |field: &&Vec<u8>| COLUMNS.iter().any(|column| *field == column.as_bytes());
    let missing = COLUMNS.iter().find(|column| !there(column));
    let other = fields.iter().find(|field| !known(field));
    let name = |field: &[u8]| String::from_utf8_lossy(&field[..field.len().min(40)]).into_owned();
    let why = match (missing, other) {
        (Some(column), None) => format!("column {column} is missing"),
        (None, None) => "the columns stand in another order".into(),
        (_, Some(field)) if there(&"file") => format!("unknown column: {}", name(field)),
        _ => "its first line is not the header".into(),
    };
    format!("not a table of this version: {why}")
}

/// A file whose records are still coming.
struct Open {
    name: Vec<u8>,
    report: Report,
    seen: Result<Seen, String>,
}

impl Open {
    /// The first line of a file.
    fn of(line: Line) -> Result<Self, String> {
        let open = match line.seen {
            Err(problem) => Open {
                name: line.name,
                report: Report::default(),
                seen: Err(problem),
            },
            Ok((report, record)) => Open {
                name: line.name,
                report,
                seen: Ok(Seen {
                    report,
                    answer: crops::answer(report.answer).map_err(|unknown| unknown.to_string())?,
                    records: Vec::new(),
                }),
            }
            .record(record)?,
        };
        Ok(open)
    }

    /// A further line, of the same file.
    fn with(self, line: Line) -> Result<Self, String> {
        match line.seen {
            Ok((report, record)) if line.name == self.name && report == self.report => {
                self.record(record)
            }
            _ => Err(format!("{} should be here", self.next())),
        }
    }

    /// Adds a record, which must be the next.
    fn record(mut self, record: Option<(usize, Record)>) -> Result<Self, String> {
        let next = self.next();
        let Ok(seen) = &mut self.seen else {
            return Ok(self);
        };
        match record {
            Some((number, record)) if number == seen.records.len() + 1 => seen.records.push(record),
            None if self.report.kept == 0 => (),
            _ => return Err(format!("{next} should be here")),
        }
        match seen.records.len() > self.report.kept as usize {
            true => Err(format!(
                "it has more records than kept {}",
                self.report.kept
            )),
            false => Ok(self),
        }
    }

    /// The record that is awaited.
    fn next(&self) -> String {
        let there = self.seen.as_ref().map_or(0, |seen| seen.records.len());
        let name = String::from_utf8_lossy(&self.name);
        format!("record {} of {name}", there + 1)
    }

    /// Hands the entry on once all its records are there.
    fn closed(self, take: &mut impl FnMut(Entry)) -> Option<Self> {
        let there = self.seen.as_ref().map_or(0, |seen| seen.records.len());
        if there < self.report.kept as usize {
            return Some(self);
        }
        take(Entry {
            name: OsString::from_vec(self.name),
            seen: self.seen,
        });
        None
    }
}
