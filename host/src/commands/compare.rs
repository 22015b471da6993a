//! `bullseye compare`: what changed between two tables.
use super::Command;
use crate::{
    arguments::Arguments,
    changes::{Change, changes},
    layout::{Row, row, table},
    missed::Tally,
    output::{Output, Problem},
    run::Seen,
    table::{self, Entry},
};
use std::{
    collections::HashMap,
    ffi::{OsStr, OsString},
};

pub const COMMAND: Command = Command {
    name: "compare",
    what: "which crops changed between two tables",
    help: "\
Usage: bullseye compare OLD NEW

Compares two tables of `bullseye table` (CSV), as two builds made them of the same crops: lists each crop that changed, and how; each that
is in one table alone; then the numbers, and how many searched crops have no box in each table: empty (8), set aside (9), too many (7). In
a table of version 0.1 answer 8 is set aside too: these go by what was found. Where one of them was made with --ellipse and the other
without, the first line says so: the check reads more, and changes the counts of most crops with a kept candidate.
Crops are the same by their names; a name that stands twice is compared in order.
  answer        another answer, or read in one table alone
  counts        found, kept or marked
  outcome       how the search for the turn ended, of a record
  turn          a record's degrees
  class         a record's class; in a table of a version before 0.5 it is 0 without a turn
  other fields  a record's circle, scale, variance, last centre or corners
Records are compared by their numbers; where fewer are kept, the counts tell.

OLD and NEW are tables; - is standard input.

Exit status: 0 nothing changed; 1 a crop changed, was added or is missing; 2 bad usage, a table that is none, or an output that
cannot be written.

Example: bullseye compare old.csv new.csv
",
    run,
};

fn run(args: &[OsString]) -> Result<bool, Problem> {
    let arguments = Arguments::of(args, &[])?;
    let [old, new] = arguments.files.as_slice() else {
        return Err(Problem::Usage("two tables are compared".into()));
    };
    if old == "-" && new == "-" {
        let twice = "only one of the tables can be standard input";
        return Err(Problem::Usage(twice.into()));
    }
    compared(old, new).map_err(|problem| match problem {
        Problem::Failed(reason) => Problem::Trouble(reason),
        other => other,
    })
}

/// Compares the tables; true when nothing changed.
fn compared(old: &OsStr, new: &OsStr) -> Result<bool, Problem> {
    let (mut old, was_ellipse) = Table::of(old)?;
    let mut counts = Counts {
        old: old.0.len(),
        missed: [old.missed(), Tally::default()],
        ..Counts::default()
    };
    let mut output = Output::to(None)?;
    let mut entries = Vec::new();
    let is_ellipse = table::read(new, |entry| entries.push(entry))?;
    output.write(settings(was_ellipse, is_ellipse).as_bytes())?;
    let mut places = HashMap::new();
    for Entry { name, seen } in entries {
        let place = next_place(&mut places, &name);
        let line = counts.line(&seen, old.0.remove(&(name.clone(), place)));
        write(&mut output, &name, line)?;
    }
    for name in old.left() {
        counts.missing += 1;
        write(&mut output, &name, Some("missing".into()))?;
    }
    output.write(counts.tables().as_bytes())?;
    output.finish()?;
    Ok(counts.unchanged == counts.old && counts.added == 0)
}

/// A line that says which table alone was made with the ellipse check.
fn settings(old: bool, new: bool) -> &'static str {
    match (old, new) {
        (true, false) => "The old table was made with --ellipse, the new one without.\n",
        (false, true) => "The new table was made with --ellipse, the old one without.\n",
        _ => "",
    }
}

/// A line about a crop, if there is something to say.
fn write(output: &mut Output, name: &OsStr, line: Option<String>) -> Result<(), Problem> {
    match line {
        None => Ok(()),
        Some(line) => {
            let line = format!(": {line}\n");
            output.write(&[name.as_encoded_bytes(), line.as_bytes()].concat())
        }
    }
}

/// How often a name stood before.
fn next_place(places: &mut HashMap<OsString, usize>, name: &OsStr) -> usize {
    let count = places.entry(name.to_owned()).or_default();
    *count += 1;
    *count - 1
}

/// The files of a table by name and how often the name stood before, with their places.
struct Table(HashMap<(OsString, usize), (usize, Result<Seen, String>)>);

impl Table {
    /// A table, and whether it was made with the ellipse check.
    fn of(path: &OsStr) -> Result<(Self, bool), Problem> {
        let mut places = HashMap::new();
        let mut all = HashMap::new();
        let ellipse = table::read(path, |entry| {
            let place = next_place(&mut places, &entry.name);
            all.insert((entry.name, place), (all.len(), entry.seen));
        })?;
        Ok((Table(all), ellipse))
    }

    /// Its searched crops without a box.
    fn missed(&self) -> Tally {
        let mut tally = Tally::default();
        self.0.values().for_each(|(_, seen)| tally.add(seen));
        tally
    }

    /// The names that are left, in the table's order.
    fn left(self) -> Vec<OsString> {
        let mut left: Vec<(usize, OsString)> = (self.0.into_iter())
            .map(|((name, _), (place, _))| (place, name))
            .collect();
        left.sort();
        left.into_iter().map(|(_, name)| name).collect()
    }
}

/// How many crops changed, and in what; the searched crops without a box of the old table and of the new.
#[derive(Default)]
struct Counts {
    old: usize,
    missed: [Tally; 2],
    unchanged: usize,
    changed: usize,
    added: usize,
    missing: usize,
    by: [usize; Change::ALL.len()],
}

impl Counts {
    /// Counts a crop of the new table; what to say of it.
    fn line(
        &mut self,
        new: &Result<Seen, String>,
        old: Option<(usize, Result<Seen, String>)>,
    ) -> Option<String> {
        self.missed[1].add(new);
        let Some((_, old)) = old else {
            self.added += 1;
            return Some("added".into());
        };
        let changes = changes(&old, new);
        if changes.is_empty() {
            self.unchanged += 1;
            return None;
        }
        self.changed += 1;
        for (count, kind) in self.by.iter_mut().zip(Change::ALL) {
            *count += usize::from(changes.iter().any(|(change, _)| *change == kind));
        }
        let words: Vec<String> = changes.into_iter().map(|(_, words)| words).collect();
        Some(words.join("; "))
    }

    fn tables(&self) -> String {
        let lines = self.changed + self.added + self.missing;
        let start = if lines == 0 { "" } else { "\n" };
        let rows = [
            ("unchanged", self.unchanged),
            ("changed", self.changed),
            ("missing", self.missing),
            ("all of the old table", self.old),
            ("added", self.added),
        ];
        let rows = rows.map(|(label, count)| row(label, [count]));
        let crops = table("Crops", &["crops"], &rows);
        let mut by = Vec::new();
        for (count, kind) in self.by.iter().zip(Change::ALL) {
            by.push(row(kind.words(), [count]));
        }
        let changed = table("Changed in", &["crops"], &by);
        let [old, new] = self.missed.map(|tally| tally.lines());
        let reasons: Vec<Row> = (old.iter().zip(new))
            .map(|(&(label, was), (_, is))| row(label, [was, is]))
            .collect();
        let missed = table("Without a box", &["old", "new"], &reasons);
        format!("{start}{crops}\n{changed}\n{missed}")
    }
}
